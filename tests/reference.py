#!/usr/bin/env python3
"""A second implementation of the rules, apart from the proved one and written from the rules alone.

It answers the same lines as the program `answers`: reads calls from standard input, a call a line, and
writes each with ` => ` and its answer. Tests take expected answers from here where neither the rules'
own examples nor the published suite have them. It is slow and plain on purpose: it shares no structure
with the proved code (no pieces, no blocks, no tables), so that the two do not share a mistake.

    tests/reference.py < calls > answers
"""
import functools
import itertools
import re
import sys

LIMIT = 16777216
BOM = b'\xef\xbb\xbf'
KINDS = {46: '`.`', 61: '`=`', 44: '`,`', 91: '`[`', 93: '`]`', 123: '`{`', 125: '`}`', 32: 'whitespace', 35: 'comment',
         10: 'newline', 39: 'literal string', 34: 'basic string', 1: 'multi-line literal string',
         2: 'multi-line basic string', 3: 'token', 4: 'end-of-input'}
STRINGS = (39, 34, 1, 2)


# ---- UTF-8

def valid_prefix(doc):
    try:
        doc.decode('utf-8')
        return len(doc)
    except UnicodeDecodeError as broken:
        return broken.start


def check(doc):
    """The refusal of the check, or None."""
    if len(doc) > LIMIT:
        return 2, LIMIT
    n = valid_prefix(doc)
    return None if n == len(doc) else (1, n)


# ---- lexing

def find(doc, at, targets):
    """The earliest place from `at` on where one of the targets stands, and which; the end and None."""
    best, which = len(doc), None
    for target in targets:
        i = doc.find(target, at)
        if i >= 0 and i < best:
            best, which = i, target
    return best, which


def quoted(doc, at, closing, stop):
    """The place after a string whose opening mark ends at `at`, and whether it is closed; `stop`: an LF ends it."""
    basic = closing[:1] == b'"'
    while True:
        i, which = find(doc, at, [closing] + ([b'\\'] if basic else []) + ([b'\n'] if stop else []))
        if which is None or which == b'\n':
            return i, False
        if which == closing:
            return i + len(closing), True
        at = i + (2 if doc[i + 1:i + 2] in (b'\\', b'"') else 1)


def token(doc, at):
    """The kind and the end of the token that starts at a place before the end."""
    b = doc[at]
    if b in b'.=,[]{}\n':
        return b, at + 1
    if b in b' \t':
        end = at
        while end < len(doc) and doc[end] in b' \t':
            end += 1
        return 32, end
    if b == 0x23:
        return 35, find(doc, at, [b'\r', b'\n'])[0]
    if b == 0x0D:
        return 10, at + (2 if doc[at + 1:at + 2] == b'\n' else 1)
    if b in b'\'"':
        mark = bytes([b])
        if doc[at:at + 3] != mark * 3:
            return b, quoted(doc, at + 1, mark, True)[0]
        end, closed = quoted(doc, at + 3, mark * 3, False)
        for _ in range(2):
            if closed and doc[end:end + 1] == mark:
                end += 1
        return (1 if b == 0x27 else 2), end
    end = at
    while end < len(doc) and doc[end] not in b'.=,[]{} \t#\r\n':
        end += 1
    return 3, end


def tokens(doc):
    at = 3 if doc.startswith(BOM) else 0
    out = []
    while at < len(doc):
        kind, end = token(doc, at)
        out.append((kind, at, end))
        at = end
    return out + [(4, at, at)]


# ---- decoding

LITERAL = set([9]) | set(range(0x20, 0x27)) | set(range(0x28, 0x7F)) | set(range(0x80, 0x100))
BASIC = set(b' \t!') | set(range(0x23, 0x5C)) | set(range(0x5D, 0x7F)) | set(range(0x80, 0x100))
KEY = set(b'ABCDEFGHIJKLMNOPQRSTUVWXYZabcdefghijklmnopqrstuvwxyz0123456789-_')
HEX = set(b'0123456789ABCDEFabcdef')
SIMPLE = {0x62: 8, 0x66: 12, 0x6E: 10, 0x72: 13, 0x74: 9, 0x5C: 0x5C, 0x22: 0x22}
REPLACEMENT = '\ufffd'.encode()


def strip(text, mark, number, trims, newline):
    """Where the body starts and ends, and the errors of missing marks."""
    errors, start, end = [], 0, len(text)
    if text.startswith(mark):
        start = len(mark)
    else:
        errors.append((number, 0, 0))
    if newline:
        if text[start:start + 1] == b'\n':
            start += 1
        elif text[start:start + 2] == b'\r\n':
            start += 2
    if end - start >= len(mark) and text.endswith(mark):
        end -= len(mark)
    else:
        errors.append((number, len(text), len(text)))
        while trims and end > start and text[end - 1:end] == mark[:1]:
            end -= 1
    return start, end, errors


def escape(text, at, end, errors, edition):
    """An escape whose backslash stands before `at`: its bytes, and the place after it."""
    b = text[at] if at < end else None
    if edition == 11 and b == 0x65:
        return b'\x1b', at + 1
    if b in SIMPLE:
        return bytes([SIMPLE[b]]), at + 1
    digits = {0x75: 4, 0x55: 8, 0x78: 2} if edition == 11 else {0x75: 4, 0x55: 8}
    if b not in digits:
        errors.append((8, at, at))
        return b'\\', at
    want, first = digits[b], at + 1
    at = first
    while at < end and at - first < want and text[at] in HEX:
        at += 1
    if at - first < want:
        errors.append((9, at, at))
        return REPLACEMENT, at
    value = int(text[first:at], 16)
    if value > 0x10FFFF or 0xD800 <= value <= 0xDFFF:
        errors.append((10, first, first))
        return REPLACEMENT, at
    return chr(value).encode(), at


def line_ending(text, at, end, errors):
    """A line-ending escape whose backslash stands before `at`: the place after all that it drops."""
    while at < end and text[at] in b' \t':
        at += 1
    if at < end and text[at] == 0x0A:
        at += 1
    elif at < end and text[at] == 0x0D:
        at += 1
        if at < end and text[at] == 0x0A:
            at += 1
        else:
            errors.append((4, at, at))
    else:
        errors.append((13, at, at))
    while at < end and text[at] in b' \t\r\n':
        at += 1
        if text[at - 1] == 0x0D:
            if at < end and text[at] == 0x0A:
                at += 1
            else:
                errors.append((4, at, at))
    return at


def decode_basic(text, ml, edition):
    start, end, errors = strip(text, b'"""' if ml else b'"', 11 if ml else 6, False, ml)
    plain = BASIC | set(b'"\n') if ml else BASIC
    stops = plain | set(b'\\\r') if ml else plain | set(b'\\')
    out, at = b'', start
    while at < end:
        b = text[at]
        if b in plain:
            out, at = out + text[at:at + 1], at + 1
        elif b == 0x5C and ml and at + 1 < end and text[at + 1] in b' \t\r\n':
            at = line_ending(text, at + 1, end, errors)
        elif b == 0x5C:
            given, at = escape(text, at + 1, end, errors, edition)
            out += given
        elif ml and b == 0x0D:
            out, at = out + b'\r', at + 1
            if at < end and text[at] == 0x0A:
                out, at = out + b'\n', at + 1
            else:
                errors.append((4, at, at))
        else:
            first = at
            while at < end and text[at] not in stops:
                at += 1
            out += text[first:at]
            errors.append((12 if ml else 7, first, at))
    return out, errors


def decode_literal(text, ml):
    start, end, errors = strip(text, b"'''" if ml else b"'", 3 if ml else 1, ml, ml)
    for i in range(start, end):
        b = text[i]
        if ml and b in b"'\n":
            continue
        if ml and b == 0x0D:
            if not (i + 1 < end and text[i + 1] == 0x0A):
                errors.append((4, i + 1, i + 1))
        elif b not in LITERAL:
            errors.append((5 if ml else 2, i, i))
    return text[start:end], errors


def decode(kind, text, edition=10):
    if kind == 3:
        return text, ([] if text else [(14, 0, 0)]) + [(15, i, i) for i, b in enumerate(text) if b not in KEY]
    return decode_basic(text, kind == 2, edition) if kind in (34, 2) else decode_literal(text, kind == 1)


def decode_refusal(kind, text):
    refusal = check(text)
    return refusal or (None if kind in STRINGS + (3,) else (7, kind))


# ---- the calls, as lines

def hexed(data):
    return data.hex() or '-'


def records(rows):
    return '; '.join(' '.join(map(str, row)) for row in rows) or '-'


def refused(refusal, doc=b''):
    return 'refused %d %d' % refusal + (' %d' % fault_length(doc) if refusal[0] == 1 else '')


def fault_length(doc):
    """How many bytes after the valid prefix are at fault, by Python's own decoder; 0 where the text ends inside a character."""
    try:
        doc.decode()
    except UnicodeDecodeError as e:
        return 0 if e.reason == 'unexpected end of data' else e.end - e.start
    return 0


def lex(doc):
    refusal = check(doc)
    return refused(refusal, doc) if refusal else records(tokens(doc))


def line_of(doc, place):
    return 1 + doc[:place].count(b'\n')


def lexline(doc):
    refusal = check(doc)
    return refused(refusal, doc) if refusal else records((*t, line_of(doc, t[1])) for t in tokens(doc))


def lexcap(cap, doc):
    refusal = check(doc)
    if not refusal:
        needed = len(tokens(doc))
        refusal = (3, needed) if cap < needed else (0, needed)
    return '%d %d' % refusal


def dec(kind, text):
    refusal = decode_refusal(kind, text)
    if refusal:
        return refused(refusal, text)
    out, errors = decode(kind, text)
    return hexed(out) + ' | ' + records(errors)


def decin(edition, kind, text):
    """As `dec`, in an edition: 10 for TOML 1.0, 11 for TOML 1.1."""
    refusal = decode_refusal(kind, text) or (None if edition in (10, 11) else (9, edition))
    if refusal:
        return refused(refusal, text)
    out, errors = decode(kind, text, edition)
    return hexed(out) + ' | ' + records(errors)


def deccap(kind, out_len, err_len, text):
    refusal = decode_refusal(kind, text)
    if refusal:
        return '%d %d 0' % refusal
    out, errors = decode(kind, text)
    if out_len < len(out):
        return '4 %d 0' % len(out)
    if err_len < len(errors):
        return '5 %d 0' % len(errors)
    return '0 %d %d' % (len(out), len(errors))


def start(doc):
    if len(doc) > LIMIT:
        return '2 %d 0 0' % LIMIT
    return '0 0 %d 0' % (3 if doc.startswith(BOM) else 0)


def stepline(place, ended, line, doc):
    if len(doc) > LIMIT:
        return '2 %d | - | -' % LIMIT
    if place > len(doc) or line > place + 1:
        return '6 %d | - | -' % len(doc)
    if place == len(doc):
        return '0 0 | end | -' if ended else '0 0 | 4 %d %d %d | %d 1 %d' % (place, place, line, place, line)
    kind, end = token(doc, place)
    return '0 0 | %d %d %d %d | %d %d %d' % (kind, place, end, line, end, ended, line + doc[place:end].count(b'\n'))


def step(place, ended, doc):
    """Answers without lines; the cursor has the line of its place."""
    parts = stepline(place, ended, line_of(doc, place) if place <= len(doc) else 1, doc).split(' | ')
    without = [part if part in ('end', '-') or i == 0 else part.rpartition(' ')[0] for i, part in enumerate(parts)]
    return ' | '.join(without)


def span_refusal(first, last, doc):
    if len(doc) > LIMIT:
        return 2, LIMIT
    inside = any(p < len(doc) and 0x80 <= doc[p] <= 0xBF for p in (first, last))
    return (6, len(doc)) if first > last or last > len(doc) or inside else (0, 0)


def span(first, last, doc):
    return '%d %d' % span_refusal(first, last, doc)


def text(first, last, doc):
    return hexed(b'' if span_refusal(first, last, doc)[0] else doc[first:last])


def pos(offset, doc):
    if len(doc) > LIMIT:
        return '2 %d 0 0' % LIMIT
    if offset > len(doc):
        return '6 %d 0 0' % len(doc)
    before = doc[:offset]
    on_line = (before[3:] if doc.startswith(BOM) else before).rpartition(b'\n')[2]
    return '0 0 %d %d' % (1 + before.count(b'\n'), 1 + sum(not 0x80 <= b <= 0xBF for b in on_line))


def desc(kind):
    if kind not in KINDS:
        return '7 %d 0 %s 0' % (kind, '00' * 25)
    name = KINDS[kind].encode()
    return '0 0 %d %s %d' % (len(name), (name + bytes(25 - len(name))).hex(), kind if kind in STRINGS else 0)


def utf8(doc):
    return '%d %d' % (check(doc) or (0, 0))


def fault(doc):
    no, number = check(doc) or (0, 0)
    return '%d %d %d' % (no, number, fault_length(doc) if no == 1 else 0)


# ---- writing a value

def spellings(char):
    """Every way to write a character in a basic string: as it is, by a letter, by digits of either case."""
    code, out = ord(char), []
    if all(b in BASIC for b in char.encode()):
        out.append(char.encode())
    out += [b'\\' + bytes([letter]) for letter, stands in SIMPLE.items() if stands == code]
    for letter, digits in (b'u', 4), (b'U', 8):
        if code < 16 ** digits:
            cases = [{d, d.lower()} for d in '%0*X' % (digits, code)]
            out += [b'\\' + letter + ''.join(chosen).encode() for chosen in itertools.product(*cases)]
    return out


def shortlex(text):
    return len(text), text


def written(value):
    """The shortest text of a value: the literal where there is one, else character by character the least in shortlex order."""
    if all(b in LITERAL for b in value):
        return b"'" + value + b"'"
    return b'"' + b''.join(min(spellings(char), key=shortlex) for char in value.decode()) + b'"'


def write(value):
    refusal = check(value)
    return refused(refusal, value) if refusal else hexed(written(value))


def writecap(room, value):
    refusal = check(value)
    if not refusal:
        needed = len(written(value))
        refusal = (4, needed) if room < needed else (0, needed)
    return '%d %d' % refusal


# ---- putting broken strings right

def basic_string(value):
    """A basic string of the bytes, by whole replacements: backslashes first, then marks, then each control byte."""
    text = value.replace(b'\\', b'\\\\').replace(b'"', b'\\"')
    for b in (*range(0x20), 0x7F):
        text = text.replace(bytes([b]), b'\\u%04X' % b)
    return b'"' + text + b'"'


def mended(doc, edition):
    """The document with its broken strings replaced, and the span and the error for each error."""
    out, listed = BOM if doc.startswith(BOM) else b'', []
    for kind, first, last in tokens(doc):
        value, errors = decode(kind, doc[first:last], edition) if kind in STRINGS else (b'', [])
        if errors:
            out += (b' ' if out.endswith(b'"') else b'') + basic_string(value)
        else:
            out += doc[first:last]
        listed += [(first, last, *error) for error in errors]
    return out, listed


def mend_refusal(edition, doc):
    refusal = check(doc) or (None if edition in (10, 11) else (9, edition))
    return refusal or ((2, LIMIT) if len(mended(doc, edition)[0]) > LIMIT else None)


def mendin(edition, doc):
    refusal = mend_refusal(edition, doc)
    if refusal:
        return refused(refusal, doc)
    out, listed = mended(doc, edition)
    return hexed(out) + ' | ' + records(listed)


def mend(doc):
    return mendin(10, doc)


def mendcap(room, rows, doc):
    refusal = mend_refusal(10, doc)
    if refusal:
        return '%d %d 0' % refusal
    out, listed = mended(doc, 10)
    if room < len(out):
        return '4 %d 0' % len(out)
    return '5 %d 0' % len(listed) if rows < len(listed) else '0 %d %d' % (len(out), len(listed))


# ---- two reviewers on one table of marks

def mark_refusal(reviewer, token, lent, marks):
    if reviewer > 1:
        return 11, reviewer
    if token is not None and token >= lent:
        return 6, lent
    return (12, lent) if len(marks) < lent else None


def marked(reviewer, token, lent, marks, change):
    refusal = mark_refusal(reviewer, token, lent, marks)
    if not refusal:
        marks = marks[:token] + bytes([change(marks[token], 1 << reviewer)]) + marks[token + 1:]
    return '%d %d | ' % (refusal or (0, 0)) + hexed(marks)


def tick(reviewer, token, lent, marks):
    return marked(reviewer, token, lent, marks, lambda mark, bit: mark | bit)


def untick(reviewer, token, lent, marks):
    return marked(reviewer, token, lent, marks, lambda mark, bit: mark & ~bit)


def ticked(reviewer, token, lent, marks):
    refusal = mark_refusal(reviewer, token, lent, marks)
    return '%d %d %d' % (*(refusal or (0, 0)), 0 if refusal else marks[token] >> reviewer & 1)


def ticks(reviewer, lent, marks):
    refusal = mark_refusal(reviewer, None, lent, marks)
    return '%d %d %d' % (*(refusal or (0, 0)), 0 if refusal else sum(mark >> reviewer & 1 for mark in marks[:lent]))


# ---- bracketed values

# A letter for each kind: s a string on one line, m another, a an atom, n a newline; a kind that has none is `?`.
LETTERS = {46: '.', 61: '=', 44: ',', 91: '[', 93: ']', 123: '{', 125: '}', 32: ' ', 35: '#', 10: 'n', 39: 's', 34: 's', 1: 'm', 2: 'm', 3: 'a'}
WS, LINES = ' *', '(?: |#?n)*'
VAL = '(?:[smv]|[a.]+)'
KEYVAL = '[as](?: *[.] *[as])* *= *' + VAL
SPACED = LINES + '%s' + LINES


def items(opening, item, closing):
    """Items between brackets, with commas between them and perhaps one after the last."""
    item = SPACED % item
    return opening + '(?:' + item + '(?:,' + item + ')*,?)?' + LINES + closing


# A bracketed value whose items have no brackets of their own, by edition.
ARRAY = items(r'\[', VAL, r'\]')
INNERMOST = {10: re.compile(ARRAY + '|' + r'\{ *(?:' + KEYVAL + '(?: *, *' + KEYVAL + r')*)? *\}'),
             11: re.compile(ARRAY + '|' + items(r'\{', KEYVAL, r'\}'))}


def is_value(edition, kinds):
    """Bracketed values are put together to the letter v from the inside out, until none is left."""
    run, before = ''.join(LETTERS.get(kind, '?') for kind in kinds), None
    while run != before:
        run, before = INNERMOST[edition].sub('v', run), run
    return bool(re.fullmatch(VAL, run))


def too_deep(kinds):
    return any(depth > 64 for depth in itertools.accumulate((kind in b'[{') - (kind in b']}') for kind in kinds))


def valuein(edition, first, last, kinds):
    run = kinds[first:last]
    if last > len(kinds) or first > last:
        return '6 %d 0' % len(kinds)
    if edition not in INNERMOST:
        return '9 %d 0' % edition
    if too_deep(run):
        return '10 64 0'
    return '0 0 %d' % is_value(edition, run)


def value(first, last, kinds):
    return valuein(10, first, last, kinds)


# ---- the first broken string

def broken_in(edition, doc):
    """The tokens in turn. One that is not UTF-8 is refused, with what the check says of the whole document; a string that decodes
    with an error is the answer."""
    if len(doc) > LIMIT:
        return refused((2, LIMIT))
    if edition not in (10, 11):
        return refused((9, edition))
    for kind, first, last in tokens(doc):
        if check(doc[first:last]):
            return refused(check(doc), doc)
        errors = decode(kind, doc[first:last], edition)[1] if kind in STRINGS else []
        if errors:
            return '%d %d %d %d | %d %d %d' % (kind, first, last, line_of(doc, first), *errors[0])
    return '-'


def broken(doc):
    return broken_in(10, doc)


# ---- figures over documents

FILE, LARGEST = 65536, 2 ** 64 - 1
ORDER = (46, 61, 44, 91, 93, 123, 125, 32, 35, 10, 39, 34, 1, 2, 3, 4)


def figures(doc):
    """What becomes of a document, and the thirty-three numbers that it adds: tokens by kind, errors by number, refused with 1 and with 2."""
    if len(doc) > FILE:
        return (2, FILE), [0] * 32 + [1]
    broken = check(doc)
    if broken:
        return broken, [0] * 31 + [1, 0]
    lexed = tokens(doc)
    kinds = [kind for kind, first, last in lexed]
    errors = [error[0] for kind, first, last in lexed if kind in STRINGS for error in decode(kind, doc[first:last])[1]]
    return (0, 0), [kinds.count(kind) for kind in ORDER] + [errors.count(number) for number in range(1, 16)] + [0, 0]


def tallyon(each, doc):
    answer, more = figures(doc)
    totals = [each + n for n in more]
    if max(totals) > LARGEST:
        answer, totals = (13, LARGEST), [each] * 33
    return ' | '.join(' '.join(map(str, part)) for part in (answer, totals[:16], totals[16:31], totals[31:]))


def tally(doc):
    return tallyon(0, doc)


# ---- documents that come in parts

# What may follow a prefix, to see which of its tokens are decided: nothing, or one byte. One byte is enough. Only the last token of
# a prefix can be undecided: one that ends before the prefix does has its end shown by the byte after it, and what follows cannot
# move that byte. The last token of the prefix reaches up to the prefix's end. If some further bytes change it, then the first of
# them alone does: either that byte belongs to the token, and the token is longer already; or it does not, and then the token has
# ended before a byte that stands, and nothing after that byte matters to it. And a byte order mark is begun by bytes that are an
# Atom until it is whole, and an `a` makes that Atom longer. The bytes are those that the rules name, one for each class of them.
# tests/make_answers.py holds this to all bytes and to longer extensions.
FURTHER = (b'',) + tuple(bytes([b]) for b in b'.= \t#\r\n\'"\\a\xbb\xbf')


def common(lists):
    """The longest list with which all of them begin."""
    first, *rest = lists
    agreed = itertools.takewhile(lambda i: all(other[i:i + 1] == first[i:i + 1] for other in rest), range(len(first)))
    return [first[i] for i in agreed]


@functools.lru_cache(1024)
def decided(prefix, further=FURTHER):
    """The tokens that all further bytes leave the same. Their lines follow from what stands before them."""
    return common([tokens(prefix + more) for more in further])


def mendable(prefix):
    """Whether some further bytes make the prefix UTF-8: it is, or a tail of one to three continuation bytes makes it so."""
    tails = [b''] + [bytes([b]) + b'\x80' * n for b in (0x80, 0x90, 0xA0) for n in range(3)]
    return any(valid_prefix(prefix + tail) == len(prefix + tail) for tail in tails)


class Parts:
    """What was handed in so far, how many tokens were given, and whether it has ended."""

    def __init__(self):
        self.joined, self.given, self.ended = b'', 0, False

    def end(self, *refusal):
        self.ended = True
        return refusal, []

    def give(self, joined, all_tokens, room):
        new = all_tokens[self.given:]
        if room < len(new):
            return (3, len(new)), []
        self.joined, self.given = joined, len(all_tokens)
        return None, [(*t, line_of(joined, t[1])) for t in new]

    def feed(self, part, room):
        """The refusal, or None, and the tokens that the part gives."""
        joined = self.joined + part
        if self.ended:
            return (8, 0), []
        if len(joined) > LIMIT:
            return self.end(2, LIMIT)
        if not mendable(joined):
            return self.end(1, valid_prefix(joined), fault_length(joined))
        return self.give(joined, decided(joined), room)

    def close(self, room):
        """The same of the closing word."""
        if self.ended:
            return (8, 0), []
        if valid_prefix(self.joined) < len(self.joined):
            return self.end(1, valid_prefix(self.joined), fault_length(self.joined))
        refusal, new = self.give(self.joined, tokens(self.joined), room)
        self.ended = not refusal
        return refusal, new


def told(refusal):
    return 'refused ' + ' '.join(map(str, refusal))


def partscap(room, first, second, doc):
    """Three parts and the closing word. A place past the end counts as the end, a second place before the first as the first."""
    first = min(first, len(doc))
    second = max(first, min(second, len(doc)))
    state = Parts()
    answers = [state.feed(part, room) for part in (doc[:first], doc[first:second], doc[second:])] + [state.close(room)]
    return ' | '.join(told(refusal) if refusal else records(new) for refusal, new in answers)


def parts(first, second, doc):
    return partscap(len(doc) + 2, first, second, doc)


def each_byte(doc):
    """Each byte a part, then the closing word, up to a refusal."""
    state, out = Parts(), []
    for n in range(len(doc) + 1):
        refusal, new = state.feed(doc[n:n + 1], 2) if n < len(doc) else state.close(2)
        when = ' @%d' % (n + 1) if n < len(doc) else ' @end'
        out += [' '.join(map(str, token)) + when for token in new]
        if refusal:
            out.append(told(refusal) + when)
            break
    return '; '.join(out)


# For each name its function and the words after it: n a number, b a flag, r records lent, o output lent, w output lent for a text that is written, x bytes in hex.
CALLS = {b'lex': (lex, 'x'), b'lexline': (lexline, 'x'), b'lexcap': (lexcap, 'rx'), b'dec': (dec, 'nx'), b'deccap': (deccap, 'norx'),
         b'decin': (decin, 'nnx'), b'utf8': (utf8, 'x'), b'fault': (fault, 'x'),
         b'start': (start, 'x'), b'step': (step, 'nbx'), b'stepline': (stepline, 'nbnx'), b'span': (span, 'nnx'), b'text': (text, 'nnx'), b'pos': (pos, 'nx'),
         b'desc': (desc, 'n'),
         b'write': (write, 'x'), b'writecap': (writecap, 'wx'),
         b'tick': (tick, 'nnrx'), b'untick': (untick, 'nnrx'), b'ticked': (ticked, 'nnrx'), b'ticks': (ticks, 'nrx'),
         b'value': (value, 'nnx'), b'valuein': (valuein, 'nnnx'), b'broken': (broken, 'x'), b'brokenin': (broken_in, 'nx'),
         b'tally': (tally, 'x'), b'tallyon': (tallyon, 'nx'), b'mend': (mend, 'x'), b'mendin': (mendin, 'nx'), b'mendcap': (mendcap, 'wrx'),
         b'parts': (parts, 'nnx'), b'partscap': (partscap, 'rnnx'), b'bytes': (each_byte, 'x')}

# The second engine answers as the first does: only how it reads a byte differs, and here that is a set either way.
TABLE = {b'lex': b'tlex', b'lexline': b'tlexline', b'dec': b'tdec', b'decin': b'tdecin', b'stepline': b'tstep'}
CALLS.update({by_table: CALLS[name] for name, by_table in TABLE.items()})

# The most that the program takes: bytes of a line, of a document, of output, of a text that is written; records.
LINE, DOCUMENT, OUTPUT, WRITTEN, RECORDS = 131200, 65536, 98305, 393219, 65539
MOST = {'o': OUTPUT, 'w': WRITTEN, 'r': RECORDS}


class NoCall(Exception):
    """A line that is no call, with the reason."""


def number(word):
    digits = word.lstrip(b'0')
    if not word or set(word) - set(b'0123456789') or len(digits) > 20 or int(word[-20:]) > 2 ** 64 - 1:
        raise NoCall('not a number')
    return int(word[-20:])


def data(word):
    if len(word) // 2 > DOCUMENT:
        raise NoCall('too long')
    if word == b'-':
        return b''
    if not word or len(word) % 2 or set(word) - set(b'0123456789abcdef'):
        raise NoCall('not hex')
    return bytes.fromhex(word.decode())


def answer(line):
    """The answer to a line, both as bytes. The reasons are looked for in this order."""
    try:
        if len(line) > LINE:
            raise NoCall('too long')
        words = line.split(b' ')
        if words[0] not in CALLS:
            raise NoCall('unknown call')
        call, shape = CALLS[words[0]]
        if len(words) != 1 + len(shape):
            raise NoCall('wrong number of words')
        values = [number(word) for letter, word in zip(shape, words[1:]) if letter != 'x']
        values += [data(word) for letter, word in zip(shape, words[1:]) if letter == 'x']
        for letter, value in zip(shape, values):
            if letter == 'b' and value > 1:
                raise NoCall('not 0 or 1')
            if letter in 'owr' and value > MOST[letter]:
                raise NoCall('more than can be lent')
        return call(*values).encode()
    except NoCall as reason:
        return b'? ' + str(reason).encode()


def answered(line):
    return line + b' => ' + answer(line)


def main():
    lines = sys.stdin.buffer.read().split(b'\n')
    for line in lines if lines[-1] else lines[:-1]:
        sys.stdout.buffer.write(answered(line) + b'\n')


if __name__ == '__main__':
    main()
