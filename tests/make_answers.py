#!/usr/bin/env python3
"""Makes what the program `answers` is run on and held to: crates/answers/stdin and crates/answers/stdout; and the same of the program
`figures` (tests/figures_runs.py).

    tests/make_answers.py            writes them, and prints how many lines each section has
    tests/make_answers.py --check    writes nothing; fails if what is committed is not what would be written,
                                     and ends in 'N passed, M failed', the files that are and those that are not

A line is a call; what is expected of it comes from its section's source, and the sections are held to
each other: what tests/scope.txt, the published suite and the vectors expect is what tests/reference.py
answers, or this script fails. tests/README.md says more. No line's answer comes from `answers` itself.
"""
import itertools
import json
import pathlib
import sys

sys.dont_write_bytecode = True
import figures_runs
import reference

TESTS = pathlib.Path(__file__).resolve().parent
CRATE = TESTS.parent / 'crates' / 'answers'
OUT_OF_SIGHT = TESTS / 'toml-test' / 'out-of-sight.txt'
MAX = 2 ** 64 - 1
DECODERS = (39, 34, 1, 2, 3)
BOM = b'\xef\xbb\xbf'


def call(name, *words):
    return ' '.join([name] + [(word.hex() or '-') if isinstance(word, bytes) else str(word) for word in words]).encode()


def by_reference(*calls):
    return [(line, reference.answer(line)) for line in calls]


def agreed(lines):
    """Lines whose answers have a source of their own: the second implementation has to answer the same."""
    for line, answer in lines:
        if reference.answer(line) != answer:
            sys.exit('FAILED: %s: expected %s, tests/reference.py says %s: one of the two is wrong, by docs/RULES.md'
                     % (line.decode(), answer.decode(), reference.answer(line).decode()))
    return lines


def read_lines(name):
    return agreed([tuple(line.split(b' => ')) for line in (TESTS / name).read_bytes().splitlines()])


# ---- 1: the texts of the project's scope, with their answers; 3: the vectors

def scope():
    return read_lines('scope.txt')


def vectors():
    return [line for name in ('lex', 'dec', 'utf8') for line in read_lines('vectors/%s.txt' % name)]


# ---- 2: the published suite

def cases():
    return [json.loads(line) for line in (TESTS / 'toml-test' / 'cases.jsonl').read_text().splitlines()]


def token_texts(case, kinds=reference.STRINGS):
    doc = bytes.fromhex(case['hex'])
    return [(kind, doc[start:end]) for kind, start, end in reference.tokens(doc) if kind in kinds]


def valid_cases():
    """Each document's tokens, by the second implementation, and each string value, by the suite."""
    out = []
    for case in cases():
        if case['valid'] and case['toml10']:
            doc = bytes.fromhex(case['hex'])
            out += by_reference(call('lex', doc))
            for value in case['strings']:
                token = value['kind'], value['start'], value['end']
                if token not in reference.tokens(doc):
                    sys.exit('%s: no token %s' % (case['name'], token))
                out.append((call('dec', value['kind'], doc[value['start']:value['end']]), (value['hex'] or '-').encode() + b' | -'))
    return agreed(out)


def left_out_cases():
    """The valid cases that the suite leaves out for TOML 1.0.0: an escape that it does not have, error 8."""
    out = []
    for case in cases():
        if case['valid'] and not case['toml10']:
            lines = by_reference(*[call('dec', kind, text) for kind, text in token_texts(case)])
            if not any(b'| 8 ' in answer for _, answer in lines):
                sys.exit('%s: no error 8' % case['name'])
            out += lines
    return out


def later_cases():
    """The same cases in TOML 1.1, which has the escape: each string value, by the suite."""
    out = []
    for case in cases():
        if case['valid'] and not case['toml10']:
            doc = bytes.fromhex(case['hex'])
            out += [(call('decin', 11, value['kind'], doc[value['start']:value['end']]), (value['hex'] or '-').encode() + b' | -')
                    for value in case['strings']]
    if not out:
        sys.exit('no case of TOML 1.1')
    return agreed(out)


def invalid_cases(seen):
    return [case for case in cases() if not case['valid'] and case['seen'] == seen]


def invalid_utf8():
    out = by_reference(*[call('utf8', bytes.fromhex(case['hex'])) for case in invalid_cases('utf8')])
    if not all(answer.startswith(b'1 ') for _, answer in out):
        sys.exit('a case that is to be seen as no UTF-8 is not')
    return out


def invalid_strings():
    """The string tokens of each case that have an error: at least one of them."""
    out = []
    for case in invalid_cases('string'):
        lines = by_reference(*[call('dec', kind, text) for kind, text in token_texts(case)])
        wrong = [(line, answer) for line, answer in lines if not answer.endswith(b' | -')]
        if not wrong:
            sys.exit('%s: no string reports an error' % case['name'])
        out += by_reference(call('lex', bytes.fromhex(case['hex']))) + wrong
    return out


def out_of_sight():
    for case in invalid_cases('no'):
        if reference.check(bytes.fromhex(case['hex'])) or any(reference.decode(*token)[1] for token in token_texts(case)):
            sys.exit('%s: said to be out of sight, and is seen' % case['name'])
    return ''.join(case['name'] + '\n' for case in invalid_cases('no')).encode()


# ---- 4: boundaries, by the second implementation

def around(n):
    """Lent none, one short, exactly as many as are needed, and one more."""
    return sorted({0, max(n - 1, 0), n, n + 1})


def lent_records():
    documents = [b'', b'a', BOM, b'a = "b"\n', b"'''a''''''", b'\xff', b'a\xff', BOM + b'.\xc3']
    return by_reference(*[call('lexcap', cap, doc) for doc in documents for cap in around(len(reference.tokens(doc)))])


def lent_output():
    texts = [(39, b"'a\x01b\x02"), (34, b'"\\u\\u\\u"'), (34, b'"abc"'), (1, b"'''\na\x01\r"), (2, b'"""\\q\\ \na\r'), (3, b'a\xc3\xa9'),
             (3, b''), (39, b''), (1, b''), (5, b'a'), (5, b'\xff'), (39, b'a\xff')]
    out = []
    for kind, text in texts:
        bytes_, errors = reference.decode(kind if kind in DECODERS else 3, text)
        out += [call('deccap', kind, o, e, text) for o in around(len(bytes_)) for e in around(len(errors))]
    return by_reference(*out)


def sizes():
    """Documents of 0, 1, 65,535, 65,536 and 65,537 bytes."""
    small = [line for doc in (b'', b'a') for line in every_call(doc)]
    short, whole = b'# ' + b'a' * 65533, b'"' + b'\xc3\xa9' * 32767 + b'"'
    dots, escapes = b'.' * 65536, b'\\u' * 32768
    large = [call('lex', short), call('lex', whole), call('utf8', whole), call('dec', 34, whole),
             call('pos', 65536, b'\n' * 65536),
             call('lexcap', 65536, dots), call('lexcap', 65537, dots), call('step', 65535, 0, dots),
             call('deccap', 34, 98304, 32770, escapes), call('deccap', 34, 98303, 32770, escapes),
             call('deccap', 39, 65537, 65539, b'\x01' * 65536), call('lex', dots + b'.')]
    return by_reference(*small, *large)


def every_call(doc):
    return [call('lex', doc), call('utf8', doc), call('start', doc), call('step', 0, 0, doc), call('step', 0, 1, doc),
            call('step', 1, 0, doc), call('step', 1, 1, doc), call('step', 2, 0, doc), call('span', 0, 0, doc),
            call('span', 0, 1, doc), call('text', 0, 1, doc), call('pos', 0, doc), call('pos', 1, doc), call('pos', 2, doc)] + \
           [call('dec', kind, doc) for kind in DECODERS]


PLACES = [b'', b'a', '\u00e9=1'.encode(), BOM + b'a', b'a\nb\r\n\nc', 'a\u20ac\U0001f600'.encode(), b'\x80\xbf', b'"a\\"\n']

# documents that differ in their columns only: a byte order mark not at the start, half of one, an accent after one and after an LF
COLUMNS = [BOM + BOM + b'a', BOM[:2] + b'a', b'a' + BOM + b'b', BOM + '\u00e9\n\u00e9x'.encode(), b'\xc3\n\xa9\xa9z', BOM + b'\n']


def cursors():
    starts = [call('start', doc) for doc in PLACES + [b'\xef', b'\xef\xbb', b'\xef\xbb\xbe', BOM, BOM + BOM, b'\xff']]
    steps = [call('step', place, ended, doc) for doc in PLACES + [BOM, b'\xff', b"'''a\n'"] for ended in (0, 1)
             for place in [*range(len(doc) + 2), MAX - 1, MAX]]
    return by_reference(*starts, *steps)


def lines():
    """Lines: every document of the places, whole and by steps from right and wrong lines, and each LF and CR in each kind."""
    docs = PLACES + COLUMNS + [b'a\r\nb\rc\n', b'"""\n\r\n\\\n"""\n', b"'''\n\n\r'''x\n", b'"a\n', b"'a\r\n", b'# a\n', BOM + b'\n\n', b'\n' * 5]
    steps = [call('stepline', place, ended, line, doc) for doc in docs for place in range(len(doc) + 2) for ended in (0, 1)
             for line in (0, 1, 2, place, place + 1, place + 2, MAX)]
    return by_reference(*[call('lexline', doc) for doc in docs + [b'\xff', b'']], *steps)


def spans():
    out = []
    for doc in PLACES:
        ends = [*range(len(doc) + 2), MAX]
        out += [call(name, a, e, doc) for a in ends for e in ends for name in ('span', 'text')]
    return by_reference(*out)


def positions():
    return by_reference(*[call('pos', place, doc) for doc in PLACES + COLUMNS for place in [*range(len(doc) + 2), MAX]])


def kinds():
    numbers = [*range(130), 255, 256, 65536, 2 ** 32 + 46, MAX]
    return by_reference(*[call('desc', n) for n in numbers], *[call('dec', n, b'a') for n in numbers],
                        *[call('dec', n, b'a\xff') for n in (0, 3, 4, MAX)])


def editions():
    """Escapes in which the editions differ, and others; and numbers that are no edition."""
    texts = [mark + b'\\' + bytes(t) + mark for mark in (b'"', b'"""') for n in range(4) for t in itertools.product(b'exuU4g\\', repeat=n)]
    both = [call('decin', edition, 2 if text.startswith(b'"""') else 34, text) for text in texts for edition in (10, 11)]
    rest = [call('decin', 11, kind, mark + b'\\e\\x41' + mark) for kind, mark in ((39, b"'"), (1, b"'''"), (3, b''))]
    bytes_of = [call('decin', 11, 34, b'"\\x%02x"' % b) for b in range(256)]
    numbers = [call('decin', edition, kind, text) for edition in (0, 1, 9, 10, 11, 12, 100, MAX) for kind in (39, 34, 1, 2, 3, 0, 5, MAX)
               for text in (b'a', b'\xff')]
    return by_reference(*both, *rest, *bytes_of, *numbers)


def faults():
    """Each first byte beyond ASCII, followed by good bytes, by wrong ones and by none; and the calls that hand a fault on."""
    tails = [b'', b'x', b'\x80', b'\x80x', b'\x9f', b'\xa0', b'\xa0x', b'\x90\x80', b'\x90\x80x', b'\xa0\x80x', b'\x80\x80\x80', b'\xbf\xbf\xc0']
    docs = [b'a' + bytes([lead]) + tail for lead in range(0x80, 0x100) for tail in tails]
    some = [b'\xff', b'a\xc3', b'a\xe2\x82', b'a\xe2\x82=', b'\xed\xa0\x80', b'\xf0\x90\x80', b'\xf0\x90\x80z', b'']
    return by_reference(*[call('fault', doc) for doc in docs + some], *[call('lex', doc) for doc in some],
                        *[call('dec', 34, doc) for doc in some], *[call('decin', 11, 2, doc) for doc in some],
                        *[call('lexcap', 0, doc) for doc in some], *[call('deccap', 34, 0, 0, doc) for doc in some])


# those that end in a Newline token, and those that do not: an open string, a comment, nothing
HEADS = [b'\n', b'\r', b'\r\n', b'\r\r', b'a = "b"\n', b'# a\r', BOM + b'\n', b"'''\n'''\r\n", b'"a\n', b"'a\r\n",
         b'', BOM, b'a', b'# a', b"'''\n", b'"""a\r', b"'a\r"]
TAILS = [b'', b'\n', b'\r', b'\r\n', b'a', b'.', b' \n', b'# a\n', '\u00e9\n'.encode(), b'"\n"', b"'''\n'''", BOM, BOM + b'a\n']


def with_lines(doc):
    return [(*token, reference.line_of(doc, token[1])) for token in reference.tokens(doc)]


def joined():
    """Heads, tails, and each joined to each: where the tail may follow the head, the tokens are made from those of the two."""
    out = []
    for head, tail in itertools.product(HEADS, TAILS):
        line = call('lexline', head + tail)
        before = with_lines(head)[:-1]
        follows = before[-1:] and before[-1][0] == 10 and not tail.startswith(BOM) \
            and not (head.endswith(b'\r') and tail.startswith(b'\n'))
        moved = [(kind, start + len(head), end + len(head), on + head.count(b'\n')) for kind, start, end, on in with_lines(tail)]
        out += agreed([(line, reference.records(before + moved).encode())]) if follows else by_reference(line)
    return by_reference(*[call('lexline', part) for part in HEADS + TAILS]) + out


# what a basic string can only have by an escape, what it can have both ways, and what only one of the two marks allows
VALUES = [b'', b"'", b'"', b'\\', b'\t', b'\n', b'\r\n', b'\x00', b'\x08', b'\x0c', b'\x1b', b'\x1f', b'\x7f', b' ', b'a', b"'a", b'\x7f\x80', b'\xff',
          '\u00e9'.encode(), '\u00e9\n'.encode(), '\U0001f600\''.encode(), '\ud7ff\n'.encode(), BOM + b"'", b'C:\\temp', b"it's", b'-mbarrier "x" \\', b'\xed\xa0\x80']


def derivations(value):
    """Every text that is a literal or a basic string with this value, from the spellings of each of its characters."""
    basic = [b'"' + b''.join(parts) + b'"' for parts in itertools.product(*map(reference.spellings, value.decode()))]
    return ([b"'" + value + b"'"] if all(b in reference.LITERAL for b in value) else []) + basic


def values():
    """Values by the second implementation; the short ones are held to the shortest of all their texts, which decode to them."""
    short = [bytes(t) for n in range(3) for t in itertools.product(b'\'"\\\n\t\x00\x1fa\x7f', repeat=n)]
    lines = by_reference(*[call('write', value) for value in VALUES + [bytes([b]) for b in range(256)]])
    for value in short:
        texts = derivations(value)
        if any(reference.decode(39 if text[:1] == b"'" else 34, text) != (value, []) for text in texts):
            sys.exit('a text of %s is read otherwise' % value.hex())
        best = min(texts, key=lambda text: (len(text), text[:1] == b'"', text))
        lines += agreed([(call('write', value), best.hex().encode())])
    lent = [call('writecap', room, value) for value in VALUES
            for room in (around(len(reference.written(value))) if not reference.check(value) else (0, MAX % 1000))]
    large = [call('writecap', room, b'\x00' * 65536) for room in (393217, 393218, 393219, 393220)] + [call('write', b"'" * 65536)]
    return lines + by_reference(*lent, *large)


# a broken string of each kind and with each error, closed and not; seams: a replacement after a closing mark, before one, at a
# line's end and at the document's; broken strings that decode to nothing; documents without one
BROKEN = [b'', BOM, b'a = 1\n', b'a = "b"\n', BOM + b'"a', b'"', b"'", b'"\n', b"'\r\n", b'"a\n"b"', b"'a\n'b'", b'"a\\', b'"a\\"', b'"a\\"\n"',
          b'"\\q"', b'"\\q""b"', b'"\\q""\\q"', b'"a""\\q"', b'"a"\'\x01\'', b'""\'\x01\'', b'""\'\x01\'""', b'\'\x01\'"a"', b"'\x01''\x02'",
          b"'a''\x01'", b'"\x01""""a"""', b'"\x01""""\\q"""', b"'\x01''''a'''", b'"""a""', b"'''a''", b"'''a''''''\x01", b'"""\\ """', b'"""\\ """"',
          b'"""\\ """""', b'"""\\ """"""', b'"""\\ """""""', b'"""\\ """""" "', b'"""\\\r"""', b'"""\\\r""""', b'"""\\ """\'a\'', b'"""\\ """"a"',
          b'"""\x01"""""""a"', b'"""\n\\ """', b'"""a\rb"""', b"'''a\rb'''", b'\'\'\'\x01\'\'\'\'\'"a"', b'"\t\x01\x1f\x7f"', b'"\t\x1f\x7f\\u00e9\\q"',
          '"\u00e9\\ud800\U0001f600"'.encode(), b'"\\u12" = \'\x00\' # "x', b'[a."b\\q".\'c\x01\']\n', b'k = ["\\q", "\\q"\n, """\\q""", \'\x01\'\'\x02\']',
          b'a"b\\q" "c', b'# "\\q\n"\\q', b'"\\e\\x41\\x"', b'"""\\e\\xg"""', b'\xff"a', b'"a\xed\xa0\x80']


def sound(doc, edition):
    """The line of a document put right, once its result is what it must be: lexed token by token, without an error, and left
    as it is when put right again."""
    if not reference.mend_refusal(edition, doc):
        out, _ = reference.mended(doc, edition)
        seen, before = [(kind, out[first:last]) for kind, first, last in reference.tokens(out)], b''
        for kind, first, last in reference.tokens(doc):
            text = doc[first:last]
            value, errors = reference.decode(kind, text, edition) if kind in reference.STRINGS else (b'', [])
            if errors:
                kind, text = 34, reference.basic_string(value)
                right = reference.decode(34, text, edition) == (value, []) and (not before.endswith(b'"') or seen.pop(0) == (32, b' '))
            if errors and not right or seen.pop(0) != (kind, text):
                sys.exit('%s is put right to other tokens' % doc.hex())
            before = text or before
        if seen or reference.mended(out, edition) != (out, []):
            sys.exit('%s is put right to what does not stay so' % doc.hex())
    return call('mendin', edition, doc)


def mended_documents():
    """Documents put right, each held to what its result must be; lent sizes; refusals in their order."""
    short = [bytes(t) for n in range(6) for t in itertools.product(b'"\\\'\n', repeat=n)]
    blanks = [b'"""' + bytes(t) + tail for n in range(4) for t in itertools.product(b'\\ \r"', repeat=n) for tail in (b'"""', b'"""""', b'""""""')]
    inside = [mark + bytes([b]) + mark for b in range(256) for mark in (b'"', b"'", b'"""', b"'''")]
    lines = [call('mend', doc) for doc in BROKEN + inside] + [sound(doc, 10) for doc in BROKEN + short + blanks]
    lines += [sound(doc, edition) for doc in BROKEN for edition in (11, 12, 0, MAX)]
    for doc in BROKEN:
        out, listed = reference.mended(doc, 10) if not reference.check(doc) else (b'', [])
        lines += [call('mendcap', room, rows, doc) for room in around(len(out)) for rows in around(len(listed))]
    for doc in (b'"' + b'\x00' * 65535, b"'" + b'\x01' * 65535):
        out, listed = reference.mended(doc, 10)
        lines += [call('mendcap', len(out), len(listed), doc), call('mendcap', len(out) - 1, len(listed), doc),
                  call('mendcap', 393219, len(listed) - 1, doc)]
    return by_reference(*lines)


def reviewers():
    """Marks of two reviewers: every bit of an entry, each place, and the refusals in their order."""
    every = [call(name, reviewer, 0, 1, bytes([mark])) for mark in range(256) for reviewer in (0, 1) for name in ('tick', 'untick', 'ticked')]
    tables = [b'', b'\x00', b'\x03\x00\xff', b'\xfc\x01\x02', bytes(range(8))]
    places = [call(name, reviewer, token, lent, marks) for marks in tables for lent in around(len(marks)) for reviewer in (0, 1, 2, MAX)
              for token in (0, 1, 2, lent, MAX) for name in ('tick', 'untick', 'ticked')]
    counts = [call('ticks', reviewer, lent, marks) for marks in tables + [bytes(b % 4 for b in range(300))] for lent in (*around(len(marks)), 256)
              for reviewer in (0, 1, 2, MAX)]
    large = [call('ticks', reviewer, 65536, b'\x01' * 65536) for reviewer in (0, 1)]
    return by_reference(*every, *places, *counts, *large)


def kinds_of(text):
    """The kinds of a text's tokens, without Eof, a byte each."""
    return bytes(kind for kind, _, _ in reference.tokens(text))[:-1]


def bracketed(kinds):
    """Start and end of each array and inline table of a document's tokens. Outside of brackets a value follows an equals sign."""
    out, opened, valued = [], [], False
    for at, kind in enumerate(kinds):
        if kind == 61 and not opened:
            valued = True
        elif kind == 10 and not opened:
            valued = False
        elif kind in b'[{' and valued:
            opened.append(at)
        elif kind in b']}' and valued:
            out.append((opened.pop(), at + 1))
    return out


# Texts that are a value, by the edition from which on they are one; then texts that are none.
BRACKETED = {
    10: [b'1', b'1.5', b'a.b', b'.', b'"s"', b"'s'", b'"\\q"', b'"open', b"'''m'''", b'[]', b'[ ]', b'[\n]', b'[\r]', b'[#c\n]', b'[1]', b'[1,]', b'[ 1 , 2 ]',
         b'[\n1 #c\n,#d\n 2\n,\n]', b'[[],[[1]],{}]', b'["-O2", "-g",]', b'{}', b'{ }', b'{a=1}', b'{ a = 1 , b.c = [\n2] }', b'{"a" . \'b\'.c="x"}',
         b'{a={b={c=[{d=1}]}}}', b'[1.2.3,.,]'],
    11: [b'{a=1,}', b'{\n}', b'{ # c\n a = 1 # d\n , # e\n b = 2 , # f\n}', b'{a=1\n,b=2}', b'{\na=[{\nb=1,\n},],\n}'],
    12: [b'', b' ', b' 1', b'1 ', b'1\n', b'1 2', b'1979-05-27 07:32:00', b'a=1', b'#c', b'[', b']', b'[[]', b'[]]', b'[1', b'[,]', b'[1,,2]', b'[1 2]', b'[#c]', b'[1#c',
         b'[}', b'{]', b'{', b'{a}', b'{a=}', b'{=1}', b'{a=1 b=2}', b'{a=1,,b=2}', b'{,}', b'{,a=1}', b'{a.=1}', b'{.a=1}', b'{a..b=1}', b'{a b=1}', b'{a\n=1}', b'{a=\n1}',
         b"{'''m'''=1}", b'{a=1#c}', b'{a=1#c\n', b'{[]=1}', b'["a" "b"]', b'[1]\n', b'[=]', b'{a==1}', b'[1=2]'],
}


def runs():
    """Runs of tokens that are a value or none: the suite's arrays and inline tables, worked ones, all short ones, depths, refusals."""
    suite = []
    for case in cases():
        if case['valid'] and case['toml10']:
            kinds = kinds_of(bytes.fromhex(case['hex']))
            suite += [(call('value', start, end, kinds), b'0 0 1') for start, end in bracketed(kinds)]
    if not suite:
        sys.exit('the suite has no array')
    worked = [(call('valuein', edition, 0, len(kinds_of(text)), kinds_of(text)), b'0 0 %d' % (edition >= since))
              for since, texts in BRACKETED.items() for text in texts for edition in (10, 11)]
    cut = [call('value', start, end, kinds_of(text)) for text in (b'[1,{a=2}]', b'{a=[1]}', b'x=[]') for start in range(len(kinds_of(text)) + 2)
           for end in range(len(kinds_of(text)) + 2)]
    less = [call('valuein', edition, 0, len(kinds) - 1, kinds[:at] + kinds[at + 1:])
            for since, texts in BRACKETED.items() for text in texts if since < 12
            for kinds in [kinds_of(text)] for at in range(len(kinds)) for edition in (10, 11)]
    return agreed(suite + worked) + by_reference(*cut, *less, *short_runs(), *depths(), *run_refusals())


def short_runs():
    """All runs of up to three kinds; up to four between square brackets and between curly ones, and after a keyval."""
    every = sorted(reference.KINDS) + [0, 5]
    whole = [bytes(run) for n in range(4) for run in itertools.product([k for k in every if k not in (1, 5, 4)], repeat=n)]
    inside = [[bytes(run) for n in range(most + 1) for run in itertools.product(kinds, repeat=n)]
              for most, kinds in ((4, b' #\n,\x03'), (4, b'\x03=. '), (4, b' \n,#'), (3, b',\x03= \n'))]
    around = (b'[%s]', b'{%s}', b'{\x03=\x03%s}', b'{\x03=\x03,%s}')
    shut = [mark.replace(b'%s', run) for mark, runs in zip(around, inside) for run in runs]
    return ([call('value', 0, len(run), run) for run in whole] + [call('value', 0, 1, bytes([kind])) for kind in every]
            + [call('valuein', edition, 0, len(run), run) for run in shut for edition in (10, 11)])


def depths():
    nested = [opening * n + inner + closing * n for n in (1, 2, 63, 64, 65, 66, 1000) for opening, inner, closing in
              ((b'[', b'', b']'), (b'[', b'\x03', b']'), (b'{\x03=', b'\x03', b'}'), (b'[{\x03=', b'\x03', b'}]'))]
    odd = [before + b'[' * n + after for before in (b']', b'}}', b'[]', b'[\x03]', b'\x00') for n in (64, 65, 66, 67) for after in (b'', b']' * n)]
    long = [b'[' + b'\x03,' * 32767 + b']', b'[' + b' ' * 65534 + b']', b'[' * 32768 + b']' * 32768, b']' * 65471 + b'[' * 65]
    return [call('valuein', edition, 0, len(run), run) for run in nested + odd for edition in (10, 11)] + [call('value', 0, len(run), run) for run in long]


def run_refusals():
    """Each refusal alone, and each pair in its order: 6, 9, 10."""
    deep, flat = b'[' * 65, b'[]'
    return [call('valuein', edition, start, end, run) for run in (deep, flat, b'') for edition in (0, 1, 9, 10, 11, 12, 110, MAX)
            for start, end in ((0, len(run)), (0, len(run) + 1), (len(run), 0), (1, len(run)), (MAX, MAX), (0, MAX), (MAX, 0), (len(run), len(run)))]


# a manifest without a fault, with each kind of token and of string
MANIFEST = '# \u00e9\r\na."b\\"" = [\'c\', """\nd\\\n e""", {f = \'\'\'g\'\'\'}]\n'.encode()


def broken_strings():
    """The first broken string: by documents of one fault and of two, in either order; characters that a token's end cuts; refusals."""
    faults = [b"'a", b'"\\q"', b"'''\x01", b'"""\r"""', b'"\x01" \'', b'\xff', b'# \xc3', b'"\xff\\q', b"'\xe2\x82'", b'"\xc3']
    sound = [b'', b'a', b"'a'", b'"\xc3\xa9"', b'"""\\\n"""', b"'''\r\n'''", BOM, BOM + b"''", b'# \xc3\xa9', b'\r', b'\r\n', MANIFEST]
    pairs = [first + between + second for first in faults + sound for second in faults + sound for between in (b'\n', b' ')]
    # a character that is cut, or wrong, before what ends a token of each kind
    cuts = [before + bytes([lead]) + tail + after for lead in (0x80, 0xC1, 0xC3, 0xE0, 0xE2, 0xED, 0xF0, 0xF4, 0xF5, 0xFF)
            for tail in (b'', b'\x80', b'\x90', b'\xa0', b'\x80\x80', b'\x90\x80', b'\xa0\x80', b'\x90\x80\x80')
            for before, after in ((b'', b''), (b'a', b'='), (b'# ', b'\n\xff'), (b"'", b"'"), (b"'", b'\n'), (b"'''", b"'''\xff"), (b'"""', b''), (b'ok = "', b'"\\'))]
    short = [bytes(t) for n in range(5) for t in itertools.product(b'\'"\\\n\xc3\xa9', repeat=n)]
    short += [bytes(t) for n in range(4) for t in itertools.product(b'\'"\\\n\r au#.', repeat=n)]
    damaged = [MANIFEST[:i] + byte + MANIFEST[i + 1:] for i in range(len(MANIFEST)) for byte in (b'', b'\xff', b'"', b"'", b'\\', b'\n')]
    large = [b'"' + b'\xc3\xa9' * 32767 + b'"', b"'" * 65536, b'#' * 65535 + b'\xc3', b"''\n" * 21845 + b'"']
    escapes = [b'a = ' + mark + b'\\' + bytes(t) + mark for mark in (b'"', b'"""') for n in range(3) for t in itertools.product(b'exuU4g\\', repeat=n)]
    named = [call('brokenin', edition, doc) for edition in (0, 9, 10, 11, 12, MAX) for doc in (b'', b"'", b'\xff', b'"\\e"', b'"\\e" \xff')]
    return by_reference(*[call('broken', doc) for doc in pairs + cuts + short + damaged + large],
                        *[call('brokenin', edition, doc) for doc in escapes for edition in (10, 11)], *named)


# what a byte more can do to each kind of token; marks of each number; a byte order mark, whole and not
CUT = [b'', b'a = "b"\n', BOM + b'a\n', BOM[:2] + b'a', BOM, BOM + BOM, b'\xef\xbb\xbb', b'\r', b'\r\n', b'\r\r\n\n', b'#a\rb', b"'a\r\n", b'"a\\', b'"a\\"\n"', b'"\\\\"',
       b"'''a\n'''''", b"'''a''''''", b'"""\\"""\n"""', b'"""a""\\"""""', b"'''\\'''", b'""\n""a', b"''''", b'[[a.b]]\r\nc={d=[1,2]}',
       '\u00e9 = "\u20ac" # \U0001f600\n'.encode(), b'\t \n\n \t', b'"a\n\n\'b\nc', b"'''\n\n", b'"""\r\n\\\n"""\n']

# characters of each length and wrong ones, whole and cut
DAMAGED = ['\u00e9'.encode(), '\u20ac'.encode(), '\U0001f600'.encode(), b'\xe0\xa0\x80', b'\xed\x9f\xbf', b'\xf4\x8f\xbf\xbf', b'\x80', b'\xc1\x80', b'\xc3\xc3\xa9',
           b'\xe0\x9f\xbf', b'\xe2\x82', b'\xe2\x82a', b'\xed\xa0\x80', b'\xf0\x8f\xbf\xbf', b'\xf0\x90\x80', b'\xf0\x90\x80"', b'\xf4\x90\x80\x80', b'\xf5\x80', b'\xff']


# what may follow: every byte, and texts of two and three bytes
LONGER = (b'',) + tuple(bytes([b]) for b in range(256)) + tuple(bytes(t) for n in (2, 3) for t in itertools.product(b'\'"\\\na', repeat=n))


def cuts(doc):
    """Every two places at which a document can be cut."""
    return [(first, second) for second in range(len(doc) + 1) for first in range(second + 1)]


def in_bytes(doc):
    """The line of a document that comes byte by byte, once what it gives is what it must be: in all, the tokens of whole lexing; and
    what is decided is decided for every byte that may follow, and for longer texts."""
    if not reference.check(doc):
        given = [token.split(' @')[0] for token in reference.each_byte(doc).split('; ')]
        if '; '.join(given) != reference.lexline(doc):
            sys.exit('%s comes to other tokens byte by byte' % doc.hex())
    if len(doc) < 4:
        if reference.decided(doc) != reference.decided(doc, LONGER):
            sys.exit('what is decided of %s is not decided by single bytes' % doc.hex())
    return call('bytes', doc)


def parted():
    """Documents that come in parts: every cut, and each byte a part; records about those that a call needs; damaged characters, cut in
    each place; the refusals in their order."""
    scoped = [bytes.fromhex(line.split()[1].decode().replace('-', '')) for line, _ in scope() if line.startswith(b'lex ')]
    short = [bytes(t) for n in range(5) for t in itertools.product(b'\'"\\\n\ra', repeat=n)]
    wider = [bytes(t) for n in range(4) for t in itertools.product(b'\'"\\\n\r au#.', repeat=n)]
    marks = [before + mark * n + after for mark in (b"'", b'"') for n in range(1, 9) for before in (b'', mark * 3 + b'a') for after in (b'', b'\n', b'a')]
    leads = [b'a' + bytes([lead]) + tail for lead in range(0x80, 0x100) for tail in (b'', b'x', b'\x80', b'\x9f\x80', b'\xa0\x80x', b'\x90\x80\x80')]
    damaged = [before + chars + after for chars in DAMAGED for before, after in ((b'', b''), (b'"', b'"\n'), (b'a.', b'.'), (b"'''\n", b''))]
    lines = [in_bytes(doc) for doc in scoped + CUT + short + wider + marks + leads + damaged + [MANIFEST]]
    lines += [call('parts', *cut, doc) for doc in scoped + CUT + [doc for doc in short if len(doc) < 4] + marks + damaged + [MANIFEST] for cut in cuts(doc)]
    lines += [call('parts', *places, doc) for doc in (b'', b'a=1', '\u00e9'.encode()) for places in ((0, 9), (9, 0), (2, 1), (MAX, MAX), (0, MAX), (MAX, 0))]
    # a call that has too few records, and those after it; a faulty character and too few; a faulty one and the end before
    for doc in CUT + [b'...', b'. .\n', b'a.b.c', b'"\xc3\xa9".', b'.\xc3', b'.\xff.', b'\xff', b'.\xe2\x82', b'a\xff\xff']:
        for cut in cuts(doc) if len(doc) < 6 else ((0, len(doc)), (1, 2), (len(doc) // 2, len(doc)), (0, 3)):
            lines += [call('partscap', room, *cut, doc) for room in (0, 1, 2, 3)]
    dots = b'.' * 65536
    lines += [call('partscap', 0, 0, 0, dots), call('partscap', 65535, 65536, 65536, dots), call('partscap', 2, 1, 3, dots)]
    lines += [call('parts', 1, 32768, b'#' + b'a' * 65535), call('parts', 32768, 65535, b'"' + b'\xc3\xa9' * 32767 + b'"'),
              call('parts', 65535, 65536, b"'''" + b'\n' * 65533), call('parts', 2, 65535, b' ' * 65535 + b'\xc3')]
    return by_reference(*lines)


def tallied():
    """Figures: each kind and each error, alone and together; every document and string of the suite; from zeros and from totals
    that the next one fills; the refusals in their order; and the longest document."""
    kinds = [b'.', b'=', b',', b'[', b']', b'{', b'}', b' \t', b'#x', b'\n', b'\r\n', b'\r', b"''", b'""', b"''''''", b'""""""', b'a', BOM, b'']
    errors = [b"'a", b"'\x01'", b"'''a", b"'''\r'''", b"'''\x01'''", b'"a', b'"\x01\x02"', b'"\\q"', b'"\\u1"', b'"\\ud800"', b'"""a',
              b'"""\x01\r"""', b'"""\\ a"""', b'"\\e\\x41"', b'a\x01\xc3\xa9', b'"\\u\\u\\u"', b'"""\\\n \r\n\r"""', b'"plain" \'run\' """two\nlines"""']
    mixed = [b'a = "b"\n', b'a = "\\q" # "\\q"\n', b"k = ['a', \"\\u\", '''x]\n", b''.join(kinds), b'\n'.join(errors)]
    broken = [b'\xff', b'a\xff', b'"\\q"\xc3', BOM + b'\xe2\x82']
    suite = [bytes.fromhex(case['hex']) for case in cases()]
    docs = kinds + errors + mixed + broken
    full = [call('tallyon', each, doc) for doc in docs for each in (1, MAX - 2, MAX - 1, MAX)]
    pairs = [call('tally', a + b) for a in errors + kinds for b in errors]
    large = [call('tally', doc) for doc in (b'.' * 65536, b'"' + b'\\' * 65535, b"'\x01" * 32768, b'a' * 65535 + b'\xff')]
    large += [call('tallyon', MAX - each, b'.' * 65536) for each in (65535, 65536)]
    short = [bytes(t) for n in range(4) for t in itertools.product(b'\'"\\\n\r au#.', repeat=n)]
    return by_reference(*[call('tally', doc) for doc in docs + suite + short], *full, *pairs, *large)


def every_byte():
    """Each byte as a whole document, and between the marks of each kind."""
    marks = {39: b"'", 34: b'"', 1: b"'''", 2: b'"""', 3: b'a'}
    single = [bytes([b]) for b in range(256)]
    return by_reference(*[call(name, doc) for doc in single for name in ('lex', 'utf8')],
                        *[call('dec', kind, mark + b + mark) for kind, mark in marks.items() for b in single])


def short_texts():
    """All texts of up to three bytes over ten, lexed and by each decoder."""
    texts = [bytes(t) for n in range(4) for t in itertools.product(b'\'"\\\n\r au#.', repeat=n)]
    return by_reference(*[call('lex', text) for text in texts], *[call('dec', kind, text) for kind in DECODERS for text in texts])


def wrong_lines():
    """Lines that are no call. The last has no LF after it."""
    over = b'0' * 131200
    return by_reference(
        b'', b' ', b'-', b'lexx -', b'Lex -', b'le', b'lex\t-', b'\x00', b'\xff\xfe', b' lex -', b'=> 4 0 0', b'span0 0 -',
        b'\x00lex -', b'lex\x00 -', b'xdeccap 39 0 0 -', b'deccapx 39 0 0 -', b'\x01lexcap 0 -', b'\x01\x6c\x65\x78 -',
        b'lex', b'lex ', b'lex - ', b'lex  -', b'lex - -', b'lexcap -', b'dec 39', b'dec 39 - -', b'deccap 39 1 -', b'step 0 -', b'stepline 0 0 -', b'stepline 0 0 1', b'stepline 0 2 1 -', b'lexline', b'lexlines -',
        b'tally', b'tally 0 -', b'tally - -', b'tallyon -', b'tallyon 0', b'tallyon x -', b'tallyon 18446744073709551616 -', b'tallyo 0 -', b'tallyons 0 -',
        b'span 0 -', b'text 0 0', b'decin 11 -', b'decin 34 11', b'decinx 10 39 -', b'pos -', b'desc', b'desc 1 -', b'utf8 0 -', b'start 0 -',
        b'dec x -', b'dec  -', b'dec -1 -', b'dec +1 -', b'dec 0x1 -', b'dec 3\r -', b'dec 3. -', b'pos 18446744073709551616 -',
        b'pos 99999999999999999999 -', b'pos 100000000000000000000000000000000000000000 -', b'desc -', b'desc 1_0',
        b'pos 00000000000000000000000000000000000000000 -', b'desc 00000000000000000000000000000000000000039',
        b'pos 18446744073709551615 -', b'step x 2 zz', b'span 0 x 6',
        b'lex 6', b'lex 616', b'lex 6A', b'lex 6g', b'lex g6', b'lex --', b'lex 61-', b'lex 61\r', b'lex \xc3\xa9', b'lex 0x61',
        b'step 0 2 -', b'step 0 18446744073709551615 -', b'step 9 2 6', b'step 00 01 -',
        b'lexcap 65539 -', b'lexcap 65540 -', b'lexcap 18446744073709551615 -', b'lexcap 65540 6',
        b'write', b'write - -', b'write 0 -', b'writes -', b'writecap -', b'writecap x -', b'writecap 393220 zz', b'writecap 393220 -',
        b'mend', b'mend - -', b'mend 6', b'mends -', b'mendin -', b'mendin 10', b'mendin x -', b'mendcap 0 -', b'mendcap 0 0',
        b'mendcap 393220 0 -', b'mendcap 393219 65539 -', b'mendcap 0 65540 -', b'mendcap x 0 -',
        b'tick 0 0 -', b'tick 0 0 1', b'tick x 0 0 -', b'ticking 0 0 0 -', b'tick 0 0 65539 -', b'tick 0 0 65540 -', b'untick 0 0 65540 -',
        b'ticked 0 0 65540 -', b'ticked 0 0 0 6', b'ticks 0 -', b'ticks 0 65540 -', b'ticks 18446744073709551616 0 -',
        b'broken', b'broken 10 -', b'broken 6', b'brokens -', b'brokenin -', b'brokenin x -', b'brokenin 10 6', b'brokenin 10 - -',
        b'deccap 39 98305 65539 -', b'deccap 39 98306 0 -', b'deccap 39 0 65540 -', b'deccap 5 98306 65540 ff',
        b'value', b'value 0 -', b'value 0 0', b'value 0 0 0 -', b'value x 0 -', b'value 0 0 5', b'value 0 0 5B', b'values 0 0 -', b'valuein 0 0 -',
        b'valuein 10 0 0', b'valuein 10 0 x -', b'valuein 18446744073709551616 0 0 -', b'valueins 10 0 0 -',
        b'parts', b'parts 0 -', b'parts 0 0', b'parts 0 0 0 -', b'parts x 0 -', b'parts 0 0 6', b'parts 0 0 6G', b'part 0 0 -', b'partsx 0 0 -',
        b'parts 18446744073709551616 0 -', b'partscap 0 0 -', b'partscap 0 0 0', b'partscap 65539 0 0 -', b'partscap 65540 0 0 -', b'partscap 65540 0 0 6',
        b'partscap x 0 0 -', b'partscap 0 0 0 0 -', b'partscap', b'partscaps 0 0 0 -', b'bytes', b'bytes 0 -', b'bytes - -', b'bytes 6', b'byte -', b'bytess -',
        b'tlex', b'tlex 0 -', b'tlex 6', b'tlexs -', b'tlexline', b'tlexlin -', b'tdec -', b'tdec x -', b'tdec 34 6', b'tdecin 34 -', b'tdecin 10 34 0 -',
        b'tdecins 10 34 -', b'tstep 0 0 -', b'tstep 0 2 1 -', b'tstep 0 0 x -', b'tsteps 0 0 1 -', b'tlexcap 1 -', b'tpos 0 -',
        over, over + b'0', b'lex 6', b'lex ' + over, b'desc 4')


SECTIONS = [scope, valid_cases, left_out_cases, later_cases, invalid_utf8, invalid_strings, vectors, lent_records, lent_output, sizes, cursors, lines, spans,
            positions, kinds, editions, faults, joined, values, reviewers, runs, broken_strings, tallied, mended_documents, parted, every_byte,
            short_texts, wrong_lines]


def by_table(lines):
    """Each line above that lexes, decodes or steps, asked of the second engine too: the answer is the same."""
    out = []
    for line, answer in lines:
        name, _, rest = line.partition(b' ')
        if name in reference.TABLE and not answer.startswith(b'? '):
            out.append((reference.TABLE[name] + b' ' + rest, answer))
    return out


def main():
    lines = []
    for section in SECTIONS + [lambda: by_table(lines)]:
        made = section()
        lines += made
        print('%6d  %s' % (len(made), 'by_table' if section.__name__ == '<lambda>' else section.__name__))
    print('%6d  lines' % len(lines))
    made = {CRATE / 'stdin': b'\n'.join(line for line, _ in lines),
            CRATE / 'stdout': b''.join(line + b' => ' + answer + b'\n' for line, answer in lines),
            OUT_OF_SIGHT: out_of_sight(), **figures_runs.made()}
    if sys.argv[1:] == ['--check']:
        sys.exit(check(made))
    for path, data in made.items():
        path.parent.mkdir(parents=True, exist_ok=True)
        path.write_bytes(data)


def check(made):
    """Prints which files are not what is made, and how many are; answers whether any is not."""
    wrong = [path for path, data in made.items() if not path.exists() or path.read_bytes() != data]
    for path in wrong:
        print('FAILED: %s is not what this script makes: run tests/make_answers.py and read the difference' % path.relative_to(TESTS.parent))
    print('%d passed, %d failed' % (len(made) - len(wrong), len(wrong)))
    return bool(wrong)


if __name__ == '__main__':
    main()
