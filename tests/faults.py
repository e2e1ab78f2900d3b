#!/usr/bin/env python3
"""What crates/test_faults must write, made from the Unicode standard and Rust's documentation alone:

    tests/faults.py > crates/test_faults/stdout

Well-formed sequences are table 3-7 of the Unicode standard, section 3.9. Of a text that is not UTF-8, Rust's documentation
says (core::str::Utf8Error): `valid_up_to` is the length of the longest valid prefix; `error_len` is none where the end of
the input was reached unexpectedly, and else the length, 1 to 3, of the invalid byte sequence that starts there, after which
decoding should go on: the longest beginning of a well-formed sequence, or one byte. None is written as 0.
"""

TAIL = range(0x80, 0xC0)
TABLE_3_7 = [
    [range(0x00, 0x80)],
    [range(0xC2, 0xE0), TAIL],
    [range(0xE0, 0xE1), range(0xA0, 0xC0), TAIL],
    [range(0xE1, 0xED), TAIL, TAIL],
    [range(0xED, 0xEE), range(0x80, 0xA0), TAIL],
    [range(0xEE, 0xF0), TAIL, TAIL],
    [range(0xF0, 0xF1), range(0x90, 0xC0), TAIL, TAIL],
    [range(0xF1, 0xF4), TAIL, TAIL, TAIL],
    [range(0xF4, 0xF5), range(0x80, 0x90), TAIL, TAIL],
]


def begun(row, rest):
    """How many bytes at the front of `rest` are as the row asks."""
    n = 0
    while n < min(len(row), len(rest)) and rest[n] in row[n]:
        n += 1
    return n


def answer(text):
    """`ok`, or the length of the longest valid prefix and the length of the fault."""
    at = 0
    while at < len(text):
        rest = text[at:]
        whole = [row for row in TABLE_3_7 if begun(row, rest) == len(row)]
        if not whole:
            n = max(begun(row, rest) for row in TABLE_3_7)
            return f'{at}/{0 if n == len(rest) else max(n, 1)}'
        at += len(whole[0])
    return 'ok'


def low(lead):
    """The lowest second byte that may follow the first byte `lead`."""
    return {0xE0: 0xA0, 0xF0: 0x90}.get(lead, 0x80)


def varied(before, after):
    """The answers for each byte between `before` and `after`, a word for each run of bytes with the same answer."""
    words, first = [], 0
    for b in range(256):
        here = answer(before + [b] + after)
        if b == 255 or answer(before + [b + 1] + after) != here:
            words.append(f' {first:02x}-{b:02x} {here}')
            first = b + 1
    return ''.join(words)


for lead in range(0x80, 0x100):
    front = [lead]
    print(f'{lead:02x} {answer(front)} {answer(front + [0x78])}')
    for tail in (low(lead), 0x80, 0x80):
        name = ' '.join(f'{b:02x}' for b in front)
        print(f'{name} ..{varied(front, [])}')
        print(f'{name} .. 78{varied(front, [0x78])}')
        front = front + [tail]
