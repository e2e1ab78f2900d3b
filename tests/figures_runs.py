"""What the program `figures` is run on and held to: the names and files of two runs, and the report of each by tests/reference.py.

The second run, of crates/test_figures, has the names of the first in another order: it reports the same totals.
tests/make_answers.py writes these files, and with --check compares them.
"""
import pathlib

import reference

CRATES = pathlib.Path(__file__).resolve().parent.parent / 'crates'
MESSAGES = ['invalid literal string', 'invalid literal string', 'invalid multi-line literal string',
            'carriage return must be followed by newline', 'invalid multi-line literal string', 'invalid basic string',
            'invalid basic string', 'missing escaped value', 'too few unicode value digits', 'invalid value',
            'invalid multi-line basic string', 'invalid multi-line basic string', 'invalid multi-line basic string',
            'unquoted keys cannot be empty', 'invalid unquoted key']
SOUND = b"""# a manifest
[package]
name = "galoxumi"
flags = ['-O2', "-Wall\\t-Wextra", { a.b = 1, c = "d" }]
about = \"\"\"
Two lines, \\
    joined.\"\"\"
paths = '''C:\\qt'''
"""
BROKEN = b"""path = "C:\\qt\\xyz"
name = 'no end
text = "\\uD800 \\u12"
more = \"\"\"\\ x\x01\r\"\"\"
last = '''\x02\r
"""
FILES = {
    'sound.toml': SOUND,
    'broken.toml': BROKEN,
    'mark.toml': b'\xef\xbb\xbfa = 1\n',
    'empty.toml': b'',
    'latin.toml': b'name = "caf\xe9"\n',
    'cut.toml': b'name = "\xe2\x82',
    'most.toml': b'#' + b'x' * 65534 + b'\n',
    'long.toml': b'#' + b'x' * 65535 + b'\n',
    'folder/inside.toml': b"a = 'b\n",
}
# no such file, a folder, no name, and a name that is too long by one byte
NAMES = ['sound.toml', 'broken.toml', 'missing.toml', 'folder', '', 'mark.toml', 'empty.toml', 'latin.toml', 'cut.toml', 'most.toml',
         'long.toml', 'folder/inside.toml', 'n' * 4096, 'sound.toml']
OTHERWISE = [NAMES[i * 5 % len(NAMES)] for i in range(len(NAMES))]


def lines(figures, all_of_them):
    words = [reference.KINDS[kind] for kind in reference.ORDER] + ['error %d, %s' % (i + 1, m) for i, m in enumerate(MESSAGES)]
    return ''.join('%9d  %s\n' % (n, word) for n, word in zip(figures, words) if n or all_of_them)


def said(name, totals):
    """The report on one name, and the totals after it."""
    if name not in FILES:
        return name + (': cannot be read\n' if name == 'folder' else ': does not open\n'), totals
    (refusal, value), figures = reference.figures(FILES[name])
    totals = [a + b for a, b in zip(totals, figures)]
    why = {1: 'not UTF-8 from byte', 2: 'more bytes than'}
    return name + (': refused %d, %s %d\n' % (refusal, why[refusal], value) if refusal else '\n' + lines(figures, False)), totals


def report(names):
    text, totals = '', [0] * 33
    for name in names:
        more, totals = said(name, totals)
        text += more
    return text + '\nin all\n' + lines(totals, True) + '%9d  files refused with 1, not UTF-8\n%9d  files refused with 2, more than 65,536 bytes\n' % tuple(totals[31:])


def made():
    out = {}
    for crate, names in (('figures', NAMES), ('test_figures', OTHERWISE)):
        out.update({CRATES / crate / 'data' / name: data for name, data in FILES.items()})
        out[CRATES / crate / 'stdin'] = '\n'.join(names).encode() + (b'\n' if crate == 'figures' else b'')
        out[CRATES / crate / 'stdout'] = report(names).encode()
    return out
