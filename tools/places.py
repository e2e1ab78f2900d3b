#!/usr/bin/env python3
# Counts the places of docs/DESIGN-PASS.md, a line for each, so that the counts of two commits can be laid side by side.
#   python3 tools/places.py [FOLDER] [POINT..]
# FOLDER is a checkout, this one where none is named; with POINTs (1a, 2, 3 ..) the places themselves are listed.
import glob
import os
import re
import sys

arguments = sys.argv[1:]
folder = arguments.pop(0) if arguments and os.path.isdir(arguments[0]) else os.path.join(os.path.dirname(os.path.abspath(__file__)), '..')
asked = arguments


def code_of(path):
    """A file's lines without comments and strings, so that line numbers stay."""
    lines = []
    for line in open(path, encoding='utf-8'):
        line = re.sub(r'b?"(\\.|[^"\\])*"', '""', line)
        line = re.sub(r"b'(\\.|[^'\\])'", "b'x'", line)
        lines.append(re.sub(r'//.*', '', line).rstrip())
    return lines


files = sorted(glob.glob(f'{folder}/crates/*/src/**/*.rt', recursive=True))
code = {os.path.relpath(f, folder): code_of(f) for f in files}
comments = {os.path.relpath(f, folder): open(f, encoding='utf-8').read().split('\n') for f in files}


def blocks(head):
    """(file, line, name, lines) of each item whose first line `head` matches, up to the brace that closes it."""
    for path, lines in code.items():
        i = 0
        while i < len(lines):
            found = re.match(head, lines[i])
            if found:
                depth, j, opened = 0, i, False
                while j < len(lines):
                    depth += lines[j].count('{') - lines[j].count('}')
                    opened = opened or '{' in lines[j]
                    ended = opened and depth == 0
                    # a clause in braces is no body
                    if ended and not re.match(r'\s*(requires|ensures|ghost)\b', lines[j]) or (not opened and lines[j].endswith(';')):
                        break
                    j += 1
                yield path, i + 1, found.group(1), lines[i:j + 1]
            i += 1


enums = list(blocks(r'\s*(?:pub(?:\(crate\))? )?enum (\w+)'))
structs = list(blocks(r'\s*(?:pub(?:\(crate\))? )?struct (\w+)'))


def functions():
    for path, lines in code.items():
        i = 0
        while i < len(lines):
            found = re.match(r'\s*(?:pub(?:\(crate\))? )?(?:extern "" )?fn (\w+)', lines[i])
            if not found:
                i += 1
                continue
            indent = len(lines[i]) - len(lines[i].lstrip())
            j, body = i, None
            while j < len(lines):
                if lines[j] == ' ' * indent + '}':
                    break
                if body is None and lines[j].endswith('{') and (j == i or lines[j] == ' ' * indent + '{' or not re.match(r'\s+(requires|ensures)', lines[j])) and (lines[j].strip() == '{' or j == i or lines[j].startswith(' ' * indent + ')')):
                    body = j + 1
                if body is None and lines[j].endswith(';') and j >= i:
                    break
                j += 1
            if body is not None:
                yield path, i + 1, found.group(1), lines[i:body], lines[body:j]
            i = max(i + 1, j)


funs = list(functions())


def variants(lines):
    text = ' '.join(lines[1:-1])
    depth, out, word = 0, [], ''
    for c in text:
        if c in '({':
            depth += 1
        if c in ')}':
            depth -= 1
        if c == ',' and depth == 0:
            out.append(word.strip())
            word = ''
        else:
            word += c
    if word.strip():
        out.append(word.strip())
    return out


def enum_shapes():
    """An enum with two variants of which one or both hold something; or one of whose variants holds a refusal alone."""
    for path, line, name, lines in enums:
        parts = variants(lines)
        held = [p for p in parts if '(' in p or '{' in p]
        if len(parts) == 2 and held or any(re.match(r'\w+\(Refusal\)', p) for p in parts):
            yield path, line, name


def flags():
    """A struct in which a flag says whether what stands beside it holds."""
    for path, line, name, lines in structs:
        if any(re.match(r'\s*(pub )?(good|failed|found|answer): (bool|Answer)\b', x) for x in lines):
            yield path, line, name


def sentinels():
    """A function whose comment says that a number stands for none."""
    for path, line, name, head, body in funs:
        k, text = line - 2, ''
        while k >= 0 and re.match(r'\s*(//|#\[)', comments[path][k]):
            text = comments[path][k].strip(' /') + ' ' + text
            k -= 1
        if not re.search(r'-> (usize|u8|u32)\b', ' '.join(head)):
            continue
        if re.search(r'(^|[ ,;:(])(0|16) (where|for (any|a longer)|of any|past)|all its bytes are counted|any other (text|byte|piece)[^.]*: 0|is copied: 0|of any other byte 16|; 16 for|no such', text):
            yield path, line, name


def numbers():
    """A function that goes from numbers to variants, or from variants to numbers, case by case."""
    for path, line, name, head, body in funs:
        to = sum(1 for x in body if re.match(r'\s*([\w:]*[A-Z_0-9]{2,}|\d+) => (?:Ok\()?\w+::\w+', x))
        back = sum(1 for x in body if re.match(r'\s*\w+::\w+ => \d+,', x))
        if to >= 3 or back >= 3:
            yield path, line, name


def shape(lines):
    words = re.findall(r"\w+|[^\w\s]", ' '.join(lines))
    names, out = {}, []
    keep = {'if', 'else', 'while', 'loop', 'for', 'in', 'match', 'return', 'let', 'mut', 'fn', 'as', 'true', 'false', 'break', 'continue'}
    for w in words:
        if w in keep or not re.match(r'\w', w):
            out.append(w)
        elif re.match(r'\d', w):
            out.append('N')
        else:
            out.append(names.setdefault(w, f'v{len(names)}'))
    return ' '.join(out), len(words)


def twins():
    """Functions whose bodies are the same but for names and numbers, of forty words or more."""
    groups = {}
    for path, line, name, head, body in funs:
        s, n = shape(body)
        if n >= 40:
            groups.setdefault(s, []).append((path, line, name))
    for group in groups.values():
        if len(group) > 1:
            yield from group


def loops():
    for path, lines in code.items():
        for i, line in enumerate(lines):
            if re.match(r"\s*('\w+: )?(while(?! let)|loop)\b", line):
                yield path, i + 1, line.strip()


def by_hand():
    """A function that only compares variants, or only converts."""
    for path, line, name, head, body in funs:
        text = ' '.join(x.strip() for x in body)
        arms = re.findall(r'=> (\w+)', text)
        if re.match(r'(match|if let) ', text) and arms and set(arms) <= {'true', 'false'} and re.search(r'[A-Z]\w+::[A-Z][a-z]', text):
            yield path, line, name
        elif re.fullmatch(r'\w+ as \w+', text) or re.fullmatch(r'self as \w+', text):
            yield path, line, name
        elif re.match(r'if let \w+::\w+ = \w+ \{ return (true|false|\w+); \} \w+$', text):
            yield path, line, name


def facts():
    """A fact asked in the contracts of three functions of a crate or more."""
    asked_for = {}
    for path, lines in code.items():
        crate = path.split('/')[1]
        for i, line in enumerate(lines):
            for clause in re.findall(r'^\s*requires (?:\w+ )?\{ (.*) \}$', line):
                for fact in re.split(r' × ', re.sub(r'^\((.*)\)$', r'\1', clause) if ') × (' in clause else clause):
                    asked_for.setdefault((crate, fact.strip('() ')), []).append((path, i + 1, fact.strip('() ')))
    for (crate, fact), places in asked_for.items():
        if len(places) >= 3:
            yield from places


def lengths():
    for path, line, name, lines in structs:
        if any(re.match(r'\s*(pub )?len(gth)?: usize', x) for x in lines) and any(re.match(r'\s*(pub )?\w+: \[u8; \d+\]', x) for x in lines):
            yield path, line, name


def switches():
    for path, lines in code.items():
        for i, line in enumerate(lines):
            if re.search(r'\btable: bool|engine: Engine|\bis_table\b|if table\b|Engine::\w+ =>', line):
                yield path, i + 1, line.strip()


def proofs():
    for path in sorted(glob.glob(f'{folder}/crates/*/proofs/**/Answers.antt', recursive=True)):
        for i, line in enumerate(open(path, encoding='utf-8')):
            if re.match(r'pub [\w\-]+ : goal\.', line):
                yield os.path.relpath(path, folder), i + 1, line.strip()


def hand_walked():
    for path in sorted(glob.glob(f'{folder}/crates/*/proofs/**/Proof.antt', recursive=True)):
        yield os.path.relpath(path, folder), 1, 'Proof.antt'


points = [
    ('1a', 'enums of the shape of Option or Result', enum_shapes),
    ('1b', 'structs with a flag beside values', flags),
    ('1c', 'functions that say none by a number', sentinels),
    ('1d', 'numbers for variants, case by case', numbers),
    ('2', 'functions with a twin', twins),
    ('3', 'loops that are no for', loops),
    ('4', 'comparisons and conversions by hand', by_hand),
    ('5', 'facts that three functions ask for', facts),
    ('6', 'bytes with a length beside', lengths),
    ('7', 'lines of a switch on the engine', switches),
    ('8a', 'answers', proofs),
    ('8b', 'proofs walked by hand', hand_walked),
]

for point, words, places in points:
    found = list(places())
    if not asked:
        print(f'{point:3} {len(found):5}  {words}')
    elif point in asked:
        print('\n'.join(f'{path}:{line}: {text}' for path, line, text in found))
