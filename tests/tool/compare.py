#!/usr/bin/env python3
"""What `galoxumi check --json` says of documents made at random, held to tests/reference.py, which is written from the rules:
each error with its number, its place, line and column, and each token that is not UTF-8. tests/tool/run calls this, with a
folder to write to and the command that runs the program as its words. Exit status 1 where something differs."""
import json
import os
import random
import subprocess
import sys

sys.dont_write_bytecode = True
sys.path.insert(0, os.path.join(os.path.dirname(os.path.abspath(__file__)), ".."))
import reference

PARTS = [
    b"'", b'"', b"'''", b'"""', b"\\", b"\\u", b"\\U0001F600", b"\\uD800", b"00e9", b"\\n", b"\\q", b"\\ ", b"\\\n", b"\\e",
    b"\r", b"\n", b"\r\n", b" ", b"\t", b"a", b"=", b".", b"[", b"]", b"{", b"}", b",", b"#", b"\x01", b"\x7f", b"x" * 150,
    "é".encode(), "東".encode(), "\U0001F600".encode(), b"e\xcc\x81", b"\xef\xbb\xbf", b"\xff", b"\x80", b"\xc3", b"\xe2\x82",
]  # fmt: skip


def expected(doc):
    """Each thing that is wrong, in order: an error as number, start, end; a token that is not UTF-8 as its first fault."""
    found = []
    for kind, start, end in reference.tokens(doc):
        text = doc[start:end]
        try:
            text.decode("utf-8")
        except UnicodeDecodeError as fault:
            found.append(("utf-8", start + fault.start))
            continue
        if kind in reference.STRINGS:
            errors = reference.decode(kind, text)[1]
            found += [(number, start + first, start + last) for number, first, last in errors]
    return found


def said(thing):
    return ("utf-8", thing["start"]) if "refusal" in thing else (thing["error"], thing["start"], thing["end"])


def position(thing, doc):
    """Line and column are those of the reference."""
    return [thing["line"], thing["column"]] == [int(word) for word in reference.pos(thing["start"], doc).split()[2:]]


def main(folder, command):
    random.seed(30)
    docs = {}
    for count in range(1000):
        name = os.path.join(folder, f"random{count}")
        docs[name] = b"".join(random.choice(PARTS) for _ in range(random.randrange(16)))
        with open(name, "wb") as file:
            file.write(docs[name])
    run = subprocess.run([*command, "check", "--json", *docs], capture_output=True, check=False)
    things = {name: [] for name in docs}
    for line in run.stdout.decode("utf-8").splitlines():
        thing = json.loads(line)
        things[thing["file"]].append(thing)
    differ = 0
    for name, doc in docs.items():
        *found, last = things[name]
        want = expected(doc)
        if [said(thing) for thing in found] != want or last["sound"] != (not want) or not all(position(t, doc) for t in found):
            differ += 1
            print(f"FAILED: {doc!r}: {found}, and {want} is expected")
    sys.exit(differ > 0 or run.returncode != 1)


main(sys.argv[1], sys.argv[2:])
