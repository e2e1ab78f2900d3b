#!/usr/bin/env python3
"""Writes src/width_table.rs from Python's copy of the Unicode character database: python3 tool/width_table.py"""
import os
import unicodedata


def ranges(holds):
    """The runs of code points that something holds of."""
    found = []
    for code in range(0x80, 0x110000):
        if not holds(chr(code)):
            continue
        if found and found[-1][1] == code - 1:
            found[-1][1] = code
        else:
            found.append([code, code])
    return found


def is_wide(char):
    # Of characters that are not assigned yet, those where ideographs stand are wide.
    if unicodedata.category(char) == "Cn":
        return 0x4E00 <= ord(char) <= 0x9FFF or 0xF900 <= ord(char) <= 0xFAFF or 0x20000 <= ord(char) <= 0x3FFFD
    return unicodedata.east_asian_width(char) in ("W", "F") and not is_zero(char)


def is_zero(char):
    return unicodedata.category(char) in ("Mn", "Me", "Cf") and char != "\u00ad"


def table(name, what, found):
    rows = "".join(f"    (0x{first:X}, 0x{last:X}),\n" for first, last in found)
    return f"\n/// {what}\npub const {name}: &[(u32, u32)] = &[\n{rows}];\n"


head = f"""//! Made by tool/width_table.py, from Unicode {unicodedata.unidata_version}: first and last of each range of characters.
"""
text = head + table("WIDE", "Two columns: East Asian Width W and F.", ranges(is_wide))
text += table("ZERO", "No column: marks that do not space, and format characters but the soft hyphen.", ranges(is_zero))
with open(os.path.join(os.path.dirname(os.path.abspath(__file__)), "src", "width_table.rs"), "w") as file:
    file.write(text)
