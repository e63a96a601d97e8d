"""How names and outputs are shown in one line: nothing in them ends the line, or looks like another part of it."""
from __future__ import annotations

import os
import unicodedata

LONGEST = 200


def is_plain(char, also):
    return char not in also and char != "\\" and unicodedata.category(char)[0] not in "CZ" or char == " "


def escaped(char):
    code = ord(char)
    if 0xDC80 <= code <= 0xDCFF:
        return f"\\x{code - 0xDC00:02X}"
    return f"\\x{code:02X}" if code < 0x100 else f"\\u{{{code:X}}}"


def name(path, also=":"):
    """A path, in which control characters, colons, backslashes, bytes that are no text and marks of direction are numbers."""
    return "".join(it if is_plain(it, also) else escaped(it) for it in os.fspath(path))


def output(text, longest=LONGEST):
    """The bytes of an output, as the reports of lc3lab show them."""
    shown = "".join(it if " " <= it <= "~" and it != "\\" else f"\\x{ord(it):02X}" for it in text[:longest])
    return f"`{shown}`" + (f" and {len(text) - longest} bytes more" if len(text) > longest else "")


def lines(raw, longest, most):
    """The last lines of what a program wrote, each cut where it is too long."""
    found = raw.decode("utf-8", "replace").splitlines()
    kept = ["..."] * (len(found) > most) + found[-most:]
    return ["".join(it if is_plain(it, "") or it in "\\" else escaped(it) for it in line[:longest]) for line in kept]
