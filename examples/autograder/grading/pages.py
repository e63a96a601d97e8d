"""The pages of a run that failed. None is larger than what browsers and mail take."""
from __future__ import annotations

import html

MOST_BYTES = 4_000_000
PLAIN = """<!DOCTYPE html>
<html lang="en"><meta charset="utf-8"><title>lc3lab</title>
<pre>{text}</pre>
<p>{rest}</p></html>
"""
ALL = "This is the text alone, since the page that shows it step by step has more than {most} bytes, or couldn't be made."
CUT = ALL + " Of the text {left} bytes more are left out."


def bounded(path, text):
    """The page at a path or, where there is none or it is too large, one of the beginning of the text. There is none where the
    disk has no room for it, since a mark stands without its page."""
    try:
        if not path.exists() or path.stat().st_size > MOST_BYTES:
            path.write_bytes(plain(text))
    except OSError:
        return None
    return str(path)


def plain(text):
    shown = html.escape(text.decode("utf-8", "replace"), quote=False).encode()
    room = MOST_BYTES - len(PLAIN) - len(CUT) - 20
    rest = (CUT if len(shown) > room else ALL).format(most=f"{MOST_BYTES:,}", left=f"{len(shown) - room:,}")
    return PLAIN.format(text=shown[:room].decode("utf-8", "ignore"), rest=rest).encode()
