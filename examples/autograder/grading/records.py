"""Marks that are kept in a folder of results, so that a call goes on where an earlier one was stopped."""
from __future__ import annotations

import hashlib
import json
import os
import re
import shutil
import tempfile
from pathlib import Path

from .faults import TaskFault


def write_whole(path, content):
    """Writes a file so that whoever looks sees all of it or none."""
    handle, part = tempfile.mkstemp(dir=path.parent, prefix=".part-")
    try:
        with os.fdopen(handle, "wb") as file:
            file.write(content)
        os.chmod(part, 0o644)
        os.replace(part, path)
    except BaseException:
        os.unlink(part)
        raise


# of the name of a folder that was handed in, so much is seen in that of its results
LONGEST_NAME = 60
# The pages of a run's part of a mark, and how the files of each end.
PAGES = {"page": "html", "ends_page": "ends.html"}


class Records:
    """Marks by what was handed in and what was asked, `records/KEY.json`, and their pages."""

    def __init__(self, folder):
        self.folder, self.inner = Path(folder), Path(folder) / "records"
        try:
            self.inner.mkdir(parents=True, exist_ok=True)
        except OSError as it:
            raise TaskFault(f"{folder}: {it.strerror}") from None

    def kept(self, key):
        """The mark of this key, if it is kept with all its pages."""
        try:
            found = json.loads((self.inner / f"{key}.json").read_bytes())
            pages = [run[it] for run in found["runs"] for it in PAGES if run[it]]
            whole = found["key"] == key and isinstance(found["warnings"], list) and all((self.inner / it).exists() for it in pages)
        except (OSError, ValueError, KeyError, TypeError):
            return None
        return found if whole else None

    def keep(self, record):
        """Keeps a mark. Its pages, which lie where it was worked out, come first."""
        for number, run in enumerate(record["runs"], 1):
            for it in filter(run.get, PAGES):
                name = f"{record['key']}.{number}.{PAGES[it]}"
                write_whole(self.inner / name, Path(run[it]).read_bytes())
                run[it] = name
        write_whole(self.inner / f"{record['key']}.json", json.dumps(record, sort_keys=True).encode())

    def publish(self, mark):
        """Puts each page into a folder of its own for what was handed in, and says in the mark where it is."""
        place = self.folder / place_name(mark["folder"])
        shutil.rmtree(place, ignore_errors=True)
        for number, run in enumerate(mark["runs"], 1):
            for it in filter(run.get, PAGES):
                target = place / f"{number}.{PAGES[it]}"
                try:
                    place.mkdir(exist_ok=True)
                    share(self.inner / run[it], target)
                    run[it] = str(target)
                except OSError as fault:
                    run[it] = None
                    run["detail"].append(f"the page {target.name} can't be written: {fault.strerror or fault}")


def share(source, target):
    """The same file by another name, or a copy where there can't be one."""
    target.unlink(missing_ok=True)
    try:
        os.link(source, target)
    except OSError:
        shutil.copyfile(source, target)


def place_name(folder):
    """A name for what belongs to a folder, without surprises: the beginning of its own, and a digest of the whole path, so that
    no two folders have one, whatever they are called. A link is itself, and not what it leads to."""
    above, last = os.path.split(os.path.abspath(folder))
    path = os.path.join(os.path.realpath(above), last)
    last = re.sub(r"[^A-Za-z0-9_]", lambda it: it[0] if it[0] in "-." else "_", last).lstrip(".-")
    return f"{last[:LONGEST_NAME]}-{hashlib.sha256(os.fsencode(path)).hexdigest()[:16]}".lstrip("-")
