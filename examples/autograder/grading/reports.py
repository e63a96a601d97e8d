"""The marks as other programs take them: JUnit's XML, the results of Gradescope, and a table of comma-separated values."""
from __future__ import annotations

import csv
import io
import json
import re
import unicodedata
from xml.etree import ElementTree

from . import shown
from .records import PAGES

# characters that XML 1.0 can't have
NOT_XML = re.compile("[^\t\n\r -\uD7FF\uE000-\uFFFD\U00010000-\U0010FFFF]")
# a spreadsheet would take a cell that begins so for a formula, also where the sign is as wide as a letter of Chinese, and
# where semicolons, tabs or line feeds are what it takes for the ends of cells
FORMULA = re.compile(r"(^|[;\t\r\n])(?=[ \t]*([^\w\s]))")
SIGNS = set("=+-@")
COLUMNS = ["folder", "mark", "points", "of", "run", "run_points", "run_of", "verdict", "detail", "schedule", "page", "ends_page",
           "seconds", "megabytes", "equal"]
TOTALS = ["folder", "mark", "points", "of", "equal"]


def number(points):
    return int(points) if points == int(points) else points


def told(run):
    """What is said of a verdict, in lines: what is wrong, the teacher's hint, and then the trace and its schedule, set in."""
    schedule = [f"  schedule {run['schedule']}".rstrip()] if run["schedule"] is not None else []
    hint = [f"hint: {shown.name(run['hint'], '')}"] if run["hint"] and run["verdict"] != "pass" else []
    return [*run["detail"], *hint, *(f"  {it}" for it in run["trace"]), *schedule]


def xml(text):
    """What XML can have. A plug-in takes what stands between `[[` and `]]` for a file that it shall send, so that is broken."""
    return NOT_XML.sub(lambda it: shown.escaped(it[0]), re.sub(r"\[(?=\[)", "[ ", text))


def case_of(suite, mark, run, warnings):
    """A test case of JUnit: failed, or with an error where there is no mark. All that a student may have written stands there."""
    case = ElementTree.SubElement(suite, "testcase", classname=xml(shown.name(mark["folder"], "")), name=xml(run["name"]),
                                  time=f"{run['clock']:.3f}")
    if run["verdict"] != "pass":
        kind = "error" if run["verdict"] == "no mark" else "failure"
        fault = ElementTree.SubElement(case, kind, message=xml(run["verdict"]), type=xml(run["verdict"]))
        fault.text = xml("\n".join([*told(run), *warnings]))
    said = [xml(it) for it in run["detail"]] if run["verdict"] == "pass" else []
    # GitLab shows, and Jenkins keeps, files that are named so
    attached = [f"[[ATTACHMENT|{xml(run[it])}]]" for it in PAGES if run[it]]
    if said or attached:
        ElementTree.SubElement(case, "system-out").text = "\n".join(said + attached)
    return case


def counts_of(runs):
    return {"tests": str(len(runs)), "failures": str(sum(it["verdict"] not in ("pass", "no mark") for it in runs)),
            "errors": str(sum(it["verdict"] == "no mark" for it in runs)), "time": f"{sum(it['clock'] for it in runs):.3f}"}


def junit(task, marks):
    """A test suite for each folder, with a test case for each run."""
    root = ElementTree.Element("testsuites", name=xml(task.title or "grade"),
                               **counts_of([it for mark in marks for it in mark["runs"]]))
    for mark in marks:
        suite = ElementTree.SubElement(root, "testsuite", name=xml(shown.name(mark["folder"], "")),
                                       skipped="0", **counts_of(mark["runs"]))
        failed = next((it for it in mark["runs"] if it["verdict"] not in ("pass", "no mark")), None)
        for run in mark["runs"]:
            case_of(suite, mark, run, mark["warnings"] if run is failed else [])
        if mark["warnings"] and not failed:
            ElementTree.SubElement(suite, "system-out").text = xml("\n".join(mark["warnings"]))
    ElementTree.indent(root)
    return ElementTree.tostring(root, encoding="utf-8", xml_declaration=True) + b"\n"


def gradescope(task, marks):
    """The results of one submission."""
    mark, = marks
    tests = [{"name": run["name"], "number": str(place), "score": number(run["points"]), "max_score": number(run["of"]),
              "status": "passed" if run["verdict"] == "pass" else "failed",
              "output": "\n".join([run["verdict"]] + told(run) + [f"page {run[it]}" for it in PAGES if run[it]]),
              "output_format": "text", "visibility": run["visibility"]}
             for place, run in enumerate(mark["runs"], 1)]
    found = {"output": "\n".join([task.title, *mark["warnings"]]), "output_format": "text", "visibility": "visible", "stdout_visibility": "hidden",
             "execution_time": round(sum(it["clock"] for it in mark["runs"]), 3), "tests": tests}
    return json.dumps(found, indent=2).encode() + b"\n"


def cell(value):
    """A field that no spreadsheet takes for a formula: an apostrophe stands before what would begin one."""
    text = str(value)
    quoted = FORMULA.sub(lambda it: it[0] + "'" * (unicodedata.normalize("NFKC", it[2])[:1] in SIGNS), text)
    return "'" + quoted if quoted.startswith((";", "\t", "\r", "\n")) else quoted


def written(columns, rows):
    """A table of these rows under a line with the names of the columns (RFC 4180)."""
    text = io.StringIO()
    writer = csv.writer(text)
    writer.writerow(columns)
    writer.writerows([it if isinstance(it, (int, float)) else cell(it) for it in row] for row in rows)
    return text.getvalue().encode("utf-8", "replace")


def total(mark):
    """What all tables say of a folder first."""
    return [shown.name(mark["folder"], ""), mark["mark"], number(mark["points"]), number(mark["of"])]


def table(task, marks):
    """A line for each folder and run."""
    return written(COLUMNS, [[*total(mark), run["name"], number(run["points"]), number(run["of"]), run["verdict"],
                              "\n".join(run["detail"]), run["schedule"] or "", run["page"] or "", run["ends_page"] or "",
                              run["seconds"], mark["megabytes"], ", ".join(mark["equal"])]
                             for mark in marks for run in mark["runs"]])


def totals(task, marks):
    """A line for each folder."""
    return written(TOTALS, [[*total(mark), ", ".join(mark["equal"])] for mark in marks])


def with_equal(marks):
    """The marks, and in each the names of the other folders with the same sources."""
    by_same = {}
    for it in filter(lambda mark: mark["same"], marks):
        by_same.setdefault(it["same"], []).append(it)
    return [{**mark, "equal": [shown.name(it["folder"]) for it in by_same.get(mark["same"], []) if it is not mark]}
            for mark in marks]


def equal_lines(marks):
    """Which folders have the same sources, in one line for each group."""
    told = dict.fromkeys(tuple(sorted([shown.name(it["folder"]), *it["equal"]])) for it in marks if it["equal"])
    return [f"  equal: {', '.join(it)}" for it in told]


def lines(mark, brief):
    """What is printed of a mark: a line with it, and below it what is said of its runs, each line behind two blanks or four."""
    scored = "" if mark["mark"] == "no mark" else f": {number(mark['points'])} of {number(mark['of'])} points"
    yield f"{shown.name(mark['folder'])}: {mark['mark']}{scored}"
    for run in mark["runs"] if not brief else []:
        if run["verdict"] != "pass" or run["detail"]:
            yield f"  {run['name']}: {run['verdict']}"
            yield from (f"    {it}" for it in told(run))
            if run["page"]:
                yield f"    page {shown.name(run['page'], '')}"
            if run["ends_page"]:
                yield f"    ends {shown.name(run['ends_page'], '')}"
    if mark["warnings"] and not brief:
        yield "  warnings"
        yield from (f"    {it}" for it in mark["warnings"])


def count(marks):
    """How many folders pass."""
    return f"{sum(it['mark'] == 'pass' for it in marks)} of {len(marks)} pass"
