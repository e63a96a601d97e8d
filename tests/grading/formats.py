"""What the formats of results ask for, as their pages say.

JUnit: the schema junit-10.xsd of Jenkins' plugin xunit, which GitLab and GitHub's actions read, too. Gradescope: "Autograder
specifications", output format. CSV: RFC 4180.
"""
import csv
import io
import json
import re
import unicodedata
from xml.etree import ElementTree

VISIBILITIES = {"hidden", "after_due_date", "after_published", "visible"}
FORMATS = {"text", "html", "simple_format", "md", "ansi"}
SUITES = {"name", "time", "tests", "failures", "disabled", "errors"}
SUITE = {"name", "tests", "failures", "errors", "group", "time", "skipped", "timestamp", "hostname", "id", "package", "file",
         "log", "url", "version"}
CASE = {"name", "time", "classname", "group", "assertions", "status", "file", "line"}
BELOW_CASE = {"skipped", "error", "failure", "system-out", "system-err"}
OF_RESULTS = {"score": (int, float), "execution_time": (int, float), "output": str, "output_format": str,
              "test_output_format": str, "test_name_format": str, "visibility": str, "stdout_visibility": str,
              "extra_data": dict, "tests": list, "leaderboard": list}
OF_TEST = {"score": (int, float), "max_score": (int, float), "status": str, "name": str, "name_format": str, "number": str,
           "output": str, "output_format": str, "tags": list, "visibility": str, "extra_data": dict}


def junit_faults(raw):
    """What in a report of JUnit isn't as the schema asks."""
    root = ElementTree.fromstring(raw)
    if root.tag != "testsuites":
        yield f"the root is {root.tag}"
    yield from attributes_faults(root, SUITES, set())
    for suite in root:
        if suite.tag != "testsuite":
            yield f"{suite.tag} below testsuites"
        yield from attributes_faults(suite, SUITE, {"name", "tests", "failures", "errors"})
        yield from counts_faults(suite)
        for case in suite:
            yield from case_faults(case)


def attributes_faults(element, known, needed):
    for name in element.attrib.keys() - known:
        yield f"{element.tag} has {name}"
    for name in needed - element.attrib.keys():
        yield f"{element.tag} has no {name}"
    for name in {"tests", "failures", "errors", "skipped"} & element.attrib.keys():
        if not re.fullmatch(r"\d+", element.get(name)):
            yield f"{element.tag}: {name} is no number"
    if "time" in element.attrib and not re.fullmatch(r"\d+(\.\d+)?", element.get("time")):
        yield f"{element.tag}: time is no number"


def counts_faults(suite):
    """The counts of a suite are those of its cases."""
    found = {"tests": len(suite), "failures": len(suite.findall("testcase/failure")),
             "errors": len(suite.findall("testcase/error"))}
    for name, count in found.items():
        if suite.get(name) != str(count):
            yield f"testsuite: {name} is {suite.get(name)}, and there are {count}"


def case_faults(case):
    if case.tag != "testcase":
        yield f"{case.tag} below testsuite"
    yield from attributes_faults(case, CASE, {"name", "classname"})
    for it in case:
        if it.tag not in BELOW_CASE:
            yield f"{it.tag} below testcase"
        yield from attributes_faults(it, {"message", "type"} if it.tag in ("failure", "error") else set(), set())


def gradescope_faults(raw):
    """What in results.json isn't as Gradescope asks."""
    found = json.loads(raw)
    yield from members_faults(found, OF_RESULTS, "results")
    if "score" not in found and not found.get("tests"):
        yield "there is neither a score nor a test"
    for it in found.get("tests", []):
        yield from members_faults(it, OF_TEST, "test")
        if it.get("status") not in (None, "passed", "failed"):
            yield f"test: the status is {it['status']}"


def members_faults(found, known, where):
    for key, value in found.items():
        if key not in known:
            yield f"{where} has {key}"
        elif not isinstance(value, known[key]) or isinstance(value, bool):
            yield f"{where}: {key} is {value!r}"
        elif key.endswith("visibility") and value not in VISIBILITIES or key.endswith("_format") and value not in FORMATS:
            yield f"{where}: {key} is {value!r}"


def csv_faults(raw):
    """What in a table isn't as RFC 4180 asks, or would be a formula in a spreadsheet."""
    text = raw.decode("utf-8")
    rows = list(csv.reader(io.StringIO(text, newline=""), strict=True))
    if not text.endswith("\r\n"):
        yield "the last line has no end"
    if len({len(it) for it in rows}) != 1:
        yield "the lines differ in their number of fields"
    for it in (cell for row in rows for cell in row):
        if it.startswith((";", "\t", "\r")) or any(map(is_formula, re.split("[;\t\r\n]", it))):
            yield f"a field, or what some spreadsheet takes for one, begins as a formula: {it}"


def is_formula(text):
    """A spreadsheet would work it out. A sign may be as wide as a letter of Chinese."""
    return unicodedata.normalize("NFKC", text.lstrip()[:1]) in {"=", "+", "-", "@"}
