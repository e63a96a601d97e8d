"""What VPL reads of marks: a comment for each run, and the grade, unless a run couldn't be marked.

    report.py RESULTS MIN MAX    RESULTS as for Gradescope, and the least and the greatest grade of the activity
"""
import json
import sys


def lines(results, least, most):
    """Each line of a comment stands behind a sign, so that nothing that a program prints is taken for a grade."""
    yield "<|--"
    for test in results["tests"]:
        yield f"-{test['name']}: {test['score']} of {test['max_score']} points"
        yield from (f">{line}" for line in test["output"].split("\n"))
    yield "--|>"
    if not any(test["output"].split("\n")[0] == "no mark" for test in results["tests"]):
        share = sum(it["score"] for it in results["tests"]) / (sum(it["max_score"] for it in results["tests"]) or 1)
        yield f"Grade :=>> {least + (most - least) * share:.2f}"


def main(path, least, most):
    sys.stdout.reconfigure(encoding="utf-8", errors="backslashreplace")
    with open(path, encoding="utf-8") as file:
        print("\n".join(lines(json.load(file), float(least), float(most))))


if __name__ == "__main__":
    main(*sys.argv[1:])
