"""The parts of `tests/grader`."""
