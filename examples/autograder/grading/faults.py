"""What can be wrong beside the work of a student."""


class TaskFault(Exception):
    """The task can't be read, or asks what can't be asked: nobody can be marked by it."""


class NoMark(Exception):
    """The mark of one folder couldn't be worked out, and that isn't the fault of the student."""


class OverBudget(Exception):
    """A folder has taken all the processor time that it may take."""
