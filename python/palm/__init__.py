"""palm from Python: sessions line by line, models with names, and a search that chooses its guides and budgets itself."""

from palm.checking import Verdict, check_certificate, check_proof
from palm.errors import (
    Ended,
    Fault,
    InputLimit,
    Interrupted,
    Killed,
    LimitError,
    ModelError,
    NotFound,
    OutOfMemory,
    PalmError,
    Refused,
    Stopped,
    TimedOut,
    Unrestored,
)
from palm.constraints import Constraint, Task, differ, either, implies, no_overlap, table
from palm.expressions import Expression, Variable, count, element
from palm.explain import Explanation
from palm.model import Model
from palm.rules import Preference, Rule
from palm.search import Answer, Progress, Solution, Solutions
from palm.session import Session

__all__ = [
    "Answer",
    "Constraint",
    "Ended",
    "Explanation",
    "Expression",
    "Fault",
    "InputLimit",
    "Interrupted",
    "Killed",
    "LimitError",
    "Model",
    "ModelError",
    "NotFound",
    "OutOfMemory",
    "PalmError",
    "Preference",
    "Progress",
    "Refused",
    "Rule",
    "Session",
    "Solution",
    "Solutions",
    "Stopped",
    "Task",
    "TimedOut",
    "Unrestored",
    "Variable",
    "Verdict",
    "check_certificate",
    "check_proof",
    "count",
    "differ",
    "either",
    "element",
    "implies",
    "no_overlap",
    "table",
]
