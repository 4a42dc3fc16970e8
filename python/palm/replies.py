"""Replies as values: one class for each form that a reply has."""

from __future__ import annotations

from dataclasses import dataclass
from typing import Dict, List, Mapping, Optional, Sequence, Tuple

Names = Tuple[str, ...]
Values = Tuple[int, ...]


@dataclass(frozen=True)
class Reply:
    """A whole reply; `lines` are its lines as they came."""

    lines: Tuple[str, ...]


@dataclass(frozen=True)
class NoReply(Reply):
    """A comment has none."""


@dataclass(frozen=True)
class Done(Reply):
    """`ok`: the line took effect."""


@dataclass(frozen=True)
class Contradiction(Reply):
    """`contradiction`: a change took effect, and some variable has no value left; or for that reason a question has no answer."""


@dataclass(frozen=True)
class Paused(Reply):
    """`paused`: the question has no answer while the session is paused."""


@dataclass(frozen=True)
class Domains(Reply):
    """The values that are left, ascending, by variable, in the order of their declarations."""

    values: Mapping[str, Values]


@dataclass(frozen=True)
class ListedVariable:
    """A variable with its universe as it is printed, such as `1..3` or `{1,4}`."""

    name: str
    universe: str

    @property
    def values(self) -> Values:
        """The values of the universe, ascending."""
        return values_of(self.universe)


@dataclass(frozen=True)
class ListedConstraint:
    """A present constraint: its number, its name, whether it is active or relaxed, and its text."""

    number: int
    name: str
    active: bool
    text: str


@dataclass(frozen=True)
class Listing(Reply):
    """What `list` says: variables in the order of their declarations, and constraints by rising number."""

    variables: Tuple[ListedVariable, ...]
    constraints: Tuple[ListedConstraint, ...]


@dataclass(frozen=True)
class Removal:
    """A line of the log: the value of the variable was taken out by the constraint, because the pairs of `reasons` were before."""

    variable: str
    value: int
    constraint: str
    reasons: Tuple[Tuple[str, int], ...]


@dataclass(frozen=True)
class Log(Reply):
    """The removals, the oldest first."""

    removals: Tuple[Removal, ...]


@dataclass(frozen=True)
class Present(Reply):
    """The value is present, so there is nothing to explain."""


@dataclass(frozen=True)
class Because(Reply):
    """The names of constraints that keep the value out."""

    names: Names


@dataclass(frozen=True)
class Consistent(Reply):
    """Every variable has a value."""


@dataclass(frozen=True)
class Conflict(Reply):
    """The names of constraints that have no common solution."""

    names: Names


@dataclass(frozen=True)
class Ran(Reply):
    """How many revisions `step` ran."""

    revisions: int


@dataclass(frozen=True)
class Found(Reply):
    """Values that satisfy all active constraints, by variable."""

    values: Mapping[str, int]


@dataclass(frozen=True)
class NoSolution(Reply):
    """`none`: the named constraints have no common solution."""

    names: Names


@dataclass(frozen=True)
class Spent(Reply):
    """The budget was spent after so many turns. `best` has the best values so far of `minimize`; `dropped` is that of repair."""

    turns: int
    best: Optional[Mapping[str, int]] = None
    dropped: Optional[int] = None


@dataclass(frozen=True)
class Best(Reply):
    """Values that satisfy all and give the target its least value; the named constraints allow none that is less."""

    values: Mapping[str, int]
    proved_by: Names


@dataclass(frozen=True)
class LeftOut:
    """A constraint that is not kept, and the minimal conflict with it for whose sake it is not."""

    name: str
    conflict: Names


@dataclass(frozen=True)
class Preferred(Reply):
    """Which active constraints can be kept together by their weights, and which are left out, the heaviest first."""

    keep: Names
    leave: Tuple[LeftOut, ...]


@dataclass(frozen=True)
class HardConflict(Reply):
    """The constraints without a weight are a conflict by themselves; these of them are a minimal one."""

    names: Names


@dataclass(frozen=True)
class Certificate(Reply):
    """The lines of a certificate, which `palm check` accepts."""

    @property
    def text(self) -> str:
        """The certificate as a text."""
        return "".join(f"{line}\n" for line in self.lines)


@dataclass(frozen=True)
class Proof(Reply):
    """The lines of `prove`, and how its search ended. Where that is `NoSolution`, `palm proof` accepts the text."""

    end: Reply

    @property
    def text(self) -> str:
        """The proof as a text."""
        return "".join(f"{line}\n" for line in self.lines)


@dataclass(frozen=True)
class Bye(Reply):
    """`quit` ended the session."""


WHOLE = {
    "ok": Done,
    "contradiction": Contradiction,
    "paused": Paused,
    "present": Present,
    "consistent": Consistent,
    "bye": Bye,
}


def parse(form: str, lines: Sequence[str]) -> Reply:
    """The value of a reply that is no refusal, to a line whose first word is `form`."""
    whole = tuple(lines)
    if not whole:
        return NoReply(whole)
    if len(whole) == 1 and whole[0] in WHOLE:
        return WHOLE[whole[0]](whole)
    several = {"domains": _domains, "domain": _domains, "list": _listing, "log": _log, "preferred": _preferred, "prove": _proof}
    if form in several:
        return several[form](whole)
    if form == "cert":
        return Certificate(whole)
    return _answer(whole)


def values_of(domain: str) -> Values:
    """The values of a domain as it is printed, such as `1..3` or `{1,4}`, ascending."""
    if domain.startswith("{"):
        return tuple(sorted({int(value) for value in domain.strip("{}").split(",")}))
    low, high = domain.split("..")
    return tuple(range(int(low), int(high) + 1))


def _pairs(words: Sequence[str]) -> Dict[str, int]:
    pairs = (word.split("=") for word in words)
    return {name: int(value) for name, value in pairs}


def _domains(lines: Tuple[str, ...]) -> Reply:
    split = (line.split(":") for line in lines if line != "end")
    return Domains(lines, {name: tuple(int(value) for value in values.split()) for name, values in split})


def _listing(lines: Tuple[str, ...]) -> Reply:
    variables: List[ListedVariable] = []
    constraints: List[ListedConstraint] = []
    for line in lines[:-1]:
        first, second, third, *rest = line.split(" ", 4)
        if first == "var":
            variables.append(ListedVariable(second, third))
        else:
            constraints.append(ListedConstraint(int(first), third, second == "active", rest[1]))
    return Listing(lines, tuple(variables), tuple(constraints))


def _log(lines: Tuple[str, ...]) -> Reply:
    return Log(lines, tuple(_removal(line) for line in lines[:-1]))


def _removal(line: str) -> Removal:
    variable, value, _, constraint, *rest = line.split(" ", 5)
    reasons = rest[1].split(", ") if rest else []
    pairs = (reason.split(" ") for reason in reasons)
    return Removal(variable, int(value), constraint, tuple((name, int(gone)) for name, gone in pairs))


def _preferred(lines: Tuple[str, ...]) -> Reply:
    first, *rest = lines
    if not rest:
        return HardConflict(lines, tuple(first.split(" ")[2:]))
    words = [line.split(" ") for line in rest[:-1]]
    left = tuple(LeftOut(line[1], tuple(line[3:])) for line in words)
    return Preferred(lines, tuple(first.split(" ")[1:]), left)


def _proof(lines: Tuple[str, ...]) -> Reply:
    return Proof(lines, _answer(lines[-2:-1]))


def _answer(lines: Tuple[str, ...]) -> Reply:
    """A reply that its first word tells: of questions, of searches, and of `step`."""
    first, *rest = lines[0].split(" ")
    names = tuple(rest)
    if first == "found":
        return Found(lines, _pairs(rest))
    if first == "best":
        return Best(lines, _pairs(rest), tuple(lines[1].split(" ")[2:]))
    if first == "spent":
        dropped = int(rest[2]) if rest[1:2] == ["dropped"] else None
        best = _pairs(rest[2:]) if rest[1:2] == ["best"] else None
        return Spent(lines, int(rest[0]), best, dropped)
    if first == "ran":
        return Ran(lines, int(rest[0]))
    named = {"because": Because, "conflict": Conflict, "none": NoSolution}
    return named[first](lines, names)
