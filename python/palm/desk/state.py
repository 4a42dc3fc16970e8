"""What the page shows of a session, and what has changed between two such states."""

from __future__ import annotations

from dataclasses import dataclass, field, replace
from typing import Any, Dict, List, Optional, Tuple

from palm import Session
from palm.replies import Conflict, Listing, Log

from palm.desk.runs import Runs, runs_of


@dataclass(frozen=True)
class Variable:
    """A variable: its universe as runs of values, and what is present as runs of places in it, counted from 0."""

    name: str
    universe: Runs
    places: Dict[str, int] = field(repr=False)
    text: str = ""
    present: Runs = ()

    def with_line(self, text: str) -> Variable:
        """With the values that its line of `domains` has."""
        if text == self.text:
            return self
        places = self.places
        return replace(self, text=text, present=runs_of([places[value] for value in text.split(" ")[1:] if value]))

    def without(self, gone: List[str]) -> Variable:
        """With all values but those that are gone."""
        left = set(self.places.values()) - {self.places[value] for value in gone}
        return replace(self, text="", present=runs_of(sorted(left)))

    def told(self) -> List[Any]:
        """As it is sent."""
        return [self.name, self.universe, self.present]


@dataclass(frozen=True)
class Constraint:
    """A present constraint."""

    number: int
    name: str
    text: str
    active: bool
    weight: Optional[int] = None

    def told(self) -> List[Any]:
        """As it is sent."""
        return [self.number, self.name, self.text, self.active, self.weight]


@dataclass(frozen=True)
class State:
    """The variables, the constraints by number, and whether there is a contradiction or a pause."""

    variables: Tuple[Variable, ...] = ()
    constraints: Dict[int, Constraint] = field(default_factory=dict)
    paused: bool = False
    empty: Optional[str] = None
    conflict: Tuple[str, ...] = ()

    def told(self) -> Dict[str, Any]:
        """All of it."""
        return {
            "variables": [variable.told() for variable in self.variables],
            "constraints": [constraint.told() for constraint in self.constraints.values()],
            **self.mood(),
        }

    def mood(self) -> Dict[str, Any]:
        """What is small, and sent with each change."""
        contradiction = {"variable": self.empty, "names": self.conflict} if self.conflict or self.empty else None
        return {"paused": self.paused, "contradiction": contradiction}

    def after(self, words: List[str]) -> State:
        """The state behind a line that was taken and has these tokens, where it ticks a constraint or weighs it."""
        if words[0] not in ("relax", "enforce", "prefer"):
            return self
        number = next(number for number, constraint in self.constraints.items() if constraint.name == words[1])
        before = self.constraints[number]
        if words[0] == "prefer":
            changed = replace(before, weight=None if words[2] == "none" else int(words[2]))
        else:
            changed = replace(before, active=words[0] == "enforce")
        return replace(self, constraints={**self.constraints, number: changed})

    def since(self, old: State) -> Dict[str, Any]:
        """What has changed; all of it where the variables are not those of the old state and perhaps more."""
        if [(old_one.name, old_one.universe) for old_one in old.variables] != [
            (variable.name, variable.universe) for variable in self.variables[: len(old.variables)]
        ]:
            return {"whole": self.told()}
        pairs = enumerate(zip(self.variables, old.variables))
        return {
            "domains": {number: new.present for number, (new, before) in pairs if new.present != before.present},
            "variables": [variable.told() for variable in self.variables[len(old.variables) :]],
            "constraints": [new.told() for number, new in self.constraints.items() if old.constraints.get(number) != new],
            "retracted": [number for number in old.constraints if number not in self.constraints],
            **self.mood(),
        }


def listed(session: Session, old: State, weights: Dict[str, int]) -> State:
    """The state with what `list` says, and the weights. The domains are still those of the old one."""
    listing = session.send("list")
    assert isinstance(listing, Listing)
    variables = list(old.variables[: len(listing.variables)])
    for told in listing.variables[len(variables) :]:
        places = {str(value): place for place, value in enumerate(told.values)}
        everything: Runs = ((0, len(places) - 1),)
        variables.append(Variable(told.name, runs_of(told.values), places, "", everything))
    constraints = {
        told.number: Constraint(told.number, told.name, told.text, told.active, weights.get(told.name))
        for told in listing.constraints
    }
    return replace(old, variables=tuple(variables), constraints=constraints)


def filtered(session: Session, old: State) -> State:
    """The state with the domains as they are now: in a contradiction what the log has left, and in a pause the old ones."""
    lines = session.ask("domains")
    if lines == ["paused"]:
        return replace(old, paused=True, empty=None, conflict=())
    if lines == ["contradiction"]:
        return contradictory(session, old)
    variables = tuple(variable.with_line(line) for variable, line in zip(old.variables, lines))
    return replace(old, variables=variables, paused=False, empty=None, conflict=())


def contradictory(session: Session, old: State) -> State:
    """The state of a contradiction: filtering ended at the first variable without a value."""
    log, conflict = session.send("log"), session.send("conflict")
    assert isinstance(log, Log) and isinstance(conflict, Conflict)
    gone: Dict[str, List[str]] = {}
    for removal in log.removals:
        gone.setdefault(removal.variable, []).append(str(removal.value))
    variables = tuple(variable.without(gone.get(variable.name, [])) for variable in old.variables)
    empty = next((variable.name for variable in variables if not variable.present), None)
    return replace(old, variables=variables, paused=False, empty=empty, conflict=conflict.names)
