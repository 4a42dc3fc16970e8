"""The steps that take a value out, or that empty a variable."""

from __future__ import annotations

from typing import Any, Dict, List, Sequence, Set, Tuple

from palm.replies import Removal

Pair = Tuple[str, int]
MOST = 2_000


def of_certificate(lines: Sequence[str]) -> List[Dict[str, Any]]:
    """The steps of a certificate: a variable, a value, a constraint, and the numbers of earlier steps, counted from 0."""
    steps: List[Dict[str, Any]] = []
    for line in lines:
        if line.startswith("step "):
            _, name, value, _, constraint, *rest = line.split(" ")
            steps.append(step(name, int(value), constraint, [int(number) - 1 for number in rest[1:]]))
    return steps


def of_log(removals: Sequence[Removal], pair: Pair) -> List[Dict[str, Any]]:
    """The removals of the log on which that of the pair rests, by the same form. The reasons of each stand before it."""
    asked: Set[Pair] = {pair}
    kept: List[Removal] = []
    for removal in reversed(removals):
        if (removal.variable, removal.value) in asked:
            asked.update(removal.reasons)
            kept.append(removal)
    kept.reverse()
    places = {(removal.variable, removal.value): place for place, removal in enumerate(kept)}
    return [step(one.variable, one.value, one.constraint, sorted(places[reason] for reason in one.reasons)) for one in kept]


def step(name: str, value: int, constraint: str, reasons: List[int]) -> Dict[str, Any]:
    """A step as it is sent."""
    return {"variable": name, "value": value, "by": constraint, "from": reasons}


def names_of(steps: Sequence[Dict[str, Any]], order: Sequence[str]) -> List[str]:
    """The constraints of the steps, in the given order."""
    used = {one["by"] for one in steps}
    return [name for name in order if name in used]
