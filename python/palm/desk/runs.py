"""Sets of whole numbers as runs: pairs of a first and a last number, ascending, and never two that touch."""

from __future__ import annotations

from typing import Iterable, List, Sequence, Tuple

Run = Tuple[int, int]
Runs = Tuple[Run, ...]


def runs_of(numbers: Iterable[int]) -> Runs:
    """The runs of ascending numbers."""
    runs: List[Run] = []
    for number in numbers:
        if runs and runs[-1][1] == number - 1:
            runs[-1] = (runs[-1][0], number)
        else:
            runs.append((number, number))
    return tuple(runs)


def members(runs: Sequence[Run]) -> List[int]:
    """The numbers of the runs, ascending."""
    return [number for first, last in runs for number in range(first, last + 1)]
