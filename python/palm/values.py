"""The values that a variable may have, and the whole numbers that stand for them in a session."""

from __future__ import annotations

import enum
from typing import Any, Dict, Hashable, Iterable, Tuple, Union

from palm.errors import LimitError, ModelError
from palm.limits import GREATEST, LEAST, VALUES

Given = Union[Iterable[Hashable], "type[enum.Enum]"]


class Values:
    """Values in their order. Whole numbers stand for themselves; of other values, their places do, counted from 1."""

    def __init__(self, given: Given) -> None:
        own: Tuple[Any, ...] = tuple(dict.fromkeys(given))
        if not own:
            raise ModelError("a variable needs a value")
        self.named = not all(isinstance(value, int) and not isinstance(value, enum.Enum) for value in own)
        if self.named:
            self._codes: Dict[Any, int] = {value: place for place, value in enumerate(own, 1)}
        else:
            own = tuple(sorted(int(value) for value in own))
            self._codes = {value: value for value in own}
        self.own = own
        self._owns = {code: value for value, code in self._codes.items()}
        self.codes: Tuple[int, ...] = tuple(sorted(self._owns))
        self._check()

    def _check(self) -> None:
        if len(self.codes) > VALUES:
            raise LimitError("values of a variable", VALUES, "count in larger units, or leave out values that it cannot have")
        if self.codes[0] < LEAST or self.codes[-1] > GREATEST:
            raise ModelError(f"values are from {LEAST:,} to {GREATEST:,}")

    def code(self, value: Any) -> int:
        """The number that stands for a value. ModelError where it is none of these."""
        if value not in self._codes:
            raise ModelError(f"{value!r} is none of the values {', '.join(map(str, self.own[:9]))}{'..' if self.own[9:] else ''}")
        return self._codes[value]

    def of(self, code: int) -> Any:
        """The value that a number stands for."""
        return self._owns[code]

    def __contains__(self, value: object) -> bool:
        return value in self._codes

    def __eq__(self, other: object) -> bool:
        return isinstance(other, Values) and self.own == other.own

    def __hash__(self) -> int:
        return hash(self.own)


def domain(codes: Iterable[int]) -> str:
    """A set of numbers as a domain of the language: a range where it is one."""
    numbers = sorted(codes)
    if numbers[-1] - numbers[0] == len(numbers) - 1:
        return f"{numbers[0]}..{numbers[-1]}"
    return "{" + ",".join(map(str, numbers)) + "}"
