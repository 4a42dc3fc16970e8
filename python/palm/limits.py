"""The limits of a session, and what a model takes of them."""

from __future__ import annotations

from dataclasses import dataclass
from typing import Dict

VALUES = 256
SCOPE = 16
ROWS = 256
FACTOR = 100_000
LEAST, GREATEST = -1_000_000, 1_000_000
SIDE = 1_000_000_000_000
NAME = 32
WEIGHT = 1_000_000
VARIABLES: Dict[int, int] = {1: 64, 2: 128}
CONSTRAINTS: Dict[int, int] = {1: 256, 2: 512}


@dataclass(frozen=True)
class Use:
    """What a model takes: variables and constraints, those that it made itself included, and the version of the language."""

    version: int
    variables: int
    constraints: int

    @property
    def most_variables(self) -> int:
        """How many variables a session of the greatest version may have."""
        return VARIABLES[2]

    @property
    def most_constraints(self) -> int:
        """How many constraints, relaxed ones counted, a session of the greatest version may have."""
        return CONSTRAINTS[2]

    def __str__(self) -> str:
        return (
            f"{self.variables} of {self.most_variables} variables, {self.constraints} of {self.most_constraints} constraints, "
            f"version {self.version}"
        )
