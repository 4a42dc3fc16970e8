"""Rules: what a model is told, under labels of its maker, and may take back."""

from __future__ import annotations

from typing import TYPE_CHECKING, List, NamedTuple, Optional, Tuple

if TYPE_CHECKING:
    from palm.constraints import Constraint
    from palm.model import Model


class Rule:
    """A constraint of a model under a label; several constraints of the session may stand for it. Made by `Model.add` alone.

    `names` are their names in the session; `weight` is that of a wish, and None of what has to hold; answers leave out a rule that
    is `background`.
    """

    def __init__(self, model: "Model", label: str, constraint: "Constraint", names: List[str], background: bool) -> None:
        self.model, self.label, self.constraint, self.names, self.background = model, label, constraint, names, background
        self.weight: Optional[int] = None
        self.active = self.present = True

    def relax(self) -> None:
        """Takes the rule out of force, until `enforce`. Nothing happens where it is."""
        self.model.set_active(self, False)

    def enforce(self) -> None:
        """Puts the rule back in force. Nothing happens where it is."""
        self.model.set_active(self, True)

    def retract(self) -> None:
        """Takes the rule back for good. What a rule has defined for itself, such as sums of parts, stays."""
        self.model.retract(self)

    def prefer(self, weight: Optional[int]) -> None:
        """Makes the rule a wish of this weight, from 1 to 1,000,000, or, by None, one that has to hold."""
        self.model.prefer(self, weight)

    def __str__(self) -> str:
        return self.label

    def __repr__(self) -> str:
        return f"<rule {self.label}>"


Rules = Tuple[Rule, ...]


class LeftOut(NamedTuple):
    """A wish that is not kept, and rules, itself among them, that cannot hold together."""

    rule: Rule
    conflict: Rules


class Preference(NamedTuple):
    """Which rules in force can be kept together by their weights. Where what has to hold is a conflict, `hard` has its rules."""

    keep: Rules
    leave: Tuple[LeftOut, ...]
    hard: Rules
