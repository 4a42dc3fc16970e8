"""The steps by which a value went, as a tree: in text, and as a picture in DOT."""

from __future__ import annotations

import re
from dataclasses import dataclass
from typing import TYPE_CHECKING, Dict, Iterator, List, Optional, Tuple

from palm.replies import Certificate
from palm.rules import Rule

if TYPE_CHECKING:
    from palm.model import Model

STEP = re.compile(r"step (\w+) (-?\d+) by (\w+)(?: from ([\d ]+))?$")


@dataclass(frozen=True)
class Step:
    """A value went because of a rule, and because of earlier steps. `rule` is None where a definition of the model did it."""

    variable: str
    value: str
    rule: Optional[Rule]
    reasons: Tuple[int, ...]

    @property
    def cause(self) -> str:
        """The label of the rule, or that it was a definition."""
        return self.rule.label if self.rule else "a definition"


class Explanation:
    """The steps of a certificate that `palm check` accepted, each behind its reasons. The last one is the claim.

    `str(explanation)` is the tree, `explanation.dot()` the picture, and `explanation.certificate` the certificate.
    """

    def __init__(self, model: "Model", certificate: Certificate) -> None:
        self.certificate = certificate.text
        own = {variable.name: variable for variable in model.variables.values()}
        self.steps: List[Step] = []
        for line in certificate.lines:
            match = STEP.match(line)
            if match:
                name, code, rule, reasons = match.groups()
                label = own[name].label if name in own else name
                value = str(own[name].values.of(int(code))) if name in own else code
                numbers = tuple(int(number) - 1 for number in (reasons or "").split())
                self.steps.append(Step(label, value, model.rule_of(rule), numbers))

    @property
    def rules(self) -> Tuple[Rule, ...]:
        """The rules of the steps, in the order in which they were first used, without those in the background."""
        rules = {id(step.rule): step.rule for step in self.steps if step.rule and not step.rule.background}
        return tuple(rules.values())

    def groups(self, step: int) -> List[Tuple[int, List[int]]]:
        """The reasons of a step: those of one variable with one cause and the same reasons together, under the first of them."""
        found: Dict[Tuple[str, str, Tuple[int, ...]], List[int]] = {}
        for reason in self.steps[step].reasons:
            other = self.steps[reason]
            found.setdefault((other.variable, other.cause, other.reasons), []).append(reason)
        return [(members[0], members) for members in found.values()]

    def __str__(self) -> str:
        return "\n".join(self._lines(len(self.steps) - 1, [len(self.steps) - 1], "", {}))

    def _lines(self, step: int, members: List[int], indent: str, told: Dict[Tuple[int, ...], bool]) -> Iterator[str]:
        """A line for the values that went by these steps, and behind it, deeper, the lines of their reasons."""
        again = tuple(members) in told
        has_reasons = bool(self.steps[step].reasons)
        yield f"{indent}{self._said(members)}{', as above' if again and has_reasons else ''}"
        if not again:
            told[tuple(members)] = True
            for first, others in self.groups(step):
                yield from self._lines(first, others, indent + "  ", told)

    def _said(self, members: List[int]) -> str:
        step = self.steps[members[0]]
        return f"{step.variable} is not {shown([self.steps[member].value for member in members])}: {step.cause}"

    def dot(self) -> str:
        """The steps as a graph for Graphviz: a node for each group of values, an arrow from each reason to what it leads to."""
        lines = ["digraph explanation {", "  rankdir=LR;", "  node [shape=box];"]
        drawn: Dict[Tuple[int, ...], int] = {}
        waiting = [(len(self.steps) - 1, [len(self.steps) - 1])]
        drawn[tuple(waiting[0][1])] = 0
        while waiting:
            step, members = waiting.pop(0)
            node = drawn[tuple(members)]
            lines.append(f"  n{node} [label={quoted(self._said(members))}];")
            for first, others in self.groups(step):
                if tuple(others) not in drawn:
                    drawn[tuple(others)] = len(drawn)
                    waiting.append((first, others))
                lines.append(f"  n{drawn[tuple(others)]} -> n{node};")
        return "\n".join(lines + ["}"])


def shown(values: List[str]) -> str:
    """Values in a row, with neighbours as a range."""
    if len(values) > 2 and all(re.fullmatch(r"-?\d+", value) for value in values):
        numbers = sorted(map(int, values))
        if numbers[-1] - numbers[0] == len(numbers) - 1:
            return f"{numbers[0]}..{numbers[-1]}"
    return ", ".join(values)


def quoted(text: str) -> str:
    """A text of DOT."""
    return '"' + text.replace("\\", "\\\\").replace('"', '\\"').replace("\n", "\\n") + '"'
