"""What a model speaks of: variables, sums of them, counts, entries and facts; and what compares two of these."""

from __future__ import annotations

from typing import TYPE_CHECKING, Any, Dict, FrozenSet, Hashable, Iterable, List, Mapping, Sequence, Tuple, Union

from palm.errors import ModelError
from palm.limits import SCOPE
from palm.values import Values

if TYPE_CHECKING:
    from palm.constraints import Constraint
    from palm.model import Model

Assignment = Mapping["Variable", int]
Number = Union[int, "Expression"]


class Expression:
    """A sum of atoms with whole coefficients, and a number. Compared with another one or a number it gives a constraint."""

    def __init__(self, terms: Mapping["Atom", int], constant: int = 0) -> None:
        self.terms: Dict[Atom, int] = {atom: factor for atom, factor in terms.items() if factor}
        self.constant = constant

    def evaluate(self, assignment: Assignment) -> int:
        """The value of the expression, where its variables have these numbers."""
        return self.constant + sum(factor * atom.evaluate(assignment) for atom, factor in self.terms.items())

    def bounds(self) -> Tuple[int, int]:
        """A least and a greatest value, by those of its atoms alone."""
        ends = [sorted((factor * min(atom.possible()), factor * max(atom.possible()))) for atom, factor in self.terms.items()]
        return self.constant + sum(low for low, _ in ends), self.constant + sum(high for _, high in ends)

    def __add__(self, other: Any) -> "Expression":
        other = expression(other)
        terms = dict(self.terms)
        for atom, factor in other.terms.items():
            terms[atom] = terms.get(atom, 0) + factor
        return Expression(terms, self.constant + other.constant)

    __radd__ = __add__

    def __mul__(self, factor: int) -> "Expression":
        if not isinstance(factor, int):
            raise ModelError("an expression can be multiplied by a whole number alone")
        return Expression({atom: factor * own for atom, own in self.terms.items()}, factor * self.constant)

    __rmul__ = __mul__

    def __neg__(self) -> "Expression":
        return self * -1

    def __sub__(self, other: Any) -> "Expression":
        return self + expression(other) * -1

    def __rsub__(self, other: Any) -> "Expression":
        return expression(other) + self * -1

    def __abs__(self) -> "Absolute":
        return Absolute(self)

    def __le__(self, other: Any) -> "Constraint":
        return compare(self, "<=", other)

    def __lt__(self, other: Any) -> "Constraint":
        return compare(self, "<", other)

    def __ge__(self, other: Any) -> "Constraint":
        return compare(self, ">=", other)

    def __gt__(self, other: Any) -> "Constraint":
        return compare(self, ">", other)

    def __eq__(self, other: Any) -> "Constraint":  # type: ignore[override]
        return compare(self, "=", other)

    def __ne__(self, other: Any) -> "Constraint":  # type: ignore[override]
        return compare(self, "!=", other)

    __hash__ = object.__hash__

    def __str__(self) -> str:
        text = ""
        for atom, factor in self.terms.items():
            sign = "-" if factor < 0 else "+" if text else ""
            space = " " if text else ""
            times = "" if abs(factor) == 1 else f"{abs(factor)}*"
            text += f"{space}{sign}{space}{times}{atom.shown()}"
        if self.constant or not text:
            text += f" {'-' if self.constant < 0 else '+'} {abs(self.constant)}" if text else str(self.constant)
        return text


class Atom(Expression):
    """An expression that a variable of the session stands for."""

    def __init__(self) -> None:
        super().__init__({self: 1})

    def key(self) -> Hashable:
        """Equal for atoms that mean the same."""
        raise NotImplementedError

    def possible(self) -> FrozenSet[int]:
        """The values that it may have, by those of its variables."""
        raise NotImplementedError

    def evaluate(self, assignment: Assignment) -> int:
        raise NotImplementedError

    def variables(self) -> List["Variable"]:
        """The variables of the model that it depends on."""
        raise NotImplementedError

    def shown(self) -> str:
        """Its text within a sum."""
        raise NotImplementedError


class Named(Atom):
    """An atom whose values may be names."""

    def __init__(self, values: Values) -> None:
        super().__init__()
        self.values = values


class Variable(Named):
    """A variable of a model: made by `Model.var` alone. `name` is its name in the session, `label` what its maker called it."""

    def __init__(self, model: "Model", name: str, label: str, values: Values) -> None:
        super().__init__(values)
        self.model, self.name, self.label = model, name, label
        self._possible = frozenset(values.codes)

    def isin(self, values: Iterable[Any]) -> "Constraint":
        """The variable has one of these values; those that it cannot have mean nothing."""
        from palm.constraints import Within

        return Within(self, frozenset(self.values.code(value) for value in values if value in self.values))

    def key(self) -> Hashable:
        return ("variable", self.name)

    def possible(self) -> FrozenSet[int]:
        return self._possible

    def evaluate(self, assignment: Assignment) -> int:
        return assignment[self]

    def variables(self) -> List["Variable"]:
        return [self]

    def shown(self) -> str:
        return self.label

    def __repr__(self) -> str:
        return f"<{self.label}>"


class Count(Atom):
    """How many of at most 16 variables have the value."""

    def __init__(self, counted: Sequence[Variable], code: int) -> None:
        self.counted, self.code = tuple(counted), code
        super().__init__()

    def key(self) -> Hashable:
        return ("count", tuple(variable.name for variable in self.counted), self.code)

    def possible(self) -> FrozenSet[int]:
        return frozenset(range(len(self.counted) + 1))

    def evaluate(self, assignment: Assignment) -> int:
        return sum(assignment[variable] == self.code for variable in self.counted)

    def variables(self) -> List[Variable]:
        return list(self.counted)

    def shown(self) -> str:
        return f"count of {self.counted[0].values.of(self.code)} in {', '.join(variable.label for variable in self.counted)}"


class Entry(Named):
    """The number that belongs to the value of a variable."""

    def __init__(self, index: Variable, entries: Mapping[int, int], values: Values) -> None:
        super().__init__(values)
        self.index, self.entries = index, dict(entries)

    def key(self) -> Hashable:
        return ("entry", self.index.name, tuple(self.entries.items()))

    def possible(self) -> FrozenSet[int]:
        return frozenset(self.entries.values())

    def evaluate(self, assignment: Assignment) -> int:
        return self.entries[assignment[self.index]]

    def variables(self) -> List[Variable]:
        return [self.index]

    def shown(self) -> str:
        return f"entry of {self.index.label}"


class Fact(Atom):
    """1 where a constraint holds, and 0 where it does not."""

    def __init__(self, constraint: "Constraint") -> None:
        self.constraint = constraint
        super().__init__()

    def key(self) -> Hashable:
        return ("fact", self.constraint.key())

    def possible(self) -> FrozenSet[int]:
        return frozenset((0, 1))

    def evaluate(self, assignment: Assignment) -> int:
        return int(self.constraint.holds(assignment))

    def variables(self) -> List[Variable]:
        return self.constraint.variables()

    def shown(self) -> str:
        return f"({self.constraint})"


class Absolute:
    """The absolute value of an expression. It can be compared with a number that is not below 0."""

    def __init__(self, inside: Expression) -> None:
        self.inside = inside

    def __ge__(self, other: int) -> "Constraint":
        return (self.inside >= other) | (self.inside <= -other)

    def __gt__(self, other: int) -> "Constraint":
        return self >= other + 1

    def __le__(self, other: int) -> "Constraint":
        return (self.inside <= other) & (self.inside >= -other)

    def __lt__(self, other: int) -> "Constraint":
        return self <= other - 1

    def __eq__(self, other: int) -> "Constraint":  # type: ignore[override]
        return (self.inside == other) | (self.inside == -other)

    def __ne__(self, other: int) -> "Constraint":  # type: ignore[override]
        return (self.inside != other) & (self.inside != -other)

    __hash__ = object.__hash__


def expression(given: Any) -> Expression:
    """A number, an expression or a constraint, which counts 1 where it holds, as an expression."""
    from palm.constraints import Constraint

    if isinstance(given, Expression):
        for atom in given.terms:
            if isinstance(atom, Named) and atom.values.named:
                raise ModelError(f"{atom.shown()} has names as values: it can be compared by == and != alone")
        return given
    if isinstance(given, Constraint):
        return Fact(given)
    if isinstance(given, int):
        return Expression({}, int(given))
    raise ModelError(f"{given!r} is no number and no expression")


def compare(left: Expression, op: str, right: Any) -> "Constraint":
    """The constraint `left op right`. Names can be equal or not, and nothing else."""
    from palm.constraints import Linear, named_comparison

    if any(isinstance(side, Named) and side.values.named for side in (left, right)):
        return named_comparison(left, op, right)
    whole = expression(left) - right
    return Linear(Expression(whole.terms), op, -whole.constant)


def count(variables: Iterable[Variable], value: Any) -> Expression:
    """How many of the variables have the value. Those that cannot have it do not count."""
    counted = [variable for variable in variables if value in variable.values]
    codes = {variable.values.code(value) for variable in counted}
    if len(codes) > 1:
        raise ModelError(f"{value!r} is not the same value of all variables: make them with the same values in the same order")
    size = SCOPE if len(counted) <= SCOPE else SCOPE - 1
    chunks = [counted[place : place + size] for place in range(0, len(counted), size)]
    atoms: List[Atom] = [Count(chunk, code) for code in codes for chunk in chunks]
    return atoms[0] if len(atoms) == 1 else Expression({atom: 1 for atom in atoms})


def element(index: Variable, entries: Union[Mapping[Any, Any], Sequence[Any]]) -> Expression:
    """What belongs to the value of a variable, such as its price.

    `entries` maps each of its values; or it is a sequence: in the order of the values where these are names, else by value, from
    0 on.
    """
    if isinstance(entries, Mapping):
        own = {code: entries[index.values.of(code)] for code in index.values.codes}
    else:
        own = {code: entries[code - 1 if index.values.named else code] for code in index.values.codes}
    values = Values(sorted(set(own.values()), key=lambda value: (str(type(value)), value)))
    return Entry(index, {code: values.code(value) for code, value in own.items()}, values)
