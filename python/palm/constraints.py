"""What may hold of a model: comparisons, sets, tables, differing values, and these joined by and, or and not."""

from __future__ import annotations

import itertools
from typing import Any, FrozenSet, Hashable, Iterable, Iterator, List, NamedTuple, Optional, Sequence, Tuple, Union

from palm.errors import LimitError, ModelError
from palm.expressions import Assignment, Atom, Expression, Named, Variable, expression
from palm.limits import ROWS, SCOPE

OPPOSITE = {"=": "!=", "!=": "=", "<=": ">", ">": "<=", "<": ">=", ">=": "<"}
RELATIONS = {
    "=": int.__eq__,
    "!=": int.__ne__,
    "<=": int.__le__,
    "<": int.__lt__,
    ">=": int.__ge__,
    ">": int.__gt__,
}
TRIED = 4096


class Constraint:
    """`a & b`, `a | b` and `~a` join constraints. In a sum one counts 1 where it holds, and else 0."""

    def key(self) -> Hashable:
        """Equal for constraints that mean the same."""
        raise NotImplementedError

    def variables(self) -> List[Variable]:
        """Its variables, each once, in the order of its text."""
        raise NotImplementedError

    def holds(self, assignment: Assignment) -> bool:
        """Whether it holds where its variables have these numbers."""
        raise NotImplementedError

    def negated(self) -> "Constraint":
        """The constraint that holds where this one does not."""
        raise NotImplementedError

    def __and__(self, other: "Constraint") -> "Constraint":
        return All([self, other])

    def __or__(self, other: "Constraint") -> "Constraint":
        return Some([self, other])

    def __invert__(self) -> "Constraint":
        return self.negated()

    def __add__(self, other: Any) -> Expression:
        return expression(self) + expression(other)

    __radd__ = __add__

    def __sub__(self, other: Any) -> Expression:
        return expression(self) - expression(other)

    def __rsub__(self, other: Any) -> Expression:
        return expression(other) - expression(self)

    def __mul__(self, factor: int) -> Expression:
        return expression(self) * factor

    __rmul__ = __mul__

    def __bool__(self) -> bool:
        raise TypeError(
            f"{self} is a constraint, neither true nor false: join several by &, | and ~, and write ranges as x.isin(range(..))"
        )


def once(variables: Iterable[Variable]) -> List[Variable]:
    """Each of them once, in their order."""
    return list({id(variable): variable for variable in variables}.values())


class Linear(Constraint):
    """A sum stands in the relation to a number."""

    def __init__(self, left: Expression, op: str, right: int) -> None:
        self.left, self.op, self.right = Expression(left.terms), op, right - left.constant

    def key(self) -> Hashable:
        terms = frozenset((atom.key(), factor) for atom, factor in self.left.terms.items())
        return ("linear", terms, self.op, self.right)

    def variables(self) -> List[Variable]:
        return once(variable for atom in self.left.terms for variable in atom.variables())

    def holds(self, assignment: Assignment) -> bool:
        return bool(RELATIONS[self.op](self.left.evaluate(assignment), self.right))

    def negated(self) -> Constraint:
        return Linear(self.left, OPPOSITE[self.op], self.right)

    def __str__(self) -> str:
        names = list(self.left.terms.items())
        if len(names) == 2 and names[0][1] == 1 and names[1][1] == -1:
            offset = f" {'-' if self.right < 0 else '+'} {abs(self.right)}" if self.right else ""
            return f"{names[0][0].shown()} {self.op} {names[1][0].shown()}{offset}"
        return f"{self.left} {self.op} {self.right}"


class Within(Constraint):
    """A variable, or an entry, has one of some values."""

    def __init__(self, atom: Atom, codes: FrozenSet[int]) -> None:
        self.atom, self.codes = atom, codes & atom.possible()

    def key(self) -> Hashable:
        return ("within", self.atom.key(), self.codes)

    def variables(self) -> List[Variable]:
        return self.atom.variables()

    def holds(self, assignment: Assignment) -> bool:
        return self.atom.evaluate(assignment) in self.codes

    def negated(self) -> Constraint:
        return Within(self.atom, self.atom.possible() - self.codes)

    def __str__(self) -> str:
        values = self.atom.values if isinstance(self.atom, Named) else None
        shown = [str(values.of(code) if values else code) for code in sorted(self.codes)]
        if len(shown) == 1:
            return f"{self.atom.shown()} = {shown[0]}"
        return f"{self.atom.shown()} in {{{', '.join(shown)}}}"


class Table(Constraint):
    """The values of the atoms are one of the rows."""

    def __init__(self, atoms: Sequence[Atom], rows: Iterable[Sequence[int]]) -> None:
        self.atoms, self.rows = tuple(atoms), frozenset(tuple(row) for row in rows)
        if len(self.atoms) > SCOPE:
            raise LimitError("variables of a table", SCOPE, "make several tables that share a variable")
        if len(self.rows) > ROWS:
            raise LimitError("rows of a table", ROWS, "make several tables, or say it by comparisons and sums")

    def key(self) -> Hashable:
        return ("table", tuple(atom.key() for atom in self.atoms), self.rows)

    def variables(self) -> List[Variable]:
        return once(variable for atom in self.atoms for variable in atom.variables())

    def holds(self, assignment: Assignment) -> bool:
        return tuple(atom.evaluate(assignment) for atom in self.atoms) in self.rows

    def negated(self) -> Constraint:
        others = itertools.product(*(sorted(atom.possible()) for atom in self.atoms))
        return Table(self.atoms, itertools.islice((row for row in others if row not in self.rows), ROWS + 1))

    def __str__(self) -> str:
        return f"table {' '.join(atom.shown() for atom in self.atoms)} ({len(self.rows)} rows)"


class Differ(Constraint):
    """No two of the expressions have one value."""

    def __init__(self, expressions: Sequence[Expression]) -> None:
        self.expressions = tuple(expressions)

    def pairs(self) -> List[Constraint]:
        """The same as a comparison for each two of them."""
        return [one != other for one, other in itertools.combinations(self.expressions, 2)]

    def key(self) -> Hashable:
        return ("differ", tuple(pair.key() for pair in self.pairs()))

    def variables(self) -> List[Variable]:
        return once(variable for one in self.expressions for atom in one.terms for variable in atom.variables())

    def holds(self, assignment: Assignment) -> bool:
        return all(pair.holds(assignment) for pair in self.pairs())

    def negated(self) -> Constraint:
        return Some([pair.negated() for pair in self.pairs()])

    def __str__(self) -> str:
        return f"differ {', '.join(str(one) for one in self.expressions)}"


class All(Constraint):
    """Each of the constraints holds."""

    sign = " and "

    def __init__(self, members: Iterable[Constraint]) -> None:
        self.members: List[Constraint] = []
        for member in members:
            self.members += member.members if isinstance(member, All) and type(member) is type(self) else [member]

    def key(self) -> Hashable:
        return (self.sign, tuple(member.key() for member in self.members))

    def variables(self) -> List[Variable]:
        return once(variable for member in self.members for variable in member.variables())

    def holds(self, assignment: Assignment) -> bool:
        return all(member.holds(assignment) for member in self.members)

    def negated(self) -> Constraint:
        return Some([member.negated() for member in self.members])

    def __str__(self) -> str:
        return self.sign.join(f"({member})" if isinstance(member, All) else str(member) for member in self.members)


class Some(All):
    """At least one of the constraints holds."""

    sign = " or "

    def holds(self, assignment: Assignment) -> bool:
        return any(member.holds(assignment) for member in self.members)

    def negated(self) -> Constraint:
        return All([member.negated() for member in self.members])


def named_comparison(left: Any, op: str, right: Any) -> Constraint:
    """Two names, or a name and a value, are equal or not."""
    if op not in ("=", "!="):
        raise ModelError(f"names have no order: compare {left} by == and != alone")
    if not isinstance(left, Named):
        left, right = right, left
    if not isinstance(left, Named) or isinstance(right, Expression) and not isinstance(right, Named):
        raise ModelError(f"names are equal to names alone: {left} {op} {right}")
    if not isinstance(right, Named):
        equal: Constraint = Within(left, frozenset([left.values.code(right)] if right in left.values else []))
    elif right.values == left.values:
        return Linear(Expression({left: 1, right: -1}), op, 0)
    else:
        shared = [value for value in left.values.own if value in right.values]
        equal = Table([left, right], [(left.values.code(value), right.values.code(value)) for value in shared])
    return equal if op == "=" else equal.negated()


def small_table(constraint: Constraint) -> Optional[Table]:
    """The constraint as a table of its variables, where it has few enough of them, of values and of rows; else None."""
    variables = constraint.variables()
    tried = 1
    for variable in variables:
        tried *= len(variable.possible())
        if tried > TRIED:
            return None
    if not 1 <= len(variables) <= SCOPE:
        return None
    rows = list(itertools.islice(_rows(constraint, variables), ROWS + 1))
    return Table(variables, rows) if len(rows) <= ROWS else None


def _rows(constraint: Constraint, variables: Sequence[Variable]) -> Iterator[Tuple[int, ...]]:
    for row in itertools.product(*(variable.values.codes for variable in variables)):
        if constraint.holds(dict(zip(variables, row))):
            yield row


def differ(*expressions: Union[Expression, Iterable[Expression]]) -> Constraint:
    """No two of the expressions have one value; any number of them, given one by one or as a list."""
    flat: List[Expression] = []
    for one in expressions:
        flat += [one] if isinstance(one, Expression) else list(one)
    return Differ(flat)


def either(*constraints: Constraint) -> Constraint:
    """At least one of the constraints holds."""
    return Some(constraints)


def implies(first: Constraint, then: Constraint) -> Constraint:
    """Where the first constraint holds, the second one does."""
    return Some([first.negated(), then])


def table(variables: Sequence[Variable], rows: Iterable[Sequence[Any]]) -> Constraint:
    """The values of the variables are one of the rows. A row with a value that its variable cannot have means nothing."""
    kept = []
    for row in rows:
        if len(row) != len(variables):
            raise ModelError(f"a row of {len(row)} values for {len(variables)} variables: {row!r}")
        if all(value in variable.values for variable, value in zip(variables, row)):
            kept.append([variable.values.code(value) for variable, value in zip(variables, row)])
    return Table(variables, kept)


class Task(NamedTuple):
    """Something that is done without a break, from a start on, for so long."""

    start: Expression
    length: int


def no_overlap(tasks: Iterable[Union[Task, Tuple[Expression, int]]]) -> Constraint:
    """No two of the tasks are done at a time: for each two of them, one ends before the other one begins, or as it begins."""
    pairs = itertools.combinations([Task(*task) for task in tasks], 2)
    return All([Some([one.start + one.length <= other.start, other.start + other.length <= one.start]) for one, other in pairs])
