"""From constraints of a model to constraints of a session, with the variables and definitions that these need."""

from __future__ import annotations

import itertools
from math import gcd
from typing import Callable, Dict, Hashable, Iterable, List, Optional, Sequence, Set, Tuple

from palm.constraints import All, Constraint, Differ, Linear, Some, Table, Within, small_table
from palm.errors import LimitError, ModelError
from palm.expressions import Atom, Count, Entry, Expression, Fact, Named, Variable
from palm.limits import FACTOR, SCOPE, SIDE, VALUES

Terms = Dict[str, int]
Columns = Tuple[List[Variable], List[Tuple[int, ...]]]
FLAG = (0, 1)


class Compiler:
    """Writes constraints. `declare(kind, values)` makes a variable of its own and gives its name, `define(name, texts)` adds what
    gives it its value."""

    def __init__(self, declare: Callable[[str, Sequence[int]], str], define: Callable[[str, List[str]], None]) -> None:
        self._declare, self._define = declare, define
        self._names: Dict[Hashable, str] = {}
        self._values: Dict[str, Tuple[int, ...]] = {}

    def write(self, constraint: Constraint) -> List[str]:
        """Texts of constraints that hold together exactly where the constraint does; none where it always holds."""
        if isinstance(constraint, Some):
            return self._some(constraint)
        if isinstance(constraint, All):
            return [text for member in constraint.members for text in self.write(member)]
        if isinstance(constraint, Differ):
            return self._differ(constraint)
        if isinstance(constraint, Within):
            return self._within(constraint)
        if isinstance(constraint, Table):
            return self._table([self.name(atom) for atom in constraint.atoms], constraint.rows)
        assert isinstance(constraint, Linear)
        return self._linear(constraint)

    def name(self, atom: Atom) -> str:
        """The session's variable for the atom, made where there is none yet."""
        if isinstance(atom, Variable):
            self._values.setdefault(atom.name, atom.values.codes)
            return atom.name
        key = atom.key()
        if key not in self._names:
            self._names[key] = self._defined(atom)
        return self._names[key]

    def total(self, expression: Expression, kind: str = "total") -> str:
        """A variable that has the value of the expression."""
        terms = self._terms(expression)
        if len(terms) == 1 and not expression.constant and list(terms.values()) == [1]:
            return next(iter(terms))
        return self._total(terms, expression.constant, kind)

    def _defined(self, atom: Atom) -> str:
        if isinstance(atom, Count):
            name = self._new("count", sorted(atom.possible()))
            self._define(name, [f"count {atom.code} {' '.join(map(self.name, atom.counted))} = {name}"])
            return name
        if isinstance(atom, Entry):
            name = self._new("entry", sorted(atom.possible()))
            self._define(name, self._entry(name, atom))
            return name
        assert isinstance(atom, Fact)
        return self._fact(atom.constraint)

    def _entry(self, name: str, atom: Entry) -> List[str]:
        index = self.name(atom.index)
        if list(atom.entries) == list(range(1, len(atom.entries) + 1)):
            return [f"element {name} {index} ({','.join(map(str, atom.entries.values()))})"]
        return self._table([index, name], atom.entries.items())

    def _fact(self, constraint: Constraint) -> str:
        """A flag that is 1 exactly where the constraint holds."""
        flag = self._new("fact", FLAG)
        if isinstance(constraint, Within) and len(constraint.codes) == 1:
            code = next(iter(constraint.codes))
            self._define(flag, [f"count {code} {self.name(constraint.atom)} = {flag}"])
            return flag
        small = _whole_table(constraint)
        if small is not None:
            variables, rows = small
            self._define(flag, self._table([self.name(variable) for variable in variables] + [flag], rows))
            return flag
        self._define(flag, self._when(flag, 1, constraint) + self._when(flag, 0, constraint.negated()))
        return flag

    def _new(self, kind: str, values: Sequence[int]) -> str:
        name = self._declare(kind, values)
        self._values[name] = tuple(values)
        return name

    def _terms(self, expression: Expression) -> Terms:
        """Its atoms by the names of their variables, those that mean the same together."""
        terms: Terms = {}
        for atom, factor in expression.terms.items():
            name = self.name(atom)
            terms[name] = terms.get(name, 0) + factor
        return {name: factor for name, factor in terms.items() if factor}

    def _linear(self, constraint: Linear) -> List[str]:
        counted = self._counted(constraint)
        if counted:
            return counted
        small = small_table(constraint) if constraint.op in ("=", "!=") and len(constraint.left.terms) > 2 else None
        if small is not None and small.rows:
            return self._table([self.name(variable) for variable in small.variables()], small.rows)
        return self._sum(self._terms(constraint.left), constraint.op, constraint.right)

    def _counted(self, constraint: Linear) -> List[str]:
        """A count that is compared with a number, or with a variable, needs no variable of its own."""
        counts = [(atom, factor) for atom, factor in constraint.left.terms.items() if isinstance(atom, Count)]
        others = [(atom, factor) for atom, factor in constraint.left.terms.items() if not isinstance(atom, Count)]
        if len(counts) != 1 or abs(counts[0][1]) != 1 or len(others) > 1:
            return []
        (atom, sign), right = counts[0], constraint.right * counts[0][1]
        op = constraint.op if sign == 1 else constraint.op.translate(str.maketrans("<>", "><"))
        counted = f"count {atom.code} {' '.join(map(self.name, atom.counted))} {op}"
        if not others:
            return [f"{counted} {right}"] if abs(right) <= 1_000_000 else []
        target, factor = others[0]
        if factor * sign != -1 or right or target in atom.variables() or len(atom.variables()) == SCOPE:
            return []
        return [f"{counted} {self.name(target)}"]

    def _sum(self, terms: Terms, op: str, right: int) -> List[str]:
        """The sum of the terms stands in the relation to the number."""
        if op in ("<", ">"):
            op, right = op + "=", right - 1 if op == "<" else right + 1
        low, high = self._bounds(terms)
        always = {"<=": high <= right, ">=": low >= right, "!=": not low <= right <= high, "=": low == high == right}[op]
        never = {"<=": low > right, ">=": high < right, "=": not low <= right <= high, "!=": low == high == right}[op]
        if always or never:
            return [] if always else self._never(terms)
        divisor = gcd(*terms.values()) if len(terms) > 1 else abs(next(iter(terms.values())))
        if right % divisor and op in ("=", "!="):
            return [] if op == "!=" else self._never(terms)
        terms = {name: factor // divisor for name, factor in terms.items()}
        right = -(-right // divisor) if op == ">=" else right // divisor
        return [self._comparison(terms, op, right)]

    def _comparison(self, terms: Terms, op: str, right: int) -> str:
        names, factors = list(terms), list(terms.values())
        turned = op.translate(str.maketrans("<>", "><"))
        if factors in ([1], [-1]):
            return f"{names[0]} {op} {right}" if factors == [1] else f"{names[0]} {turned} {-right}"
        if sorted(factors) == [-1, 1]:
            first, second = (names[0], names[1]) if factors[0] == 1 else (names[1], names[0])
            return f"{first} {op} {second}" + (f" {'-' if right < 0 else '+'} {abs(right)}" if right else "")
        terms = self._shortened(terms, SCOPE)
        if max(abs(factor) for factor in terms.values()) > FACTOR or abs(right) > SIDE:
            raise LimitError("coefficient of a sum", FACTOR, "count in larger units")
        shown = " + ".join(f"{factor}*{name}" if factor != 1 else name for name, factor in terms.items())
        return f"sum {shown.replace('+ -', '- ')} {op} {right}"

    def _shortened(self, terms: Terms, most: int) -> Terms:
        """As many terms as a sum may have: some of them together have a variable for what they sum up to."""
        while len(terms) > most:
            rest = list(terms.items())
            shorter: Terms = {}
            while len(rest) + len(shorter) > most and len(rest) > 1:
                size = self._chunk(rest)
                shorter[self._total(dict(rest[:size]), 0, "sum")] = 1
                rest = rest[size:]
            terms = {**shorter, **dict(rest)}
        return terms

    def _chunk(self, rest: Sequence[Tuple[str, int]]) -> int:
        """How many of the terms, from the first on, sum up to few enough values."""
        sums, size = {0}, 0
        for name, factor in rest[: SCOPE - 1]:
            sums = {total + factor * value for total in sums for value in self._values[name]}
            if len(sums) > VALUES:
                break
            size += 1
        if size < 2:
            way_out = "count in larger units, give its variables fewer values, or bound parts of it by variables of your own"
            raise LimitError("values that a part of a sum of more than 16 variables sums up to", VALUES, way_out)
        return size

    def _total(self, terms: Terms, constant: int, kind: str) -> str:
        """A variable for a sum, with its definition; the same one for the same sum."""
        key = ("sum", frozenset(terms.items()), constant)
        if key not in self._names:
            sums = {constant}
            for name, factor in terms.items():
                sums = {total + factor * value for total in sums for value in self._values[name]}
                if len(sums) > 64 * VALUES:
                    break
            if len(sums) > VALUES:
                raise LimitError(f"values of {kind}", VALUES, "count in larger units, or give its variables fewer values")
            name = self._new(kind, sorted(sums))
            self._define(name, self._equal(terms, constant, name))
            self._names[key] = name
        return self._names[key]

    def _equal(self, terms: Terms, constant: int, name: str) -> List[str]:
        """The variable has the value of the sum: by a table where there are few rows, since filtering sees more of it then."""
        size = 1
        for other in terms:
            size *= len(self._values[other])
        if size <= VALUES and 1 < len(terms) < SCOPE:
            columns = itertools.product(*(self._values[other] for other in terms))
            return self._table(
                [*terms, name], ((*row, constant + sum(f * v for f, v in zip(terms.values(), row))) for row in columns)
            )
        return self._sum({**terms, name: -1}, "=", -constant)

    def _bounds(self, terms: Terms) -> Tuple[int, int]:
        ends = [sorted((factor * min(self._values[name]), factor * max(self._values[name]))) for name, factor in terms.items()]
        return sum(low for low, _ in ends), sum(high for _, high in ends)

    def _never(self, names: Iterable[str]) -> List[str]:
        """A constraint that no value of the first variable satisfies; where there is none, of a variable that is 0."""
        name = next(iter(names), None) or self._names.setdefault("zero", self._names.get("zero") or self._new("zero", (0,)))
        return [f"count {self._values[name][0]} {name} > 1"]

    def _within(self, constraint: Within) -> List[str]:
        name = self.name(constraint.atom)
        codes, possible = constraint.codes, constraint.atom.possible()
        if codes == possible:
            return []
        if not codes:
            return self._never([name])
        if len(codes) == 1:
            return [f"{name} = {next(iter(codes))}"]
        if len(possible - codes) == 1:
            return [f"{name} != {next(iter(possible - codes))}"]
        return self._table([name], ((code,) for code in codes))

    def _table(self, names: Sequence[str], rows: Iterable[Sequence[int]]) -> List[str]:
        shown = sorted(tuple(row) for row in rows)
        if not shown:
            return self._never(names)
        return [f"table {' '.join(names)} : {' '.join('(' + ','.join(map(str, row)) + ')' for row in shown)}"]

    def _differ(self, constraint: Differ) -> List[str]:
        plain = all(isinstance(one, Atom) for one in constraint.expressions)
        kinds = {one.values if one.values.named else None for one in constraint.expressions if isinstance(one, Named)}
        single = all(len(one.terms) == 1 for one in constraint.expressions)
        if len(kinds) > 1 or not plain and single and len(constraint.expressions) <= SCOPE:
            return [text for pair in constraint.pairs() for text in self.write(pair)]
        names = [self.name(one) if isinstance(one, Atom) else self.total(one, "place") for one in constraint.expressions]
        if len(set(names)) < len(names):
            return self._never(names)
        return self._differing(names)

    def _differing(self, names: Sequence[str]) -> List[str]:
        if len(names) < 2:
            return []
        if len(names) <= SCOPE:
            return [f"differ {' '.join(names)}"]
        half = SCOPE // 2
        blocks = [list(names[place : place + half]) for place in range(0, len(names), half)]
        return [f"differ {' '.join(one + other)}" for one, other in itertools.combinations(blocks, 2)]

    def _some(self, constraint: Some) -> List[str]:
        if not constraint.members:
            raise ModelError("none of no constraints holds")
        if len(constraint.members) == 1:
            return self.write(constraint.members[0])
        apart = self._apart(constraint)
        if apart:
            return apart
        small = small_table(constraint)
        if small is not None:
            return self._table([variable.name for variable in map(self._known, small.variables())], small.rows)
        if len(constraint.members) == 2:
            flag = self._new("either", FLAG)
            return self._when(flag, 1, constraint.members[0]) + self._when(flag, 0, constraint.members[1])
        flags, texts = self._cases(constraint)
        return texts + self._sum(dict.fromkeys(flags, 1), ">=", 1)

    def _cases(self, constraint: Some) -> Tuple[List[str], List[str]]:
        """A flag for each member, which is 1 only where it holds, and texts that see to it."""
        implied = [self._implied(member) for member in constraint.members]
        return [flag for flag, _ in implied], [text for _, texts in implied for text in texts]

    def _known(self, variable: Variable) -> Variable:
        self.name(variable)
        return variable

    def _apart(self, constraint: Some) -> List[str]:
        """Two variables that are far enough apart: where few distances are forbidden, each by a comparison."""
        if len(constraint.members) != 2 or not all(isinstance(member, Linear) for member in constraint.members):
            return []
        first, second = (self._at_least(member) for member in constraint.members if isinstance(member, Linear))
        if not first or not second or first[0] != {name: -factor for name, factor in second[0].items()}:
            return []
        terms, low = first
        if sorted(terms.values()) != [-1, 1]:
            return []
        (one, sign), (other, _) = terms.items()
        gaps: Set[int] = {sign * (a - b) for a in self._values[one] for b in self._values[other]}
        forbidden = sorted(gap for gap in gaps if -second[1] < gap < low)
        return [self._comparison(terms, "!=", gap) for gap in forbidden] if len(forbidden) <= 5 else []

    def _at_least(self, constraint: Linear) -> Optional[Tuple[Terms, int]]:
        """An inequality as a sum that is at least a number."""
        terms, right = self._terms(constraint.left), constraint.right
        if constraint.op in ("<=", "<"):
            terms, right = {name: -factor for name, factor in terms.items()}, -right
        if constraint.op in ("<", ">"):
            right += 1
        return (terms, right) if constraint.op not in ("=", "!=") else None

    def _implied(self, constraint: Constraint) -> Tuple[str, List[str]]:
        """A flag that is 1 only where the constraint holds, and texts that see to it."""
        if len(constraint.variables()) == 1 and _whole_table(constraint) is not None:
            return self.name(Fact(constraint)), []
        flag = self._new("case", FLAG)
        return flag, self._when(flag, 1, constraint)

    def _when(self, flag: str, value: int, constraint: Constraint) -> List[str]:
        """Texts that let the constraint hold where the flag has the value."""
        small = _when_table(constraint, value)
        if small is not None:
            variables, rows = small
            return self._table([self.name(variable) for variable in variables] + [flag], rows)
        if isinstance(constraint, Some):
            flags, texts = self._cases(constraint)
            return texts + self._when_sum(flag, value, dict.fromkeys(flags, 1), ">=", 1)
        if isinstance(constraint, All):
            return [text for member in constraint.members for text in self._when(flag, value, member)]
        if isinstance(constraint, Differ):
            return [text for pair in constraint.pairs() for text in self._when(flag, value, pair)]
        if isinstance(constraint, Within):
            return self._when(flag, value, _runs(constraint))
        if isinstance(constraint, Linear):
            return self._when_linear(flag, value, constraint)
        raise ModelError(f"{constraint} cannot stand in a choice: it has too many rows")

    def _when_linear(self, flag: str, value: int, constraint: Linear) -> List[str]:
        if constraint.op == "!=":
            left, right = constraint.left, constraint.right
            return self._when(flag, value, Some([Linear(left, "<", right), Linear(left, ">", right)]))
        return self._when_sum(flag, value, self._terms(constraint.left), constraint.op, constraint.right)

    def _when_sum(self, flag: str, value: int, terms: Terms, op: str, right: int) -> List[str]:
        """An inequality that says nothing where the flag has its other value: the flag's coefficient is as large as that takes."""
        if op == "=":
            return self._when_sum(flag, value, terms, "<=", right) + self._when_sum(flag, value, terms, ">=", right)
        if op in (">", ">="):
            negative = {name: -factor for name, factor in terms.items()}
            return self._when_sum(flag, value, negative, "<", 1 - right if op == ">=" else -right)
        right = right - 1 if op == "<" else right
        slack = max(0, self._bounds(terms)[1] - right)
        if not slack:
            return []
        if flag in terms:
            raise ModelError("a choice within itself")
        terms = self._shortened(terms, SCOPE - 1)
        if value:
            return self._sum({**terms, flag: slack}, "<=", right + slack)
        return self._sum({**terms, flag: -slack}, "<=", right)


def _whole_table(constraint: Constraint) -> Optional[Columns]:
    """Each row of the variables with 1 where the constraint holds, and 0 where it does not; None where these are too many."""
    variables = constraint.variables()
    columns = _columns(variables, VALUES)
    if columns is None or len(variables) >= SCOPE:
        return None
    return variables, [(*row, int(constraint.holds(dict(zip(variables, row))))) for row in itertools.product(*columns)]


def _when_table(constraint: Constraint, value: int) -> Optional[Columns]:
    """The rows that let the constraint hold where the flag behind them has the value; None where these are too many."""
    variables = constraint.variables()
    columns = _columns(variables, VALUES)
    if columns is None or len(variables) >= SCOPE:
        return None
    rows = list(itertools.product(*columns))
    held = [(*row, value) for row in rows if constraint.holds(dict(zip(variables, row)))]
    return (variables, [(*row, 1 - value) for row in rows] + held) if len(rows) + len(held) <= VALUES else None


def _columns(variables: Sequence[Variable], most: int) -> Optional[List[Tuple[int, ...]]]:
    size = 1
    for variable in variables:
        size *= len(variable.values.codes)
        if size > most:
            return None
    return [variable.values.codes for variable in variables]


def _runs(constraint: Within) -> Constraint:
    """The values of a set as ranges of neighbours among the possible ones."""
    possible = sorted(constraint.atom.possible())
    runs: List[Constraint] = []
    for inside, group in itertools.groupby(possible, key=lambda code: code in constraint.codes):
        codes = list(group)
        if inside:
            atom = Expression({constraint.atom: 1})
            runs.append(All([Linear(atom, ">=", codes[0]), Linear(atom, "<=", codes[-1])]))
    return Some(runs) if len(runs) != 1 else runs[0]
