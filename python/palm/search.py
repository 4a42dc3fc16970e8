"""Searches of a model: solutions in its own values, the best of them, several of them."""

from __future__ import annotations

from dataclasses import dataclass, replace
from math import gcd
from typing import TYPE_CHECKING, Any, Callable, Iterator, List, Mapping, Optional, Tuple, Union

from palm.checking import check_proof
from palm.chooser import Chooser, Cut, Outcome, Turn
from palm.constraints import Constraint, Linear
from palm.errors import PalmError
from palm.expressions import Expression, Variable, expression
from palm.replies import Best, Domains, Found, NoSolution, Proof
from palm.rules import Rules

if TYPE_CHECKING:
    from palm.model import Model

WINDOW = 255


class Solution(Mapping[str, Any]):
    """Values by the labels of their variables. `solution[x]` also takes a variable or an expression, and gives its value."""

    def __init__(self, model: "Model", codes: Mapping[str, int]) -> None:
        self._codes = {variable: codes[variable.name] for variable in model.variables.values()}
        self._own = {variable.label: variable.values.of(code) for variable, code in self._codes.items()}

    def __getitem__(self, key: Union[str, Expression, Constraint]) -> Any:
        if isinstance(key, Variable):
            return key.values.of(self._codes[key])
        if isinstance(key, Expression):
            return key.evaluate(self._codes)
        if isinstance(key, Constraint):
            return key.holds(self._codes)
        return self._own[key]

    def __iter__(self) -> Iterator[str]:
        return iter(self._own)

    def __len__(self) -> int:
        return len(self._own)

    def __repr__(self) -> str:
        return f"Solution({', '.join(f'{label}={value}' for label, value in self._own.items())})"


@dataclass(frozen=True)
class Progress:
    """What is known once a budget was spent: guide, turns and seconds so far, and the best solution with its value, if any."""

    guide: str
    budget: int
    turns: int
    seconds: float
    best: Optional[Solution]
    value: Optional[int]


@dataclass(frozen=True)
class Answer:
    """What a search found.

    | `outcome` | what is known |
    |---|---|
    | `found` | `solution` satisfies all rules; of an objective it is the best so far, and better ones may be there, or not |
    | `best` | `solution` satisfies all rules, and `rules` allow the objective no better `value` |
    | `none` | `rules` have no common solution; `proof` is a proof that `palm proof` accepted, where one was asked for |
    | `unknown` | nothing: the time was over, or somebody stopped the search |

    `guide` answered, with at most `budget` turns; the searches before it were spent after `turns` together. `seconds` are those of
    all. An answer is true where it has a solution, and `answer[x]` is the value of `x` in it.
    """

    outcome: str
    solution: Optional[Solution]
    value: Optional[int]
    rules: Rules
    guide: str
    budget: int
    turns: int
    seconds: float
    stopped: bool
    proof: Optional[str] = None

    def __bool__(self) -> bool:
        return self.solution is not None

    def __getitem__(self, key: Union[str, Expression, Constraint]) -> Any:
        if self.solution is None:
            raise PalmError(f"there is no solution: {self.outcome}")
        return self.solution[key]


class Solutions(List[Solution]):
    """Solutions of a model, no two of them the same; `complete` says that there are no others."""

    complete = False


class Search:
    """Searches with guides 2, none and 3 in turn, 1,000 turns each, then 10,000, and so on, for so many seconds together."""

    def __init__(self, model: "Model", seconds: float, progress: Optional[Callable[[Progress], None]] = None) -> None:
        self.model, self._progress = model, progress
        self._objective: Optional[Expression] = None
        self._sign = 1
        self._best: Optional[Solution] = None
        self.chooser = Chooser(model.session, seconds, self._report if progress else None)

    def solve(self, proof: bool = False) -> Answer:
        """Values that satisfy all rules."""
        if proof:
            self.model.need_version_2()
        outcome = self.chooser.run("prove" if proof else "solve dbt")
        reply = outcome.reply
        text = None
        if isinstance(reply, Proof):
            text = self._proved(reply) if isinstance(reply.end, NoSolution) else None
            reply = reply.end
        if isinstance(reply, NoSolution):
            return self._answer("none", None, self.model.rules_of(reply.names), outcome, text)
        found = Solution(self.model, reply.values) if isinstance(reply, Found) else None
        return self._answer("unknown" if found is None else "found", found, (), outcome)

    def minimize(self, objective: Union[Expression, Constraint]) -> Answer:
        """Values that satisfy all rules and give the objective its least value."""
        self._objective = expression(objective)
        self.model.need_version_2()
        sought = self._objective * self._sign
        if len(sought.terms) == 1 and isinstance(next(iter(sought.terms)), Variable) and list(sought.terms.values()) == [1]:
            return self._least(next(iter(sought.terms)).name)  # type: ignore[attr-defined]
        if not sought.terms:
            answer = self.solve()
            return replace(answer, outcome="best" if answer else answer.outcome, value=self._objective.constant if answer else None)
        return self._windowed(sought)

    def maximize(self, objective: Union[Expression, Constraint]) -> Answer:
        """Values that satisfy all rules and give the objective its greatest value."""
        self._sign = -1
        return self.minimize(objective)

    def solutions(self, limit: int) -> Solutions:
        """At most so many solutions."""
        found = Solutions()
        first = self._next()
        if first is not None:
            found.append(first)
            self._others(list(self.model.variables.values()), 0, first, found, limit)
        found.complete = not self.chooser.is_over and len(found) < limit
        return found

    def _others(self, variables: List[Variable], place: int, found: Solution, all_found: Solutions, limit: int) -> None:
        """All other solutions with the pinned values of the variables before this place."""
        if place == len(variables):
            return
        variable = variables[place]
        pin = Cut(self.model.session)
        tried = set()
        current: Optional[Solution] = found
        try:
            while current is not None and len(all_found) < limit and not self.chooser.is_over:
                code = variable.values.code(current[variable])
                tried.add(code)
                pin.set(f"{variable.name} = {code}")
                self._others(variables, place + 1, current, all_found, limit)
                pin.clear()
                rest = [other for other in self._left(variable) if other not in tried]
                if not rest or len(all_found) >= limit:
                    return
                pin.set(f"table {variable.name} : {' '.join(f'({other})' for other in rest)}")
                current = self._next()
                if current is not None:
                    all_found.append(current)
        finally:
            pin.clear()

    def _left(self, variable: Variable) -> Tuple[int, ...]:
        reply = self.model.session.send(f"domain {variable.name}")
        return reply.values[variable.name] if isinstance(reply, Domains) else ()

    def _next(self) -> Optional[Solution]:
        outcome = self.chooser.run("solve dbt")
        if outcome.reply is None:
            self.chooser.stopped = True
        return Solution(self.model, outcome.reply.values) if isinstance(outcome.reply, Found) else None

    def _least(self, name: str) -> Answer:
        """The least value of a variable of the session."""
        outcome = self.chooser.minimize(name)
        reply = outcome.reply
        if isinstance(reply, NoSolution):
            return self._answer("none", None, self.model.rules_of(reply.names), outcome)
        best = Solution(self.model, outcome.best) if outcome.best else None
        if isinstance(reply, Best):
            return self._answer("best", best, self.model.rules_of(reply.proved_by), outcome)
        return self._answer("unknown" if best is None else "found", best, (), outcome)

    def _windowed(self, objective: Expression) -> Answer:
        """The least value of an expression, which need be no variable of the session.

        A variable from 0 to 255, the window, says how many steps it is above a bound that it cannot be below. Where it may be
        further above, a first solution says how far at most, and a step is made as large as that takes; then there is another
        window, with smaller steps, between the two values that the one before has left.
        """
        low, high = objective.bounds()
        unit = gcd(*objective.terms.values(), 0)
        rules: Rules = ()
        answer: Optional[Answer] = None
        if high - low > WINDOW * unit:
            answer = self.solve()
            if not answer:
                return answer
            high = answer[objective]
        while answer is None or low < high and not self.chooser.is_over:
            step = unit * max(1, -(-(high - low) // (WINDOW * unit)))
            found = self._within(objective, low, step)
            answer = found if answer is None else self._better(answer, found, objective)
            if found.outcome != "best":
                return replace(answer, outcome="found", rules=()) if answer else answer
            rules = tuple(dict.fromkeys(rules + found.rules))
            high = answer[objective]
            low = high if step == unit else max(low, low + step * (-(-(high - low) // step) - 1) + unit)
        return replace(answer, outcome="best" if low >= high else "found", rules=rules if low >= high else ())

    def _better(self, known: Answer, found: Answer, objective: Expression) -> Answer:
        """What was found last, with the better one of both solutions."""
        if found and found[objective] <= known[objective]:
            return found
        return replace(found, solution=known.solution, value=known.value)

    def _within(self, objective: Expression, low: int, step: int) -> Answer:
        """The least number of steps above the bound."""
        window = self.model.window(WINDOW)
        cut = Cut(self.model.session)
        try:
            cut.set(*self._written(Linear(objective - step * window, "<=", low)))
            return self._least(window.name)
        finally:
            cut.clear()

    def _written(self, constraint: Constraint) -> List[str]:
        texts = self.model.written(constraint)
        self.model.need_version_2()
        return texts

    def _proved(self, proof: Proof) -> str:
        verdict = check_proof(proof.text, self.model.session.program)
        if not verdict.accepted:
            raise PalmError(f"the proof was not accepted: {verdict.line}")
        return proof.text

    def _report(self, turn: Turn) -> None:
        best = self._best = Solution(self.model, turn.best) if turn.best else self._best
        value = best[self._objective] if best is not None and self._objective is not None else None
        assert self._progress
        self._progress(Progress(turn.guide, turn.budget, turn.turns, turn.seconds, best, value))

    def _answer(
        self, outcome: str, solution: Optional[Solution], rules: Rules, end: Outcome, proof: Optional[str] = None
    ) -> Answer:
        self._best = self._best if solution is None else solution
        value = solution[self._objective] if solution is not None and self._objective is not None else None
        return Answer(outcome, solution, value, rules, end.guide, end.budget, end.turns, end.seconds, end.stopped, proof)
