"""Models: variables with values of one's own, rules with labels, and answers in these."""

from __future__ import annotations

import itertools
import re
from collections import abc
from contextlib import contextmanager
from typing import Any, Callable, Dict, Hashable, Iterable, Iterator, List, Optional, Sequence, Set, Tuple, Union

from palm import replies
from palm.checking import check_certificate
from palm.compiler import Compiler
from palm.constraints import All, Constraint
from palm.errors import LimitError, ModelError, PalmError
from palm.explain import Explanation
from palm.expressions import Expression, Variable
from palm.limits import CONSTRAINTS, NAME, VARIABLES, WEIGHT, Use
from palm.rules import LeftOut, Preference, Rule, Rules
from palm.search import Answer, Progress, Search, Solutions
from palm.session import Session
from palm.values import Given, Values, domain

Reported = Optional[Callable[[Progress], None]]
RESERVED = ("sum", "table", "element", "count", "differ", "in")


class Model:
    """A problem that changes and explains itself, in a session of its own.

    `program`, `timeout` and `memory` are those of `Session`. Nothing is sent before the first question; from then on each change is
    sent with the next one. `with` ends the program; a model that nobody holds any longer ends it too.
    """

    def __init__(self, program: Optional[str] = None, timeout: Optional[float] = None, memory: Optional[int] = None) -> None:
        self.session = Session(program, timeout, memory)
        self.variables: Dict[str, Variable] = {}
        self.rules: List[Rule] = []
        self.version = 1
        self._names: Dict[str, Set[str]] = {"var": set(RESERVED), "add": set(RESERVED)}
        self._owners: Dict[str, Rule] = {}
        self._constraints = 0
        self._waiting: Dict[str, List[str]] = {"variables": [], "made": [], "definitions": [], "rules": []}
        self._compiler = Compiler(self._declare, self._define)
        self._window: Optional[Variable] = None

    # What a model is told.

    def var(self, label: str, values: Given) -> Variable:
        """A variable with these values: a range or a set of whole numbers, or names: texts, members of an Enum, or anything else.

        At most 256 values, and 128 variables, counting those that rules make for themselves. The label is any text of one's own.
        """
        if label in self.variables:
            raise ModelError(f"there is a variable {label} already")
        own = Values(values)
        self._count_variable()
        name = self._name("var", label)
        variable = self.variables[label] = Variable(self, name, label, own)
        self._waiting["variables"].append(f"var {name} {domain(own.codes)}")
        return variable

    def array(self, label: str, values: Given, *axes: Iterable[Hashable]) -> Dict[Any, Variable]:
        """A variable for each key, or with several axes for each tuple of keys, called `label_key`."""
        keys = [list(axis) for axis in axes]
        given = list(values)
        places: List[Tuple[Any, Tuple[Hashable, ...]]] = [(parts, parts) for parts in itertools.product(*keys)]
        if len(keys) == 1:
            places = [(key, (key,)) for key in keys[0]]
        return {place: self.var("_".join(map(str, [label, *parts])), given) for place, parts in places}

    def add(
        self,
        constraint: Union[Constraint, Iterable[Constraint]],
        label: Optional[str] = None,
        weight: Optional[int] = None,
        background: bool = False,
    ) -> Rule:
        """A rule: a constraint, or several that come and go together. Its label is its text where none is given.

        With a weight it is a wish, which `preferred` may leave out. With `background` answers do not name it, as what everybody
        knows.
        """
        whole = constraint if isinstance(constraint, Constraint) else All(_checked(constraint))
        text = str(whole) if label is None else label
        texts = self._compiler.write(whole)
        self._count_constraints(len(texts))
        names = [self._name("add", text) for _ in texts]
        rule = Rule(self, text, whole, names, background)
        self.rules.append(rule)
        self._owners.update(dict.fromkeys(names, rule))
        self._waiting["rules"] += [f"add {name} : {line}" for name, line in zip(names, texts)]
        if weight is not None:
            self.prefer(rule, weight)
        return rule

    def set_active(self, rule: Rule, active: bool) -> None:
        """Enforces or relaxes a rule; `Rule.enforce` and `Rule.relax` are the calls to use."""
        self._has(rule)
        if rule.active == active:
            return
        self._send_waiting()
        self._change(rule, active)

    def retract(self, rule: Rule) -> None:
        """Takes a rule back; `Rule.retract` is the call to use."""
        self._has(rule)
        self._send_waiting()
        for name in rule.names:
            if ("add", name) in self.session.journal.declared:
                self.session.do(f"retract {name}")
        for name in rule.names:
            self._names["add"].discard(name)
            del self._owners[name]
        self._constraints -= len(rule.names)
        self.rules.remove(rule)
        rule.present = rule.active = False

    def prefer(self, rule: Rule, weight: Optional[int]) -> None:
        """Gives a rule a weight or takes it away; `Rule.prefer` is the call to use."""
        self._has(rule)
        if weight is not None and not 1 <= weight <= WEIGHT:
            raise LimitError("weight of a wish, from 1 on", WEIGHT, "only which of two weighs more counts: number them from 1")
        self._need(2)
        said = "none" if weight is None else weight
        self._waiting["rules"] += [f"prefer {name} {said}" for name in rule.names]
        rule.weight = weight

    @contextmanager
    def without(self, *rules: Rule) -> Iterator[None]:
        """Within it the rules are relaxed."""
        relaxed = [rule for rule in rules if rule.active]
        for rule in relaxed:
            rule.relax()
        try:
            yield
        finally:
            for rule in relaxed:
                if rule.present:
                    rule.enforce()

    # What is asked of it.

    def limits(self) -> Use:
        """What the model takes of the limits of a session."""
        return Use(self.version, len(self._names["var"]) - len(RESERVED), self._constraints)

    def domains(self) -> Optional[Dict[str, Tuple[Any, ...]]]:
        """The values that are left, by label; None in a contradiction."""
        reply = self.send("domains")
        if not isinstance(reply, replies.Domains):
            return None
        return {label: own(variable, reply.values[variable.name]) for label, variable in self.variables.items()}

    def domain(self, variable: Variable) -> Tuple[Any, ...]:
        """The values that are left of a variable: none of them in a contradiction."""
        reply = self.send(f"domain {variable.name}")
        return own(variable, reply.values[variable.name]) if isinstance(reply, replies.Domains) else ()

    def why(self, variable: Variable, value: Any) -> Optional[Rules]:
        """Rules that keep the value out, by the kept explanation; None where it is there. ModelError in a contradiction."""
        reply = self.send(f"why {variable.name} {variable.values.code(value)}")
        return self._because(reply)

    def minimal(self, variable: Optional[Variable] = None, value: Any = None) -> Optional[Rules]:
        """Rules that keep the value out, none of which can be left out; without a variable, of the conflict. None without any."""
        if variable is None:
            found = self.conflict()
            return found if found is None else self._reduced(found, self._is_conflict)
        found = self.why(variable, value)
        return found if found is None else self._reduced(found, lambda: self._is_gone(variable, value))

    def conflict(self) -> Optional[Rules]:
        """Rules that have no common solution, where filtering leaves some variable no value; None where it does not."""
        reply = self.send("conflict")
        return self.rules_of(reply.names) if isinstance(reply, replies.Conflict) else None

    def preferred(self, apply: bool = False) -> Preference:
        """Which rules can be kept together by their weights, the heaviest first; `apply` relaxes those that are left out."""
        self._need(2)
        left: List[LeftOut] = []
        try:
            while True:
                reply = self.send("preferred")
                if not isinstance(reply, replies.Preferred) or not reply.leave:
                    break
                first = reply.leave[0]
                left.append(LeftOut(self._owners[first.name], self.rules_of(first.conflict)))
                left[-1].rule.relax()
        finally:
            if not apply:
                for out in reversed(left):
                    out.rule.enforce()
        if isinstance(reply, replies.HardConflict):
            return Preference((), (), self.rules_of(reply.names))
        out_of = {id(out.rule) for out in left}
        keep = tuple(rule for rule in self.rules if rule.active and id(rule) not in out_of and not rule.background)
        return Preference(keep, tuple(left), ())

    def explain(self, variable: Variable, value: Any) -> Optional[Explanation]:
        """The steps by which the value went, as a tree; None where it is there. ModelError in a contradiction."""
        reply = self.send(f"cert {variable.name} {variable.values.code(value)}")
        self._certified(reply)
        return Explanation(self, reply) if isinstance(reply, replies.Certificate) else None

    def certificate(self, variable: Optional[Variable] = None, value: Any = None) -> Optional[str]:
        """The certificate that the value is gone, or without a variable that there is a conflict, which `palm check` accepted in
        another process; None where there is nothing to certify."""
        question = "conflict" if variable is None else f"{variable.name} {variable.values.code(value)}"
        reply = self.send(f"cert {question}")
        return self._certified(reply)

    def solve(self, seconds: float = 10, progress: Reported = None, proof: bool = False) -> Answer:
        """Values that satisfy all rules, or rules that have no common solution; `Search` says how it is looked for.

        With `proof` a `none` has a proof that `palm proof` accepted in another process.
        """
        return self.search(seconds, progress).solve(proof)

    def minimize(self, objective: Union[Expression, Constraint], seconds: float = 10, progress: Reported = None) -> Answer:
        """Values that satisfy all rules and give the objective its least value."""
        return self.search(seconds, progress).minimize(objective)

    def maximize(self, objective: Union[Expression, Constraint], seconds: float = 10, progress: Reported = None) -> Answer:
        """Values that satisfy all rules and give the objective its greatest value."""
        return self.search(seconds, progress).maximize(objective)

    def solutions(self, limit: int, seconds: float = 10, progress: Reported = None) -> Solutions:
        """At most so many solutions, no two of them the same."""
        return self.search(seconds, progress).solutions(limit)

    def search(self, seconds: float, progress: Reported = None) -> Search:
        """A search of this model."""
        self._send_waiting()
        return Search(self, seconds, progress)

    # For the other modules of the package.

    def send(self, line: str, timeout: Optional[float] = None) -> replies.Reply:
        """Sends what waits, and then the line."""
        self._send_waiting()
        return self.session.send(line, timeout)

    def need_version_2(self) -> None:
        """Sees to it that the session has version 2 of the language."""
        self._need(2)
        self._send_waiting()

    def window(self, most: int) -> Variable:
        """A variable of the model's own, from 0 to a number, for searches."""
        if not self._window:
            self._window = Variable(self, self._declare("window", range(most + 1)), "window", Values(range(most + 1)))
            self._send_waiting()
        return self._window

    def written(self, constraint: Constraint) -> List[str]:
        """The texts of a constraint that is no rule."""
        return self._compiler.write(constraint)

    def rules_of(self, names: Iterable[str]) -> Rules:
        """The rules that these constraints of the session belong to, without definitions and what is in the background."""
        found = {id(self._owners[name]): self._owners[name] for name in names if name in self._owners}
        return tuple(rule for rule in found.values() if not rule.background)

    def rule_of(self, name: str) -> Optional[Rule]:
        """The rule that a constraint of the session belongs to; None for a definition."""
        return self._owners.get(name)

    def close(self) -> None:
        """Ends the program."""
        self.session.close()

    def __enter__(self) -> "Model":
        return self

    def __exit__(self, *about: Any) -> None:
        self.session.__exit__(*about)

    # The session behind it.

    def _declare(self, kind: str, values: Sequence[int]) -> str:
        self._count_variable()
        name = self._name("var", f"_{kind}")
        self._waiting["made"].append(f"var {name} {domain(values)}")
        return name

    def _define(self, name: str, texts: List[str]) -> None:
        self._count_constraints(len(texts))
        self._waiting["definitions"] += [f"add {self._name('add', name)} : {text}" for text in texts]

    def _name(self, kind: str, label: str) -> str:
        """A free name of the session that is as like the label as can be."""
        base = re.sub(r"\W+", "_", label, flags=re.ASCII).strip("_") if not label.startswith("_") else label
        base = (base if base[:1].isalpha() or base.startswith("_") else f"_{base}")[:NAME]
        taken, name, number = self._names[kind], base, 1
        while name in taken:
            number += 1
            name = f"{base[: NAME - 1 - len(str(number))]}_{number}"
        taken.add(name)
        return name

    def _count_variable(self) -> None:
        have = self.limits().variables + 1
        if have > VARIABLES[2]:
            raise LimitError(
                "variables of a model, those that rules make included", VARIABLES[2], "leave out variables with one value"
            )
        if have > VARIABLES[1]:
            self._need(2)

    def _count_constraints(self, more: int) -> None:
        if self._constraints + more > CONSTRAINTS[2]:
            way_out = "say it with tables, differs and counts over many variables in place of many comparisons"
            raise LimitError("constraints of a model, definitions included", CONSTRAINTS[2], way_out)
        self._constraints += more
        if self._constraints > CONSTRAINTS[1]:
            self._need(2)

    def _need(self, version: int) -> None:
        """A session that began in version 1 is begun anew, by its own lines, in version 2."""
        if self.version >= version:
            return
        self.version = version
        if self.session.journal.version is not None:
            self.session.load(["palm 2", *self.session.saved()[1:]])

    def _send_waiting(self) -> None:
        """Sends what was said since the last question, and filters once. What was interrupted before its end goes on."""
        if not any(self._waiting.values()) and not self.session.journal.paused:
            return
        if self.version == 2 and self.session.journal.version is None:
            self.session.do("palm 2")
        if not self.session.journal.paused:
            self.session.do("pause")
        for part in self._waiting.values():
            while part:
                self.session.do(part[0])
                part.pop(0)
        self.session.do("resume")

    def _has(self, rule: Rule) -> None:
        if rule.model is not self or not rule.present:
            raise ModelError(f"{rule.label} is no rule of this model, or was retracted")

    def _because(self, reply: replies.Reply) -> Optional[Rules]:
        if isinstance(reply, replies.Because):
            return self.rules_of(reply.names)
        if isinstance(reply, replies.Contradiction):
            raise ModelError("the rules are in a contradiction, so no value is there: ask conflict() or minimal()")
        return None

    def _certified(self, reply: replies.Reply) -> Optional[str]:
        if not isinstance(reply, replies.Certificate):
            self._because(reply)
            return None
        verdict = check_certificate(reply.text, self.session.program)
        if not verdict.accepted:
            raise PalmError(f"the certificate was not accepted: {verdict.line}")
        return reply.text

    def _is_conflict(self) -> bool:
        return isinstance(self.send("conflict"), replies.Conflict)

    def _is_gone(self, variable: Optional[Variable], value: Any) -> bool:
        return variable is None or value not in self.domain(variable)

    def _reduced(self, found: Rules, still: Callable[[], bool]) -> Rules:
        """Of rules that are enough, with those in the background, a part that is still enough and of which none can be left out."""
        chosen = {id(rule) for rule in found}
        relaxed = [rule for rule in self.rules if rule.active and not rule.background and id(rule) not in chosen]
        kept = list(found)
        try:
            self._together(relaxed, False)
            for rule in reversed(found):
                rule.relax()
                if still():
                    relaxed.append(rule)
                    kept.remove(rule)
                else:
                    rule.enforce()
        finally:
            self._together(relaxed, True)
        return tuple(kept)

    def _together(self, rules: Sequence[Rule], active: bool) -> None:
        """Changes all of them before filtering."""
        self._send_waiting()
        if rules:
            self.session.do("pause")
            for rule in rules:
                self._change(rule, active)
            self.session.do("resume")

    def _change(self, rule: Rule, active: bool) -> None:
        """Enforces or relaxes those constraints of the rule that are not so yet."""
        for name in rule.names:
            if (name in self.session.journal.relaxed) == active:
                self.session.do(f"{'enforce' if active else 'relax'} {name}")
        rule.active = active


def own(variable: Variable, codes: Iterable[int]) -> Tuple[Any, ...]:
    """The values that the numbers stand for."""
    return tuple(variable.values.of(code) for code in codes)


def _checked(constraints: Any) -> List[Constraint]:
    members: List[Any] = list(constraints) if isinstance(constraints, abc.Iterable) else [constraints]
    for member in members:
        if not isinstance(member, Constraint):
            raise ModelError(f"{member!r} is no constraint")
    return members
