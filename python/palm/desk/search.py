"""A search of a copy of a session, in a thread and a process of its own, so that a stop leaves the session as it was."""

from __future__ import annotations

import threading
import time
from typing import Any, Dict, List, Mapping, Optional

from palm import PalmError, Session
from palm.checking import check_proof
from palm.chooser import Chooser, Outcome, Turn
from palm.replies import Best, Domains, Found, NoSolution, Proof

from palm.desk.pool import Full
from palm.desk.session import DeskSession, copy_of

LONGEST = 600.0
CHECK_SECONDS = 60.0
WIDEST = 16
SHOWN = 40


class Search:
    """`kind` is `solve`, `minimize` or `maximize`; the last two look for the least or greatest value of `target`."""

    def __init__(self, session: DeskSession, kind: str, target: str, seconds: float) -> None:
        self.session, self.kind, self.target = session, kind, target
        self.seconds = min(seconds, LONGEST)
        self.rounds: List[Dict[str, Any]] = []
        self.best: Optional[Mapping[str, int]] = None
        self.answer: Dict[str, Any] = {}
        self.running = True
        self._begun = time.monotonic()
        self._ended: Optional[float] = None
        self._stopped = False
        self._copy: Optional[Session] = None
        self._chooser: Optional[Chooser] = None
        with session.lock:
            self.revision = session.revision
            self._lines = session.history.lines()
            self._variables = {variable.name: variable for variable in session.state.variables}
            taken = {constraint.name for constraint in session.state.constraints.values()} | set(self._variables)
        self._own_name = free_name("desk", taken)
        self._thread = threading.Thread(target=self._run, daemon=True)
        self._thread.start()

    def stop(self) -> None:
        """Ends the search, and waits until it has ended. What it found so far stands."""
        self._stopped = True
        if self._chooser:
            self._chooser.stopped = True
        if self._copy:
            self._copy.stop()
        self._thread.join()

    def told(self) -> Dict[str, Any]:
        """Where it is."""
        return {
            "running": self.running,
            "kind": self.kind,
            "target": self.target,
            "revision": self.revision,
            "seconds": round((self._ended or time.monotonic()) - self._begun, 2),
            "rounds": self.rounds[-SHOWN:],
            "best": self.best,
            **self.answer,
        }

    def _run(self) -> None:
        try:
            self._copy = copy_of(self.session.pool, self._lines)
            self.answer = self._searched(self._copy)
        except (PalmError, Full) as error:
            self.answer = {"outcome": "unfinished", "said": str(error)}
        finally:
            if self._copy:
                self.session.pool.end(self._copy)
            self._ended = time.monotonic()
            self.running = False

    def _searched(self, copy: Session) -> Dict[str, Any]:
        target = self._mirrored(copy) if self.kind == "maximize" else self.target
        chooser = self._chooser = Chooser(copy, 0.0 if self._stopped else self.seconds, self._report)
        outcome = chooser.run("solve dbt") if self.kind == "solve" else chooser.minimize(target)
        if outcome.best:
            self.best = self._own(outcome.best)
        found = {"values": self.best} if self.best else {}
        if isinstance(outcome.reply, (Found, NoSolution, Best)):
            self._note(outcome.guide, outcome.budget, outcome.turns, outcome.seconds, outcome.reply.lines[0].split(" ")[0])
        if isinstance(outcome.reply, Found):
            return {"outcome": "found", **found, **self._checked()}
        if isinstance(outcome.reply, NoSolution):
            return {"outcome": "none", "names": self._names(outcome.reply.names), **self._proof(copy)}
        if isinstance(outcome.reply, Best):
            copy.do(f"add {self._own_name} : {target} < {outcome.reply.values[target]}")
            names = self._names(outcome.reply.proved_by)
            return {"outcome": "best", **found, "names": names, **self._checked(), **self._proof(copy)}
        return {"outcome": "unfinished", **found, "said": self._why(outcome)}

    def _why(self, outcome: Outcome) -> str:
        """Why nothing answered."""
        if self._stopped or outcome.stopped:
            return "stopped"
        return f"no answer within {self.seconds:g} seconds"

    def _mirrored(self, copy: Session) -> str:
        """A variable of the copy that is the negative of the target, so that its least value is the target's greatest."""
        values = sorted(-int(value) for value in self._variables[self.target].places)
        name = f"{self._own_name}_mirror"
        copy.do(f"var {name} {{{','.join(map(str, values))}}}")
        copy.do(f"add {name} : sum {self.target} + {name} = 0")
        return name

    def _report(self, turn: Turn) -> None:
        if turn.best:
            self.best = self._own(turn.best)
        self._note(turn.guide, turn.budget, turn.turns, turn.seconds, "spent")

    def _note(self, guide: str, budget: int, turns: int, seconds: float, answer: str) -> None:
        """A row of what was tried: the turns and seconds are those of all budgets so far."""
        best = self.best.get(self.target) if self.best else None
        row = {"guide": guide, "budget": budget, "turns": turns, "seconds": round(seconds, 2), "answer": answer, "best": best}
        self.rounds.append(row)

    def _proof(self, copy: Session) -> Dict[str, Any]:
        """The proof that the copy has no solution, or none that is better, and what a second process says of it."""
        chooser = self._chooser = Chooser(copy, CHECK_SECONDS)
        reply = chooser.run("prove").reply
        if not isinstance(reply, Proof):
            return {"verdict": f"no proof within {CHECK_SECONDS:g} seconds"}
        try:
            with self.session.pool.other() as program:
                return self.session.keep(reply.text, check_proof(reply.text, program, CHECK_SECONDS))
        except (PalmError, Full) as error:
            return {"verdict": f"the proof was not looked at: {error}"}

    def _checked(self) -> Dict[str, Any]:
        """Whether a second process, which is told all values as tables, finds every constraint satisfied."""
        assert self.best is not None
        pairs = list(self.best.items())
        try:
            copy = copy_of(self.session.pool, self._lines)
        except (PalmError, Full) as error:
            return {"satisfied": None, "unchecked": str(error)}
        try:
            for first in range(0, len(pairs), WIDEST):
                names, values = zip(*pairs[first : first + WIDEST])
                copy.do(f"add {self._own_name}_{first} : table {' '.join(names)} : ({','.join(map(str, values))})")
            reply = copy.send("domains")
            return {"satisfied": isinstance(reply, Domains) and dict(reply.values) == {name: (value,) for name, value in pairs}}
        except PalmError as error:
            return {"satisfied": None, "unchecked": str(error)}
        finally:
            self.session.pool.end(copy)

    def _own(self, values: Mapping[str, int]) -> Dict[str, int]:
        """The values of the session's own variables."""
        return {name: value for name, value in values.items() if name in self._variables}

    def _names(self, names: "tuple[str, ...]") -> List[str]:
        """The names of the session's own constraints."""
        return [name for name in names if not name.startswith(self._own_name)]


def free_name(name: str, taken: "set[str]") -> str:
    """A name with which none of those begins that are taken."""
    while any(other.startswith(name) for other in taken):
        name += "_"
    return name
