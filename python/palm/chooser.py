"""A search that chooses: guides in turn, with budgets that grow, until one of them answers or the time is over."""

from __future__ import annotations

import time
from dataclasses import dataclass
from typing import Callable, Generator, Iterator, List, Mapping, Optional, Sequence, Tuple

from palm.errors import Stopped, TimedOut
from palm.replies import Best, Found, NoSolution, Proof, Reply, Spent
from palm.session import Session

GUIDES = ("2", "none", "3")
FIRST_BUDGET = 1_000
GROWTH = 10
GREATEST_BUDGET = 18_446_744_073_709_551_615


# Behind each search a reply where it answers, and the best values that are known.
Known = Generator[Tuple[Optional[Reply], Optional[Mapping[str, int]]], None, None]


@dataclass(frozen=True)
class Turn:
    """What is known once a budget is spent: its guide, turns and seconds of all searches so far, and the best values, if any."""

    guide: str
    budget: int
    turns: int
    seconds: float
    best: Optional[Mapping[str, int]]


@dataclass(frozen=True)
class Outcome:
    """How a search ended.

    `reply` is a `Found`, `Best`, `NoSolution` or `Proof`, and None where nothing answered: then `best` may have the best values so
    far. `guide` and `budget` are those of the last search, and `turns` counts those of all that were spent: an answer does not tell
    its own.
    """

    reply: Optional[Reply]
    best: Optional[Mapping[str, int]]
    guide: str
    budget: int
    turns: int
    seconds: float
    stopped: bool


class Chooser:
    """Searches of one session, for so many seconds together. `report` is called after each budget that was spent.

    Ctrl-C, `Session.stop` and the end of the time end a search with what is known. The session's own guide is chosen again behind
    it.
    """

    def __init__(self, session: Session, seconds: float, report: Optional[Callable[[Turn], None]] = None) -> None:
        self.session, self.report = session, report
        self.began = time.monotonic()
        self.deadline = self.began + seconds
        self.stopped = False
        self._turns = 0
        self._guide, self._budget = GUIDES[0], 0

    def run(self, form: str) -> Outcome:
        """Searches by lines that begin with the form, such as `solve dbt` or `prove`."""
        return self._searched(self._run(form))

    def minimize(self, name: str) -> Outcome:
        """Searches for values that give the variable its least one. What one search has found the next ones have to better."""
        return self._searched(self._minimize(name))

    @property
    def is_over(self) -> bool:
        """Whether no time is left, or somebody stopped it."""
        return self.stopped or time.monotonic() >= self.deadline

    def _searched(self, steps: Known) -> Outcome:
        """Goes through the steps, each of which has what is known behind it, up to a reply that answers."""
        chosen = self.session.journal.chosen["guide"]
        reply: Optional[Reply] = None
        best: Optional[Mapping[str, int]] = None
        try:
            for reply, best in steps:
                if reply is not None:
                    break
                self._reported(best)
        except (KeyboardInterrupt, Stopped):
            self.stopped = True
        except TimedOut:
            self.deadline = time.monotonic()
        finally:
            steps.close()
            self._choose(chosen)
        return Outcome(reply, best, self._guide, self._budget, self._turns, time.monotonic() - self.began, self.stopped)

    def _run(self, form: str) -> Known:
        for _ in self._choices():
            reply = self._ask(form)
            end = reply.end if isinstance(reply, Proof) else reply
            if isinstance(end, (Found, NoSolution)):
                yield reply, end.values if isinstance(end, Found) else None
            yield None, None

    def _minimize(self, name: str) -> Known:
        best: Optional[Mapping[str, int]] = None
        cut = Cut(self.session)
        try:
            for _ in self._choices():
                reply = self._ask(f"minimize {name}")
                if isinstance(reply, Best):
                    yield reply, reply.values
                if isinstance(reply, NoSolution):
                    yield (proved(best, [other for other in reply.names if other != cut.name]), best) if best else (reply, None)
                if isinstance(reply, Spent) and reply.best:
                    best = reply.best
                    cut.set(f"{name} < {best[name]}")
                yield None, best
        finally:
            cut.clear()

    def _choices(self) -> Iterator[None]:
        """Chooses one guide and budget after the other, as long as there is time."""
        guides = [guide for guide in GUIDES if not guide.isdigit() or int(guide) not in self.session.journal.dropped["guide"]]
        budget = FIRST_BUDGET
        while True:
            for guide in guides:
                if self.is_over:
                    return
                self._guide, self._budget = guide, budget
                self._choose(guide)
                yield
            budget = min(budget * GROWTH, GREATEST_BUDGET)

    def _choose(self, guide: str) -> None:
        if self.session.journal.chosen["guide"] != guide:
            self.session.do(f"guide {guide}")

    def _ask(self, form: str) -> Reply:
        reply = self.session.send(f"{form} budget {self._budget}", max(0.001, self.deadline - time.monotonic()))
        end = reply.end if isinstance(reply, Proof) else reply
        if isinstance(end, Spent):
            self._turns += end.turns
        return reply

    def _reported(self, best: Optional[Mapping[str, int]]) -> None:
        if self.report:
            self.report(Turn(self._guide, self._budget, self._turns, time.monotonic() - self.began, best))


def proved(best: Mapping[str, int], names: Sequence[str]) -> Best:
    """The reply that these values are the best, since what is named has no better ones."""
    return Best((f"best {pairs(best)}", " ".join(["proved by", *names]), "end"), best, tuple(names))


def pairs(values: Mapping[str, int]) -> str:
    """Values as replies have them."""
    return " ".join(f"{name}={value}" for name, value in values.items())


class Cut:
    """Constraints that a search adds for a while, all of which it takes back."""

    def __init__(self, session: Session) -> None:
        self.session = session
        taken = {name for kind, name in session.journal.declared} | {""}
        self.name = next(name for name in (f"_cut{number}" for number in range(1, len(taken) + 2)) if name not in taken)
        self._added: List[str] = []

    def set(self, *texts: str) -> None:
        """Puts these constraints in the place of the ones before."""
        self.clear()
        for place, text in enumerate(texts):
            name = self.name if not place else f"{self.name}_{place}"
            self.session.do(f"add {name} : {text}")
            self._added.append(name)

    def clear(self) -> None:
        """Takes them back."""
        while self._added:
            if ("add", self._added[-1]) in self.session.journal.declared:
                self.session.do(f"retract {self._added[-1]}")
            self._added.pop()
