"""A session as the desk keeps it: its process, its journal, and the state that the page shows."""

from __future__ import annotations

import threading
from dataclasses import dataclass, field
from typing import Any, Callable, Dict, List, Optional, Sequence

from palm import Ended, PalmError, Session, TimedOut
from palm.checking import Verdict, check_certificate
from palm.lines import first_word, has_reply, is_refusal, tokens
from palm.replies import Certificate, HardConflict, Log, Preferred, Reply
from palm.slips import advice

from palm.desk import steps
from palm.desk.history import HEADER, History, label
from palm.desk.notes import notes_of
from palm.desk.pool import Pool
from palm.desk.state import State, filtered, listed

LISTED = {"palm", "var", "add", "retract"}
CHANGES = LISTED | {"relax", "enforce", "prefer", "pause", "resume", "step", "guide", "order", "drop"}
QUESTIONS = {"domains", "domain", "list", "log", "why", "conflict", "minimal", "cert", "solve", "prove", "minimize", "preferred"}
CHECK_SECONDS = 60.0
DOCUMENTS = 16


@dataclass
class Outcome:
    """What came of some lines: their replies, the first refused one, and what else there is to say."""

    replies: List[Dict[str, Any]] = field(default_factory=list)
    refused: List[Dict[str, Any]] = field(default_factory=list)
    said: List[str] = field(default_factory=list)
    taken: List[bytes] = field(default_factory=list)


class DeskSession:
    """One session. Each call takes the session's lock, so a page and another one never meet in the midst of a change."""

    def __init__(self, number: int, name: str, pool: Pool) -> None:
        self.number, self.name = number, name
        self.pool = pool
        self.lock = threading.RLock()
        self.history = History()
        self.revision = 0
        self.documents: Dict[int, str] = {}
        self.state = State()
        self.notes = notes_of([], {})
        self._process: Optional[Session] = copy_of(pool, [HEADER])

    def open(self, lines: Sequence[bytes]) -> Outcome:
        """Takes the lines of a file: those that change something, up to `quit`, and the comments. Questions are left out."""
        outcome = Outcome()
        questions = 0
        first = next((line for line in lines if has_reply(line)), b"")
        header = first if tokens(first) == ["palm", "2"] else None
        for number, line in enumerate(lines, 1):
            form = first_word(line).decode("latin-1")
            if form == "quit":
                break
            if line is header:
                continue
            if has_reply(line) and form in QUESTIONS:
                questions += 1
                continue
            try:
                self._take(line, outcome, number)
            except (Ended, TimedOut) as error:
                outcome.said.append(f"line {number}: {error}; the lines up to it stand")
                self._rebuild([HEADER, *outcome.taken])
                break
        self.history = History(base=[HEADER] + outcome.taken)
        if questions:
            outcome.said.append(f"{questions} {'question is' if questions == 1 else 'questions are'} left out")
        self._look(self.history.base)
        return outcome

    def change(self, lines: Sequence[bytes]) -> Outcome:
        """Sends the lines, one by one, up to the first refused one; what was taken is one action of the journal."""
        with self.lock:
            outcome = Outcome()
            ended = self._ended_by(lambda: self._take_all(lines, outcome))
            self.history.note(outcome.taken)
            ended = ended or self._ended_by(lambda: self._look(outcome.taken))
            if ended:
                outcome.said.append(f"{ended}. A new process has the session as it was before {self._go_on(outcome)}.")
            return outcome

    def undo(self) -> Outcome:
        """The session as it was before the latest action: its lines are sent to a new process."""
        return self._replay(self.history.undo)

    def redo(self) -> Outcome:
        """The action that was undone last, once more."""
        return self._replay(self.history.redo)

    def why(self, name: str, value: int, minimal: bool) -> Dict[str, Any]:
        """The constraints that keep the value out, and the steps; none where it is present."""
        with self.lock:
            if self.state.paused:
                return {"names": [], "steps": [], "said": "paused: the domains are told after resume"}
            if self.state.empty:
                return self._why_of_log(name, value)
            because, *names = self._words(f"{'minimal' if minimal else 'why'} {name} {value}")
            if because == "present":
                return {"names": [], "steps": [], "said": f"{name} can be {value}"}
            return {"names": names, **told(steps.of_certificate(self._answer(f"cert {name} {value}").lines))}

    def conflict(self, minimal: bool) -> Dict[str, Any]:
        """The constraints of the conflict, and its steps; no names where there is none."""
        with self.lock:
            conflict, *names = self._words(f"{'minimal ' if minimal else ''}conflict")
            if conflict != "conflict":
                return {"names": [], "steps": [], "said": conflict}
            found = steps.of_certificate(self._answer("cert conflict").lines)
            return {"names": names, "variable": self.state.empty, **told(found)}

    def preferred(self) -> Dict[str, Any]:
        """Which constraints to keep by their weights, and which to leave."""
        with self.lock:
            reply = self._answer("preferred")
            if isinstance(reply, HardConflict):
                return {"hard": reply.names}
            if not isinstance(reply, Preferred):
                return {"said": reply.lines[0]}
            return {"keep": reply.keep, "leave": [{"name": one.name, "conflict": one.conflict} for one in reply.leave]}

    def certificate(self, what: str) -> Dict[str, Any]:
        """The certificate of `NAME VALUE` or of `conflict`, kept to be downloaded, and what a second process says of it."""
        with self.lock:
            reply = self._answer(f"cert {what}")
        if not isinstance(reply, Certificate):
            return {"said": reply.lines[0]}
        with self.pool.other() as program:
            return self.keep(reply.text, check_certificate(reply.text, program, CHECK_SECONDS))

    def keep(self, text: str, verdict: Verdict) -> Dict[str, Any]:
        """Keeps a document to be downloaded, the latest few of them."""
        number = max(self.documents, default=0) + 1
        self.documents[number] = text
        self.documents.pop(number - DOCUMENTS, None)
        return {"document": number, "accepted": verdict.accepted, "verdict": verdict.line}

    def changed(self, work: Callable[[DeskSession], Outcome]) -> Dict[str, Any]:
        """Does the work, and gives its outcome with what it changed, for a page that shows the state before it."""
        with self.lock:
            before, old = self.revision, self.state
            outcome = work(self)
            said = {"replies": outcome.replies, "refused": outcome.refused, "said": outcome.said}
            return {**self.heading(), "before": before, **self.state.since(old), **said}

    def text(self) -> bytes:
        """The session file."""
        with self.lock:
            return self.history.text()

    def told(self) -> Dict[str, Any]:
        """All of the session."""
        with self.lock:
            return {**self.heading(), **self.state.told()}

    def heading(self) -> Dict[str, Any]:
        """What is sent with each change."""
        return {
            "session": self.number,
            "name": self.name,
            "revision": self.revision,
            "undo": label(self.history.done),
            "redo": label(self.history.undone),
            "notes": self.notes,
        }

    def close(self) -> None:
        """Ends the process."""
        if self._process:
            self.pool.end(self._process)

    def _take_all(self, lines: Sequence[bytes], outcome: Outcome) -> None:
        """Sends the lines up to the first refused one."""
        for line in lines:
            if not self._take(line, outcome):
                break

    def _take(self, line: bytes, outcome: Outcome, number: Optional[int] = None) -> bool:
        """Sends one line and notes what came of it; says whether it was taken."""
        text = line.decode("utf-8", "replace")
        reply = self._running().ask(line)
        if reply == ["bye"]:
            raise Ended(0, text)
        if reply and is_refusal(reply[0].encode()):
            row: Dict[str, Any] = {"line": text[:2000], "reply": reply[0], "advice": advice(text, reply[0])}
            outcome.refused.append({**row, "number": number} if number else row)
            return False
        if number is None:
            outcome.replies.append({"line": text[:2000], "reply": reply[:1000]})
        form = first_word(line).decode("latin-1")
        if not reply or form in CHANGES:
            outcome.taken.append(line)
        return True

    def _look(self, lines: Sequence[bytes]) -> None:
        """Looks at what these lines, which were taken, may have changed."""
        words = [tokens(line) for line in lines if has_reply(line)]
        forms = {line[0] for line in words}
        if forms & LISTED:
            self.state = listed(self._running(), self.state, weights_of(self.history.lines()))
        else:
            for line in words:
                self.state = self.state.after(line)
        if forms - {"prefer"}:
            self.state = filtered(self._running(), self.state)
        if forms & LISTED or len(words) < len(lines):
            sizes = {variable.name: len(variable.places) for variable in self.state.variables}
            self.notes = notes_of([line for line in self.history.lines() if not has_reply(line)], sizes)
        if lines:
            self.revision += 1

    def _answer(self, line: str) -> Reply:
        """The reply to a question. Where the process ended meanwhile, the error goes on, and another process has the session."""
        try:
            return self._running().send(line)
        except (Ended, TimedOut):
            self._rebuild(self.history.lines())
            raise

    def _words(self, line: str) -> List[str]:
        """The words of a reply of one line."""
        return self._answer(line).lines[0].split(" ")

    def _why_of_log(self, name: str, value: int) -> Dict[str, Any]:
        """In a contradiction the program tells of the conflict alone; the log has the steps of every value that is gone."""
        log = self._answer("log")
        assert isinstance(log, Log)
        found = steps.of_log(log.removals, (name, value))
        order = [constraint.name for constraint in self.state.constraints.values()]
        return {"names": steps.names_of(found, order), **told(found)}

    def _replay(self, move: Callable[[], bool]) -> Outcome:
        """Moves in the journal, and sends what it has then to a new process."""
        with self.lock:
            outcome = Outcome()
            if move():
                self._rebuild(self.history.lines())
            return outcome

    def _rebuild(self, lines: Sequence[bytes]) -> None:
        """A new process that was sent the lines, which are all taken. Until it has them there is none."""
        before, self._process = self._process, None
        if before:
            self.pool.end(before)
        self._process = copy_of(self.pool, lines)
        self.state = State()
        self._look(lines[:1])

    def _running(self) -> Session:
        """The process; a new one where the last could not be made."""
        if self._process is None:
            self._rebuild(self.history.lines())
        assert self._process
        return self._process

    def _go_on(self, outcome: Outcome) -> str:
        """Gives the session to a new process: without the action, where it ends at that as well. Says what it is without."""
        try:
            self._rebuild(self.history.lines())
            return "that line"
        except (Ended, TimedOut):
            if not outcome.taken:
                raise
            self.history.done.pop()
            self._rebuild(self.history.lines())
            return "what was sent with it"

    def _ended_by(self, work: Callable[[], None]) -> Optional[PalmError]:
        """Does the work, and gives what ended the process in the midst of it."""
        try:
            work()
        except (Ended, TimedOut) as error:
            return error
        return None


def told(found: List[Dict[str, Any]]) -> Dict[str, Any]:
    """The steps, where they are few enough to draw, and how many there are."""
    return {"steps": found if len(found) <= steps.MOST else [], "many": len(found)}


def weights_of(lines: Sequence[bytes]) -> Dict[str, int]:
    """The weights by these lines, all of which were taken: no reply has them."""
    weights: Dict[str, int] = {}
    for line in lines:
        words = tokens(line) if first_word(line) in (b"prefer", b"retract") else []
        if words and words[-1].isdigit():
            weights[words[1]] = int(words[-1])
        elif words:
            weights.pop(words[1], None)
    return weights


def copy_of(pool: Pool, lines: Sequence[bytes]) -> Session:
    """A process of its own that was sent the lines, so that what is done there leaves the session as it is."""
    process = pool.start()
    try:
        for line in lines:
            process.do(line)
    except BaseException:
        pool.end(process)
        raise
    return process
