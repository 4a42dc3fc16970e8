"""What can go wrong, each with an exception of its own. All of them are a `PalmError`."""

from __future__ import annotations

import signal
from typing import Optional, Sequence


class PalmError(Exception):
    """Any error of this package."""


class NotFound(PalmError):
    """There is no program to run. `places` are those that were looked at."""

    def __init__(self, places: Sequence[str]) -> None:
        super().__init__(f"no program palm: looked at {', '.join(places)}; name one by the environment variable PALM")
        self.places = tuple(places)


class Refused(PalmError):
    """The program refused a line, which changed nothing.

    `line` is the line, `reply` the whole reply, `code` its code (`E2`), `cause` its words (`no such form`), and `advice` says what
    to do: what the table of slips in docs/SLIPS.md has for such a line, or else what the code asks for.
    """

    def __init__(self, line: str, reply: str, advice: str) -> None:
        super().__init__(f"{line[:200]}: {reply}")
        self.line, self.reply, self.advice = line, reply, advice
        _, self.code, self.cause = reply.split(" ", 2)


class Interrupted(PalmError):
    """A line was not answered, since the program was killed meanwhile. It changed nothing.

    The next line starts the program again. The session goes on as it was: the same domains, relaxed constraints, pause, weights,
    chosen guide and order, and dropped objects. The numbers of constraints, kept explanations, the log and what guide 3 has counted
    may differ.
    """

    NOTE = "the session goes on as before the line; numbers, kept explanations, the log and what guide 3 counted may differ"

    def __init__(self, line: str, why: str) -> None:
        super().__init__(f"{line[:200]}: {why}; {self.NOTE}")
        self.line = line


class TimedOut(Interrupted):
    """The reply did not come within `seconds`."""

    def __init__(self, line: str, seconds: float) -> None:
        super().__init__(line, f"no reply within {seconds:g} seconds")
        self.seconds = seconds


class Stopped(Interrupted):
    """`Session.stop` was called while the line was being answered."""

    def __init__(self, line: str) -> None:
        super().__init__(line, "stopped")


class Ended(PalmError):
    """The program ended before its reply did. `status` says how: below 0 it is the number of a signal, negated.

    Where it was not the line `quit` that ended it, the next line starts the program again, as after `Interrupted`.
    """

    def __init__(self, status: int, line: str = "") -> None:
        super().__init__(f"palm ended with status {status}" + (f": {self.meaning()}" if self.meaning() else ""))
        self.status, self.line = status, line

    def meaning(self) -> str:
        """What the status says, in words; nothing where it says no more than its number."""
        return ""


class OutOfMemory(Ended):
    """Status 5: the program lacked memory."""

    def meaning(self) -> str:
        return "want of memory"


class Fault(Ended):
    """Status 3 or 4: a read or a write of the program failed."""

    def meaning(self) -> str:
        return "a read or a write failed"


class InputLimit(Ended):
    """Status 6: the program was sent more than 16,777,216 bytes since it was started."""

    def meaning(self) -> str:
        return "more than 16,777,216 bytes of input"


class Killed(Ended):
    """A signal ended the program; the system does so where memory is short."""

    def meaning(self) -> str:
        return "killed by a signal"

    @property
    def signal(self) -> Optional[signal.Signals]:
        """The signal, where it is one that this system names."""
        try:
            return signal.Signals(-self.status)
        except ValueError:
            return None


class Unrestored(PalmError):
    """The program was started again, and did not take the journal: `line` was answered `reply`, or not in time."""

    def __init__(self, line: str, reply: str) -> None:
        super().__init__(f"the session could not be restored: {line[:200]}: {reply}")
        self.line, self.reply = line, reply


class ModelError(PalmError, ValueError):
    """A model says something that no session can hold, or asks in a state that has no answer."""


class LimitError(ModelError):
    """A model needs more than a limit allows. `limit` names it, `most` is its number, and `way_out` says what to do."""

    def __init__(self, limit: str, most: int, way_out: str) -> None:
        super().__init__(f"{limit}: at most {most:,}; {way_out}")
        self.limit, self.most, self.way_out = limit, most, way_out


def ended(status: int, line: str = "") -> Ended:
    """The exception for a status with which the program ended."""
    kinds = {3: Fault, 4: Fault, 5: OutOfMemory, 6: InputLimit}
    kind = Killed if status < 0 else kinds.get(status, Ended)
    return kind(status, line)
