"""A session of the program: lines out, replies back, and a journal from which it goes on where the program had to be killed."""

from __future__ import annotations

import threading
import time
from types import TracebackType
from typing import Dict, Iterable, List, Optional, Tuple, Type

from palm import replies
from palm.errors import Ended, Refused, Stopped, TimedOut, Unrestored, ended
from palm.journal import Journal
from palm.lines import Line, bytes_of, first_word, is_refusal, text_of
from palm.process import Late, Process, find_program
from palm.replies import Reply
from palm.slips import advice

RESTORING = 60.0


class Session:
    """One session of `palm run`.

        with Session() as session:
            session.do("var x 1..3")           # "ok"
            session.send("domains").values     # {"x": (1, 2, 3)}

    - `program`: the program; else the one that PALM names, one beside this package, or `palm` on the PATH.
    - `timeout`: the seconds that a call may take where it says nothing else; None is no limit.
    - `memory`: the bytes that the program may have, at least some 20 million; None is no limit.

    A call whose time is over raises `TimedOut`, one that `stop` ended raises `Stopped`, and one at which the program ended raises
    `Ended`. Each leaves the session usable, and so does any other exception that comes in the midst of a call, such as
    KeyboardInterrupt: the next call starts the program again and restores the session by its journal, as it was before the line.
    `with` ends the program, and kills it where it is left by an exception. One thread at a time may call a session; `stop` alone
    may be called from any.
    """

    def __init__(self, program: Optional[str] = None, timeout: Optional[float] = None, memory: Optional[int] = None) -> None:
        self.program = find_program(program)
        self._memory = memory
        self.timeout = timeout
        self.journal = Journal()
        self._stopping = threading.Lock()
        self._is_busy = self._is_stopped = False
        self._status: Optional[int] = None
        self._process: Optional[Process] = Process(self.program, memory)

    def ask(self, line: Line, timeout: Optional[float] = None) -> List[str]:
        """Sends one line, without its line feed, and gives the lines of its reply, a refusal too: none for a comment.

        The line is a text, or bytes where it is none. ValueError where it has a line feed; `timeout` is in seconds.
        """
        data = bytes_of(line)
        seconds = self.timeout if timeout is None else timeout
        deadline = None if seconds is None else time.monotonic() + seconds
        process = self._running()
        self._begin()
        try:
            reply = process.exchange(data, deadline)
            self.journal.note(data, reply)
        except BaseException as error:
            self._abandon()
            if self._finish():
                raise Stopped(text_of(line)) from None
            if isinstance(error, Late) and seconds is not None:
                raise TimedOut(text_of(line), seconds) from None
            raise
        if self._finish():
            self._abandon()
        return [text.decode("ascii", "backslashreplace") for text in reply]

    def do(self, line: Line, timeout: Optional[float] = None) -> str:
        """As `ask`, but a refused line raises `Refused`. Gives the reply's first line, and nothing for a comment."""
        reply = self.ask(line, timeout)
        if reply and is_refusal(reply[0].encode()):
            raise Refused(text_of(line), reply[0], advice(text_of(line), reply[0]))
        return reply[0] if reply else ""

    def send(self, line: Line, timeout: Optional[float] = None) -> Reply:
        """As `ask`, but a refused line raises `Refused`. Gives the reply as a value of `palm.replies`."""
        reply = self.ask(line, timeout)
        if reply and is_refusal(reply[0].encode()):
            raise Refused(text_of(line), reply[0], advice(text_of(line), reply[0]))
        return replies.parse(first_word(bytes_of(line)).decode("ascii", "replace"), reply)

    def domains(self) -> Optional[Dict[str, List[int]]]:
        """The values that are left, ascending, by variable; None in a contradiction and in a paused session."""
        reply = self.send("domains")
        return {name: list(values) for name, values in reply.values.items()} if isinstance(reply, replies.Domains) else None

    def saved(self) -> List[str]:
        """Lines that make a session with the same domains and choices as this one, for `load` or for a session file."""
        return self.journal.lines()

    def load(self, lines: Iterable[Line]) -> None:
        """Begins anew with these lines, such as those of `saved`.

        Refused where one of them is; then the session is what it was before.
        """
        before = self.journal
        self._abandon()
        self.journal, self._status = Journal(), None
        try:
            for line in lines:
                self.do(line)
        except BaseException:
            self._abandon()
            self.journal = before
            raise

    def restart(self) -> None:
        """Starts the program again and restores the session, so that all limits of its input begin anew."""
        self._abandon()
        self._running()

    def stop(self) -> bool:
        """Ends the call that another thread is waiting for: there it raises `Stopped`, unless its reply has just come.

        Gives whether there was such a call.
        """
        with self._stopping:
            if not self._is_busy or not self._process:
                return False
            self._is_stopped = True
            self._process.kill()
            return True

    def close(self) -> int:
        """Ends the session by `quit` and gives the status of the program, 0 where nothing went wrong. Once closed it stays so."""
        if self._status is None and self._process:
            try:
                self._process.exchange(b"quit", time.monotonic() + 5)
            except (Late, Ended):
                self._process.kill()
        return self._end()

    def kill(self) -> None:
        """Kills the program and closes the session."""
        if self._process:
            self._process.kill()
        self._end()

    @property
    def process(self) -> Optional[int]:
        """The process number of the program; None while none runs."""
        return self._process.number if self._process else None

    def _running(self) -> Process:
        """The program, started again where it was killed or has ended."""
        if self._status is not None or self.journal.has_ended:
            raise ended(self._end())
        if not self._process:
            self._process = Process(self.program, self._memory)
            self._restore(self._process)
        return self._process

    def _restore(self, process: Process) -> None:
        deadline = time.monotonic() + RESTORING
        line = reply = ""
        try:
            for line in self.journal.lines():
                reply = process.exchange(line.encode(), deadline)[0].decode()
                if reply not in ("ok", "contradiction"):
                    break
            else:
                return
        except Late:
            reply = f"no reply within {RESTORING:g} seconds"
        except Ended as error:
            reply = str(error)
        except BaseException:
            self._abandon()
            raise
        self._abandon()
        raise Unrestored(line, reply)

    def _begin(self) -> None:
        with self._stopping:
            self._is_busy, self._is_stopped = True, False

    def _finish(self) -> bool:
        """Whether `stop` was called meanwhile."""
        with self._stopping:
            self._is_busy = False
            return self._is_stopped

    def _abandon(self) -> None:
        """Kills the program; the next call starts another one."""
        process, self._process = self._process, None
        if process:
            process.kill()
            process.end()

    def _end(self) -> int:
        if self._process:
            self._status = self._process.end()
            self._process = None
        elif self._status is None:
            self._status = 0
        return self._status

    def __enter__(self) -> Session:
        return self

    def __exit__(self, kind: Optional[Type[BaseException]], error: Optional[BaseException], trace: Optional[TracebackType]) -> None:
        if kind is None:
            self.close()
        else:
            self.kill()
