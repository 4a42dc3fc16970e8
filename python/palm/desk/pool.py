"""The processes of the desk: at most sixteen at a time, each session's with a limit of memory and a deadline for each line."""

from __future__ import annotations

import threading
from contextlib import contextmanager
from typing import Iterator, Optional, Set

from palm import Session
from palm.process import find_program

MOST = 16
MEMORY = 512 * 1024 * 1024
SECONDS = 10.0


class Full(Exception):
    """As many processes run as may."""

    def __init__(self, most: int) -> None:
        super().__init__(f"{most} processes run, and no more may: close a session, or stop a search")


class Pool:
    """Starts sessions and keeps count of what runs."""

    def __init__(self, most: int = MOST, memory: Optional[int] = MEMORY, seconds: float = SECONDS) -> None:
        self.program = find_program()
        self.most, self.memory, self.seconds = most, memory, seconds
        self._free = threading.BoundedSemaphore(most)
        self._lock = threading.Lock()
        self._running: Set[Session] = set()

    def start(self) -> Session:
        """A new session. Full where there are as many processes as may be."""
        self._take()
        try:
            session = Session(self.program, timeout=self.seconds, memory=self.memory)
        except BaseException:
            self._free.release()
            raise
        with self._lock:
            self._running.add(session)
        return session

    def end(self, session: Session) -> None:
        """Kills the session's process and forgets it."""
        session.kill()
        with self._lock:
            if session in self._running:
                self._running.remove(session)
                self._free.release()

    def end_all(self) -> None:
        """Kills all that were started."""
        for session in tuple(self._running):
            self.end(session)

    @contextmanager
    def other(self) -> Iterator[str]:
        """Room for a process that is no session: gives the program."""
        self._take()
        try:
            yield self.program
        finally:
            self._free.release()

    def _take(self) -> None:
        if not self._free.acquire(blocking=False):
            raise Full(self.most)
