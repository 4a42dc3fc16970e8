"""A running program: one line goes out, and its whole reply comes back, within a deadline."""

from __future__ import annotations

import os
import resource
import select
import shutil
import signal
import subprocess
import sys
import threading
import time
from collections import deque
from pathlib import Path
from typing import Deque, List, Optional

from palm.errors import NotFound, ended
from palm.lines import goes_on, has_reply, text_of
from palm.watcher import watcher

PIECE = 65_536
GRACE = 5.0


def find_program(program: Optional[str] = None) -> str:
    """The program to run: the given one, the one that PALM names, one that was installed beside this package, or `palm` on the PATH.

    NotFound where there is none.
    """
    named = program or os.environ.get("PALM")
    if named:
        found = shutil.which(named)
        places = [named]
    else:
        beside = [folder / "bin" / "palm" for folder in Path(__file__).resolve().parents[1:5]]
        found = next((str(path) for path in beside if os.access(path, os.X_OK) and path.is_file()), None) or shutil.which("palm")
        places = ["bin/palm beside this package", "palm on the PATH"]
    if not found:
        raise NotFound(places)
    return found


class Late(Exception):
    """The deadline passed before the reply was whole."""


class Process:
    """`palm` with the word `run`, in a process group of its own, so that a Ctrl-C of the terminal is not its own.

    `memory` is a limit of its address space in bytes; beyond it the program ends for want of memory.
    """

    def __init__(self, program: str, memory: Optional[int] = None) -> None:
        self._owner = os.getpid()
        self._lock = threading.Lock()
        self._lines: Deque[bytes] = deque()
        self._rest = b""
        try:
            self._child = subprocess.Popen(
                [program, "run"], stdin=subprocess.PIPE, stdout=subprocess.PIPE, bufsize=0, start_new_session=True
            )
        except OSError as error:
            raise NotFound([f"{program} ({error.strerror})"]) from error
        watcher.start(self._child.pid)
        if memory is not None:
            resource.prlimit(self._child.pid, resource.RLIMIT_AS, (memory, memory))
        assert self._child.stdin and self._child.stdout
        self._input, self._output = self._child.stdin, self._child.stdout
        os.set_blocking(self._input.fileno(), False)
        os.set_blocking(self._output.fileno(), False)

    @property
    def number(self) -> int:
        """The process number of the program."""
        return self._child.pid

    def exchange(self, data: bytes, deadline: Optional[float] = None) -> List[bytes]:
        """The lines of the reply to one line, which is given without its line feed: none for a comment.

        Late past the deadline, a time of `time.monotonic`; and Ended where the program ends first.
        """
        self._write(data, deadline)
        if not has_reply(data):
            return []
        reply = [self._read_line(data, deadline)]
        many = goes_on(data, reply[0])
        while many and reply[-1] != b"end":
            reply.append(self._read_line(data, deadline))
        return reply

    def kill(self) -> None:
        """Ends the program at once. May be called from any thread, and more than once."""
        with self._lock:
            if self._owner == os.getpid() and self._child.returncode is None:
                os.kill(self._child.pid, signal.SIGKILL)

    def end(self, grace: float = GRACE) -> int:
        """Waits for the end of the program and gives its status; kills it where that does not come within `grace` seconds."""
        self._input.close()
        if self._owner == os.getpid() and self._child.returncode is None:
            self._await_end(grace)
            self._reap()
        self._output.close()
        return self._child.returncode or 0

    def _await_end(self, grace: float) -> None:
        limit = time.monotonic() + grace
        while not self._has_ended():
            if time.monotonic() >= limit:
                self.kill()
            time.sleep(0.0005)

    def _has_ended(self) -> bool:
        """Whether the program has ended; it is not reaped, so its number is still its own."""
        try:
            return os.waitid(os.P_PID, self._child.pid, os.WEXITED | os.WNOHANG | os.WNOWAIT) is not None
        except ChildProcessError:
            return True

    def _reap(self) -> None:
        with self._lock:
            watcher.gone(self._child.pid)
            self._child.wait()

    def _write(self, data: bytes, deadline: Optional[float]) -> None:
        left = memoryview(data + b"\n")
        while left:
            try:
                left = left[os.write(self._input.fileno(), left) :]
            except BlockingIOError:
                self._wait(self._input.fileno(), select.POLLOUT, deadline)
            except BrokenPipeError:
                raise ended(self.end(), text_of(data)) from None

    def _read_line(self, data: bytes, deadline: Optional[float]) -> bytes:
        while not self._lines:
            try:
                piece = os.read(self._output.fileno(), PIECE)
            except BlockingIOError:
                self._wait(self._output.fileno(), select.POLLIN, deadline)
                continue
            if not piece:
                raise ended(self.end(), text_of(data))
            *whole, self._rest = (self._rest + piece).split(b"\n")
            self._lines.extend(whole)
        return self._lines.popleft()

    def _wait(self, stream: int, event: int, deadline: Optional[float]) -> None:
        """Waits until the stream is ready, or raises Late."""
        poll = select.poll()
        poll.register(stream, event)
        left = None if deadline is None else deadline - time.monotonic()
        if left is not None and left <= 0 or not poll.poll(None if left is None else 1000 * left + 1):
            raise Late

    def __del__(self) -> None:
        """A program that nobody holds any longer is killed, and reaped. At the end of the interpreter the watcher does it."""
        if not sys.is_finalizing() and hasattr(self, "_output") and not self._output.closed:
            self.kill()
            self.end()
