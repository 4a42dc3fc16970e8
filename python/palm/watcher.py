"""Ends the programs of an interpreter that has ended, however it did.

One small process per interpreter reads a pipe whose other end the interpreter alone holds. It is told of each program that is
started, and of each that is about to be reaped. At the end of the pipe, which comes with the end of the interpreter, SIGKILL
included, it kills those that are left. What was told before that end is read before it, so no number is killed that a program had
once and something else has now.
"""

from __future__ import annotations

import os
import subprocess
import threading
from typing import Optional, Set

SCRIPT = """
trap '' INT HUP TERM QUIT
left=' '
while read -r word process; do
    case $word in
    start) left="$left$process " ;;
    gone) case $left in *" $process "*) left="${left%% "$process" *} ${left#* "$process" }" ;; esac ;;
    esac
done
for process in $left; do
    kill -KILL "$process" 2>/dev/null
done
"""


class Watcher:
    """The watching process and what it was told."""

    def __init__(self) -> None:
        self._lock = threading.Lock()
        self._watching: Set[int] = set()
        self._process: Optional["subprocess.Popen[bytes]"] = None

    def start(self, process: int) -> None:
        """Watches the process with this number from now on."""
        with self._lock:
            self._watching.add(process)
            self._tell(f"start {process}\n")

    def gone(self, process: int) -> None:
        """Watches it no longer. It has to be told before the process is reaped, while its number is still its own."""
        with self._lock:
            self._watching.discard(process)
            self._tell(f"gone {process}\n")

    def forget(self) -> None:
        """In a forked interpreter: the programs are the other one's."""
        self._lock = threading.Lock()
        self._watching = set()
        if self._process and self._process.stdin:
            self._process.stdin.close()
            self._process.returncode = 0
        self._process = None

    def _tell(self, text: str) -> None:
        """Writes to the watching process; where there is none, or it was killed, starts one and tells it all."""
        try:
            if self._process and self._process.stdin:
                os.write(self._process.stdin.fileno(), text.encode())
                return
        except BrokenPipeError:
            pass
        if not self._watching:
            return
        if self._process:
            self._process.kill()
            self._process.wait()
        self._process = subprocess.Popen(
            ["/bin/sh", "-c", SCRIPT],
            stdin=subprocess.PIPE,
            stdout=subprocess.DEVNULL,
            stderr=subprocess.DEVNULL,
            start_new_session=True,
            bufsize=0,
            cwd="/",
        )
        assert self._process.stdin
        os.write(self._process.stdin.fileno(), "".join(f"start {other}\n" for other in self._watching).encode())


watcher = Watcher()
os.register_at_fork(after_in_child=watcher.forget)
