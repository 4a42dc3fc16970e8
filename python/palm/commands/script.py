"""palm-script [-v] FILE: runs a session file and stops at its first refused line.

Prints the replies; with -v, each line with its reply behind it. A refused line ends the run: FILE, the number of the line, the line
and the reply go to standard error, and the status is 1. The program is the word of PALM, or `palm` on the PATH.
Status: 0 where no line was refused, 1 at a refused one, 2 for other words, 3 where FILE or the program is not there, else the
program's.
"""

from __future__ import annotations

import sys
from typing import List, Optional

from palm.commands.common import command, lines_of, shown
from palm.lines import is_refusal
from palm.session import Session


def run(given: Optional[List[str]] = None) -> int:
    """The command, with its words."""
    words = sys.argv[1:] if given is None else given
    verbose = words[:1] == ["-v"]
    words = words[verbose:]
    if len(words) != 1 or words[0].startswith("-"):
        print("usage: palm-script [-v] FILE", file=sys.stderr)
        return 2
    return command("palm-script", lambda: _run(words[0], verbose))


def _run(path: str, verbose: bool) -> int:
    lines = lines_of(path)
    with Session() as session:
        for number, line in enumerate(lines, 1):
            if verbose:
                print(f"> {shown(line)}", flush=True)
            reply = session.ask(line)
            if refused(path, number, line, reply):
                return 1
            for text in reply:
                print(text, flush=True)
            if reply == ["bye"]:
                break
    return 0


def refused(path: str, number: int, line: bytes, reply: List[str]) -> bool:
    """Whether the line was refused; then that is said on standard error."""
    if not reply or not is_refusal(reply[0].encode()):
        return False
    sys.stdout.flush()
    print(f"{path}:{number}: {shown(line)}: {reply[0]}", file=sys.stderr)
    return True
