"""palm-solve FILE [--seconds S]: runs a session file, in which a search needs no budget.

Prints the replies. The lines `solve dbt`, `prove` and `minimize NAME` without a budget are searched for S seconds each, 10 where
none are given, with guides in turn and budgets that grow; where that is not enough, the reply is `spent T`, or `spent T best ..`
with the best values so far. Where standard error is a terminal, it shows how far a search is, and Ctrl-C ends the search with what is
known. A refused line ends the run as in palm-script. The program is the word of PALM, or `palm` on the PATH.
Status: 0 where no line was refused, 1 at a refused one, 2 for other words, 3 where FILE or the program is not there, else the
program's.
"""

from __future__ import annotations

import sys
from typing import List, Optional

from palm.chooser import Chooser, Turn, pairs
from palm.commands.common import command, lines_of
from palm.commands.script import refused
from palm.lines import text_of, tokens
from palm.session import Session

SECONDS = 10.0


def run(given: Optional[List[str]] = None) -> int:
    """The command, with its words."""
    words = sys.argv[1:] if given is None else given
    seconds = SECONDS
    if len(words) == 3 and words[1] == "--seconds":
        try:
            seconds = float(words[2])
        except ValueError:
            seconds = -1
        words = words[:1]
    if len(words) != 1 or words[0].startswith("-") or not 0 < seconds < float("inf"):
        print("usage: palm-solve FILE [--seconds S]", file=sys.stderr)
        return 2
    return command("palm-solve", lambda: _run(words[0], seconds))


def _run(path: str, seconds: float) -> int:
    lines = lines_of(path)
    with Session() as session:
        for number, line in enumerate(lines, 1):
            reply = _chosen(session, line, seconds) if is_open(line) else session.ask(line)
            if refused(path, number, line, reply):
                return 1
            for text in reply:
                print(text, flush=True)
            if reply == ["bye"]:
                break
    return 0


def is_open(line: bytes) -> bool:
    """Whether the line is a search without a budget."""
    words = tokens(line)
    return words in (["solve", "dbt"], ["prove"]) or words[:1] == ["minimize"] and len(words) == 2


def _chosen(session: Session, line: bytes, seconds: float) -> List[str]:
    """The reply that the chooser finds; a refusal where the line with a budget is refused, and `paused` where the session is."""
    first = session.ask(line + b" budget 1")
    if first[0].split(" ")[0] in ("error", "paused"):
        return first
    chooser = Chooser(session, seconds, _show if sys.stderr.isatty() else None)
    words = tokens(line)
    outcome = chooser.minimize(words[1]) if words[0] == "minimize" else chooser.run(text_of(line).strip())
    if sys.stderr.isatty():
        print("\r\033[K", end="", file=sys.stderr, flush=True)
    if outcome.reply is not None:
        return list(outcome.reply.lines)
    return [f"spent {outcome.turns}" + (f" best {pairs(outcome.best)}" if outcome.best else "")]


def _show(turn: Turn) -> None:
    text = f"guide {turn.guide}, budget {turn.budget:,}, {turn.turns:,} turns, {turn.seconds:.1f} s"
    print(f"\r\033[K{text}", end="", file=sys.stderr, flush=True)
