"""minimal-none FILE [BUDGET]: a minimal set of constraints that have no common solution, where a search finds none.

Runs the session of FILE up to its first search or `quit`, searches with `solve dbt` and, where that answers `none`, relaxes
the other constraints and then one named constraint after another: it stays relaxed where the search still answers `none`, and
is enforced again where the search finds a solution. Each search has BUDGET turns, 10,000 where none is given; a constraint
whose search is spent is kept, and said to be kept unproved. Prints `none NAME NAME`, or the search's other answer.
Status: 0 for a minimal set, 1 for another answer or a refused line, 2 for other words, 3 where FILE or the program is not there,
4 for a set of which some search was spent, and the program's own where it ended early.
"""

from __future__ import annotations

import sys
from typing import Iterable, List, Optional, Tuple

from palm.commands.common import command, lines_of
from palm.lines import first_word
from palm.replies import Listing, NoSolution, Spent
from palm.session import Session

ENDS = (b"solve", b"prove", b"minimize", b"quit")


def run(given: Optional[List[str]] = None) -> int:
    """The command, with its words."""
    words = sys.argv[1:] if given is None else given
    if not 1 <= len(words) <= 2 or words[0].startswith("-") or not all(word.isdigit() for word in words[1:]):
        print("usage: minimal-none FILE [BUDGET]", file=sys.stderr)
        return 2
    return command("minimal-none", lambda: _run(words[0], f"solve dbt budget {(words[1:] or ['10000'])[0]}"))


def _run(path: str, search: str) -> int:
    lines = lines_of(path)
    with Session() as session:
        for line in lines:
            if first_word(line) in ENDS:
                break
            session.do(line)
        answer = session.send(search)
        if not isinstance(answer, NoSolution):
            print(answer.lines[0])
            return 1
        core, unproved = reduced(session, search, answer.names)
    print(" ".join(["none", *core]))
    if unproved:
        print(f"spent while it was left out, so kept: {' '.join(unproved)}", file=sys.stderr)
    return 4 if unproved else 0


def reduced(session: Session, search: str, names: Iterable[str]) -> Tuple[List[str], List[str]]:
    """Of constraints without a common solution, some of which none can be left out, and those of them whose search was spent."""
    core, unproved = list(names), []  # type: Tuple[List[str], List[str]]
    relax_others(session, core)
    for name in list(core):
        if name not in core:
            continue
        session.do(f"relax {name}")
        answer = session.send(search)
        if isinstance(answer, NoSolution):
            core = list(answer.names)
            unproved = [other for other in unproved if other in core]
            relax_others(session, core)
        else:
            session.do(f"enforce {name}")
            unproved += [name] if isinstance(answer, Spent) else []
    return core, unproved


def relax_others(session: Session, core: List[str]) -> None:
    """Relaxes the active constraints that are none of these."""
    listing = session.send("list")
    assert isinstance(listing, Listing)
    for constraint in listing.constraints:
        if constraint.active and constraint.name not in core:
            session.do(f"relax {constraint.name}")
