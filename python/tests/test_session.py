"""Sessions: bytes as the program reads them, deadlines, ends, and what is left behind."""

from __future__ import annotations

import os
import signal
import subprocess
import sys
import threading
import time
from pathlib import Path
from typing import Iterator, List

import pytest
from common import drawn
from hypothesis import given
from hypothesis import strategies as st

from palm import Ended, Fault, InputLimit, Killed, NotFound, OutOfMemory, Refused, Session, Stopped, TimedOut
from palm.errors import ended
from palm.replies import (
    Because,
    Best,
    Contradiction,
    Domains,
    HardConflict,
    LeftOut,
    Listing,
    Log,
    Preferred,
    Present,
    Proof,
    Spent,
)
from palm.slips import GENERAL, advice, slips

ROOT = Path(__file__).resolve().parents[2]
PIECES = [
    b"\r",
    b"\0",
    b"#",
    b" ",
    b"\t",
    b"\xff",
    b"\xc3\xa9",
    b"\x0c",
    b"\x0b",
    b"\x1c",
    b"var",
    b"error",
    b"end",
    b"1..3",
    b"domains",
    b"log",
]
ENDLESS = [f"var p{number} 1..15" for number in range(16)] + [f"add d : differ {' '.join(f'p{number}' for number in range(16))}"]


@pytest.fixture
def session() -> Iterator[Session]:
    with Session(timeout=60) as running:
        yield running


def replies_to(text: bytes) -> List[str]:
    """What the program itself writes to a text."""
    done = subprocess.run([os.environ["PALM"], "run"], input=text, stdout=subprocess.PIPE, check=True, timeout=60)
    return done.stdout.decode().splitlines()


@drawn(100)
@given(st.lists(st.lists(st.sampled_from(PIECES) | st.binary(max_size=4), max_size=5).map(b"".join), max_size=8))
def test_lines_of_any_bytes_have_the_program_s_own_replies(lines: List[bytes]) -> None:
    lines = [b"var error 1..3", b"var end 1..2", b"add active : error < end"] + [line.replace(b"\n", b"") for line in lines]
    with Session(timeout=60) as session:
        replies = [reply for line in lines for reply in session.ask(line)]
    assert replies == replies_to(b"".join(line + b"\n" for line in lines))


@pytest.mark.parametrize(
    "line", [b"#" * 65536, b"#" * 65537, b"x" * 65536 + b"\r", b" " * 65537, b"\r\r", b"\r", b"# \r\r"], ids=range(7)
)
def test_lines_at_the_limit_are_answered_or_not_as_by_the_program(session: Session, line: bytes) -> None:
    assert session.ask(line) == replies_to(line + b"\n")


def test_names_that_look_like_replies(session: Session) -> None:
    for line in (
        "palm 2",
        "var error 1..3",
        "var end 1..2",
        "var best 0..1",
        "add keep : error < end",
        "add end : best = 1",
        "add paused : end = 2",
    ):
        session.do(line)
    log, listing = session.send("log"), session.send("list")
    assert isinstance(log, Log) and [(removal.variable, removal.value) for removal in log.removals] == [
        ("error", 2),
        ("error", 3),
        ("end", 1),
        ("best", 0),
    ]
    assert isinstance(listing, Listing) and [constraint.name for constraint in listing.constraints] == ["keep", "end", "paused"]
    assert session.domains() == {"error": [1], "end": [2], "best": [1]}
    best = session.send("minimize best budget 9")
    assert isinstance(best, Best) and best.values == {"error": 1, "end": 2, "best": 1} and best.proved_by == ("end",)


def test_replies_as_values(session: Session) -> None:
    for line in ("palm 2", "var x 1..2", "var y 1..2", "var z 1..2", "add d : differ x y z"):
        session.do(line)
    assert isinstance(session.send("why x 1"), Present)
    assert isinstance(session.send("solve repair tabu 1 budget 1"), Spent)
    proof = session.send("prove budget 10")
    assert isinstance(proof, Proof) and proof.end.lines == ("none d",)
    assert isinstance(session.send("add one : x = 1"), Contradiction)
    assert isinstance(session.send("why x 2"), Contradiction)
    hard = session.send("preferred")
    assert isinstance(hard, HardConflict) and hard.names == ("d", "one")
    session.do("prefer one 5")
    preferred = session.send("preferred")
    assert isinstance(preferred, Preferred) and preferred.keep == ("d",) and preferred.leave == (LeftOut("one", ("d", "one")),)
    session.do("relax d")
    because = session.send("why x 2")
    assert isinstance(because, Because) and because.names == ("one",)


def test_a_refused_line_says_what_to_do(session: Session) -> None:
    session.do("var x 1..9")
    with pytest.raises(Refused) as refused:
        session.do("add early : x == 3")
    assert (refused.value.code, refused.value.cause) == ("E2", "no such form")
    assert refused.value.advice == "write `add a : x = y` and not `add a : x == y`: one sign"


def test_the_slips_are_those_of_the_page() -> None:
    page = (ROOT / "docs" / "SLIPS.md").read_text().splitlines()
    rows = [[cell.strip() for cell in line.strip("|").split("|")] for line in page if line.startswith("| `")]
    assert [[f"`{slip.written}`", f"`{slip.reply}`", slip.instead, slip.why] for slip in slips()] == rows
    assert all(advice(slip.written, slip.reply) for slip in slips()) and len(GENERAL) == 12


def test_a_deadline_ends_the_line_and_not_the_session(session: Session) -> None:
    for line in [*ENDLESS, "add early : p0 = 3", "relax early", "guide 3", "drop order 1"]:
        session.do(line)
    before = session.ask("list")
    began = time.monotonic()
    with pytest.raises(TimedOut):
        session.ask("solve dbt", timeout=0.3)
    assert time.monotonic() - began < 5
    assert session.ask("list") == before and session.journal.chosen["guide"] == "3"
    assert session.ask("order 1") == ["error E11 no such object"]


def test_another_thread_stops_a_line(session: Session) -> None:
    for line in ENDLESS:
        session.do(line)
    assert not session.stop()
    threading.Timer(0.2, session.stop).start()
    with pytest.raises(Stopped):
        session.ask("solve dbt")
    assert session.domains() == {f"p{number}": list(range(1, 16)) for number in range(16)}


def test_an_interrupt_leaves_the_session_usable(session: Session) -> None:
    for line in ENDLESS:
        session.do(line)
    threading.Timer(0.2, lambda: os.kill(os.getpid(), signal.SIGINT)).start()
    with pytest.raises(KeyboardInterrupt):
        session.ask("solve dbt")
    assert isinstance(session.send("domains"), Domains)


def test_each_end_has_its_exception() -> None:
    assert [type(ended(status)) for status in (0, 3, 4, 5, 6, -9)] == [Ended, Fault, Fault, OutOfMemory, InputLimit, Killed]
    session = Session(timeout=60)
    session.do("var x 1..3")
    os.kill(session.process or 0, signal.SIGTERM)
    with pytest.raises(Killed) as killed:
        session.ask("domains")
    assert killed.value.signal == signal.SIGTERM and session.domains() == {"x": [1, 2, 3]}
    assert session.ask("quit") == ["bye"] and session.close() == 0
    with pytest.raises(Ended):
        session.ask("domains")


@pytest.mark.long
def test_the_input_s_limit_ends_the_program_and_not_the_session(session: Session) -> None:
    session.do("var x 1..3")
    with pytest.raises(InputLimit):
        for _ in range(300):
            session.ask(b"#" * 65536)
        session.ask("domains")
    assert session.domains() == {"x": [1, 2, 3]}


def test_a_program_that_is_not_there() -> None:
    with pytest.raises(NotFound):
        Session("/nowhere/palm")


def alive(pattern: bytes) -> int:
    """How many processes have the text in their command lines."""
    found = 0
    for folder in Path("/proc").glob("[0-9]*"):
        try:
            found += pattern in (folder / "cmdline").read_bytes()
        except OSError:
            pass
    return found


@pytest.fixture
def marked(tmp_path: Path) -> str:
    """The program under a path that no other process has."""
    link = tmp_path / "palm_of_this_test"
    link.symlink_to(os.environ["PALM"])
    return str(link)


def test_a_thousand_sessions_leave_no_process(marked: str) -> None:
    for number in range(1000):
        session = Session(marked)
        if number % 3 == 0:
            session.close()
        elif number % 3 == 1:
            session.kill()
    del session
    assert alive(marked.encode()) == 0


def test_no_program_outlives_a_killed_interpreter(marked: str) -> None:
    lines = [*ENDLESS, "solve dbt"]
    code = (
        f"from palm import Session\ns = Session({marked!r})\nfor line in {lines!r}:\n    print(line, flush=True)\n    s.ask(line)"
    )
    child = subprocess.Popen(
        [sys.executable, "-c", code], stdout=subprocess.PIPE, env={**os.environ, "PYTHONPATH": str(ROOT / "python")}
    )
    assert child.stdout
    for line in child.stdout:
        if line == b"solve dbt\n":
            break
    time.sleep(0.2)
    assert alive(marked.encode()) == 2
    child.kill()
    child.wait()
    child.stdout.close()
    limit = time.monotonic() + 10
    while alive(marked.encode()) and time.monotonic() < limit:
        time.sleep(0.02)
    assert alive(marked.encode()) == 0


def test_leaving_by_an_exception_kills(marked: str) -> None:
    with pytest.raises(ZeroDivisionError):
        with Session(marked):
            raise ZeroDivisionError
    assert alive(marked.encode()) == 0
