"""The commands, as a shell has them: what they print, and their status."""

from __future__ import annotations

import os
import subprocess
import sys
from pathlib import Path
from typing import List, Tuple

import pytest
from common import ROOT

WRONG = [
    ["palm-script"],
    ["palm-script", "-x", "a"],
    ["minimal-none", "a", "b"],
    ["minimal-none"],
    ["palm-solve", "a", "--seconds", "0"],
]


def run(words: List[str], **environment: str) -> Tuple[int, str, str]:
    """Status, output and messages of a command of `python/bin`."""
    command = [sys.executable, str(ROOT / "python" / "bin" / words[0]), *words[1:]]
    done = subprocess.run(command, stdout=subprocess.PIPE, stderr=subprocess.PIPE, env={**os.environ, **environment}, timeout=120)
    return done.returncode, done.stdout.decode("utf-8", "surrogateescape"), done.stderr.decode("utf-8", "surrogateescape")


@pytest.fixture
def odd(tmp_path: Path) -> str:
    """A session file whose names look like replies, with bytes that are no UTF-8 and a form feed in its comments."""
    path = tmp_path / "odd.palm"
    lines = [
        b"palm 2",
        b"var active 1..2",
        b"var error 1..2",
        b"var end 1..2",
        b"# \xe9\x0cnonsense",
        b"add relaxed : differ active error end",
    ]
    path.write_bytes(b"\n".join([*lines, b"add spare : active = 1", b"solve dbt"]) + b"\n")
    return str(path)


@pytest.mark.parametrize("words", WRONG)
def test_other_words_are_told_how_to_use_it(words: List[str]) -> None:
    status, output, message = run(words)
    assert (status, output) == (2, "") and message.startswith(f"usage: {words[0]} ")


@pytest.mark.parametrize("name", ["palm-script", "minimal-none", "palm-solve"])
def test_what_is_not_there_or_ends_early(name: str, odd: str) -> None:
    assert run([name, "/nowhere.palm"])[::2] == (3, f"{name}: /nowhere.palm: No such file or directory\n")
    status, output, message = run([name, odd], PALM="/nowhere/palm")
    assert (status, output) == (3, "") and message.startswith(f"{name}: no program palm: ")
    assert run([name, odd], PALM="/bin/true") == (1, "", f"{name}: palm ended with status 0\n")


def test_a_minimal_set_of_constraints_without_a_solution(odd: str) -> None:
    assert run(["minimal-none", odd]) == (0, "none relaxed\n", "")
    assert run(["minimal-none", str(ROOT / "examples" / "none.palm")])[:2] == (0, "none first_second second_third first_third\n")
    assert run(["minimal-none", str(ROOT / "examples" / "first.palm")])[0] in (0, 1)


def test_a_script_stops_at_a_refused_line(odd: str, tmp_path: Path) -> None:
    assert run(["palm-script", odd])[:2] == (0, "ok\n" * 5 + "contradiction\nnone relaxed spare\n")
    path = tmp_path / "refused.palm"
    path.write_bytes(b"var x 1..3\n\xe9\nvar y 1..3\n")
    assert run(["palm-script", str(path)]) == (1, "ok\n", f"{path}:2: \udce9: error E1 bytes or length\n")
    assert run(["palm-script", "-v", str(path)])[1] == "> var x 1..3\nok\n> \udce9\n"


def test_searches_without_a_budget(tmp_path: Path) -> None:
    path = tmp_path / "open.palm"
    lines = [
        "palm 2",
        "minimize x",
        "var x 1..3",
        "var y 1..2",
        "add a : x > y",
        "minimize x",
        "solve dbt",
        "add b : x < 2",
        "prove",
        "pause",
        "minimize x",
    ]
    path.write_text("\n".join(["# no such variable yet", *lines[:1], *lines[2:], "quit", "x"]) + "\n")
    status, output, _ = run(["palm-solve", str(path), "--seconds", "30"])
    replies = ["ok"] * 4 + ["best x=2 y=1", "proved by a", "end", "found x=2 y=1", "contradiction", "palm-proof 1", "var x 1..3"]
    assert status == 0 and output.splitlines()[: len(replies)] == replies
    assert output.splitlines()[-5:] == ["none a b", "end", "ok", "paused", "bye"]
    path.write_text("palm 2\nminimize x\n")
    assert run(["palm-solve", str(path)]) == (1, "ok\n", f"{path}:2: minimize x: error E4 unknown variable\n")
