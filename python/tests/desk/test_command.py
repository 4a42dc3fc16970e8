"""The command palm-desk, as a process of its own."""

from __future__ import annotations

import os
import signal
import subprocess
import sys
import urllib.error
import urllib.request
from pathlib import Path
from typing import List

import pytest

pytest.importorskip("aiohttp", reason="no aiohttp: tools/setup desk installs it")

from running import ROOT  # noqa: E402


def begin(words: List[str], **more: str) -> "subprocess.Popen[str]":
    environment = {**os.environ, "PYTHONPATH": str(ROOT / "python"), **more}
    line = [sys.executable, "-m", "palm.desk.command", *words]
    return subprocess.Popen(line, stdout=subprocess.PIPE, stderr=subprocess.PIPE, text=True, env=environment)


def refused(words: List[str], **more: str) -> "tuple[int, str]":
    process = begin(words, **more)
    _, said = process.communicate(timeout=30)
    return process.returncode, said


def children(number: int) -> List[int]:
    return [int(word) for word in Path(f"/proc/{number}/task/{number}/children").read_text().split()]


def test_it_prints_its_address_and_ends_by_an_interrupt() -> None:
    process = begin([])
    assert process.stdout
    address = process.stdout.readline().strip()
    assert address.startswith("http://127.0.0.1:")
    with pytest.raises(urllib.error.HTTPError) as error:
        urllib.request.urlopen(address.split("?")[0], timeout=10)
    assert error.value.code == 403
    process.send_signal(signal.SIGINT)
    assert process.wait(timeout=30) == 0


@pytest.mark.long
def test_a_file_is_opened_at_the_start_and_its_process_ends_with_the_desk() -> None:
    process = begin([str(ROOT / "examples/planner.palm")])
    assert process.stdout and process.stdout.readline().startswith("http://127.0.0.1:")
    names = {number: Path(f"/proc/{number}/comm").read_text().strip() for number in children(process.pid)}
    programs = [number for number in names if os.readlink(f"/proc/{number}/exe") == os.path.realpath(os.environ["PALM"])]
    assert len(programs) == 1
    limits = Path(f"/proc/{programs[0]}/limits").read_text()
    assert any(line.startswith("Max address space") and str(512 * 1024 * 1024) in line for line in limits.splitlines())
    process.send_signal(signal.SIGINT)
    assert process.wait(timeout=30) == 0
    assert not Path(f"/proc/{programs[0]}").exists()


def test_other_words_are_refused(tmp_path: Path) -> None:
    assert refused(["a", "b"])[0] == 2 and refused(["--port", "x"])[0] == 2
    status, said = refused([str(tmp_path / "none")])
    assert status == 3 and said.startswith("palm-desk: ") and said.count("\n") == 1
    assert refused(["--port", "70000"])[0] == 3
    status, said = refused([], PALM=str(tmp_path / "none"))
    assert status == 3 and "no program palm" in said


def test_a_port_that_is_taken_is_refused() -> None:
    first = begin([])
    assert first.stdout
    port = first.stdout.readline().split(":")[2].split("/")[0]
    status, said = refused(["--port", port])
    first.kill()
    first.wait()
    assert status == 3 and "in use" in said


def test_without_aiohttp_it_says_what_to_install(tmp_path: Path) -> None:
    (tmp_path / "aiohttp.py").write_text("raise ModuleNotFoundError(\"No module named 'aiohttp'\", name='aiohttp')\n")
    process = begin([], PYTHONPATH=f"{tmp_path}:{ROOT / 'python'}")
    _, said = process.communicate(timeout=30)
    assert process.returncode == 3 and said == "palm-desk: no aiohttp: install python3-aiohttp, or the extra palm[desk]\n"
