"""The examples: each answer is that of another solver, or checked by what the example's data ask for."""

from __future__ import annotations

import itertools
import json
import os
import subprocess
import sys
from typing import Dict, List

import pytest
from common import EXAMPLES, ROOT

pytestmark = pytest.mark.long


def said(name: str) -> List[str]:
    """What the example prints. It is shorter than 40 lines."""
    path = EXAMPLES / f"{name}.py"
    assert len(path.read_text().splitlines()) < 40
    done = subprocess.run(
        [sys.executable, str(path)],
        stdout=subprocess.PIPE,
        check=True,
        timeout=120,
        env={**os.environ, "PYTHONPATH": str(ROOT / "python")},
    )
    return done.stdout.decode().splitlines()


def jobs(name: str) -> List[List[List[int]]]:
    """Machine and length of each step of each job."""
    lines = [
        line.split(":")[-1].split() for line in (EXAMPLES / f"{name}.txt").read_text().splitlines() if not line.startswith("#")
    ]
    return [[[int(machine), int(length)] for machine, length in zip(line[::2], line[1::2])] for line in lines]


def test_shifts() -> None:
    data = json.loads((EXAMPLES / "shifts.json").read_text())
    first, *rest = said("shifts")
    plan = {line.split(":")[0]: line.split(": ")[1].split() for line in rest}
    assert first.split(":")[0] in ("best", "found") and list(plan) == data["people"]
    for day, shift in itertools.product(range(7), data["needed"]):
        assert sum(week[day] == shift for week in plan.values()) == data["needed"][shift]
    for week in plan.values():
        assert week.count("off") >= 2 and all(after in data["after"][today] for today, after in zip(week, week[1:]))
    assert all(plan[person][data["days"].index(day)] == "off" for person, day in data["away"])


def test_pc() -> None:
    assert said("pc") == [
        "without 'wants a small case', because of the graphics card fits and wants a small case and wants to play",
        "best: 1100",
        "i3 b760 64 rtx4070 w400 mid stock 500",
    ]


def test_ft06() -> None:
    """The optimum of FT06 is 55, as has been known since 1963."""
    first, *rows = said("ft06")
    assert first == "best: 55"
    starts = [list(map(int, row.split())) for row in rows]
    check_jobs(jobs("ft06"), starts)
    assert max(row[-1] + steps[-1][1] for row, steps in zip(starts, jobs("ft06"))) == 55


def check_jobs(steps: List[List[List[int]]], starts: List[List[int]]) -> None:
    """The steps of a job come one after the other, and no machine has two at a time."""
    busy: Dict[int, List[range]] = {}
    for row, job in zip(starts, steps):
        spans = [range(start, start + length) for start, (_, length) in zip(row, job)]
        assert all(before.stop <= after.start for before, after in zip(spans, spans[1:]))
        for span, (machine, _) in zip(spans, job):
            assert all(span.stop <= other.start or other.stop <= span.start for other in busy.get(machine, []))
            busy.setdefault(machine, []).append(span)


def test_jobs() -> None:
    """MiniZinc with Gecode has 15 hours for these due dates, and 16 where job 2 is not late."""
    first, second = said("jobs")
    assert first.startswith("best: 15 hours late, ") and sum(map(int, first.split(", ")[1].split())) == 15
    assert second.startswith("best: 16 hours late, ") and second.split(", ")[1].split()[1] == "0"


def test_exams() -> None:
    data = json.loads((EXAMPLES / "exams.json").read_text())
    first, *rows = said("exams")
    place = {int(row.split(":")[0]): (int(row.split()[2].strip(",")), row.split()[3]) for row in rows}
    assert first == "found" and len(set(place.values())) == 20
    assert all(place[one][0] != place[other][0] for one, other in data["clashes"])
    assert all(data["rooms"][place[exam][1]] >= size for exam, size in enumerate(data["sizes"], 1))
    assert place[1][0] <= 2 and place[3][0] > place[2][0] and place[5][0] <= 6


def test_sudoku() -> None:
    given = (EXAMPLES / "sudoku.txt").read_text().split()
    first, *rows = said("sudoku")
    grid = rows[:9]
    digits = set("123456789")
    assert first == "1 solution, and no other"
    assert all(one in (".", other) for line, row in zip(given, grid) for one, other in zip(line, row))
    assert all(set(row) == digits for row in grid) and all(set(column) == digits for column in zip(*grid))
    boxes = itertools.product(range(0, 9, 3), repeat=2)
    assert all({grid[row + i][column + j] for i in range(3) for j in range(3)} == digits for row, column in boxes)
    assert rows[9].startswith("cell_0_0 is not 4: ")


def test_conference() -> None:
    """MiniZinc with Gecode loses a weight of 92 at least."""
    assert said("conference") == [
        "heaviest first, without: fay first, bob room1, bob second, hal room1",
        "best: 92 lost: fay first, bob second, hal room1, bob room1",
    ]


def test_diet() -> None:
    """MiniZinc with Gecode has 645."""
    first, second, third = said("diet")
    assert first == "best: 645" and third.startswith("for the sake of: ")
    assert "bread" in second


def test_frequencies() -> None:
    rows = [line.split() for line in (EXAMPLES / "frequencies.txt").read_text().splitlines() if not line.startswith("#")]
    first, second = said("frequencies")
    channel = dict(enumerate(map(int, second.split()), 1))
    assert first == "found" and set(channel.values()) <= set(map(int, rows[0][1:]))
    for one, other, relation, number in rows[1:]:
        distance = abs(channel[int(one)] - channel[int(other)])
        assert distance == int(number) if relation == "=" else distance > int(number)
