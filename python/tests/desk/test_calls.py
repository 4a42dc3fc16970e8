"""Each call of the page on small sessions, whose answers follow from the definitions."""

from __future__ import annotations

import os
import signal
import time
from pathlib import Path
from typing import Any, Dict

import pytest

pytest.importorskip("aiohttp", reason="no aiohttp: tools/setup desk installs it")

from running import Running  # noqa: E402

from palm import Session  # noqa: E402
from palm.desk.pool import MOST, Pool  # noqa: E402

PLAN = "var survey 8..12\nvar pour 8..12\nvar inspect 8..12\nadd first : pour > survey\nadd rests : inspect >= pour + 2\n"
PIGEONS = "".join(f"var p{hole} 1..9\n" for hole in range(10)) + "".join(
    f"add d{one}_{other} : p{one} != p{other}\n" for one in range(10) for other in range(one)
)
EXAMPLES = Path(__file__).resolve().parents[3] / "examples"


def test_a_session_is_told_whole(desk: Running) -> None:
    desk.open(PLAN)
    said = desk.call("GET", "/api/sessions/1").said
    assert said["variables"] == [["survey", [[8, 12]], [[0, 1]]], ["pour", [[8, 12]], [[1, 2]]], ["inspect", [[8, 12]], [[3, 4]]]]
    assert said["constraints"] == [[1, "first", "pour > survey", True, None], [2, "rests", "inspect >= pour + 2", True, None]]
    assert said["contradiction"] is None and said["undo"] is None


def test_a_change_tells_what_it_changed(desk: Running) -> None:
    session = desk.open(PLAN + "var other 1..3\n")
    said = desk.send(session, "add noon : inspect < 12")
    assert said["domains"] == {"0": [[0, 0]], "1": [[1, 1]], "2": [[3, 3]]}
    assert said["constraints"] == [[3, "noon", "inspect < 12", True, None]] and said["variables"] == []
    said = desk.send(session, "relax noon")
    assert said["domains"] == {"0": [[0, 1]], "1": [[1, 2]], "2": [[3, 4]]} and said["constraints"][0][3] is False
    assert desk.send(session, "prefer noon 7")["constraints"] == [[3, "noon", "inspect < 12", False, 7]]
    assert desk.send(session, "retract noon")["retracted"] == [3]
    assert desk.send(session, "add noon : inspect < 12")["constraints"] == [[4, "noon", "inspect < 12", True, None]]


def test_a_refused_line_comes_with_its_slip(desk: Running) -> None:
    session = desk.open(PLAN)
    said = desk.send(session, "add a : survey == pour", "add b : survey != pour")
    [row] = said["refused"]
    assert row["reply"] == "error E2 no such form" and "`add a : x = y`" in row["advice"]
    assert said["constraints"] == [] and said["domains"] == {} and said["undo"] is None


def test_why_names_the_constraints_and_their_steps(desk: Running) -> None:
    desk.open(PLAN + "add noon : inspect < 12\n")
    said = desk.call("GET", "/api/sessions/1/why?name=survey&value=9").said
    assert said["names"] == ["first", "rests", "noon"]
    goal = said["steps"][-1]
    assert (goal["variable"], goal["value"], goal["by"]) == ("survey", 9, "first")
    reasons = {(said["steps"][number]["variable"], said["steps"][number]["value"]) for number in goal["from"]}
    assert reasons == {("pour", 10), ("pour", 11), ("pour", 12)}
    assert desk.call("GET", "/api/sessions/1/why?name=survey&value=9&minimal=1").said["names"] == ["first", "rests", "noon"]
    assert desk.call("GET", "/api/sessions/1/why?name=survey&value=8").said["names"] == []


NOTHING = {"name=survey&value=99": 422, "name=q&value=1": 422, "name=a+b&value=1": 400, "name=survey&value=1+2": 400, "": 400}


@pytest.mark.parametrize("query, status", NOTHING.items())
def test_a_question_about_nothing_is_refused(desk: Running, query: str, status: int) -> None:
    desk.open(PLAN)
    assert desk.call("GET", f"/api/sessions/1/why?{query}").status == status


def test_a_contradiction_and_the_way_out(desk: Running) -> None:
    session = desk.open(PLAN + "add noon : inspect < 12\nprefer noon 3\nadd spare : survey != 12\n")
    said = desk.send(session, "add late : pour >= 10")
    assert said["contradiction"]["variable"] == "pour" and {"noon", "late", "rests"} <= set(said["contradiction"]["names"])
    assert [1, []] in [[int(number), runs] for number, runs in said["domains"].items()]
    assert desk.call("GET", "/api/sessions/1/conflict?minimal=1").said["names"] == ["rests", "noon", "late"]
    preferred = desk.call("GET", "/api/sessions/1/preferred").said
    assert [row["name"] for row in preferred["leave"]] == ["noon"] and preferred["keep"] == ["first", "rests", "spare", "late"]
    assert desk.send(session, "relax noon")["contradiction"] is None


def test_why_in_a_contradiction_is_read_from_the_log(desk: Running) -> None:
    desk.open(PLAN + "add noon : inspect < 12\nadd late : pour >= 10\n")
    said = desk.call("GET", "/api/sessions/1/why?name=inspect&value=12").said
    assert said["names"] == ["noon"] and len(said["steps"]) == 1


def test_hard_constraints_alone_in_conflict(desk: Running) -> None:
    desk.open(PLAN + "add noon : inspect < 10\n")
    assert desk.call("GET", "/api/sessions/1/preferred").said == {"hard": ["rests", "noon"]}


def test_a_certificate_is_accepted_by_a_second_process(desk: Running) -> None:
    desk.open(PLAN)
    said = desk.call("POST", "/api/sessions/1/certificate?name=survey&value=11").said
    assert said["accepted"] and said["verdict"] == "accepted survey 11 because first rests"
    document = desk.call("GET", f"/api/sessions/1/documents/{said['document']}")
    assert document.body.startswith(b"palm-cert 1\n") and document.headers["Content-Disposition"].startswith("attachment")
    assert desk.call("GET", "/api/sessions/1/documents/2").status == 404
    assert desk.call("POST", "/api/sessions/1/certificate?name=survey&value=8").said == {"said": "present"}
    assert desk.call("POST", "/api/sessions/1/certificate").said == {"said": "consistent"}


def all_of(session: Session) -> "list[list[str]]":
    return [session.ask(line) for line in ("list", "domains", "log", "conflict")]


def test_undo_and_redo_bring_back_the_very_session(desk: Running) -> None:
    number = desk.open(PLAN + "add noon : inspect < 12\n")
    session = desk.desk.sessions[number]
    states = [all_of(session._running())]
    actions = ["relax noon", "retract noon", "add late : pour >= 11", "var more 1..3", "prefer late 4"]
    for line in actions:
        desk.send(number, line)
        states.append(all_of(session._running()))
    for before in states[-2::-1]:
        said = desk.call("POST", f"/api/sessions/{number}/undo").said
        assert all_of(session._running()) == before
    assert said["undo"] is None and said["redo"] == "relax noon"
    for line, behind in zip(actions, states[1:]):
        assert desk.call("POST", f"/api/sessions/{number}/redo").said["undo"] == line
        assert all_of(session._running()) == behind
    assert desk.call("GET", f"/api/sessions/{number}").said["constraints"][-1][4] == 4


def test_several_lines_are_one_action(desk: Running) -> None:
    session = desk.open(PLAN)
    assert desk.send(session, "relax first", "relax rests")["undo"] == "relax first and 1 more"
    said = desk.call("POST", f"/api/sessions/{session}/undo").said
    assert [row[3] for row in said["constraints"]] == [True, True] and said["undo"] is None


def test_a_file_is_read_and_written(desk: Running) -> None:
    text = "# a plan \u00e9\n" + PLAN + "solve dbt\nvar q = 3\nrelax first\nprefer rests 4\nquit\nvar never 1..2\n"
    said = desk.call("POST", "/api/sessions?name=%3Cimg%20onerror%3D1%3E", body=text.encode("latin-1")).said
    assert said["name"] == "<img onerror=1>" and said["said"] == ["1 question is left out"]
    assert [(row["number"], row["line"]) for row in said["refused"]] == [(8, "var q = 3")]
    saved = desk.call("GET", "/api/sessions/1/file")
    assert saved.body == b"palm 2\n" + ("# a plan \u00e9\n" + PLAN + "relax first\nprefer rests 4\n").encode("latin-1")
    again = desk.call("POST", "/api/sessions?name=again", body=saved.body).said
    assert [again[name] for name in ("variables", "constraints")] == [said[name] for name in ("variables", "constraints")]


@pytest.mark.parametrize("example", ["planner", "configurator", "scheduler", "domains", "preferences", "version-2"])
def test_the_examples_open(desk: Running, example: str) -> None:
    text = (EXAMPLES / f"{example}.palm").read_bytes()
    said = desk.call("POST", "/api/sessions", body=text).said
    refused = (EXAMPLES / f"{example}.replies").read_text().count("error ")
    assert said["variables"] and len(said["refused"]) <= refused


def test_a_pause(desk: Running) -> None:
    session = desk.open(PLAN)
    assert desk.send(session, "pause", "add noon : inspect < 12")["paused"] is True
    assert desk.call("GET", "/api/sessions/1/why?name=survey&value=11").said["names"] == []
    assert desk.call("POST", "/api/sessions/1/search", body={"kind": "solve"}).status == 400
    said = desk.send(session, "resume")
    assert said["paused"] is False and said["domains"]["0"] == [[0, 0]]


def test_comments_say_tasks_words_and_background(desk: Running) -> None:
    session = desk.open(PLAN)
    fitting = ["# tasks dig survey 2", "# words surv* a b c d e", "# background rests"]
    said = desk.send(session, *fitting, "# tasks none q 1", "# words pour a b")
    tasks = [{"name": "dig", "start": "survey", "length": 2}]
    assert said["notes"] == {"tasks": tasks, "words": {"survey": list("abcde")}, "background": ["rests"]}
    assert said["undo"].startswith("# tasks")


def wait(desk: Running, session: int) -> Dict[str, Any]:
    for _ in range(600):
        told = desk.call("GET", f"/api/sessions/{session}/search").said
        if not told["running"]:
            return told
        time.sleep(0.05)
    raise AssertionError("the search goes on")


def search(desk: Running, session: int, kind: str, target: str = "", seconds: float = 20) -> None:
    given = {"kind": kind, "target": target, "seconds": seconds}
    assert desk.call("POST", f"/api/sessions/{session}/search", body=given).status == 200


def test_a_solution_is_looked_at_by_a_second_process(desk: Running) -> None:
    session = desk.open(PLAN)
    search(desk, session, "solve")
    told = wait(desk, session)
    assert told["outcome"] == "found" and told["satisfied"] is True
    values = told["values"]
    assert values["pour"] > values["survey"] and values["inspect"] >= values["pour"] + 2
    assert desk.call("GET", "/api/sessions/1").said["undo"] is None


@pytest.mark.parametrize("kind, value", [("minimize", 9), ("maximize", 10)])
def test_the_best_comes_with_a_proof(desk: Running, kind: str, value: int) -> None:
    session = desk.open(PLAN)
    search(desk, session, kind, "pour")
    told = wait(desk, session)
    assert told["outcome"] == "best" and told["values"]["pour"] == value
    assert told["accepted"] is True and told["verdict"].startswith("accepted none because")
    assert {"first" if kind == "minimize" else "rests"} <= set(told["names"]) <= {"first", "rests"}


def test_none_comes_with_a_proof(desk: Running) -> None:
    session = desk.open("var x 1..2\nvar y 1..2\nvar z 1..2\nadd d : differ x y z\n")
    search(desk, session, "solve")
    told = wait(desk, session)
    assert (told["outcome"], told["names"], told["verdict"]) == ("none", ["d"], "accepted none because d")
    document = desk.call("GET", f"/api/sessions/{session}/documents/{told['document']}")
    assert document.body.startswith(b"palm-proof 1\n")


def test_a_stop_leaves_the_session_as_it_was(desk: Running) -> None:
    session = desk.open(PIGEONS)
    before = all_of(desk.desk.sessions[session]._running())
    search(desk, session, "solve", seconds=60)
    time.sleep(0.3)
    assert desk.send(session, "add extra : p0 < 9")["undo"] == "add extra : p0 < 9"
    desk.call("POST", f"/api/sessions/{session}/undo")
    told = desk.call("POST", f"/api/sessions/{session}/search/stop").said
    assert (told["running"], told["outcome"], told["said"]) == (False, "unfinished", "stopped")
    assert all_of(desk.desk.sessions[session]._running()) == before
    assert len(desk.desk.pool._running) == 1


def test_a_search_has_its_time(desk: Running) -> None:
    session = desk.open(PIGEONS)
    search(desk, session, "solve", seconds=0.5)
    told = wait(desk, session)
    assert told["outcome"] == "unfinished" and told["said"] == "no answer within 0.5 seconds"


SEARCHES = [{}, {"kind": "quit"}, {"kind": "solve", "seconds": -1}, {"kind": "solve", "seconds": "x"}, {"kind": "minimize", "target": "q"}]


@pytest.mark.parametrize("body", SEARCHES)
def test_a_search_for_nothing_is_refused(desk: Running, body: object) -> None:
    desk.open(PLAN)
    assert desk.call("POST", "/api/sessions/1/search", body=body).status == 400


def test_a_process_that_ended_says_how_and_goes_on(desk: Running) -> None:
    session = desk.open(PLAN)
    desk.send(session, "add noon : inspect < 12")
    said = desk.send(session, "quit")
    assert said["said"][0].startswith("palm ended with status 0") and said["domains"] == {}
    os.kill(desk.desk.sessions[session]._running().process or 0, signal.SIGKILL)
    said = desk.send(session, "relax noon")
    assert "killed by a signal" in said["said"][0] and desk.call("GET", "/api/sessions/1").said["constraints"][2][3] is True
    assert desk.send(session, "relax noon")["domains"]["0"] == [[0, 1]]


def test_a_line_has_its_time(memory: "int | None") -> None:
    with Running(Pool(memory=memory, seconds=1.0)) as desk:
        session = desk.open(PIGEONS)
        said = desk.send(session, "solve dbt")
        assert "no reply within 1 seconds" in said["said"][0] and said["undo"] is None
        assert desk.send(session, "add extra : p0 < 9")["domains"]["0"] == [[0, 7]]


@pytest.mark.long
def test_want_of_memory_is_told() -> None:
    with Running(Pool(memory=32 * 1024 * 1024)) as desk:
        session = desk.open("".join(f"var x{number} 1..256\n" for number in range(16)))
        rows = " ".join(f"({','.join([str(row)] * 16)})" for row in range(1, 257))
        names = " ".join(f"x{number}" for number in range(16))
        said = desk.send(session, *[f"add t{number} : table {names} : {rows}" for number in range(400)])
        assert "want of memory. A new process has the session" in said["said"][0]
        while desk.call("GET", f"/api/sessions/{session}").said["undo"]:
            assert desk.call("POST", f"/api/sessions/{session}/undo").status == 200
        assert desk.send(session, "add small : x0 < 9")["domains"]["0"] == [[0, 7]]


def test_no_more_processes_than_may_be(memory: "int | None") -> None:
    assert MOST == 16
    with Running(Pool(most=2, memory=memory)) as desk:
        desk.open(), desk.open()
        answer = desk.call("POST", "/api/sessions", body=b"")
        assert answer.status == 503 and "close a session" in answer.said["error"]
        assert desk.call("POST", "/api/sessions/1/certificate").status == 200
        assert desk.call("POST", "/api/sessions/1/close").said["sessions"] == [{"session": 2, "name": "test"}]
        assert desk.open() == 4 or desk.desk.sessions


def test_every_scene_opens_without_a_refusal(desk: Running) -> None:
    for scene in desk.call("GET", "/api/desk").said["scenes"]:
        said = desk.call("POST", f"/api/sessions?scene={scene}").said
        assert (said["refused"], said["said"], said["contradiction"]) == ([], [], None)


def test_nothing_runs_behind_the_end(memory: "int | None") -> None:
    with Running(Pool(memory=memory)) as desk:
        desk.open(PIGEONS)
        search(desk, 1, "solve", seconds=60)
        time.sleep(0.2)
        numbers = [session.process for session in desk.desk.pool._running]
        assert numbers
    assert desk.desk.pool._running == set() and not any(Path(f"/proc/{number}").exists() for number in numbers)
