"""Who is let in, and what every answer says."""

from __future__ import annotations

from typing import Any

import pytest

pytest.importorskip("aiohttp", reason="no aiohttp: tools/setup desk installs it")

from running import Running  # noqa: E402

PATHS = ["/static/main.js", "/api/desk", "/api/sessions/1", "/api/sessions/1/file", "/no/such/path"]
CHANGES = ["/api/sessions", "/api/sessions/1/lines", "/api/sessions/1/undo", "/api/sessions/1/search", "/api/sessions/1/close"]
BODY = 16 * 1024 * 1024


def path_of(address: str, desk: Running) -> str:
    assert address.startswith(desk.origin + "/?token=")
    return address[len(desk.origin) :]


def test_the_first_address_is_changed_for_a_cookie(desk: Running) -> None:
    answer = desk.call("GET", path_of(desk.addresses[0], desk), cookie=None)
    name, *marks = answer.headers["Set-Cookie"].split("; ")
    assert (answer.status, answer.headers["Location"]) == (303, "/")
    assert name.startswith("palm_desk=") and {"HttpOnly", "SameSite=Strict", "Path=/"} <= set(marks)
    page = desk.call("GET", "/", cookie=name.split("=", 1)[1])
    assert page.status == 200 and page.headers["Content-Type"].startswith("text/html")


def test_a_first_address_serves_once(desk: Running) -> None:
    first = path_of(desk.addresses[0], desk)
    assert desk.call("GET", first, cookie=None).status == 303
    again = desk.call("GET", first, cookie=None)
    assert again.status == 403 and "Set-Cookie" not in again.headers
    assert len(desk.addresses) == 2 and desk.call("GET", path_of(desk.addresses[1], desk), cookie=None).status == 303


def test_a_known_browser_may_open_an_old_address(desk: Running) -> None:
    answer = desk.call("GET", "/?token=old")
    assert (answer.status, answer.headers["Location"]) == (303, "/") and "Set-Cookie" not in answer.headers


@pytest.mark.parametrize("token", ["", "wrong", "%00", "%ff", "x" * 5000])
def test_another_token_is_refused(desk: Running, token: str) -> None:
    answer = desk.call("GET", f"/?token={token}", cookie=None)
    assert answer.status == 403 and "Set-Cookie" not in answer.headers


@pytest.mark.parametrize("cookie", [None, "wrong", "\u00e9"])
@pytest.mark.parametrize("path", ["/", *PATHS])
def test_without_the_cookie_there_is_nothing(desk: Running, path: str, cookie: Any) -> None:
    assert desk.call("GET", path, cookie=cookie).status == 403


@pytest.mark.parametrize("path", CHANGES)
def test_no_change_without_the_cookie(desk: Running, path: str) -> None:
    assert desk.call("POST", path, cookie=None, body={}).status == 403
    assert desk.desk.sessions == {}


@pytest.mark.parametrize("origin", ["http://elsewhere.example", "null", "http://127.0.0.1:1", "https://127.0.0.1", None])
def test_no_change_from_another_origin(desk: Running, origin: "str | None") -> None:
    assert desk.call("POST", "/api/sessions", body=b"var x 1..3\n", Origin=origin).status == 403
    assert desk.desk.sessions == {}


def test_no_question_from_another_origin(desk: Running) -> None:
    assert desk.call("GET", "/api/desk", Origin="http://elsewhere.example").status == 403
    assert desk.call("GET", "/api/desk", Origin=desk.origin).status == 200


@pytest.mark.parametrize("host", ["elsewhere.example", "127.0.0.1", "localhost", "127.0.0.1.elsewhere.example", ""])
def test_no_other_host(desk: Running, host: str) -> None:
    assert desk.call("GET", "/api/desk", Host=host).status == 403


def test_the_name_of_this_machine_is_a_host(desk: Running) -> None:
    host = f"localhost:{desk.port}"
    assert desk.call("GET", "/api/desk", Host=host).status == 200
    assert desk.call("POST", "/api/sessions", Host=host, Origin=f"http://{host}", body=b"").status == 200
    assert desk.call("POST", "/api/sessions", Host=host, body=b"").status == 403


@pytest.mark.parametrize("path", CHANGES)
def test_a_change_is_a_post(desk: Running, path: str) -> None:
    desk.open()
    assert desk.call("GET", path).status in (404, 405) or path == "/api/sessions/1/search"
    assert len(desk.desk.sessions) == 1


@pytest.mark.parametrize("path", ["/", *PATHS, "/?token=wrong"])
@pytest.mark.parametrize("cookie", [None, True])
def test_every_answer_has_the_headers(desk: Running, path: str, cookie: Any) -> None:
    headers = desk.call("GET", path, cookie=cookie).headers
    assert headers["Content-Security-Policy"].startswith("default-src 'self';")
    assert headers["X-Content-Type-Options"] == "nosniff" and headers["Referrer-Policy"] == "no-referrer"


@pytest.mark.parametrize("name", ["../server.py", "..%2fserver.py", "%2e%2e/server.py", "%00", "/etc/passwd", ""])
def test_no_file_but_those_of_the_page(desk: Running, name: str) -> None:
    assert desk.call("GET", f"/static/{name}").status == 404


def test_a_scene_is_no_path(desk: Running) -> None:
    assert desk.call("POST", "/api/sessions?scene=../server").status == 400


def test_a_body_is_bounded(desk: Running) -> None:
    assert desk.call("POST", "/api/sessions", body=b"#" * (BODY + 1)).status == 413
    assert desk.desk.sessions == {}
    assert desk.call("POST", "/api/sessions", body=b"#" * 65_535 + b"\n").status == 200


BODIES = {
    "nothing": b"",
    "no object": b"[]",
    "no lines": b"{}",
    "a text": b'{"lines": "x"}',
    "a number": b'{"lines": [1]}',
    "a line feed": b'{"lines": ["a\\nb"]}',
    "no text": b"\xff",
    "too deep": b"[" * 100_000,
}


@pytest.mark.parametrize("body", list(BODIES.values()), ids=list(BODIES))
def test_a_body_that_says_nothing_is_refused(desk: Running, body: bytes) -> None:
    session = desk.open()
    assert desk.call("POST", f"/api/sessions/{session}/lines", body=body).status == 400


def test_it_listens_on_this_machine_alone(desk: Running) -> None:
    sockets = [line.split()[1] for line in open("/proc/net/tcp").read().splitlines()[1:] if line.split()[3] == "0A"]
    assert [address for address in sockets if int(address.split(":")[1], 16) == desk.port] == [f"0100007F:{desk.port:04X}"]
