"""The calls of the page: what each takes, and what it answers. A change is a POST; all answers but documents are JSON."""

from __future__ import annotations

import asyncio
import json
import time
from concurrent.futures import ThreadPoolExecutor
from typing import Any, Callable, Dict, List, TypeVar

from aiohttp import web

from palm import PalmError, Refused
from palm.lines import bytes_of
from palm.slips import advice

from palm.desk.access import COOKIE, Access, Handler
from palm.desk.pool import Full
from palm.desk.desk import Desk
from palm.desk.session import DeskSession, Outcome

Result = TypeVar("Result")
routes = web.RouteTableDef()
workers = ThreadPoolExecutor(32, "desk")


class Wrong(Exception):
    """A call that says something that it may not say."""


async def run(work: Callable[..., Result], *values: Any) -> Result:
    """Does work that waits for a process, in a thread."""
    return await asyncio.get_running_loop().run_in_executor(workers, work, *values)


@web.middleware
async def answer_errors(request: web.Request, handler: Handler) -> web.StreamResponse:
    """What went wrong, as JSON."""
    try:
        return await handler(request)
    except web.HTTPException as error:
        return web.json_response({"error": error.reason}, status=error.status)
    except Refused as error:
        return web.json_response({"error": error.reply, "line": error.line[:2000], "advice": error.advice}, status=422)
    except Full as error:
        return web.json_response({"error": str(error)}, status=503)
    except Wrong as error:
        return web.json_response({"error": str(error)}, status=400)
    except PalmError as error:
        return web.json_response({"error": str(error)}, status=502)


@routes.get("/")
async def page(request: web.Request) -> web.Response:
    """The page. With a token: the cookie, and the way to the page without it."""
    access: Access = request.app["access"]
    if "token" in request.query:
        secret = access.exchange(request.query["token"])
        if secret is None and not access.is_known(request):
            error = "this address has served, or is none: open the one that palm-desk printed last"
            return web.json_response({"error": error}, status=403)
        response = web.Response(status=303, headers={"Location": "/"})
        if secret is not None:
            response.set_cookie(COOKIE, secret, httponly=True, samesite="Strict", path="/")
            request.app["told"](access.address)
        return response
    if not access.is_known(request):
        return web.json_response({"error": "open the address that palm-desk printed"}, status=403)
    return static_file(request.app, "index.html")


@routes.get("/static/{name}")
async def static(request: web.Request) -> web.Response:
    """One of the page's own files, which were all read at the start."""
    return static_file(request.app, request.match_info["name"])


def static_file(app: web.Application, name: str) -> web.Response:
    """The file of this name."""
    if name not in app["static"]:
        raise web.HTTPNotFound
    kind, data = app["static"][name]
    return web.Response(body=data, content_type=kind, charset=None if kind.startswith("image/") else "utf-8")


@routes.get("/api/desk")
async def overview(request: web.Request) -> web.Response:
    """The sessions that are open, and the scenes."""
    return web.json_response(desk_of(request).told())


@routes.post("/api/sessions")
async def open_session(request: web.Request) -> web.Response:
    """Opens a scene, an empty session, or the file that is the body."""
    desk = desk_of(request)
    body = await request.read()
    scene = request.query.get("scene")
    if scene is not None and scene not in desk.scenes:
        raise Wrong("no such scene")
    name = request.query.get("name", "session")[:100]
    session, outcome = await run(desk.open_scene, scene) if scene else await run(desk.open, name, body)
    return web.json_response({**await run(session.told), **said(outcome)})


@routes.get("/api/sessions/{session}")
async def whole(request: web.Request) -> web.Response:
    """All of a session."""
    return web.json_response(await run(session_of(request).told))


@routes.post("/api/sessions/{session}/close")
async def close(request: web.Request) -> web.Response:
    """Ends a session."""
    desk = desk_of(request)
    await run(desk.close, session_of(request).number)
    return web.json_response(desk.told())


@routes.post("/api/sessions/{session}/lines")
async def lines(request: web.Request) -> web.Response:
    """Sends lines: `{"lines": [..]}`."""
    given = (await object_of(request)).get("lines")
    if not isinstance(given, list) or not all(isinstance(line, str) and "\n" not in line for line in given):
        raise Wrong("lines: a list of texts without line feeds")
    sent = [bytes_of(line) for line in given]
    return await changed(session_of(request), lambda session: session.change(sent))


@routes.post("/api/sessions/{session}/undo")
async def undo(request: web.Request) -> web.Response:
    """Takes the latest action back."""
    return await changed(session_of(request), DeskSession.undo)


@routes.post("/api/sessions/{session}/redo")
async def redo(request: web.Request) -> web.Response:
    """Takes the action that was undone last again."""
    return await changed(session_of(request), DeskSession.redo)


@routes.get("/api/sessions/{session}/why")
async def why(request: web.Request) -> web.Response:
    """Why a value is gone: `name`, `value`, and `minimal` for a minimal set."""
    name, value = pair_of(request)
    return web.json_response(await run(session_of(request).why, name, value, "minimal" in request.query))


@routes.get("/api/sessions/{session}/conflict")
async def conflict(request: web.Request) -> web.Response:
    """The conflict; with `minimal` a minimal one."""
    return web.json_response(await run(session_of(request).conflict, "minimal" in request.query))


@routes.get("/api/sessions/{session}/preferred")
async def preferred(request: web.Request) -> web.Response:
    """What to keep and what to leave."""
    return web.json_response(await run(session_of(request).preferred))


@routes.post("/api/sessions/{session}/certificate")
async def certificate(request: web.Request) -> web.Response:
    """Makes a certificate, of a `name` with a `value` or else of the conflict, and has it checked."""
    what = " ".join(map(str, pair_of(request))) if "name" in request.query else "conflict"
    return web.json_response(await run(session_of(request).certificate, what))


@routes.get("/api/sessions/{session}/documents/{document}")
async def document(request: web.Request) -> web.Response:
    """A certificate or a proof, to be kept."""
    session = session_of(request)
    number = number_of(request.match_info["document"])
    text = session.documents.get(number)
    if text is None:
        raise web.HTTPNotFound
    return attachment(text.encode(), f"session-{session.number}-{number}.{'proof' if text.startswith('palm-proof') else 'cert'}")


@routes.get("/api/sessions/{session}/file")
async def file(request: web.Request) -> web.Response:
    """The session file."""
    session = session_of(request)
    return attachment(await run(session.text), f"session-{session.number}.palm")


@routes.post("/api/sessions/{session}/search")
async def begin_search(request: web.Request) -> web.Response:
    """Begins a search: `{"kind": "solve", "target": "", "seconds": 10}`. Another one of the session is stopped."""
    given = await object_of(request)
    kind, target, seconds = given.get("kind"), given.get("target", ""), given.get("seconds", 10)
    if kind not in ("solve", "minimize", "maximize") or type(seconds) not in (int, float) or not seconds > 0:
        raise Wrong("kind: solve, minimize or maximize; seconds: a number above 0")
    session = session_of(request)
    if kind != "solve" and target not in {variable.name for variable in session.state.variables}:
        raise Wrong("target: a variable of the session")
    if session.state.paused:
        raise Wrong("the session is paused: resume it first")
    search = await run(desk_of(request).search, session, kind, target, float(seconds))
    return web.json_response(search.told())


@routes.get("/api/sessions/{session}/search")
async def progress(request: web.Request) -> web.Response:
    """Where the search is."""
    search = desk_of(request).searches.get(session_of(request).number)
    return web.json_response(search.told() if search else {})


@routes.post("/api/sessions/{session}/search/stop")
async def stop_search(request: web.Request) -> web.Response:
    """Stops it."""
    search = desk_of(request).searches.get(session_of(request).number)
    if search:
        await run(search.stop)
    return web.json_response(search.told() if search else {})


async def changed(session: DeskSession, work: Callable[[DeskSession], Outcome]) -> web.Response:
    """Does the work and answers what it changed, with the milliseconds that it took."""
    begun = time.perf_counter()
    told = await run(session.changed, work)
    text = json.dumps(told, separators=(",", ":"))
    spent = 1000 * (time.perf_counter() - begun)
    return web.Response(text=text, content_type="application/json", headers={"Server-Timing": f"desk;dur={spent:.2f}"})


def said(outcome: Outcome) -> Dict[str, Any]:
    """An outcome as it is sent."""
    return {"replies": outcome.replies, "refused": outcome.refused, "said": outcome.said}


def desk_of(request: web.Request) -> Desk:
    """The desk."""
    desk: Desk = request.app["desk"]
    return desk


def session_of(request: web.Request) -> DeskSession:
    """The session that the address names."""
    session = desk_of(request).sessions.get(number_of(request.match_info["session"]))
    if session is None:
        raise web.HTTPNotFound(reason="no such session")
    return session


def number_of(text: str) -> int:
    """A number of the address."""
    if not (text.isascii() and text.isdigit() and len(text) < 10):
        raise web.HTTPNotFound
    return int(text)


def pair_of(request: web.Request) -> "tuple[str, int]":
    """The variable and the value that a question is about. What the program would not read as such is no question."""
    name, value = request.query.get("name", ""), request.query.get("value", "")
    if not (name.isascii() and name.isidentifier() and len(name) <= 32 and value.lstrip("-").isdigit() and value.isascii()):
        raise Wrong("name: a variable; value: a number")
    return name, int(value[:12])


async def object_of(request: web.Request) -> Dict[str, Any]:
    """The body, which is a JSON object."""
    try:
        given = json.loads(await request.read())
    except (ValueError, RecursionError):
        raise Wrong("the body is no JSON") from None
    if not isinstance(given, dict):
        raise Wrong("the body is no object")
    return given


def attachment(data: bytes, name: str) -> web.Response:
    """Something to be kept as a file."""
    headers = {"Content-Disposition": f'attachment; filename="{name}"'}
    return web.Response(body=data, content_type="text/plain", charset="utf-8", headers=headers)
