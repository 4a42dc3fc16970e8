"""Serves the desk on 127.0.0.1, and prints the address that opens it."""

from __future__ import annotations

import asyncio
import socket
from importlib import resources
from pathlib import Path
from typing import Callable, Dict, Tuple

from aiohttp import web

from palm.desk.access import Access, add_headers, guard
from palm.desk.desk import Desk
from palm.desk.views import answer_errors, routes

BODY = 16 * 1024 * 1024
KINDS = {".html": "text/html", ".css": "text/css", ".js": "text/javascript", ".svg": "image/svg+xml"}


def application(desk: Desk, port: int, tell: Callable[[str], None]) -> web.Application:
    """The desk's server; `tell` is told each address that opens the page."""
    app = web.Application(middlewares=[answer_errors, guard], client_max_size=BODY)
    app["desk"], app["access"], app["told"] = desk, Access(port), tell
    app["static"] = static_files()
    app.add_routes(routes)
    app.on_response_prepare.append(add_headers)
    return app


def static_files() -> Dict[str, Tuple[str, bytes]]:
    """The files of the page, by name."""
    folder = resources.files("palm.desk").joinpath("static")
    found = ((file.name, KINDS.get(Path(file.name).suffix), file) for file in folder.iterdir())
    return {name: (kind, file.read_bytes()) for name, kind, file in found if kind}


async def serve(desk: Desk, listening: socket.socket, tell: Callable[[str], None]) -> None:
    """Serves until it is cancelled."""
    app = application(desk, listening.getsockname()[1], tell)
    runner = web.AppRunner(app, access_log=None)
    await runner.setup()
    try:
        await web.SockSite(runner, listening).start()
        tell(app["access"].address)
        await asyncio.Event().wait()
    finally:
        await runner.cleanup()
        desk.end()


def listen(port: int) -> socket.socket:
    """A socket on this machine alone; port 0 is any that is free."""
    listening = socket.socket(socket.AF_INET, socket.SOCK_STREAM)
    listening.setsockopt(socket.SOL_SOCKET, socket.SO_REUSEADDR, 1)
    listening.bind(("127.0.0.1", port))
    return listening
