"""A desk that is served from a thread of this process, and calls of it by aiohttp's client."""

from __future__ import annotations

import asyncio
import json
import os
import threading
from pathlib import Path
from types import TracebackType
from typing import Any, Dict, List, NamedTuple, Optional, Type

import aiohttp
from yarl import URL

from palm.desk.desk import Desk
from palm.desk.pool import Pool
from palm.desk.server import listen, serve

ROOT = Path(__file__).resolve().parents[3]


def is_preview() -> bool:
    """Whether the program is a preview, which takes some fifty times as long as a built one."""
    return b"__asan_init" in Path(os.environ["PALM"]).read_bytes()


class Answer(NamedTuple):
    """What a call got."""

    status: int
    headers: Any
    body: bytes

    @property
    def said(self) -> Dict[str, Any]:
        """The JSON of it."""
        said: Dict[str, Any] = json.loads(self.body)
        return said


class Running:
    """`addresses` are those that the desk has printed. `call` has the cookie and the desk's own origin, unless told otherwise."""

    def __init__(self, pool: Pool) -> None:
        self.desk = Desk(pool)
        self.addresses: List[str] = []
        self._told = threading.Event()
        self._loop = asyncio.new_event_loop()
        listening = listen(0)
        self.port = listening.getsockname()[1]
        self.origin = f"http://127.0.0.1:{self.port}"
        self._task = self._loop.create_task(serve(self.desk, listening, self._tell))
        self._thread = threading.Thread(target=self._run)
        self._cookie: Optional[str] = None

    def call(self, method: str, path: str, *, body: Any = None, cookie: Any = True, **headers: Optional[str]) -> Answer:
        """One call. A header is left out where it is None; `cookie` may be another one, or None."""
        sent: Dict[str, Optional[str]] = {"Origin": self.origin if method == "POST" else None, **headers}
        if cookie:
            sent["Cookie"] = f"palm_desk={self.cookie if cookie is True else cookie}"
        data = body if isinstance(body, bytes) or body is None else json.dumps(body).encode()
        return asyncio.run(self._call(method, path, data, {name: text for name, text in sent.items() if text is not None}))

    @property
    def cookie(self) -> str:
        """The secret that the first address was changed for."""
        if self._cookie is None:
            answer = asyncio.run(self._call("GET", self.addresses[-1][len(self.origin) :], None, {}))
            self._cookie = answer.headers["Set-Cookie"].split(";")[0].split("=", 1)[1]
        return self._cookie

    def open(self, text: str = "", name: str = "test") -> int:
        """A session with these lines."""
        answer = self.call("POST", f"/api/sessions?name={name}", body=text.encode())
        assert answer.status == 200, answer.body
        return int(answer.said["session"])

    def send(self, session: int, *lines: str) -> Dict[str, Any]:
        """Sends lines."""
        answer = self.call("POST", f"/api/sessions/{session}/lines", body={"lines": lines})
        assert answer.status == 200, answer.body
        return answer.said

    async def _call(self, method: str, path: str, data: Optional[bytes], headers: Dict[str, str]) -> Answer:
        async with aiohttp.ClientSession(cookie_jar=aiohttp.DummyCookieJar()) as client:
            address = URL(self.origin + path, encoded=True)
            async with client.request(method, address, data=data, headers=headers, allow_redirects=False) as response:
                return Answer(response.status, response.headers, await response.read())

    def _tell(self, address: str) -> None:
        self.addresses.append(address)
        self._told.set()

    def _run(self) -> None:
        asyncio.set_event_loop(self._loop)
        try:
            self._loop.run_until_complete(self._task)
        except asyncio.CancelledError:
            pass

    def __enter__(self) -> Running:
        self._thread.start()
        assert self._told.wait(10)
        return self

    def __exit__(self, kind: Optional[Type[BaseException]], error: Optional[BaseException], trace: Optional[TracebackType]) -> None:
        self._loop.call_soon_threadsafe(self._task.cancel)
        self._thread.join()
        self._loop.close()
