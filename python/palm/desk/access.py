"""Who may ask: whoever read the address that the desk printed, from the desk's own page, on this machine."""

from __future__ import annotations

import hmac
import secrets
from typing import Awaitable, Callable, Optional

from aiohttp import web

Handler = Callable[[web.Request], Awaitable[web.StreamResponse]]
COOKIE = "palm_desk"
HEADERS = {
    "Content-Security-Policy": "default-src 'self'; base-uri 'none'; form-action 'none'; frame-ancestors 'none'",
    "X-Content-Type-Options": "nosniff",
    "Referrer-Policy": "no-referrer",
    "Cross-Origin-Opener-Policy": "same-origin",
    "Cross-Origin-Resource-Policy": "same-origin",
    "Cache-Control": "no-store",
}


class Access:
    """The token of the next first address, and the secret of the cookie that it is changed for."""

    def __init__(self, port: int) -> None:
        self._hosts = (f"127.0.0.1:{port}", f"localhost:{port}")
        self._token = secrets.token_urlsafe(32)
        self._secret = secrets.token_urlsafe(32)

    @property
    def address(self) -> str:
        """The first address. It serves once: another one stands in its place when its token was changed for the cookie."""
        return f"http://{self._hosts[0]}/?token={self._token}"

    def exchange(self, token: str) -> Optional[str]:
        """The secret of the cookie, where the token is the right one; it is no longer the right one then."""
        if not same(token, self._token):
            return None
        self._token = secrets.token_urlsafe(32)
        return self._secret

    def is_known(self, request: web.Request) -> bool:
        """Whether the request has the cookie."""
        return same(request.cookies.get(COOKIE, ""), self._secret)

    def refusal(self, request: web.Request) -> Optional[str]:
        """Why a request is not from the desk's own page at its own address, or nothing."""
        host = request.headers.get("Host", "")
        if host not in self._hosts:
            return "no such host"
        origin = request.headers.get("Origin")
        if origin is None and request.method == "POST":
            return "a change has to say its origin"
        if origin is not None and origin != f"http://{host}":
            return "another origin"
        return None


def same(given: str, wanted: str) -> bool:
    """Compares in a time that does not depend on where the two differ."""
    return hmac.compare_digest(given.encode("utf-8", "surrogateescape"), wanted.encode())


@web.middleware
async def guard(request: web.Request, handler: Handler) -> web.StreamResponse:
    """Lets no request through that is not the page's own; only the first address needs no cookie."""
    access: Access = request.app["access"]
    why = access.refusal(request)
    if why is None and not access.is_known(request) and request.path != "/":
        why = "open the address that palm-desk printed"
    if why is not None:
        return web.json_response({"error": why}, status=403)
    return await handler(request)


async def add_headers(_: web.Request, response: web.StreamResponse) -> None:
    """Every response has the headers, the refused ones included."""
    response.headers.update(HEADERS)
