"""Who may ask the desk, and what its answers carry.

Each page in the user's browser can reach a server of this machine; so the host, the origin and a secret token are
looked at before anything else is, and no answer may be used by another page.
"""
from __future__ import annotations

import hmac
import json
from collections.abc import Callable, Iterable
from typing import Any

import bottle

TOKEN_HEADER = "X-Desk"
SEAL = [
    ("Content-Security-Policy",
     "default-src 'none'; script-src 'self'; style-src 'self' 'unsafe-inline'; img-src 'self' data: blob:; "
     "connect-src 'self'; frame-src 'self' blob:; base-uri 'none'; form-action 'none'; frame-ancestors 'self'"),
    ("X-Content-Type-Options", "nosniff"),
    ("Referrer-Policy", "no-referrer"),
    ("Cache-Control", "no-store"),
    ("Cross-Origin-Opener-Policy", "same-origin"),
    ("Cross-Origin-Resource-Policy", "same-origin"),
]
NO_TOKEN = {"error": "the token is missing or old: this desk was started anew"}


class Guard:
    """Looks at each request before it is answered."""

    def __init__(self, token: str, port: int) -> None:
        self.token = token.encode()
        self.hosts = {f"127.0.0.1:{port}", f"localhost:{port}"}

    def look(self) -> None:
        """Raises bottle's HTTPResponse: 421 of a wrong host, 403 of a wrong origin or token."""
        request = bottle.request
        if request.environ.get("HTTP_HOST", "") not in self.hosts:
            raise bottle.HTTPResponse("this server answers to 127.0.0.1 alone\n", 421)
        if not self.is_own_page(request.get_header("Origin"), request.get_header("Sec-Fetch-Site", "none")):
            raise bottle.HTTPResponse("another site's request\n", 403)
        if request.path.startswith("/api/") and not self.is_token(request.get_header(TOKEN_HEADER, "")):
            raise bottle.HTTPResponse(json.dumps(NO_TOKEN), 403, {"Content-Type": "application/json"})

    def is_own_page(self, origin: str | None, site: str) -> bool:
        """Whether the browser says that the request comes from the desk's own page."""
        if site not in ("none", "same-origin"):
            return False
        return not origin or (origin.startswith("http://") and origin.removeprefix("http://") in self.hosts)

    def is_token(self, given: str) -> bool:
        """Whether it is the token; the time doesn't tell how much of it is right."""
        return hmac.compare_digest(given.encode("utf-8", "replace"), self.token)


def sealed(app: Callable[..., Iterable[bytes]]) -> Callable[..., Iterable[bytes]]:
    """Puts the headers on every answer: a hook of bottle's doesn't reach its errors and files."""
    def answer(environ: dict[str, Any], start: Callable[..., Any]) -> Iterable[bytes]:
        def begin(status: str, headers: list[tuple[str, str]], *more: Any) -> Any:
            return start(status, [one for one in headers if one[0] != "Cache-Control"] + SEAL, *more)
        return app(environ, begin)
    return answer
