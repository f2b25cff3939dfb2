"""The desk's server: what all views share, and the files of the page."""
from __future__ import annotations

import json
from collections.abc import Callable
from dataclasses import dataclass, field
from pathlib import Path
from typing import Any

import bottle

from workbench.desk.folder import Folder
from workbench.desk.guard import Guard, sealed
from workbench.desk.refused import Refused
from workbench.desk.runs import Runs

STATIC = Path(__file__).resolve().parent / "static"
MOST_BODY = 3 << 20
FAULTS = (ValueError, KeyError, TypeError, IndexError, AttributeError)


@dataclass
class Desk:
    """What the views work with."""

    folder: Folder
    runs: Runs
    drawer: str
    """The program that draws setup sheets; empty where none is built."""

    launcher: str
    """How users call the launcher."""

    heads: dict[str, Any] = field(default_factory=dict)
    """Certificates' heads and blanks of the last jobs, by the bytes of their three files."""


class Api:
    """Answers in JSON: an endpoint is a function of what was given (the query of a GET, else the body)."""

    def __init__(self) -> None:
        self.app = bottle.Bottle()

    def on(self, method: str, rule: str) -> Callable[[Callable[..., Any]], Callable[..., Any]]:
        """Registers an endpoint; its refusals and faulty requests are answered as JSON too."""
        def register(work: Callable[..., Any]) -> Callable[..., Any]:
            def answer(**parts: str) -> str:
                status, body = attempt(work, method, parts)
                bottle.response.status = status
                bottle.response.content_type = "application/json"
                return json.dumps(body)
            self.app.route(rule, method, answer)
            return work
        return register


def attempt(work: Callable[..., Any], method: str, parts: dict[str, str]) -> tuple[int, Any]:
    """The status and the answer of an endpoint."""
    request = bottle.request
    try:
        given = dict(request.query.decode()) if method == "GET" else request.json
        if not isinstance(given, dict):
            raise Refused(400, "an object is wanted")
        return 200, work(given, **parts)
    except Refused as refused:
        return refused.status, refused.body
    except bottle.HTTPError as fault:
        return fault.status_code, {"error": str(fault.body)}
    except FAULTS as fault:
        return 400, {"error": f"a request that the desk doesn't understand: {type(fault).__name__} {fault}"}


def make_app(desk: Desk, guard: Guard) -> Callable[..., Any]:
    """The whole server as a WSGI application."""
    from workbench.desk import view_files, view_order, view_part, view_plan
    bottle.BaseRequest.MEMFILE_MAX = MOST_BODY
    api = Api()
    api.app.add_hook("before_request", guard.look)
    add_page(api.app)
    for view in (view_files, view_part, view_plan, view_order):
        view.register(api, desk)
    return sealed(api.app)


def add_page(app: bottle.Bottle) -> None:
    """The page's own files."""
    @app.get("/")
    def index() -> bottle.HTTPResponse:
        return bottle.static_file("index.html", root=STATIC)

    @app.get("/static/<name:re:[a-z0-9_]+\\.(js|css|html)>")
    def static(name: str) -> bottle.HTTPResponse:
        return bottle.static_file(name, root=STATIC)
