"""`brake desk [FOLDER] [--port N] [--no-browser] [--unproved PROGRAM]`: starts the server and opens the page.

Statuses: 0 ended, 2 faulty words, 70 no program is built or the port is taken.
"""
from __future__ import annotations

import argparse
import os
import secrets
import shutil
import signal
import subprocess
import sys
import tempfile
from collections.abc import Callable
from typing import Any

import waitress

from workbench.__main__ import say
from workbench.desk.folder import Folder
from workbench.desk.guard import Guard
from workbench.desk.runs import Runs
from workbench.desk.server import MOST_BODY, Desk, make_app
from workbench.program import NoProgram, find_program

NEEDS = 70
FAULTY = 2


class Words(argparse.ArgumentParser):
    """The command's words; faulty ones are said in the launcher's way."""

    def error(self, message: str) -> Any:
        say(f"desk: {message}")
        self.print_usage(sys.stderr)
        sys.exit(FAULTY)


def read_words(words: list[str]) -> argparse.Namespace:
    """The options of the command."""
    parser = Words(prog="brake desk", description="Draw a part, plan it and print its sheet, in the browser.")
    parser.add_argument("folder", nargs="?", default=".", help="the folder of part, tools and machine files")
    parser.add_argument("--port", type=int, default=0, help="a port of 127.0.0.1; without it a free one is taken")
    parser.add_argument("--no-browser", action="store_true", help="only print the page's address")
    parser.add_argument("--unproved", metavar="PROGRAM", help="for who develops: another program than the proved one")
    given = parser.parse_args(words)
    if not 0 <= given.port < 65536:
        parser.error("--port: a number from 1 to 65535")
    if not os.path.isdir(given.folder):
        parser.error(f"there is no folder {given.folder}")
    return given


def open_browser(address: str, scratch: str) -> None:
    """Opens the page by a private file that leads there, so that the token stands in no list of processes."""
    page = os.path.join(scratch, "open.html")
    with open(os.open(page, os.O_WRONLY | os.O_CREAT | os.O_TRUNC, 0o600), "w", encoding="utf-8") as file:
        file.write(f'<!DOCTYPE html><meta charset="utf-8"><meta http-equiv="refresh" content="0;url={address}">'
                   f'<a href="{address}">brake desk</a>')
    opener = shutil.which("xdg-open")
    if opener:
        nothing = subprocess.DEVNULL
        subprocess.Popen([opener, page], stdin=nothing, stdout=nothing, stderr=nothing, start_new_session=True)


def stop(*_: Any) -> None:
    """Ends the server on a signal."""
    raise SystemExit(0)


def serve(desk: Desk, token: str, given: argparse.Namespace) -> None:
    """Serves until a signal comes. Raises OSError where the port is taken."""
    apps: list[Callable[..., Any]] = []
    server = waitress.create_server(lambda environ, start: apps[0](environ, start), host="127.0.0.1", port=given.port,
                                    threads=8, max_request_body_size=MOST_BODY, max_request_header_size=16384,
                                    connection_limit=50, ident=None, clear_untrusted_proxy_headers=True)
    apps.append(make_app(desk, Guard(token, server.effective_port)))
    address = f"http://127.0.0.1:{server.effective_port}/#{token}"
    print(f"brake desk: {desk.folder.root}\n{address}\nCtrl-C ends it.", flush=True)
    if not given.no_browser:
        open_browser(address, desk.runs.scratch)
    signal.signal(signal.SIGTERM, stop)
    signal.signal(signal.SIGHUP, stop)
    try:
        server.run()
    except (KeyboardInterrupt, SystemExit):
        pass


def main(words: list[str]) -> int:
    """Runs the command."""
    given = read_words(words)
    try:
        program = find_program(given.unproved)
    except NoProgram as fault:
        say(str(fault))
        return NEEDS
    scratch = tempfile.mkdtemp(prefix="brake-desk-")
    folder, runs = Folder(given.folder), Runs(program, scratch)
    desk = Desk(folder, runs, os.environ.get("BRAKE_DRAWER", ""), os.environ.get("BRAKE_LAUNCHER", "brake"))
    try:
        folder.sweep()
        serve(desk, secrets.token_urlsafe(24), given)
    except OSError as fault:
        say(f"desk: {fault.strerror or fault}")
        return NEEDS
    finally:
        runs.end()
        shutil.rmtree(scratch, ignore_errors=True)
    return 0
