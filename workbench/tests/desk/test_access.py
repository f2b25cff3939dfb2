"""Who may ask the desk, and that nothing outside of the folder is read or written."""
from __future__ import annotations

import os
import socket
import urllib.parse
from pathlib import Path
from typing import Any

import pytest

from workbench.tests.desk.helper import Desk

SECRET = 'secret = "not yours"\n'
HOSTS = ("evil.example", "evil.example:{port}", "127.0.0.1", "127.0.0.1.evil.example:{port}", "[::1]:{port}",
         "192.168.0.1:{port}", "")
ORIGINS = ("http://evil.example", "null", "http://127.0.0.1:1", "https://127.0.0.1:{port}",
           "http://127.0.0.1:{port}.evil.example")
NAMES: tuple[Any, ...] = (
    "../secret.toml", "/etc/passwd", "link.toml", "up/secret.toml", "pan/../../secret.toml", ".desk/x.toml",
    "pan/.x.toml", "a\0b.toml", "", "pan", "desk.py", "pan/part.toml/", "//pan/part.toml", "..%2fsecret.toml",
    "pan//part.toml", "a/b/c/d/e/f.toml", "x\n.toml", "\ud800.toml", "a" * 200 + ".toml", 7, None, ["pan"])


@pytest.fixture(name="outside", scope="module", autouse=True)
def put_traps(shop: Path, tmp_path_factory: pytest.TempPathFactory) -> Path:
    """Links that lead out of the folder, a file that is too long, a pipe."""
    outside = tmp_path_factory.mktemp("outside")
    (outside / "secret.toml").write_text(SECRET)
    os.symlink(outside / "secret.toml", shop / "link.toml")
    os.symlink(outside, shop / "up")
    (shop / "big.toml").write_bytes(b"#" * (1 << 20) + b"\n")
    os.mkfifo(shop / "pipe.toml")
    return outside


def test_page_needs_no_token(desk: Desk) -> None:
    assert desk.ask("GET", "/", X_Desk=None)[0] == 200


@pytest.mark.parametrize("token", [None, "", "x" * 32, "\xe4"])
def test_wrong_tokens(desk: Desk, token: str | None) -> None:
    assert desk.ask("GET", "/api/folder", X_Desk=token)[0] == 403


def test_token_is_a_header_alone(desk: Desk) -> None:
    assert desk.ask("GET", f"/api/folder?token={desk.token}", X_Desk=None)[0] == 403
    assert desk.ask("GET", "/api/folder")[0] == 200


@pytest.mark.parametrize("host", HOSTS)
@pytest.mark.parametrize("path", ["/", "/api/folder", "/static/main.js"])
def test_wrong_hosts(desk: Desk, host: str, path: str) -> None:
    assert desk.ask("GET", path, Host=host.format(port=desk.port))[0] in (400, 421)


@pytest.mark.parametrize("origin", ORIGINS)
def test_wrong_origins(desk: Desk, origin: str) -> None:
    assert desk.ask("POST", "/api/edit", {"text": ""}, Origin=origin.format(port=desk.port))[0] == 403


def test_own_origin(desk: Desk) -> None:
    assert desk.ask("POST", "/api/edit", {"text": ""}, Origin=f"http://127.0.0.1:{desk.port}")[0] == 200


@pytest.mark.parametrize("site", ["cross-site", "same-site"])
def test_fetch_of_another_site(desk: Desk, site: str) -> None:
    assert desk.ask("GET", "/api/folder", Sec_Fetch_Site=site)[0] == 403


def test_no_answer_for_other_pages(desk: Desk) -> None:
    _, _, response = desk.ask("OPTIONS", "/api/file", Origin="http://evil.example",
                              Access_Control_Request_Method="PUT")
    assert not [key for key, _ in response.getheaders() if key.lower().startswith("access-control")]


@pytest.mark.parametrize("path", ["/", "/static/main.js", "/static/none.js", "/api/folder", "/nothing"])
def test_headers(desk: Desk, path: str) -> None:
    _, _, response = desk.ask("GET", path)
    policy = response.getheader("Content-Security-Policy") or ""
    assert "default-src 'none'" in policy and "script-src 'self'" in policy and "form-action 'none'" in policy
    assert response.getheader("X-Content-Type-Options") == "nosniff"
    assert response.getheader("Cross-Origin-Resource-Policy") == "same-origin"
    assert response.getheader("Cache-Control") == "no-store"
    assert not response.getheader("Server")


def test_listens_on_this_machine_alone(desk: Desk) -> None:
    found = socket.getaddrinfo(socket.gethostname(), None, socket.AF_INET)
    for other in {row[4][0] for row in found if not str(row[4][0]).startswith("127.")}:
        with socket.socket() as client:
            client.settimeout(2)
            assert client.connect_ex((str(other), desk.port)) != 0


@pytest.mark.parametrize("name", NAMES, ids=repr)
def test_names(desk: Desk, outside: Path, name: Any) -> None:
    status, answer, _ = desk.ask("PUT", "/api/file", {"name": name, "text": "x = 1\n", "tag": None})
    assert status in (400, 404, 409), answer
    if isinstance(name, str) and name.isprintable():
        status, answer, _ = desk.ask("GET", "/api/file?name=" + urllib.parse.quote(name))
        assert status in (400, 404, 409) and "not yours" not in str(answer), answer
    assert (outside / "secret.toml").read_text() == SECRET
    assert sorted(os.listdir(outside)) == ["secret.toml"]


@pytest.mark.parametrize("path", ["/static/../command.py", "/static/..%2fcommand.py", "/static/%2e%2e/command.py",
                                  "/static//etc/passwd", "/.desk/x", "/static/command.py"])
def test_files_of_the_server(desk: Desk, path: str) -> None:
    assert desk.ask("GET", path)[0] in (400, 404)


def test_sizes(desk: Desk) -> None:
    assert desk.ask("GET", "/api/file?name=big.toml")[0] == 413
    assert desk.ask("GET", "/api/file?name=pipe.toml")[0] in (200, 409)
    try:
        assert desk.ask("POST", "/api/edit", raw=b'{"text":"' + b"x" * (4 << 20) + b'"}')[0] in (400, 413)
    except ConnectionError:
        pass  # cut off before the answer was read
    assert desk.ask("GET", "/api/folder")[0] == 200
    assert desk.ask("POST", "/api/edit", {"text": "#" * ((1 << 20) + 1)})[0] == 413
    assert desk.ask("PUT", "/api/file", {"name": "new.toml", "text": "#" * ((1 << 20) + 1), "tag": None})[0] == 413


@pytest.mark.parametrize("raw", [b"", b"[]", b"{", b"\xff\xfe", b'"x"', b"null", b'{"text": 7}'])
def test_bodies(desk: Desk, raw: bytes) -> None:
    assert desk.ask("POST", "/api/edit", raw=raw)[0] == 400


def test_a_name_is_no_option(desk: Desk) -> None:
    assert desk.ask("POST", "/api/plan", {"part": "--budget", "tools": "a", "machine": "b"})[0] == 400
