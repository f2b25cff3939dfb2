"""The desk that the tests of a module share."""
from __future__ import annotations

from collections.abc import Iterator
from pathlib import Path

import pytest

for package in ("bottle", "waitress", "tomlkit"):
    pytest.importorskip(package, reason=f"python3-{package} isn't installed: the desk's tests are left out")

from workbench.tests.desk.helper import Desk, fill  # noqa: E402


@pytest.fixture(name="shop", scope="module")
def make_shop(tmp_path_factory: pytest.TempPathFactory) -> Path:
    """A folder with examples."""
    shop = tmp_path_factory.mktemp("shop")
    fill(shop)
    return shop


@pytest.fixture(name="desk", scope="module")
def start_desk(shop: Path) -> Iterator[Desk]:
    """A desk over that folder."""
    desk = Desk(shop)
    yield desk
    desk.end()
