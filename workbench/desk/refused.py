"""What the desk answers where it doesn't do what was asked."""
from __future__ import annotations

from typing import Any


class Refused(Exception):
    """A request that is refused: the HTTP status, and what the page is told."""

    def __init__(self, status: int, words: str, **more: Any) -> None:
        super().__init__(words)
        self.status = status
        self.body: dict[str, Any] = {"error": words, **more}
