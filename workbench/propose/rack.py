"""The lengths that pieces of the stock make."""
from __future__ import annotations

import math
from typing import Iterable, Mapping

MOST_PIECES = 32
"""Of a station, by the limits of a setup."""
FINE_STEPS = 60_000
"""Of a stock whose lengths have so small a common step, only few pieces are put together."""
FEW_PIECES = 5

Stock = Mapping[int, int]


def stock_of(sections: Iterable[Iterable[int]]) -> dict[int, int]:
    """The number of pieces of each length; a length that stands twice adds up."""
    stock: dict[int, int] = {}
    for length, count in sections:
        stock[length] = stock.get(length, 0) + count
    return stock


def common(one: Stock, other: Stock) -> dict[int, int]:
    """The pieces that both tools have."""
    return {length: min(count, other[length]) for length, count in one.items() if length in other}


class Lengths:
    """All lengths up to `top` that a stock makes of 1 to 32 pieces, each with the least number of pieces for it."""

    def __init__(self, stock: Stock, top: int) -> None:
        usable = {length: count for length, count in stock.items() if length <= top}
        self.step = math.gcd(*usable) if usable else 1
        size = top // self.step
        most = MOST_PIECES if size <= FINE_STEPS else FEW_PIECES
        within = (1 << (size + 1)) - 1
        layers = [1] + [0] * most
        for length, count in sorted(usable.items()):
            shift = length // self.step
            for pieces in range(most, 0, -1):
                for used in range(1, min(count, pieces) + 1):
                    layers[pieces] |= (layers[pieces - used] << (shift * used)) & within
        self._layers = layers
        self._all = 0
        for layer in layers[1:]:
            self._all |= layer

    def at_least(self, length: int) -> int | None:
        """The shortest that is no shorter than this, or None."""
        skip = max(1, -(-length // self.step))
        rest = self._all >> skip
        return (skip + (rest & -rest).bit_length() - 1) * self.step if rest else None

    def longest(self) -> int:
        """The longest, 0 where there is none."""
        return max(0, self._all.bit_length() - 1) * self.step

    def pieces(self, length: int) -> int:
        """The least number of pieces for a length, MOST_PIECES + 1 where it can't be made."""
        place, rest = divmod(length, self.step)
        if not rest:
            for pieces, layer in enumerate(self._layers):
                if pieces and layer >> place & 1:
                    return pieces
        return MOST_PIECES + 1

    def longer(self, length: int, most: int) -> list[int]:
        """Up to `most` of the next longer ones."""
        found: list[int] = []
        while len(found) < most:
            new = self.at_least((found[-1] if found else length) + 1)
            if new is None:
                break
            found.append(new)
        return found
