"""Pairs of stations, put together by sixes: one run on a bed without end shows that none of a block's pairs has a plan."""
from __future__ import annotations

from itertools import combinations
from typing import Iterator

from .stations import Kind
from .trials import MOST_STATIONS, covering

Pair = tuple[int, int]


def useful_pairs(kinds: list[Kind], strokes: int) -> list[Pair]:
    """The pairs that reach every stroke together, by their places; those first whose kinds come first."""
    pairs = [(a, b) for a, b in combinations(range(len(kinds)), 2) if covering((kinds[a], kinds[b]), strokes)]
    return sorted(pairs, key=lambda pair: (pair[0] + pair[1], pair))


def blocks(kinds: list[Kind], strokes: int) -> Iterator[tuple[int, ...]]:
    """Blocks of up to six kinds in which each useful pair stands once at least; each block has a pair that is new.

    Where no pair reaches every stroke, the kinds that add most are put together.
    """
    if len(kinds) <= MOST_STATIONS:
        if covering(kinds, strokes):
            yield tuple(range(len(kinds)))
        return
    pairs = useful_pairs(kinds, strokes)
    if not pairs:
        yield from _widest(kinds, strokes)
        return
    left = dict.fromkeys(pairs)
    beside: dict[int, set[int]] = {}
    for a, b in pairs:
        beside.setdefault(a, set()).add(b)
        beside.setdefault(b, set()).add(a)
    while left:
        block = list(next(iter(left)))
        while len(block) < MOST_STATIONS:
            others = [at for at in range(len(kinds)) if at not in block]
            gain = {at: sum(at in beside.get(one, ()) for one in block) for at in others}
            best = max(others, key=lambda at: (gain[at], -at))
            block.append(best)
        for a, b in combinations(sorted(block), 2):
            left.pop((a, b), None)
            beside.get(a, set()).discard(b)
            beside.get(b, set()).discard(a)
        yield tuple(sorted(block))


def _widest(kinds: list[Kind], strokes: int) -> Iterator[tuple[int, ...]]:
    """One block that reaches as many strokes as six kinds can, chosen one by one."""
    block: list[int] = []
    reached: frozenset[int] = frozenset()
    while len(block) < MOST_STATIONS and len(reached) < strokes:
        best = max(range(len(kinds)), key=lambda at: (len(kinds[at].serves | reached), -at))
        if kinds[best].serves <= reached:
            return
        block.append(best)
        reached |= kinds[best].serves
    if len(reached) == strokes:
        yield tuple(block)
