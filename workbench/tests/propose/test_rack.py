"""The lengths that pieces make, and the kinds of station."""
from __future__ import annotations

import random
from itertools import product
from typing import Any

import pytest

from workbench.propose.job import Blank, Job
from workbench.propose.rack import FEW_PIECES, MOST_PIECES, Lengths, common, stock_of
from workbench.propose.stations import Rack, Station, inside, stand_alike, turned


def brute_force(stock: dict[int, int], top: int) -> dict[int, int]:
    """Each sum of up to 32 pieces with the least number of pieces."""
    best: dict[int, int] = {}
    lengths = list(stock)
    for counts in product(*(range(count + 1) for count in stock.values())):
        total, pieces = sum(n * c for n, c in zip(lengths, counts)), sum(counts)
        if 0 < total <= top and 1 <= pieces <= MOST_PIECES:
            best[total] = min(best.get(total, 99), pieces)
    return best


@pytest.mark.parametrize("number", range(12))
def test_lengths_are_those_of_all_choices(number: int) -> None:
    rng = random.Random(number)
    stock = {rng.randint(1, 40) * 500: rng.randint(1, 3) for _ in range(rng.randint(0, 5))}
    top = 60_000
    wanted = brute_force(stock, top)
    lengths = Lengths(stock, top)
    assert lengths.longest() == max(wanted, default=0)
    for length in range(500, top + 500, 500):
        assert lengths.at_least(length) == min((one for one in wanted if one >= length), default=None)
        assert lengths.pieces(length) == wanted.get(length, MOST_PIECES + 1)
    assert lengths.longer(0, 3) == sorted(wanted)[:3]


def test_no_more_than_32_pieces() -> None:
    lengths = Lengths({1000: 1000}, 100_000)
    assert lengths.longest() == 32_000 and lengths.at_least(32_001) is None


def test_a_stock_of_odd_micrometres_ends() -> None:
    lengths = Lengths({100_003: 1000, 99_991: 1000, 7: 1000}, 19_000_000)
    assert lengths.pieces(100_003 + 99_991) == 2 and lengths.longest() == FEW_PIECES * 100_003


def test_stock_adds_up_and_is_shared() -> None:
    assert stock_of([[10, 1], [20, 2], [10, 3]]) == {10: 4, 20: 2}
    assert common({10: 4, 20: 2}, {10: 1, 30: 5}) == {10: 1}


PUNCH = {"name": "P", "height": 100, "nose": 1, "body": [[-3, 5, 10, 100]], "sections": [[50_000, 1], [20_000, 1]]}
DIE = {"name": "D", "height": 60, "v": 8, "least_flange": 5, "body": [[-9, 9, -60, -8]], "sections": [[50_000, 1], [40_000, 1]]}


def job(machine: dict[str, Any] | None = None, load: list[dict[str, Any]] | None = None) -> Job:
    """A plate of 60 by 100 with flanges of 60 and of 20 on its N and E side."""
    part = {"material": "M", "thickness": 2, "radius": 2, "face": [
        {"name": "base"}, {"name": "n", "on": "base", "side": "N", "dir": "up"}, {"name": "e", "on": "base", "side": "E", "dir": "up"}]}
    blank = Blank((80_000, 130_000), ((0, 0, 60_000, 100_000), (0, 100_000, 60_000, 130_000), (60_000, 40_000, 80_000, 60_000)),
                  ((0, 100_000, 60_000, 100_000), (60_000, 60_000, 60_000, 40_000)))
    machine = {"bed": [0, 1_000_000], "uncovered": 5000, "gauge": {}, "cost": {"stage": 40}, **(machine or {})}
    return Job(part, {"load": load or []}, machine, blank)


def test_strokes_of_the_blank() -> None:
    north, east = job().strokes
    assert (north.bends, north.span, north.line, north.flange, north.beside) == ((1,), 60_000, 60_000, 30_000, 20_000)
    assert (east.bends, east.span, east.flange, east.beside) == ((2,), 20_000, 20_000, 70_000)


def test_flange_load_and_force_narrow_the_tools() -> None:
    plain = job()
    assert plain.serves(PUNCH, DIE, plain.strokes[0])
    assert not plain.serves(PUNCH, {**DIE, "least_flange": 20_001}, plain.strokes[1])
    row = {"material": "M", "thickness": 2, "v": 8, "load": 300}
    loaded = job({"force": 17_999}, [row])
    assert loaded.load(DIE) == 300 and not loaded.serves(PUNCH, DIE, loaded.strokes[0])
    assert not loaded.serves({**PUNCH, "limit": 299}, DIE, loaded.strokes[1])
    assert loaded.serves(PUNCH, DIE, loaded.strokes[1])
    assert job(load=[row, row]).load(DIE) is None and job(load=[{**row, "v": 10}]).load(DIE) is None


def test_the_shortest_stations() -> None:
    rack = Rack(job(), [PUNCH], [DIE], False, False)
    kinds = rack.kinds([("P", "D")])
    assert [kind.station for kind in kinds] == [Station("P", "D", 50_000)]
    assert kinds[0].serves == {0, 1}


def test_a_die_of_its_own_pieces() -> None:
    rack = Rack(job(), [PUNCH], [DIE], True, False)
    assert rack.stations("P", "D", 10_000) == [Station("P", "D", 50_000), Station("P", "D", 20_000, 40_000)]
    assert rack.stations("P", "D", 50_000) == [Station("P", "D", 50_000)]


def test_a_slimmer_tool_stands_for_a_wider_one() -> None:
    wide = {**PUNCH, "name": "W", "body": [[-3, 7, 10, 100]]}
    rack = Rack(job(), [wide, PUNCH], [DIE], False, False)
    assert [kind.station.punch for kind in rack.kinds([("W", "D"), ("P", "D")])] == ["P"]
    twin = {**PUNCH, "name": "T"}
    rack = Rack(job(), [PUNCH, twin], [DIE], False, False)
    assert [kind.station.punch for kind in rack.kinds([("P", "D"), ("T", "D")])] == ["P"]


def test_tools_are_parted_by_height() -> None:
    high = {**PUNCH, "name": "H", "height": 120}
    rack = Rack(job(), [PUNCH, high], [DIE], False, False)
    assert rack.classes() == [[("P", "D")], [("H", "D")]]


def test_bodies() -> None:
    assert inside([[-1, 1, 0, 5]], [[-2, 2, 0, 9], [0, 1, 0, 1]]) and not inside([[-1, 3, 0, 5]], [[-2, 2, 0, 9]])
    other = turned(PUNCH, "Q")
    assert other["body"] == [[-5, 3, 10, 100]] and turned(other, "P") == PUNCH
    assert not stand_alike(PUNCH, other) and stand_alike(turned(other, "X"), PUNCH)
