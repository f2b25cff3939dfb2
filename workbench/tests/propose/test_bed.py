"""Places on the bed, and blocks of stations."""
from __future__ import annotations

from itertools import combinations

import pytest

from workbench.propose.bed import FAR, LEAST_GAP, Stand, free_range, overhang, place, place_far
from workbench.propose.blocks import blocks, useful_pairs
from workbench.propose.stations import Kind, Station

from .test_rack import job


def stations(*lengths: int) -> tuple[Station, ...]:
    """Stations of one punch and die."""
    return tuple(Station("P", "D", length) for length in lengths)


def test_in_the_middle_with_room_between() -> None:
    one = job()
    placed = place(one, stations(50_000, 20_000))
    assert placed is not None
    gap = placed[1].at - placed[0].at - 50_000
    assert gap >= max(LEAST_GAP, overhang(one, Station("P", "D", 20_000)))
    assert placed[0].at >= 0 and placed[1].at + 20_000 <= 1_000_000


def test_a_bed_that_is_too_short() -> None:
    assert place(job({"bed": [0, 100_000]}), stations(60_000, 60_000)) is None
    tight = place(job({"bed": [0, 120_000]}), stations(60_000, 60_000))
    assert tight is not None and [one.at for one in tight] == [0, 60_000]


def test_side_frames_within_the_bed() -> None:
    framed = job({"frames": [[400_000, 450_000], [-5, 10]]})
    assert free_range(framed) == (450_000, 1_000_000)
    placed = place(framed, stations(50_000))
    assert placed is not None and placed[0].at >= 450_000


@pytest.mark.parametrize("stand", [Stand(), Stand("left"), Stand("right"), Stand("middle", -1), Stand("middle", 1)])
def test_a_die_holds_its_punch(stand: Stand) -> None:
    placed = place(job(), (Station("P", "D", 20_000, 45_000), Station("P", "D", 50_000)), stand)
    assert placed is not None
    for one in placed:
        assert one.die_at <= one.at and one.at + one.station.length <= one.die_at + one.station.stand
    assert placed[0].die_at + 45_000 <= placed[1].die_at


def test_the_ends_of_the_bed() -> None:
    left, right = (place(job(), stations(50_000), Stand(spot)) for spot in ("left", "right"))
    assert left is not None and left[0].at == 0
    assert right is not None and right[0].at == 950_000
    both = place(job(), stations(50_000, 20_000), Stand("left"))
    assert both is not None and (both[0].at, both[1].at) == (0, 980_000)


def test_a_bed_without_end_has_an_end() -> None:
    assert place_far(job(), stations(50_000, 20_000)) is not None
    assert place_far(job(), stations(*[FAR // 2] * 6)) is None


def kind(number: int, *serves: int) -> Kind:
    """A kind of station that reaches some strokes."""
    return Kind(Station("P", "D", number + 1), frozenset(serves))


@pytest.mark.parametrize("number", [2, 6, 7, 12, 25])
def test_each_useful_pair_stands_in_a_block(number: int) -> None:
    kinds = [kind(at, 0, 1) if at % 3 == 0 else kind(at, 1) for at in range(number)]
    made = list(blocks(kinds, 2))
    assert all(len(block) <= 6 and len(set(block)) == len(block) for block in made)
    pairs = {pair for block in made for pair in combinations(sorted(block), 2)}
    assert set(useful_pairs(kinds, 2)) <= pairs


def test_three_kinds_where_no_pair_is_enough() -> None:
    kinds = [kind(at, at % 4) for at in range(9)]
    assert list(blocks(kinds, 4)) == [(0, 1, 2, 3)]
    assert not list(blocks(kinds, 5))
