"""`brake propose` with the program: what it stores, prints and answers."""
from __future__ import annotations

import signal
import subprocess
from pathlib import Path

import pytest
import tomlkit

from .conftest import LIMIT, Command, Done
from .made_parts import made

PLANNED = ["bracket", "pan", "return_box", "door_panel", "u_channel", "z_bar", "setups"]


def best_of(done: Done) -> int:
    """The cost that `brake setups` proves."""
    return min(int(line.split()[3]) for line in done.lines if line.startswith("try ") and line.split()[3].isdigit())


def proposed(done: Done) -> list[int]:
    """The costs of the proposed setups."""
    return [int(line.split()[3]) for line in done.lines if line.startswith("propose ")]


def value(done: Done, word: str) -> int:
    """The number behind a word that begins a line."""
    return next(int(line.split()[1]) for line in done.lines if line.startswith(f"{word} "))


def knows_no_upright(command: Command) -> bool:
    """Whether the program refuses the machine file for this key."""
    return command.brake("why", "part.toml", "tools.toml", "machine.toml").lines == ["refused machine 3 1"]


@pytest.mark.parametrize("example", PLANNED)
def test_setups_proves_the_proposed_costs(command: Command, example: str) -> None:
    files = command.take(example)
    done = command.propose(*files, "out.toml", "--quiet")
    assert done.status == 0 and done.said == ""
    proved = command.brake("setups", *files, "out.toml", "cert")
    costs = proposed(done)
    assert [line.split()[3] for line in proved.lines if line.startswith("try ")] == list(map(str, costs))
    assert costs == sorted(costs) and best_of(proved) == costs[0] >= value(done, "least")
    assert [line.split()[2] for line in proved.lines if line.startswith("try ")] == \
        [line.split()[2] for line in done.lines if line.startswith("propose ")]


@pytest.mark.parametrize("number", [0, 1, 3, 4, 6, 7, 22, 27])
def test_made_parts(command: Command, number: int) -> None:
    one = made(number)
    for name, text in (("part", one.part), ("tools", one.tools), ("machine", one.machine)):
        command.write(f"{name}.toml", text)
    files = ("part.toml", "tools.toml", "machine.toml")
    if "upright" in one.machine and knows_no_upright(command):
        pytest.skip("the program doesn't know the key upright yet")
    done = command.propose(*files, "out.toml", "--quiet")
    assert done.status in (0, 1)
    if done.status == 0:
        tools = "out.tools.toml" if any(line.startswith("tools ") for line in done.lines) else "tools.toml"
        proved = command.brake("setups", "part.toml", tools, "machine.toml", "out.toml", "cert")
        assert best_of(proved) == proposed(done)[0]


def test_the_same_bytes_twice(command: Command) -> None:
    files = command.take("pan")
    first, second = (command.propose(*files, out) for out in ("a.toml", "b.toml"))
    assert first.lines == second.lines
    assert (command.folder / "a.toml").read_bytes() == (command.folder / "b.toml").read_bytes()


def test_out_has_comments_and_progress_is_told(command: Command) -> None:
    done = command.propose(*command.take("pan"), "out.toml")
    assert "propose: run 1 of at most 120" in done.said
    text = (command.folder / "out.toml").read_text("utf-8")
    assert "Cost 460, 2 stations" in text and "bends in turn" in text
    assert len(tomlkit.parse(text)["setup"]) == len(proposed(done))  # type: ignore[arg-type]


def test_keep_and_named_tools(command: Command) -> None:
    files = command.take("setups")
    assert len(proposed(command.propose(*files, "out.toml", "--keep", "1"))) == 1
    named = command.propose(*files, "out.toml", "--punches", "G100")
    assert "P100" not in (command.folder / "out.toml").read_text("utf-8") and proposed(named)[0] == 200
    unknown = command.propose(*files, "out.toml", "--dies", "V99")
    assert unknown.status == 2 and "no die 'V99'" in unknown.said


def test_no_plan_says_what_stands_in_the_way(command: Command) -> None:
    files = command.take("tall_channel")
    done = command.propose(*files, "out.toml", "--quiet")
    assert done.status == 1 and any(line.startswith("no plan found: ") for line in done.lines)
    assert "furthest 1 of 2 bends, with P100 over D16 of 90000" in done.lines
    assert "bend 1 north: the part meets a punch or what stands above it" in done.lines
    proved = command.brake("setups", *files, "out.toml", "cert")
    assert proved.status == 1 and proved.lines[-1] == "no plan"


def test_a_key_that_would_help(command: Command) -> None:
    one = made(1)
    machine = one.machine.replace("upright = 1\n", "")
    for name, text in (("part", one.part), ("tools", one.tools), ("machine", one.machine), ("plain", machine)):
        command.write(f"{name}.toml", text)
    if knows_no_upright(command):
        pytest.skip("the program doesn't know the key upright yet")
    done = command.propose("part.toml", "tools.toml", "plain.toml", "out.toml", "--quiet")
    assert done.status == 1 and "with upright = 1: 520" in done.lines


def without(text: str, kind: str) -> str:
    """A tools file without its punches or dies."""
    return tomlkit.dumps({key: value for key, value in tomlkit.parse(text).unwrap().items() if key != kind})


def test_a_rack_without_dies_or_punches(command: Command) -> None:
    files = command.take("bracket")
    whole = (command.folder / "tools.toml").read_text("utf-8")
    for kind in ("die", "punch"):
        command.write("tools.toml", without(whole, kind))
        done = command.propose(*files, "out.toml", "--quiet")
        assert done.status == 1 and f"the rack has no {kind}" in done.lines
        assert not (command.folder / "out.toml").exists()


def test_a_rack_of_one_piece(command: Command) -> None:
    files = command.take("bracket")
    tools = tomlkit.parse((command.folder / "tools.toml").read_text("utf-8")).unwrap()
    for tool in [*tools["punch"], *tools["die"]]:
        tool["sections"] = [[20_000, 1]]
    command.write("tools.toml", tomlkit.dumps(tools))
    done = command.propose(*files, "out.toml", "--quiet")
    assert done.status == 1
    assert "bend 1: needs a station of 70000, and the rack makes 20000 on this bed" in done.lines


def test_a_bed_of_100_mm(command: Command) -> None:
    files = command.take("pan")
    machine = (command.folder / "machine.toml").read_text("utf-8").replace("3000000", "100000")
    document = tomlkit.parse(machine).unwrap()
    document.pop("stage", None)
    command.write("machine.toml", tomlkit.dumps(document))
    done = command.propose(*files, "out.toml", "--quiet", "--tries", "30")
    assert done.status in (0, 1) and value(done, "tries") <= 30


def large_rack() -> str:
    """32 punches and 32 dies with 16 sections each, no two alike."""
    tools = tomlkit.parse(made(0).tools).unwrap()
    sections = [[5000 + 7013 * at, 1 + at % 2] for at in range(16)]
    punches = [{**tools["punch"][at % 4], "name": f"P{at}", "nose": 3000 - at, "sections": sections, "limit": 1000 + at}
               for at in range(32)]
    dies = [{**tools["die"][at % 5], "name": f"D{at}", "sections": sections, "least_flange": 5000 + 7 * at} for at in range(32)]
    return tomlkit.dumps({**tools, "punch": punches, "die": dies})


def test_a_large_rack_ends_within_the_tries(command: Command) -> None:
    one = made(2)
    for name, text in (("part", one.part), ("tools", large_rack()), ("machine", one.machine)):
        command.write(f"{name}.toml", text)
    document = tomlkit.parse(one.part).unwrap()
    tools = tomlkit.parse(large_rack()).unwrap()
    for row in [*tools["allow"], *tools["load"]]:
        row["thickness"] = document["thickness"]
    for row in tools["allow"]:
        row["radius"] = document["radius"]
    command.write("tools.toml", tomlkit.dumps(tools))
    done = command.propose("part.toml", "tools.toml", "machine.toml", "out.toml", "--quiet", "--tries", "25")
    assert done.status in (0, 1) and value(done, "tries") <= 25


def test_a_part_of_twelve_bends(command: Command) -> None:
    files = command.take("bracket")
    face = '[[face]]\nname = "f{0}"\non = "{1}"\nside = "N"\nat = 0\nwidth = 80000\nlength = 20000\ndir = "{2}"\n'
    head = 'material = "DC01"\nthickness = 1500\nradius = 1500\n[[face]]\nname = "base"\nwidth = 80000\nlength = 60000\n'
    command.write("part.toml", head + "".join(
        face.format(at, f"f{at - 1}" if at else "base", "up" if at % 2 else "down") for at in range(12)))
    done = command.propose(*files, "out.toml", "--quiet", "--tries", "30")
    assert done.status in (0, 1) and value(done, "tries") <= 30


def test_a_part_without_bends(command: Command) -> None:
    files = command.take("bracket")
    command.write("part.toml", 'material = "DC01"\nthickness = 1500\nradius = 1500\n[[face]]\nname = "b"\nwidth = 9\nlength = 9\n')
    done = command.propose(*files, "out.toml", "--quiet")
    assert done.status == 1 and "no plan found: the part has no bends" in done.lines
    assert not (command.folder / "out.toml").exists()


@pytest.mark.parametrize(("name", "text", "line"), [
    ("part.toml", "x = ", "refused part 1"), ("part.toml", "", "refused part 2 0 1"),
    ("tools.toml", "x = 1", "refused tools 3 0"), ("tools.toml", "", "refused job 1 1"),
    ("machine.toml", "", "refused machine 2 0 1"), ("part.toml", "#" * 1_048_577, "refused long 1"),
], ids=["not TOML", "no material", "unknown key", "no allowance", "no bed", "too long"])
def test_refused_files(command: Command, name: str, text: str, line: str) -> None:
    files = command.take("bracket")
    command.write(name, text)
    command.write("out.toml", "mine")
    done = command.propose(*files, "out.toml", "--quiet")
    assert done.status == 3 and done.lines == [line]
    assert (command.folder / "out.toml").read_text("utf-8") == "mine"


def test_files_that_are_not_there_and_out_that_is_an_input(command: Command) -> None:
    files = command.take("bracket")
    before = (command.folder / "tools.toml").read_bytes()
    assert command.propose("none.toml", *files[1:], "out.toml").status == 6
    assert command.propose(*files, "no/folder.toml").status == 6
    assert command.propose(*files, ".").status == 6
    (command.folder / "link.toml").symlink_to("tools.toml")
    for out in ("tools.toml", "./tools.toml", "link.toml"):
        done = command.propose(*files, out)
        assert done.status == 70 and "would be lost" in done.said
    assert (command.folder / "tools.toml").read_bytes() == before


def test_no_program(command: Command) -> None:
    command.environment["BRAKE_PROGRAM"] = "/nowhere/brake"
    assert command.propose(*command.take("bracket"), "out.toml").status == 70
    command.environment["BRAKE_PROGRAM"] = "/bin/false"
    assert command.propose(*command.take("bracket"), "out.toml").status == 70


def test_killed_it_leaves_out_as_it_was(command: Command) -> None:
    files = command.take("tall_channel")
    command.write("out.toml", "mine")
    before = sorted(path.name for path in command.folder.iterdir())
    for number in (signal.SIGTERM, signal.SIGKILL):
        slow = command.write("slow", f'#!/bin/sh\nsleep 0.2\nexec "{command.program}" "$@"\n')
        (command.folder / slow).chmod(0o755)
        environment = {**command.environment, "BRAKE_PROGRAM": str(command.folder / slow)}
        with subprocess.Popen(command.words(*files, "out.toml"), cwd=command.folder, env=environment,
                              stderr=subprocess.PIPE, stdout=subprocess.DEVNULL) as run:
            assert run.stderr is not None and run.stderr.readline().startswith(b"propose: run ")
            run.send_signal(number)
            assert run.wait(LIMIT) == (143 if number == signal.SIGTERM else -signal.SIGKILL)
        (command.folder / slow).unlink()
    assert (command.folder / "out.toml").read_text("utf-8") == "mine"
    assert sorted(path.name for path in command.folder.iterdir()) == before


def shop(folder: Path) -> None:
    """A small catalogue's folder of two parts and one machine."""
    for name in ("parts", "machines"):
        (folder / name).mkdir()
    one = made(0)
    (folder / "parts/profile.toml").write_text(one.part, "utf-8")
    (folder / "parts/broken.toml").write_text("x", "utf-8")
    (folder / "machines/press.toml").write_text(one.machine, "utf-8")
    (folder / "tools.toml").write_text(one.tools, "utf-8")


def test_a_folder_is_taken_up_again(command: Command) -> None:
    shop(command.folder)
    done = command.propose("--all", ".")
    assert done.status == 0 and done.lines[0].startswith("2 pairs, 1 planned, 1 refused; ")
    out = command.folder / "out/proposed/press/profile.toml"
    before = (out.read_bytes(), out.stat().st_mtime_ns)
    again = command.propose("--all", ".")
    assert "2 pairs, of which 2 have their answer" in again.said and again.lines == done.lines
    assert (out.read_bytes(), out.stat().st_mtime_ns) == before
    out.unlink()
    assert "2 pairs, of which 1 have their answer" in command.propose("--all", ".").said
    assert out.read_bytes() == before[0]
    table = (command.folder / "out/proposed/table.csv").read_text("utf-8")
    assert "broken,press,refused,,,,,,refused part 1" in table


def test_a_folder_that_lacks_something(command: Command) -> None:
    assert command.propose("--all", "nowhere").status == 6
    assert command.propose("--all", ".").status == 6
