"""Runs one command of the workbench: `python3 -m workbench COMMAND WORDS..`.

The launcher `brake` calls this, and says by the environment which program is to be run:

- `BRAKE_PROGRAM`: the path of the proved program, empty where none is built;
- `BRAKE_LAUNCHER`: the path of the launcher, by which users call it.

Exit statuses: as each command says; 2 faulty words, 70 something that it needs isn't installed.
"""
from __future__ import annotations

import importlib
import importlib.util
import sys
from dataclasses import dataclass


@dataclass(frozen=True)
class Command:
    """A command: its module, which has `main(words: list[str]) -> int`, and what it needs of Debian's packages."""

    module: str
    needs: tuple[tuple[str, str], ...] = ()
    """Pairs of a Python module and the package that brings it."""


COMMANDS: dict[str, Command] = {
    "desk": Command(
        "workbench.desk.command",
        (("bottle", "python3-bottle"), ("waitress", "python3-waitress"), ("tomlkit", "python3-tomlkit")),
    ),
    "propose": Command("workbench.propose.command", (("tomlkit", "python3-tomlkit"),)),
    "import": Command("workbench.exchange.step_in", (("gmsh", "python3-gmsh"),)),
    "folded": Command("workbench.exchange.folded", (("gmsh", "python3-gmsh"),)),
    "dxf": Command("workbench.exchange.dxf_out", (("ezdxf", "python3-ezdxf"),)),
    "new": Command("workbench.exchange.new"),
}


def say(text: str) -> None:
    """One line on standard error, as the launcher says it; control characters are shown as '?'."""
    printable = "".join(c if c.isprintable() else "?" for c in text)
    print(f"brake: {printable[:2000]}", file=sys.stderr)


def missing_packages(command: Command) -> list[str]:
    """The packages that a command needs and this Python doesn't have."""
    return [package for module, package in command.needs if importlib.util.find_spec(module) is None]


def main(words: list[str]) -> int:
    """Runs the command that the first word names, on the words behind it, and gives its exit status."""
    command = COMMANDS.get(words[0]) if words else None
    if command is None:
        say(f"no command of the workbench: {words[0] if words else ''}")
        return 2
    missing = missing_packages(command)
    if missing:
        say(f"'brake {words[0]}' needs what isn't installed here: sudo apt-get install {' '.join(missing)}")
        return 70
    return int(importlib.import_module(command.module).main(words[1:]))


if __name__ == "__main__":
    try:
        sys.exit(main(sys.argv[1:]))
    except KeyboardInterrupt:
        sys.exit(130)
    except BrokenPipeError:
        sys.stderr.close()
        sys.exit(141)
