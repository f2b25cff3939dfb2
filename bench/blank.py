#!/usr/bin/env python3
"""Times the proved program on files of several sizes, and prints a row for each: median and least time in milliseconds.

    bench/blank.py [RUNS]     needs crates/brake_cli/out/brake_cli, which `rt run` in crates/brake_cli builds
"""
import statistics
import subprocess
import sys
import tempfile
import time
from pathlib import Path

ROOT = Path(__file__).resolve().parent.parent
PROGRAM = ROOT / "crates/brake_cli/out/brake_cli"
LIMIT = 1 << 20


def thirteen_faces():
    text = 'material = "S235"\nthickness = 2000\nradius = 2000\n'
    text += '[[face]]\nname = "f0"\nwidth = 20000\nlength = 30000\n'
    for i in range(1, 13):
        text += f'[[face]]\nname = "f{i}"\non = "f{i - 1}"\nside = "N"\nat = 0\n'
        text += 'width = 20000\nlength = 30000\ndir = "up"\n'
    return text


def padded(text):
    return text + "#" * (LIMIT - len(text) - 1) + "\n"


def with_unknown_keys(text):
    lines, size, i = [], len(text), 0
    while size < LIMIT - 20:
        lines.append(f"key{i} = 1\n")
        size += len(lines[-1])
        i += 1
    return "".join(lines) + text


def cases():
    l_section = (ROOT / "examples/l_section/part.toml").read_text()
    yield "no word (usage)", None
    yield "L section", l_section
    yield "13 faces in a row", thirteen_faces()
    yield "1 MiB, a comment behind the L section", padded(l_section)
    yield "1 MiB, unknown keys before the L section", with_unknown_keys(l_section)
    yield "1 MiB, nested arrays", "a = " + "[" * (LIMIT - 4)
    yield "one byte above 1 MiB", padded(l_section) + "#"


def main():
    runs = int(sys.argv[1]) if len(sys.argv) > 1 else 31
    with tempfile.TemporaryDirectory() as place:
        (Path(place) / "tools.toml").write_bytes((ROOT / "examples/l_section/tools.toml").read_bytes())
        for name, part in cases():
            words = [str(PROGRAM)]
            if part is not None:
                (Path(place) / "part.toml").write_text(part)
                words += ["blank", "part.toml", "tools.toml"]
            times = []
            for _ in range(runs):
                start = time.perf_counter()
                got = subprocess.run(words, cwd=place, capture_output=True)
                times.append((time.perf_counter() - start) * 1000)
            first = got.stdout.decode().splitlines()[:1]
            median, least = statistics.median(times), min(times)
            print(f"{name:44} median {median:7.2f} ms  least {least:7.2f} ms  status {got.returncode}  {first}")


if __name__ == "__main__":
    main()
