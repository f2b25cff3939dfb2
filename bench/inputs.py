"""The texts of input files: parts, tools, machines and setups, put together from plain values in whole micrometres."""
from __future__ import annotations

from dataclasses import dataclass

OTHER_WAY = {"up": "down", "down": "up"}
# the lengths of pieces, in micrometres; of each there are 99
PIECES = (20000, 30000, 40000, 45000, 50000, 56000, 60000, 70000, 80000, 86000, 90000, 100000, 200000, 300000)
STAGE_DISTANCE = 800000
SHEET = 'material = "S235"\nthickness = 2000\nradius = 2000\n'
ALLOWANCE = f"[[allow]]\n{SHEET}k = 650\n"
GAUGE = "inset = 5000\nfinger = 10000\ngap = 10000\ndepth = 20000\nabove = 5000\nbelow = 5000\n"
COSTS = ("stroke", "quarter", "half", "flip", "roll", "stage")


@dataclass(frozen=True)
class Face:
    """A face that stands on a side of an earlier one: where along it, its size, and which way it is bent."""

    name: str
    on: str
    side: str
    at: int
    width: int
    length: int
    way: str

    def text(self) -> str:
        """Its table of the part file."""
        return (f'[[face]]\nname = "{self.name}"\non = "{self.on}"\nside = "{self.side}"\nat = {self.at}\n'
                f'width = {self.width}\nlength = {self.length}\ndir = "{self.way}"\n')


@dataclass(frozen=True)
class Part:
    """A part of face 0, by its name, width and length, and of the faces that stand on it and on each other."""

    name: str
    width: int
    length: int
    faces: tuple[Face, ...]

    @property
    def bends(self) -> int:
        """The number of its bends."""
        return len(self.faces)

    def text(self) -> str:
        """The part file."""
        root = f'[[face]]\nname = "{self.name}"\nwidth = {self.width}\nlength = {self.length}\n'
        return SHEET + root + "".join(face.text() for face in self.faces)


@dataclass(frozen=True)
class Tab:
    """A flange on a side of face 0; with a lip a second one on it, which is bent the other way."""

    side: str
    at: int
    way: str
    has_lip: bool = True
    width: int = 60000


def tabs(width: int, length: int, items: list[Tab], others: tuple[Face, ...] = ()) -> Part:
    """A part of tabs on one face: the tabs, then the other faces, then the lips, each in order."""
    flanges = [Face(f"a{i}", "b", tab.side, tab.at, tab.width, 80000, tab.way) for i, tab in enumerate(items)]
    lips = [Face(f"c{i}", f"a{i}", "N", 0, tab.width, 20000, OTHER_WAY[tab.way])
            for i, tab in enumerate(items) if tab.has_lip]
    return Part("b", width, length, (*flanges, *others, *lips))


def sections() -> str:
    """The key of a tool's pieces."""
    return "sections = [" + ", ".join(f"[{length}, 99]" for length in PIECES) + "]\n"


def punch(name: str, body: list[list[int]], limit: int | None = None) -> str:
    """A punch of 400 mm with a nose of 1 mm, and boxes [from, to, low, high]; perhaps with a limit."""
    load = "" if limit is None else f"limit = {limit}\n"
    return f'[[punch]]\nname = "{name}"\n{load}height = 400000\nnose = 1000\nbody = {body}\n{sections()}'


def die(name: str, opening: int, half_width: int, least_flange: int) -> str:
    """A die of 400 mm by its opening: two cheeks with the floor of the opening between them."""
    half, low = opening // 2, -400000
    body = [[-half_width, -half, low, 0], [-half, half, low, -half], [half, half_width, low, 0]]
    return (f'[[die]]\nname = "{name}"\nheight = 400000\nv = {opening}\nleast_flange = {least_flange}\nbody = {body}\n'
            f"{sections()}")


def tools(gooseneck_limit: int | None = None, loads: dict[int, int] | None = None) -> str:
    """The tools file: a blade, a gooseneck, a narrow and a wider die, all slim and tall; loads by the opening."""
    neck = [[-1000, 1000, 1000, 40000], [-9000, 1000, 40000, 120000], [-1000, 1000, 120000, 400000]]
    rows = "".join(f'[[load]]\nmaterial = "S235"\nthickness = 2000\nv = {opening}\nload = {load}\n'
                   for opening, load in (loads or {}).items())
    return (ALLOWANCE + punch("P100", [[-1000, 1000, 1000, 400000]]) + punch("GOOSE", neck, gooseneck_limit)
            + die("D16", 8000, 6000, 4000) + die("D12", 12000, 10000, 8000) + rows)


@dataclass(frozen=True)
class Stage:
    """A stage of a machine: the pieces of which its tools are made, and the tools."""

    pieces: tuple[int, ...]
    punch: str = "P100"
    die: str = "D16"


def machine(stages: list[Stage], *, costs: tuple[int, ...] = (100, 20, 30, 60, 80, 40), uncovered: int = 5000,
            near: int = 5000, keys: str = "") -> str:
    """The machine file of these stages, one each 800 mm, with `keys` among the keys of its top table."""
    text = f"bed = [0, 20000000]\nuncovered = {uncovered}\n{keys}"
    text += "upper = [[0, 20000000, -10000, 10000, 0, 300000]]\nlower = [[0, 20000000, -10000, 10000, -300000, 0]]\n"
    text += f"[gauge]\nnear = {near}\nfar = 600000\n{GAUGE}[cost]\n"
    text += "".join(f"{key} = {cost}\n" for key, cost in zip(COSTS, costs, strict=True))
    for i, stage in enumerate(stages):
        text += (f'[[stage]]\npunch = "{stage.punch}"\ndie = "{stage.die}"\nat = {200000 + STAGE_DISTANCE * i}\n'
                 f"pieces = {list(stage.pieces)}\n")
    return text


def setups(items: dict[str, list[tuple[str, str, int]]]) -> str:
    """The setups file: by name the stages of each setup, as punch, die and length."""
    text = ""
    for name, stages in items.items():
        text += f'[[setup]]\nname = "{name}"\n'
        for i, (top, bottom, length) in enumerate(stages):
            text += (f'[[setup.stage]]\npunch = "{top}"\ndie = "{bottom}"\nat = {200000 + STAGE_DISTANCE * i}\n'
                     f"length = {length}\n")
    return text
