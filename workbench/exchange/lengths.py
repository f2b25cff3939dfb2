"""Lengths as they are typed and shown, in millimetres, beside whole micrometres as the files have them."""
from __future__ import annotations

import re

from .endings import WrongWords

FORM = re.compile(r"(\d{1,8})(?:\.(\d{1,3}))?\Z", re.ASCII)


def typed_length(word: str, what: str, low: int, high: int) -> int:
    """The micrometres of a word such as `60` or `1.5`, from low to high. Raises WrongWords, which names `what`."""
    form = FORM.match(word)
    if not form:
        hint = ": a decimal point, not a comma" if "," in word else ""
        raise WrongWords(f"{what} '{word[:40]}' isn't a length in mm of at most three decimals{hint}")
    length = 1000 * int(form[1]) + int((form[2] or "").ljust(3, "0"))
    if not low <= length <= high:
        raise WrongWords(f"{what} {word} mm is out of range, {shown(low)} to {shown(high)} mm")
    return length


def shown(length: int) -> str:
    """A length in millimetres without its unit, exact: 84243 is '84.243', 60000 is '60'."""
    whole, rest = divmod(abs(length), 1000)
    return ("-" if length < 0 else "") + f"{whole}.{rest:03d}".rstrip("0").rstrip(".")
