"""The seven attributes of a combination."""

import re

from .words import number

NONE = {"region": False, "id": 0, "air": 0, "los": 0, "mater": 0, "rgb": None, "inherit": False}
OF_A_REGION = dict(NONE, region=True, id=1000, los=100, mater=1)
MOST = {"id": 999_999, "air": 999_999, "los": 100, "mater": 999_999}
TRUTHS = {b"yes": True, b"1": True, b"no": False, b"0": False}


def value_of(key, text):
    """The value that a text is for a key, or None where it is none."""
    if key in ("region", "inherit"):
        return TRUTHS.get(text)
    if key == "rgb":
        parts = text.split(b"/") if b"/" in text else re.findall(rb"[^ \t\r]+", text)
        colour = tuple(number(part, 0, 255) for part in parts)
        return colour if len(colour) == 3 and None not in colour else None
    return number(text, 0, MOST[key])
