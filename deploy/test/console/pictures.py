"""Pictures of the page at each width, light and dark, in the folder that OFFICE_PICTURES names, else in
one that goes:

    cd deploy && OFFICE_PICTURES=/tmp/pictures python3 -m pytest test/console/test_pictures.py

Those that pages of deploy show are left in its folder `shown` besides, cut where they get too long."""
from __future__ import annotations

import pathlib
import struct

from console.person import Person

WIDTHS, SCHEMES = (320, 400, 1200, 1600), ("light", "dark")
# The pictures in deploy/pictures, with the height at which each is cut.
SHOWN = {
    "account-1200-light": 1900,
    "account-1600-dark": 1500,
    "account-320-light": 1900,
    "shop-400-light": 1850,
    "no-answer-400-dark": 1100,
    "behind-400-light": 1200,
    "office-1200-light": 2300,
}
# Bytes of a picture of nothing, and of one that a page may show.
LEAST, MOST = 2_000, 400_000


def taken(person: Person, folder: pathlib.Path, name: str, selector: str = "main") -> None:
    """Takes the pictures of a view; the page is never wider than the window."""
    try:
        for width in WIDTHS:
            for scheme in SCHEMES:
                person.look(width, scheme)
                assert person.value("document.documentElement.scrollWidth") <= width
                one(person, folder, f"{name}-{width}-{scheme}", selector, width)
    finally:
        person.look(1200)


def one(person: Person, folder: pathlib.Path, name: str, selector: str, width: int) -> None:
    """Takes one picture."""
    path = folder / f"{name}.png"
    person.picture(path, selector)
    assert size_of(path)[0] == width and path.stat().st_size > LEAST
    if name in SHOWN:
        (folder / "shown").mkdir(exist_ok=True)
        cut = folder / "shown" / path.name
        person.picture(cut, selector, most=SHOWN[name])
        assert LEAST < cut.stat().st_size < MOST


def size_of(path: pathlib.Path) -> tuple[int, int]:
    """How wide and how high a picture is."""
    width, height = struct.unpack(">II", path.read_bytes()[16:24])
    return width, height
