"""Output files: checked before the cut, written beside their places, and moved there when they are whole."""
from __future__ import annotations

import os
import secrets
import shutil
from collections.abc import Iterator
from contextlib import contextmanager
from pathlib import Path

from .refusal import CicelybeamError

PICTURES = (".svg", ".pdf", ".eps", ".png")
REPORTS = (".html", ".json", ".csv")
TRACES = (".csv", ".vtp")
SHOWN = ("polygons", "traces")  # what a picture of a plane cut has lines for
POLYGONS = (".vtp", ".vtu", ".vtk", ".ply", ".obj")  # meshio's other formats drop polygons or cannot write them


def check_suffix(path: Path, suffixes: tuple[str, ...], what: str) -> None:
    if path.suffix.lower() not in suffixes:
        *most, last = suffixes
        raise CicelybeamError(f"{path}: {what} is a {', '.join(most)}{' or ' if most else ''}{last} file")


def check_places(mesh: str | Path, outputs: list[Path]) -> None:
    """Refuses outputs that are the mesh's own file, one another's, or in no folder that can be written to."""
    for k, path in enumerate(outputs):
        if _same(path, Path(mesh)):
            raise CicelybeamError(f"{path}: this is the mesh that is cut, which is not overwritten; give another name")
        if any(_same(path, other) for other in outputs[:k]):
            raise CicelybeamError(f"{path}: two outputs have this name; give each its own")
        if path.is_dir():
            raise CicelybeamError(f"{path}: this is a folder; give the name of a file")
        folder = Path(os.path.realpath(path)).parent
        if not folder.is_dir():
            raise CicelybeamError(f"{path}: there is no folder {folder}; make it first")
        if not os.access(folder, os.W_OK):
            raise CicelybeamError(f"{path}: the folder {folder} cannot be written to; give another place")


def _same(a: Path, b: Path) -> bool:
    """Whether both names lead to one file, also by links."""
    try:
        return os.path.samefile(a, b)
    except OSError:  # one of them is not there
        return os.path.realpath(a) == os.path.realpath(b)


_begun: set[Path] = set()  # folders with files that are not whole yet


@contextmanager
def whole(path: str | Path) -> Iterator[Path]:
    """A name to write to, in a folder beside `path`. What was written is moved to `path` at the end of the block.

    Where the block ends otherwise (an error, a full disk, Ctrl-C) nothing of it stays, and what was at `path` before is
    still there.
    """
    place = Path(os.path.realpath(path))  # a link stays a link
    folder = place.parent / f".cicelybeam-{secrets.token_hex(8)}"
    _begun.add(folder)  # before it is made: Ctrl-C may come at any time
    try:
        folder.mkdir(mode=0o700)
        written = folder / place.name
        yield written
        if place.exists():
            shutil.copymode(place, written)
        os.replace(written, place)
    except OSError as error:
        raise CicelybeamError(f"{path}: it cannot be written: {error.strerror or error}") from error
    finally:
        remove_begun()


def remove_begun() -> None:
    """Removes what is not whole."""
    while _begun:
        shutil.rmtree(next(iter(_begun)), ignore_errors=True)
        _begun.pop()
