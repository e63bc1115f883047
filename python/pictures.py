#!/usr/bin/python3
"""Draws the pictures of README.md and python/README.md into a folder, by default docs/."""
import sys
from pathlib import Path

import cicelybeam
import sample

PLANE = (0, 0, 0.4), (0.05, 0.1, 1)


def draw(folder: Path) -> None:
    cicelybeam.cut_plane(sample.plate(), *PLANE).draw(folder / "plate.svg", title="")
    broken = cicelybeam.cut_plane(sample.broken(), *PLANE)
    broken.draw(folder / "undrawn.svg")
    broken.draw(folder / "traces.svg", show="traces")


if __name__ == "__main__":
    draw(Path(sys.argv[1]) if len(sys.argv) > 1 else Path(__file__).resolve().parents[1] / "docs")
