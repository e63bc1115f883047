"""How long the parts of the command's work take."""
from __future__ import annotations

import time
from collections.abc import Iterator
from contextlib import contextmanager


class Times:
    """The seconds that each part took, in the order in which the parts were first begun."""

    def __init__(self) -> None:
        self.seconds: dict[str, float] = {}

    @contextmanager
    def of(self, part: str) -> Iterator[None]:
        """Adds the time of the block to that of a part."""
        start = time.perf_counter()
        yield
        self.seconds[part] = self.seconds.get(part, 0.0) + time.perf_counter() - start

    def lines(self, held: dict[str, str]) -> list[str]:
        """A line for each part, as those of the record; `held` names what a part's time has in it that is not clear from its name."""
        return [f"{part:<18}{seconds:.3f} s" + (f", with {held[part]}" if part in held else "") for part, seconds in self.seconds.items()]
