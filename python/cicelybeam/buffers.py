"""Arrays that the library writes to directly, cell after cell, and that grow where too little is left."""
from __future__ import annotations

import numpy as np


class Growing:
    """An array of which the first `used` elements are written."""

    def __init__(self, dtype: type, room: int) -> None:
        self.array = np.empty(max(room, 1), dtype=dtype)
        self.base = self.array.ctypes.data
        self.used = 0

    def lend(self, needed: int) -> tuple[int, int]:
        """The address and number of the free elements, at least as many as needed."""
        if self.array.size - self.used < needed:
            self.grow(needed)
        return self.base + self.used * self.array.itemsize, self.array.size - self.used

    def grow(self, more: int = 0) -> None:
        """Twice the room, and more."""
        larger = np.empty(2 * self.array.size + more, dtype=self.array.dtype)
        larger[: self.used] = self.array[: self.used]
        self.array, self.base = larger, larger.ctypes.data

    def written(self) -> np.ndarray:
        return self.array[: self.used]
