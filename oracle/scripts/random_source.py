"""Random choices that every version of Python makes alike."""

import random
from collections.abc import Sequence
from typing import TypeVar

T = TypeVar("T")


class RandomSource:
    """Choices built on `random()` alone, the only method whose sequence Python promises to keep
    from version to version for one seed."""

    def __init__(self, seed: str) -> None:
        self._random = random.Random(seed)

    def chance(self, share: float) -> bool:
        return self._random.random() < share

    def below(self, limit: int) -> int:
        return int(self._random.random() * limit)

    def bits(self, count: int) -> int:
        """A number of so many bits, at most 64. `random()` has 53 bits, so the halves are drawn."""
        if count <= 32:
            return self.below(2**count)
        return self.below(2 ** (count - 32)) << 32 | self.below(2**32)

    def between(self, least: int, most: int) -> int:
        return least + self.below(most - least + 1)

    def choice(self, choices: Sequence[T]) -> T:
        return choices[self.below(len(choices))]

    def sample(self, choices: Sequence[T], count: int) -> list[T]:
        """Some of the choices in any order, none twice."""
        left = list(choices)
        return [left.pop(self.below(len(left))) for _ in range(count)]

    def bytes_of(self, count: int) -> bytes:
        return bytes(self.below(256) for _ in range(count))
