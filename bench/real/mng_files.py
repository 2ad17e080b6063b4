"""Writes files of MNG for pngcheck: a head, loops, frames and small images, with chunks that are cut short now and then, and very rarely a loop of many signals.

    python3 mng_files.py COUNT FOLDER SEED
"""
import random
import struct
import sys
import zlib
from pathlib import Path
from typing import Callable, List, Sequence

MANY = 0.0008   # how often a loop has more signals than pngcheck has room for
ROOM = 32000


def chunk(name: str, data: bytes) -> bytes:
    """Length, name, data and check sum."""
    body = name.encode("ascii") + data
    return struct.pack(">I", len(data)) + body + struct.pack(">I", zlib.crc32(body))


def words(numbers: Sequence[int]) -> bytes:
    return struct.pack(f">{len(numbers)}I", *numbers)


class Writer:
    """Makes files by chance."""

    def __init__(self, chance: random.Random) -> None:
        self.chance = chance

    def small(self, count: int) -> bytes:
        return bytes(self.chance.randrange(4) for _ in range(count))

    def head(self) -> bytes:
        return chunk("MHDR", words([self.chance.randrange(1, 40) for _ in range(2)] + [100, 1, 1, 0, self.chance.choice((0, 1, 3, 81))]))

    def loop(self) -> bytes:
        signals = ROOM // 4 + self.chance.randrange(20) if self.chance.random() < MANY else self.chance.choice((0, 0, 1, 2, 5, 30))
        data = bytes((self.chance.randrange(3),)) + words([self.chance.randrange(9)])
        if signals or self.chance.random() < 0.7:
            data += bytes((self.chance.randrange(4),))
            if signals or self.chance.random() < 0.6:
                data += words([1, 9][:2 if signals else self.chance.randrange(3)] + list(range(signals)))
        return chunk("LOOP", data[:-1] if self.chance.random() < 0.03 else data) + self.part(1) + chunk("ENDL", data[:1])

    def image(self) -> bytes:
        width, height = self.chance.randrange(1, 5), self.chance.randrange(1, 5)
        pixels = b"".join(b"\0" + self.small(width) for _ in range(height))
        kind = self.chance.choice((0, 0, 2, 3, 7))
        return chunk("IHDR", words([width, height]) + bytes((8, kind, 0, 0, 0))) + chunk("IDAT", zlib.compress(pixels)) + chunk("IEND", b"")

    def part(self, depth: int) -> bytes:
        made: List[Callable[[], bytes]] = [
            self.image, lambda: chunk("BACK", self.small(self.chance.choice((6, 7, 9, 10, 4)))), lambda: chunk("DEFI", self.small(self.chance.choice((2, 3, 4, 12, 28)))),
            lambda: chunk("FRAM", self.small(self.chance.choice((0, 1, 1)))), lambda: chunk("tEXt", b"Title\0abc"), lambda: chunk("SAVE", b""),
            lambda: chunk("MOVE", words([1]) + bytes((self.chance.randrange(2),)) + words([3, 4])), lambda: chunk("CLON", self.small(self.chance.choice((4, 5, 16))))]
        rows = [self.loop() if depth < 1 and self.chance.random() < 0.3 else self.chance.choice(made)() for _ in range(self.chance.randrange(4))]
        return b"".join(rows)

    def file(self) -> bytes:
        data = b"\x8aMNG\r\n\x1a\n" + self.head() + self.part(0) + self.loop() + self.part(0) + chunk("MEND", b"")
        return data[:self.chance.randrange(30, len(data))] if self.chance.random() < 0.05 else data


def main(given: List[str]) -> int:
    count, folder, seed = given
    writer = Writer(random.Random(int(seed)))
    for place in range(int(count)):
        (Path(folder) / f"i{place:05}").write_bytes(writer.file())
    return 0


if __name__ == "__main__":
    sys.exit(main(sys.argv[1:]))
