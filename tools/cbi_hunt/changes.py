"""Changes an input in little, by its lines, its tokens or its bytes, and draws inputs that differ from it by one change. Not proved."""
import hashlib
import random
import re
from typing import Callable, Dict, Iterator, List, Sequence, Set

# Words and numbers, blanks, and each other byte by itself.
TOKEN = re.compile(rb"[A-Za-z0-9_]+|[ \t]+|[^A-Za-z0-9_ \t]", re.DOTALL)
STALLED = 64       # changes in a row that gave nothing new, before one change more is made at once
MOST_CHANGES = 8
Pieces = List[bytes]


def lines_of(data: bytes) -> Pieces:
    return data.splitlines(keepends=True)


def tokens_of(data: bytes) -> Pieces:
    return TOKEN.findall(data)


def bytes_of(data: bytes) -> Pieces:
    return [data[at:at + 1] for at in range(len(data))]


LEVELS: Dict[str, Callable[[bytes], Pieces]] = {"lines": lines_of, "tokens": tokens_of, "bytes": bytes_of}


def beside(piece: bytes) -> Pieces:
    """What is near a number, or near a byte."""
    if piece.isdigit() and len(piece) <= 18:
        number = int(piece)
        return [b"%d" % near for near in (number + 1, max(0, number - 1), 0, number * 10)]
    return [bytes([(piece[0] + 1) % 256]), bytes([(piece[0] - 1) % 256])] if len(piece) == 1 else []


def changed(pieces: Pieces, others: Sequence[bytes], chance: random.Random) -> Pieces:
    """These with one left out, doubled, exchanged with another, replaced or put in; what is put there is one of the others, or near what was there."""
    if not pieces:
        return [chance.choice(others)] if others else []
    at, to = chance.randrange(len(pieces)), chance.randrange(len(pieces))
    what = chance.choice(("out", "double", "exchange", "replace", "replace", "put"))
    new = list(pieces)
    if what == "out":
        del new[at]
    elif what == "double":
        new.insert(at, pieces[at])
    elif what == "exchange":
        new[at], new[to] = new[to], new[at]
    elif what == "put":
        new.insert(chance.randrange(len(pieces) + 1), chance.choice(others or pieces))
    else:
        near = beside(pieces[at])
        new[at] = chance.choice(near) if near and chance.random() < 0.5 else chance.choice(others or pieces)
    return new


def digest_of(data: bytes) -> bytes:
    return hashlib.sha256(data).digest()


def neighbours(data: bytes, inputs: Sequence[bytes], known: Set[bytes], chance: random.Random) -> Iterator[bytes]:
    """Inputs that differ from this one by a change, by lines, tokens and bytes in turn; more at once where changes come to nothing new any more. None comes twice, and none whose digest is known."""
    pools = {level: sorted({piece for one in (data, *inputs) for piece in of(one)}) for level, of in LEVELS.items()}
    seen, changes, stalled = {digest_of(data), *known}, 1, 0
    while changes <= MOST_CHANGES:
        for level, of in LEVELS.items():
            new = data
            for _ in range(changes):
                new = b"".join(changed(of(new), pools[level], chance))
            digest = digest_of(new)
            stalled = stalled + 1 if digest in seen else 0
            if digest not in seen:
                seen.add(digest)
                yield new
        if stalled >= STALLED:
            changes, stalled = changes + 1, 0
