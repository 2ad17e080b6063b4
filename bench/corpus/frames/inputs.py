"""Lines of frames: channels are opened, get data in and out of order, and are closed."""
from random import Random
from typing import List


def framed(chance: Random, kind: int, channel: int, number: int, data: List[int]) -> str:
    plain = [kind, channel, number, len(data)] + data
    check = sum(plain) % 256
    if chance.randrange(25) == 0:
        check = (check + 1) % 256
    out = [0x7E]
    for byte in plain + [check]:
        out += [0x7D, byte ^ 32] if byte in (0x7D, 0x7E) else [byte]
    if chance.randrange(40) == 0:
        out = out[:chance.randrange(1, len(out))]
    return " ".join(f"{byte:02x}" for byte in out)


def make(chance: Random) -> bytes:
    channels = chance.sample(range(4), chance.choice([1, 1, 2, 3]))
    following = {channel: 0 for channel in range(5)}
    frames = [framed(chance, 1, channel, 0, []) for channel in channels if chance.randrange(10)]
    for _ in range(chance.randint(2, 16)):
        channel = chance.choice(channels) if chance.randrange(20) else chance.randrange(5)
        kind = chance.choice([2] * 12 + [1, 3, 4, 4, 5])
        number = (following[channel] + chance.choice([0, 0, 0, 0, 1, 2, 3, 4, 7])) % 8
        length = chance.choice([0, 1, 2, 4, 6, 23, 24, 25]) if chance.randrange(4) == 0 else 2
        data = [chance.choice([0x41, 0x62, 0x20, 0x7E, 0x7D, 0x0A, 0xC8]) for _ in range(length)]
        frames.append(framed(chance, kind, channel, number, data if kind == 2 else []))
        if kind == 2 and number == following[channel]:
            following[channel] = (following[channel] + 1) % 8
        if kind == 1:
            following[channel] = 0
    return ("\n".join(frames) + "\n").encode("ascii")
