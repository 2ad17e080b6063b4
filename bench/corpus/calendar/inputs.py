"""Commands about dates, more often at the edges of months and years."""
from random import Random


def day(chance: Random) -> str:
    year = chance.choice([1600, 1800, 2200, 1899, 1900, 1999, 2000, 2004, 2015, 2020, 2021, 2024, 2026, 2100, 2400, chance.randint(1601, 2399)])
    month, day = chance.choice([(1, 1), (1, 3), (2, 28), (2, 29), (3, 1), (12, 31), (12, 28), (4, 30), (5, 1), (chance.randint(1, 12), chance.randint(1, 28))])
    if chance.randrange(25) == 0:
        month, day = chance.choice([(13, 1), (0, 5), (4, 31), (1, 0)])
    return f"{year}-{month:02}-{day:02}"


def make(chance: Random) -> bytes:
    lines = []
    for _ in range(chance.randint(1, 6)):
        word = chance.choice(["day", "day", "add", "add", "between", "month", "easter", "week", "week", "week", "work", "due"])
        if word == "easter":
            lines.append(f"easter {chance.randint(1590, 2405)}")
        elif word in ("add", "due"):
            lines.append(f"{word} {day(chance)} {chance.choice([0, 1, 2, 5, 10, 28, 31, -1, -40, 60, 61])}")
        elif word == "between":
            lines.append(f"between {day(chance)} {day(chance)}")
        elif word == "work":
            year, month, first = chance.randint(1990, 2030), chance.choice([1, 3, 4, 5, 12]), chance.randint(1, 20)
            lines.append(f"work {year}-{month:02}-{first:02} {year}-{month:02}-{first + chance.randrange(11):02}")
        else:
            lines.append(f"{word} {day(chance)}")
    return ("\n".join(lines) + "\n").encode("ascii")
