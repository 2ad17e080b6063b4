"""Jobs with their fields, some of them bad, and what is asked of them; times stand often at the edges of days, months and years."""
from random import Random

NAMES = ["backup", "mail", "rotate", "ping", "report", "clean", "a-very-long-name", "sync"]
MONTHS = ["jan", "feb", "mar", "jun", "dec"]
DAYS = ["sun", "mon", "wed", "fri", "sat"]


def field(chance: Random, least: int, most: int, few: bool) -> str:
    kind = chance.randrange(10)
    if kind < (6 if few else 3):
        return "*"
    if kind == 6:
        return f"*/{chance.choice([1, 2, 5, 7, 15, 20])}"
    first = chance.randint(least, most)
    if kind == 7:
        return f"{first}-{min(most, first + chance.choice([1, 2, 5, 12]))}" + (f"/{chance.randint(1, 4)}" if chance.randrange(3) == 0 else "")
    if kind == 8:
        return ",".join(str(chance.randint(least, most)) for _ in range(chance.randint(2, 4)))
    return str(first) + ("/10" if chance.randrange(6) == 0 else "")


def fields(chance: Random) -> str:
    kind = chance.randrange(14)
    parts = [field(chance, 0, 59, False), field(chance, 0, 23, True), field(chance, 1, 31, True), field(chance, 1, 12, True), field(chance, 0, 7, True)]
    if kind == 1:
        parts[3] = chance.choice(MONTHS) + chance.choice(["", "-dec", ",3"])
    if kind == 2:
        parts[4] = chance.choice(DAYS) + chance.choice(["", "-6", ",0", "-sat", "-sun"])
    if kind == 3:
        parts[2], parts[3] = chance.choice([("29", "2"), ("31", "*"), ("30", "2"), ("31", "4,6"), ("1", "1")])
    if chance.randrange(20) == 0:
        parts[chance.randrange(5)] = chance.choice(["60", "5-3", "x", "*/0", "1,,2", "7", "0", "3-", "", "24"])
    return " ".join(parts)


def moment(chance: Random) -> str:
    date = chance.choice(["2024-02-28", "2024-12-31", "2023-02-28", "2025-04-30", "2026-05-10", "2100-02-28", "2024-01-30", "2024-06-01", "2023-02-29"])
    return f"{date} {chance.choice(['23:50', '00:00', '12:30', '23:59', '07:59', '24:00' if chance.randrange(5) == 0 else '10:00'])}"


def make(chance: Random) -> bytes:
    names = chance.sample(NAMES, chance.choice([1, 2, 3, 3, 7, 8]))
    lines = [f"at {moment(chance)}"] if chance.randrange(4) else []
    lines += [f"job {name} {fields(chance)}" for name in names if chance.randrange(8)]
    for _ in range(chance.randint(2, 8)):
        name = chance.choice(names if chance.randrange(15) else NAMES)
        kind = chance.choice(["next", "next", "next", "pass", "pass", "drop", "list", "off", "on", "job", "at", "?" if chance.randrange(3) == 0 else "next"])
        if kind == "next":
            lines.append(f"next {name} {chance.choice([1, 1, 2, 3, 5])}")
        elif kind == "pass":
            lines.append(f"pass {chance.choice([1, 5, 10, 20, 31])}")
        elif kind == "job":
            lines.append(f"job {name} {fields(chance)}")
        elif kind == "at":
            lines.append(f"at {moment(chance)}")
        else:
            lines.append("list" if kind == "list" else f"{kind} {name}")
    return ("\n".join(lines) + "\n").encode("ascii")
