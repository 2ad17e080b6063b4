"""Commands for the allocator: handles come and go, so that holes arise."""
from random import Random


def make(chance: Random) -> bytes:
    commands = []
    for _ in range(chance.randint(4, 30)):
        who, length = chance.randrange(chance.choice([4, 8, 10])), chance.choice([1, 2, 3, 5, 8, 10, 14, 20, 30, 62])
        kind = chance.choice("aaaaaffrrcmxx" if chance.randrange(20) else "qz9")
        if kind in "ar":
            commands.append(f"{kind}{who}{length if chance.randrange(30) else ''}")
        elif kind == "c":
            commands.append(f"c{who}{chance.randrange(10)}")
        else:
            commands.append(kind + (str(who) if kind == "f" else ""))
    return (";".join(commands) + "\n").encode("ascii")
