"""Games: some at random, some in few columns, some that ask for advice."""
from random import Random


def make(chance: Random) -> bytes:
    games = []
    for _ in range(chance.randint(1, 3)):
        some = chance.choice(["abcdefg", "abc", "efg", "cde?", "abcdefg??", "abcdefg<", "?", "gfe?"])
        game = "".join(chance.choice(some) for _ in range(chance.choice([5, 10, 20, 30, 45])))
        if chance.randrange(15) == 0:
            game += chance.choice(["z", "h", "A", " "]) + game[:3]
        games.append(game)
    return ("\n".join(games) + "\n").encode("ascii")
