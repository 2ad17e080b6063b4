"""Words that come again and go, so that the table has graves and grows."""
from random import Random

WORDS = ["the", "cat", "sat", "on", "a", "mat", "and", "it", "was", "not", "at", "all", "what", "one", "thinks", "of", "cats", "so", "far", "away",
         "from", "home", "they", "said", "no", "more"]


def make(chance: Random) -> bytes:
    some = chance.sample(WORDS, chance.choice([3, 5, 8, 12, 26]))
    words = []
    for _ in range(chance.randint(3, 40)):
        word = chance.choice(some)
        kind = chance.randrange(20)
        words.append("-" + word if kind < 3 else "!" + word if kind < 5 else "?" + word if kind < 7 else "*" if kind == 7 else word)
    if chance.randrange(6) == 0:
        words.append("=")
    return (" ".join(words) + "\n").encode("ascii")
