"""What memory as bytes begins with, as a list that leaves out long runs of zeros."""
from typing import List, Sequence

MOST_LISTED = 1000   # words that stand as numbers, of two tokens each; more are one string
FEW = 8   # zeros that stand within a run: two numbers are what a new one takes


def runs(words: Sequence[int]) -> List[int]:
    """Words, the last of which is not 0, as runs: of each how many zeros stand before it, how many words it has, and these."""
    found: List[int] = []
    at = 0
    while at < len(words):
        start = next(place for place in range(at, len(words)) if words[place])
        end = start
        for place in range(start, len(words)):
            if words[place]:
                end = place + 1
            elif place - end >= FEW:
                break
        found += [start - at, end - start, *words[start:end]]
        at = end
    return found
