"""Jobs for the scheduler: some that only calculate, some that wait often."""
from random import Random


def make(chance: Random) -> bytes:
    jobs = []
    arrival = 0
    for place in range(chance.choice([1, 2, 3, 3, 4, 5, 6, 8, 16, 17])):
        arrival = max(0, arrival + chance.choice([0, 0, 1, 2, 5, 9, -3]))
        burst = chance.choice([0, 1, 2, 3, 4, 5, 7, 8, 12, 16, 20, 30])
        device = chance.choice([0, 0, 0, 1, 2, 3, 4, 5, 8])
        jobs.append(f"{chr(ord('A') + place)} {arrival} {burst} {device}")
    return ("; ".join(jobs) + "\n").encode("ascii")
