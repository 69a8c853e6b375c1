#!/usr/bin/env python3
"""A second program that settles pairs of states, to compare the crate `trials` with.

  tools/trials.py > crates/trials/stdin                           the trials, always the same
  tools/trials.py answers < crates/trials/stdin > crates/trials/stdout   this program's answers

It shares no code and no method with the crates: states are sorted into classes by the set of (label, class) pairs that they reach, and
silent moves are followed by a search over sets. The gate does not run it; it compares the two files with what `trials` prints.
"""
import random
import sys


def trials():
    choose = random.Random(128)
    for number in range(300):
        count = choose.randint(1, 9 if number % 10 else 40)
        labels = choose.choice([2, 2, 3, 32])
        wanted = choose.randint(0, choose.choice([count, 2 * count, 3 * count]))
        moves = {(choose.randrange(count), choose.randrange(labels), choose.randrange(count)) for _ in range(wanted)}
        if number % 2:
            # one move from each state, mostly by the same label: such charts close late
            moves = {(s, choose.choice([1] * 9 + [0, 2]), choose.randrange(count)) for s in range(count)}
        limit = choose.choice([0, 1, 2, 3, 128, 128, 128, 128])
        p, q = choose.randrange(count + (number % 25 == 0)), choose.randrange(count)
        yield count, p, q, limit, sorted(moves)
    # two chains that end one after the other, as long as there is room for
    chains = [(i, 1, i + 1) for i in range(62)] + [(i, 1, i + 1) for i in range(64, 127)]
    yield 128, 0, 64, 128, chains
    yield 128, 0, 64, 62, chains
    # refused lists: no states
    yield 129, 0, 0, 128, []
    yield 2, 0, 1, 128, [(0, 1, 1), (0, 1, 1)]


def is_proper(count, moves):
    inside = all(p < count and q < count and a < 32 for p, a, q in moves)
    return count <= 128 and inside and len(set(moves)) == len(moves)


def quiet(count, moves):
    silent = {p: {q for r, a, q in moves if r == p and a == 0} for p in range(count)}
    reach = {}
    for p in range(count):
        seen, front = {p}, {p}
        while front:
            front = {q for r in front for q in silent[r]} - seen
            seen |= front
        reach[p] = seen
    together = {(p, 0, q) for p in range(count) for q in reach[p]}
    for r, a, s in moves:
        if a:
            together |= {(p, a, q) for p in range(count) if r in reach[p] for q in reach[s]}
    return together


def settle(count, moves, p, q, limit):
    if p >= count or q >= count:
        return "refused 11"
    leaving = {s: [(a, t) for r, a, t in moves if r == s] for s in range(count)}
    classes = {s: 0 for s in range(count)}
    rounds = 0
    while rounds < limit:
        names = {}
        after = {s: names.setdefault(frozenset((a, classes[t]) for a, t in leaving[s]), len(names)) for s in range(count)}
        rounds += 1
        if after[p] != after[q]:
            return f"unlike {rounds} {rounds}"
        if len(set(after.values())) == len(set(classes.values())):
            return f"like {rounds}"
        classes = after
    return "refused 16"


def answers():
    for line in sys.stdin:
        count, p, q, limit, *told = map(int, line.split())
        moves = [tuple(told[i:i + 3]) for i in range(0, len(told), 3)]
        if not is_proper(count, moves):
            count, moves = 0, []
        print(f"{settle(count, moves, p, q, limit)}, weakly {settle(count, quiet(count, moves), p, q, limit)}")


if sys.argv[1:] == ["answers"]:
    answers()
else:
    for count, p, q, limit, moves in trials():
        print(*[count, p, q, limit, *[n for move in moves for n in move]])
