#!/usr/bin/env python3
"""Writes the rows of access.rows on the next name that may be seen, and on the name from which a walk asks.

Views are made of rows with few arcs. The answers are those of a search through all names of few arcs, one by one,
with the rule of RFC 3415, section 4: of the subtrees that a name has by their masks, the one with the most arcs
decides, and then the greatest. Arcs of the rows are at most 2 and subtrees have at most 3. So the least name has
arcs of at most 4, and the names that are searched have up to 5 arcs of 0 to 4.

usage: next_rows.py > ROWS"""
import itertools
import random

WORLD = sorted(itertools.chain.from_iterable(itertools.product(range(5), repeat=n) for n in range(1, 6)))
GREATEST_SIGNED = 2147483647


def has(row, name):
    subtree, mask, _ = row
    bits = [int(bit) for octet in mask for bit in f"{octet:08b}"]
    return len(subtree) <= len(name) and all(
        arc == name[k] for k, arc in enumerate(subtree) if k >= len(bits) or bits[k]
    )


def is_in_view(rows, name):
    decide = [row for row in rows if has(row, name)]
    return bool(decide) and max(decide, key=lambda row: (len(row[0]), row[0]))[2]


def is_spelled(name):
    return len(name) >= 2 and name[0] <= 2 and (name[0] == 2 or name[1] < 40)


def place_before(name):
    *front, last = name
    return tuple(front) if last == 0 else (*front, last - 1, GREATEST_SIGNED)


def walk(inside, after):
    later = [name for name in inside if name > after and is_spelled(name)]
    if not later:
        return None
    place = place_before(later[0])
    return place if is_spelled(place) and place > after else after


def view(rng):
    rows = {}
    for _ in range(rng.randint(1, 6)):
        subtree = tuple(rng.randint(0, 2) for _ in range(rng.randint(1, 3)))
        octet = sum(rng.choice((0, 128 >> k)) for k in range(3)) | 31
        mask = [] if rng.random() < 0.4 else [octet]
        rows[subtree] = (subtree, mask, rng.random() < 0.55)
    return list(rows.values())


def dotted(name):
    return "none" if name is None else ".".join(map(str, name))


def main():
    rng = random.Random(3415)
    for _ in range(40):
        rows = view(rng)
        inside = [name for name in WORLD if is_in_view(rows, name)]
        print("new\ncontext -\ngroup 3 ann g\naccess g - 3 noAuthNoPriv prefix v - -")
        for subtree, mask, include in rows:
            print("family v", dotted(subtree), bytes(mask).hex() or "-", "included" if include else "excluded")
        asked = []
        for _ in range(6):
            name = tuple(rng.randint(0, 3) for _ in range(rng.randint(1, 4)))
            asked.append(("next", name, next((other for other in inside if other >= name), None)))
        for _ in range(4):
            name = tuple(rng.randint(0, 2) for _ in range(rng.randint(2, 4)))
            asked.append(("walk", name, walk(inside, name)))
        for turn in ("", "turn"):
            print(*filter(None, [turn, "load -> loaded"]), sep="\n")
            for call, name, answer in asked:
                print(call, "3 ann noAuthNoPriv read -", dotted(name), "->", dotted(answer))


main()
