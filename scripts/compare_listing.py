#!/usr/bin/env python3
"""Compares the listing program with an independent reading of docs/RULES.md on many random cards, whole and damaged.

Build first (`rt run` in crates/listing), then: scripts/compare_listing.py [CARDS] [SEED]. It prints counts, and stops at the first difference.
"""

import collections
import pathlib
import random
import struct
import subprocess
import sys

import make_cards

PROGRAM = pathlib.Path(__file__).resolve().parent.parent / "crates/listing/out/listing"
NEVER = 0xFFFFFFFF
LONGEST = 50192


def fault(card):
    """The first fault of a card, as its number and place, or None."""
    length = len(card)
    if length < 16:
        return 1, length
    n, zero, entries, header, records_end = struct.unpack("<HHIII", card[:16])
    for wrong, place in [(n > 64, 0), (zero != 0, 2), (entries > 12288, 4), (header != 16, 8), (records_end != 16 + 16 * n, 12)]:
        if wrong:
            return 2, place
    if length != 16 + 16 * n + 4 * entries:
        return 3, length
    total = 0
    for m in range(n):
        r = 16 + 16 * m
        record = card[r : r + 16]
        if not 1 <= record[0] <= 8:
            return 4, r
        for at, most in [(1, 1), (2, 3), (3, 0)]:
            if record[at] > most:
                return 4, r + at
        for k in range(3):
            driver = record[4 + k]
            if k < record[2]:
                if driver >= m or driver in record[4 : 4 + k]:
                    return 5, r + 4 + k
            elif driver != 255:
                return 4, r + 4 + k
        for at in (7, 10, 11):
            if record[at]:
                return 4, r + at
        if struct.unpack("<I", record[12:])[0] != total:
            return 6, r + 12
        size = record[0]
        for driver in record[4 : 4 + record[2]]:
            size *= card[16 + 16 * driver]
        total += size
    if total != entries:
        return 6, 4
    for j in range(entries):
        place = 16 + 16 * n + 4 * j
        value = struct.unpack("<I", card[place : place + 4])[0]
        if value > 1_000_000 and value != NEVER:
            return 7, place
    return None


def prune(edges, nodes):
    nodes = set(nodes)
    while low := [x for x in nodes if len(edges[x] & nodes) <= 1]:
        nodes.discard(low[0])
    return nodes


def choose(plan):
    """The held set with its weight and settings, or 14."""
    edges = collections.defaultdict(set)
    for t, it in enumerate(plan):
        for a in it["drivers"] + [t]:
            edges["value", a].add(("table", t))
            edges["table", t].add(("value", a))
    everything = set(edges)
    present = prune(edges, everything)
    holds = {("value", m): 256 * it["weight"] for m, it in enumerate(plan) if not it["barred"]}
    picks = []
    while present:
        free = [x for x in present if x in holds]
        if not free:
            return 14
        share, m = min((holds[x] // len(edges[x] & present), x[1]) for x in free)
        left = prune(edges, present - {("value", m)})
        for x in left & set(holds):
            holds[x] -= share * (len(edges[x] & present) - len(edges[x] & left))
            assert holds[x] >= 0
        picks.append(m)
        present = left
    held = set(picks)
    for m in reversed(picks):
        if not prune(edges, everything - {("value", k) for k in held - {m}}):
            held.discard(m)
    settings = 1
    for m in held:
        settings *= plan[m]["classes"]
    return sorted(held), sum(plan[m]["weight"] for m in held), min(settings, 65537)


def read(card):
    n = card[0]
    plan = []
    for m in range(n):
        r = card[16 + 16 * m : 32 + 16 * m]
        plan.append(dict(classes=r[0], barred=bool(r[1]), drivers=list(r[4 : 4 + r[2]]), weight=struct.unpack("<H", r[8:10])[0]))
    return plan


def expected(card):
    if wrong := fault(card):
        return "REFUSED %d AT %d\n" % wrong
    choice = choose(read(card))
    if choice == 14:
        return "REFUSED 14\n"
    held, weight, settings = choice
    return f"HELD {len(held)} WEIGHT {weight} SETTINGS {settings}\n" + "".join(f"MEASURE {m}\n" for m in held)


def random_plan(rng):
    n = rng.choice([0, 1, 2, 3, 4, 5, 6, 8, 10, 12, 16, 24, 64])
    hub = rng.randrange(max(n, 1))
    plan = []
    for m in range(n):
        few = 2 if n > 20 else rng.choice([2, 3, 4])
        drivers = rng.sample(range(m), min(m, rng.choice([0, 1, 1, 2, 2, 3])))
        if m > hub and hub not in drivers and len(drivers) < 3 and rng.random() < 0.4:
            drivers.append(hub)
        weight = rng.choice([0, 1, 1, 2, 3, 5, 100, 65535, rng.randrange(65536)])
        plan.append(make_cards.measure(rng.randint(1, few), weight, drivers, rng.choice([0, 1, 7]), rng.random() < 0.2, rng.choice([0, 1, 99])))
    return plan


def damage(rng, card):
    card = bytearray(card)
    for _ in range(rng.choice([1, 1, 1, 2, 3])):
        kind = rng.random()
        if kind < 0.1 and card:
            del card[rng.randrange(len(card)) :]
        elif kind < 0.2:
            card += bytes(rng.randrange(256) for _ in range(rng.randint(1, 5)))
        elif card:
            span = len(card) if rng.random() < 0.3 else min(len(card), 16 + 16 * (card[0] or 1))
            card[rng.randrange(span)] = rng.choice([0, 1, 2, 3, 4, 8, 9, 15, 16, 255, rng.randrange(256)])
    return bytes(card)


def longest_card():
    """64 measures and 12,288 entries: no card is longer."""
    classes = [8, 8, 8, 8, 8, 7, 6] + [2] * 47 + [1] * 10
    drivers = [[], [], [], [0, 1, 2], [0, 1, 2], [0, 1, 2], [0, 1]] + [[]] * 57
    card = make_cards.card([make_cards.measure(c, 1, d) for c, d in zip(classes, drivers)])
    assert len(card) == LONGEST
    return card


def compare(card, name):
    """What is told of a card; the program reads one byte past the longest one, and no more."""
    told = subprocess.run([PROGRAM], input=card, capture_output=True, check=True).stdout.decode()
    want = expected(card[: LONGEST + 1])
    if told != want:
        pathlib.Path("different.card").write_bytes(card)
        sys.exit(f"{name}, in different.card: told {told!r}, expected {want!r}")
    return want


def main():
    cards = int(sys.argv[1]) if len(sys.argv) > 1 else 5000
    rng = random.Random(int(sys.argv[2]) if len(sys.argv) > 2 else 1)
    seen = collections.Counter()
    for more in (0, 1, 2, LONGEST):
        compare(longest_card() + bytes(more), f"the longest card and {more} bytes")
    for i in range(cards):
        card = make_cards.card(random_plan(rng))
        if len(card) > LONGEST:
            continue
        if rng.random() < 0.5:
            card = damage(rng, card)
        words = compare(card, f"card {i}").split()
        seen[" ".join(words[:2]) if words[0] == "REFUSED" else "HELD"] += 1
    print(f"{sum(seen.values())} cards, every listing as expected")
    for kind, count in sorted(seen.items()):
        print(f"  {kind}: {count}")


if __name__ == "__main__":
    main()
