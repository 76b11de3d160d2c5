#!/usr/bin/env python3
"""Writes the example cards from readable descriptions: examples/*.card, and the inputs of the programs (crates/*/stdin).

It knows the card's layout from docs/RULES.md and nothing of the code. Run it from anywhere; it needs Python 3 alone.
"""

import itertools
import pathlib
import struct

NEVER = 0xFFFFFFFF
ROOT = pathlib.Path(__file__).resolve().parent.parent


def measure(classes, weight, drivers=(), step=10, barred=False, reach=99):
    """A measure whose entry is `step` for each class by which it differs from a driver, or never past `reach` classes."""
    return dict(classes=classes, weight=weight, drivers=list(drivers), step=step, barred=barred, reach=reach)


def entry(plan, m, driver_classes, own):
    gaps = [abs(own - a) for a in driver_classes]
    if any(gap > plan[m]["reach"] for gap in gaps):
        return NEVER
    return plan[m]["step"] * sum(gaps)


def card(plan):
    """The bytes of a card: header, a record for each measure, then the tables, first driver slowest, own class fastest."""
    records, entries = b"", []
    for m, it in enumerate(plan):
        drivers = it["drivers"] + [255] * (3 - len(it["drivers"]))
        records += struct.pack(
            "<BBBB3BBHHI", it["classes"], it["barred"], len(it["drivers"]), 0, *drivers, 0, it["weight"], 0, len(entries)
        )
        ranges = [range(plan[d]["classes"]) for d in it["drivers"]]
        for driver_classes in itertools.product(*ranges):
            entries += [entry(plan, m, driver_classes, own) for own in range(it["classes"])]
    header = struct.pack("<HHIII", len(plan), 0, len(entries), 16, 16 + 16 * len(plan))
    return header + records + struct.pack(f"<{len(entries)}I", *entries)


# 0 drives 1 and 2, and both drive 3.
DIAMOND = [measure(2, 5, step=0), measure(2, 3, [0]), measure(2, 4, [0]), measure(2, 1, [1, 2])]

# A jacket, measured from the body outward. The weight says how much it costs to measure again; what is barred cannot be held.
JACKET = [
    measure(3, 2),  #  0 height
    measure(4, 5, barred=True),  #  1 chest
    measure(3, 2, [1], step=15, reach=2),  #  2 waist
    measure(3, 9, [1], step=12),  #  3 shoulder width
    measure(3, 9, [0], step=8, reach=1),  #  4 back length
    measure(3, 6, [1, 4], step=10),  #  5 front length
    measure(2, 6, [1, 3], step=20, barred=True),  #  6 armhole depth
    measure(3, 9, [0, 3], step=6),  #  7 sleeve length
    measure(2, 4, [6], step=25),  #  8 sleeve width
    measure(2, 1, [3], step=9),  #  9 collar
    measure(3, 8, [2], step=14, reach=1),  # 10 hip
    measure(3, 6, [4, 6], step=11),  # 11 side seam
    measure(2, 5, [2, 5], step=5),  # 12 button stance
    measure(2, 4, [5, 10], step=7),  # 13 pocket height
    measure(2, 7, [4, 10], step=4),  # 14 vent length
    measure(2, 1, [5, 9], step=6),  # 15 lapel roll
]

# The largest number of measures, each but the first three with three drivers: what takes longest to choose for.
def dense_plan():
    plan = []
    for m in range(64):
        drivers = sorted({(m * 7 + 3) % m, (m * 5 + 1) % m, (m * 11 + 2) % m, m - 1, m // 2, m // 3}) if m else []
        plan.append(measure(2, 1 + (m * 37) % 101, drivers[-3:]))
    return plan


DENSE = dense_plan()


def main():
    places = {
        "examples/diamond.card": DIAMOND,
        "examples/jacket.card": JACKET,
        "crates/listing/stdin": DIAMOND,
        "crates/walkthrough/stdin": JACKET,
        "crates/choose_speed/stdin": DENSE,
    }
    for place, plan in places.items():
        path = ROOT / place
        path.parent.mkdir(parents=True, exist_ok=True)
        path.write_bytes(card(plan))


if __name__ == "__main__":
    main()
