"""The table of bin/bench, from what it measured, and whether the bounds hold.

usage: table.py FOLDER        FOLDER has `order` and the dumps counted.1, counted.2, .. in that order, and `times` where they were taken
"""
import pathlib
import re
import sys

# Ours over the Rust's, by instructions: what the project must keep.
BOUNDS = {"ascii": 1.0, "wide": 1.1}
# Says what a part of another call costs, or is outside the domain of equality: these have no bound.
UNBOUND_CALLS = {"look alone"}
UNBOUND_INPUTS = {"thresholds"}
# The listing to the first close over that by rune's reading.
FIRST_CLOSE = 1.0
# Cost a byte at 64 KiB over that at 1 KiB: above this it is no longer flat.
FLAT = 1.1


def rows(path):
    return [line.split("\t") for line in path.read_text().splitlines()]


def instructions(dump):
    return int(re.search(r"^totals: (\d+)", dump.read_text(), re.M).group(1))


def measured(folder):
    """(call, input) -> size -> what was read, and per side its count and time."""
    found = {}
    for number, (call, name, kind, size, read, side) in enumerate(rows(folder / "order"), 1):
        case = found.setdefault((call, name), {}).setdefault(int(size), {"kind": kind, "read": int(read)})
        case[side] = instructions(folder / f"counted.{number}")
    times = folder / "times"
    for call, name, _, size, _, side, time in rows(times) if times.exists() else []:
        found[call, name][int(size)][side + " time"] = int(time)
    return found


def timed(case):
    """The last three columns of a row."""
    if "ours time" not in case:
        return "- | - | -"
    return f"{case['ours time']} | {case['rust time']} | {case['ours time'] / case['rust time']:.2f}"


def readings(found):
    """Prints both readings side by side, and answers the bounds that are broken."""
    broken = []
    print("| input | size | list | list, first close | ratio |")
    print("|---|---|---|---|---|")
    for (call, name), sizes in found.items():
        if call != "list, first close":
            continue
        for size, case in sizes.items():
            rune = found["list", name][size]["ours"]
            ratio = case["ours"] / rune
            if ratio > FIRST_CLOSE:
                broken.append(f"{call}, {name}, {size}: {ratio:.4f} of the instructions of rune's reading, and at most {FIRST_CLOSE} are allowed")
            print(f"| {name} | {size} | {rune} | {case['ours']} | {ratio:.4f} |")
    return broken


def main(folder):
    found = measured(folder)
    broken = []

    print("| call | input | size | bytes read | ours | Rust | ratio | ours a byte | Rust a byte | time: ours, ns | Rust, ns | ratio |")
    print("|---|---|---|---|---|---|---|---|---|---|---|---|")
    for (call, name), sizes in found.items():
        for size, case in sizes.items():
            ratio = case["ours"] / case["rust"]
            bound = BOUNDS[case["kind"]]
            if ratio > bound and call not in UNBOUND_CALLS and name not in UNBOUND_INPUTS:
                broken.append(f"{call}, {name}, {size}: {ratio:.3f} of the Rust's instructions, and at most {bound} are allowed")
            print(
                f"| {call} | {name} | {size} | {case['read']} | {case['ours']} | {case['rust']} | {ratio:.2f} "
                f"| {case['ours'] / case['read']:.2f} | {case['rust'] / case['read']:.2f} "
                f"| {timed(case)} |"
            )

    print()
    print("| call | input | ours a byte at 1 KiB | at 64 KiB | growth |")
    print("|---|---|---|---|---|")
    for (call, name), sizes in found.items():
        small, large = (sizes[size]["ours"] / sizes[size]["read"] for size in sorted(sizes))
        if large / small > FLAT:
            broken.append(f"{call}, {name}: {large / small:.2f} times as much a byte at 64 KiB as at 1 KiB, and at most {FLAT} is flat")
        print(f"| {call} | {name} | {small:.2f} | {large:.2f} | {large / small:.2f} |")

    print()
    broken += readings(found)

    print()
    for line in broken:
        print(f"broken: {line}")
    print(f"bench: {len(broken)} bounds broken")
    return 1 if broken else 0


if __name__ == "__main__":
    if len(sys.argv) != 2:
        sys.exit(__doc__)
    sys.exit(main(pathlib.Path(sys.argv[1])))
