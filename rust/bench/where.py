"""Where the instructions of our side went, by function of the archive: `own` without what it calls, as rust/bench/count has it.

usage: where.py FOLDER        FOLDER has `order` and the dumps counted.1, counted.2, .. in that order
"""
import pathlib
import re
import sys


def own_costs(dump):
    """Function -> (own instructions, times called)."""
    names, costs, calls = {}, {}, {}

    def name(text):
        number, given = re.match(r"\((\d+)\)(?: (.*))?", text).groups()
        if given:
            names[number] = given
        return names[number]

    here, called, is_call = None, None, False
    for line in dump.read_text().splitlines():
        if line.startswith("fn="):
            here = name(line[3:])
        elif line.startswith("cfn="):
            called = name(line[4:])
        elif line.startswith("calls="):
            calls[called] = calls.get(called, 0) + int(line[6:].split()[0])
            is_call = True
        elif re.match(r"[+*-]?\d* ?\d+$", line):
            if not is_call:
                costs[here] = costs.get(here, 0) + int(line.split()[-1])
            is_call = False
    return {function: (cost, calls.get(function, 0)) for function, cost in costs.items()}


def main(folder):
    for number, line in enumerate((folder / "order").read_text().splitlines(), 1):
        call, name, _, size, read, side = line.split("\t")
        if side != "ours" or size != "65536":
            continue
        costs = own_costs(folder / f"counted.{number}")
        total = sum(cost for cost, _ in costs.values())
        print(f"{call}, {name}, {read} bytes: {total}")
        for function, (cost, times) in sorted(costs.items(), key=lambda entry: -entry[1][0]):
            if cost * 200 >= total:
                print(f"    {cost / total:6.1%} {cost / int(read):7.2f} a byte, {times:6} calls  {function}")


if __name__ == "__main__":
    if len(sys.argv) != 2:
        sys.exit(__doc__)
    main(pathlib.Path(sys.argv[1]))
