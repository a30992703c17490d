"""Times `plan_tool fleet` with one driver and with four on scripts of about 1,000, 10,000 and 100,000 lines, beside `plan_tool run` of the same scripts and beside another program with the same commands, if one is named.

    python3 bench/fleets.py [crates/plan_tool/out/plan_tool [OTHER]]

Whole processes are timed from their start to their end. All commands run in turn over a script, ROUNDS times, and the least time of each counts. Each is also run with a script without events; that time (the start of the process and its threads, and the plan's check) is subtracted before the time for each line is computed. Each run of a fleet must have status 0, make all lines and refuse none, print the expected lines of the writers, and print `journal yes` as its last line; otherwise this program ends with status 1. The scripts give this result in whatever order the drivers take their lines.
"""
import os
import sys
import tempfile

sys.dont_write_bytecode = True
from scripts import GROUPS, Script, fault, four_groups, run, six_copies, steady

ROUNDS = {1_000: 15, 10_000: 7, 99_999: 3}
WORKERS = (1, 4)


def fleet_fault(script, status, said):
    """What is wrong with a fleet's run, None if nothing is."""
    due = f"steps {len(script.lines) - 1}\nrefused 0\n{script.ends()}journal yes\n"
    if (status, said) != (0, due):
        return f"status {status}, and it said {said[:200]!r}"
    return None


def commands(tool, other):
    """For each column its name, its words before and after the two files, and the function that finds a fault."""
    columns = [("run", [tool, "run"], [], fault)]
    for name, program in (("fleet", tool), ("other", other)):
        if program:
            columns += [(f"{name} -w {n}", [program, "fleet"], ["-w", str(n)], fleet_fault) for n in WORKERS]
    return columns


def measure(columns, script, plan, rounds, folder):
    """The least seconds of each column on a script."""
    paths = [os.path.join(folder, name) for name in ("plan.json", "script", "out")]
    for path, text in zip(paths, (plan, "\n".join(script.lines) + "\n")):
        with open(path, "w") as file:
            file.write(text)
    least = {}
    for _ in range(rounds):
        for name, words, options, judge in columns:
            took, _, status, said = run([*words, *paths[:2], *options], paths[2])
            wrong = judge(script, status, said)
            if wrong:
                sys.exit(f"{script.lines[0]}, {len(script.lines):,} lines, {name}: {wrong}")
            least[name] = min(took, least.get(name, took))
    return least


def ratios(each):
    """The ratio of each fleet's column to that of `run`, and to the other program's with as many drivers, if that took any time."""
    pairs = [(f"fleet -w {n}", "run") for n in WORKERS]
    pairs += [(f"fleet -w {n}", f"other -w {n}") for n in WORKERS if f"other -w {n}" in each]
    return ", ".join(f"{one} / {two} {each[one] / each[two]:.2f}" for one, two in pairs if each[two] > 0)


def measure_kind(columns, name, make, plan, folder):
    """Prints the times of each size of a kind."""
    bare = measure(columns, Script(name), plan, max(ROUNDS.values()), folder)
    print(f"{name}, no event: " + ", ".join(f"{column} {took * 1e3:.2f} ms" for column, took in bare.items()), flush=True)
    for size, rounds in ROUNDS.items():
        script = make(size)
        took = measure(columns, script, plan, rounds, folder)
        each = {column: max(took[column] - bare[column], 0) / len(script.lines) for column in took}
        times = ", ".join(f"{column} {took[column] * 1e3:.1f} ms ({each[column] * 1e6:.2f} us a line)" for column in took)
        print(f"{name}, {len(script.lines):,} lines: {times}", flush=True)
        print(f"  a line: {ratios(each)}", flush=True)


def main():
    tool = sys.argv[1] if len(sys.argv) > 1 else "crates/plan_tool/out/plan_tool"
    columns = commands(tool, sys.argv[2] if len(sys.argv) > 2 else None)
    with tempfile.TemporaryDirectory() as folder:
        measure_kind(columns, "steady writing", steady, six_copies(1), folder)
        measure_kind(columns, "four groups", four_groups, six_copies(GROUPS), folder)


if __name__ == "__main__":
    main()
