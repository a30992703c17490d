"""Times `plan_tool check` on the largest plan, a quarter and a sixteenth of it, beside Python's parse of the same text, in one run on one core.

    python3 bench/check_plans.py [crates/plan_tool/out/plan_tool]

Each time is the least of ROUNDS. Whole processes are timed from their start to their end; `json.loads` is also timed within this process.
"""
import json
import os
import sys
import tempfile
import time

sys.dont_write_bytecode = True
from big_plan import plan_text

ROUNDS = 15
PARSE = "import json, sys; json.load(open(sys.argv[1]))"


def run(words):
    """Runs a process. Returns its milliseconds, its most memory in MB, and its output."""
    reads, writes = os.pipe()
    start = time.perf_counter()
    child = os.fork()
    if child == 0:
        os.dup2(writes, 1)
        os.execvp(words[0], words)
    os.close(writes)
    _, status, used = os.wait4(child, 0)
    took = (time.perf_counter() - start) * 1000
    with os.fdopen(reads) as out:
        said = out.read()
    if status != 0:
        sys.exit(f"{words[0]} ended with {status}: {said}")
    return took, used.ru_maxrss / 1024, said


def loads(text):
    start = time.perf_counter()
    json.loads(text)
    return (time.perf_counter() - start) * 1000


def measure(tool, groups, path):
    text = plan_text(groups)
    with open(path, "w") as file:
        file.write(text)
    checks, parses, within = [], [], []
    for _ in range(ROUNDS):
        checks.append(run([tool, "check", path]))
        parses.append(run([sys.executable, "-c", PARSE, path]))
        within.append(loads(text))
    want = f"yes: {groups} groups, {groups * 64} configurations, {groups * 127} certificates\n"
    if any(said != want for _, _, said in checks):
        sys.exit(f"not {want}")
    return len(text), min(checks)[0], checks[0][1], min(parses)[0], parses[0][1], min(within)


def main():
    tool = sys.argv[1] if len(sys.argv) > 1 else "crates/plan_tool/out/plan_tool"
    os.sched_setaffinity(0, {min(os.sched_getaffinity(0))})
    print("| Groups | Text | Certificates | `plan_tool check` | Python, whole process | `json.loads` alone | check / process | check / `loads` |")
    print("|---|---|---|---|---|---|---|---|")
    with tempfile.TemporaryDirectory() as folder:
        for groups in (1, 4, 16):
            size, check, memory, parse, other, within = measure(tool, groups, os.path.join(folder, "plan.json"))
            print(
                f"| {groups} | {size / 1000:.0f} kB | {groups * 127:,} | {check:.1f} ms | {parse:.1f} ms | {within:.1f} ms"
                f" | {check / parse:.2f} | {check / within:.1f} |"
            )
    print(f"\nThe largest takes {memory:.0f} MB here and {other:.0f} MB in Python.")


main()
