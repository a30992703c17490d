"""Times `plan_tool run` on scripts of eight kinds, each of about 1,000, 10,000 and 100,000 lines, in one run on one core.

    python3 bench/scripts.py [crates/plan_tool/out/plan_tool]

Whole processes are timed from their start to their end; each time is the least of several rounds, of fewer where the script is long. Each kind's plan is also run with a script without events; that time (the process's start and the plan's check) is subtracted before the time for each line is computed. Memory is the most that a process used; a process begins as a copy of this one, so less than this one's can't be measured. Each run must have status 0, refuse no line, and print the expected lines of writers and recoveries; otherwise the kind ends there, and this program with status 1. A kind also ends at a size whose run takes more than LONGEST seconds.
"""
import json
import os
import random
import resource
import signal
import sys
import tempfile
import time

sys.dont_write_bytecode = True
from big_plan import configuration

ROUNDS = {1_000: 15, 10_000: 7, 99_999: 3}
LONGEST = 60
LAL = 10_000_000
GROUPS = 4
SPAN = 350  # the lines that a writer writes from one recovery to the next, about
PIECE = 256  # the most records of an Install or of a CopyReport
REPLACED = os.path.join(os.path.dirname(os.path.abspath(__file__)), "..", "examples", "member_replaced.json")


class Script:
    """The lines of a script, and the expected result of its run: the LSNs, the number of durable records, the writers at the end, the recoveries."""

    def __init__(self, name):
        self.lines = [f"# {name}"]
        self.volume, self.start = 1, 0
        self.last, self.durable, self.records = 0, 0, 0
        self.transactions = 0
        self.writers, self.recoveries = [], []

    def add(self, *words):
        """Adds a line. Returns its number."""
        self.lines.append(" ".join(str(word) for word in words))
        return len(self.lines)

    def deliver(self, group, members, message):
        """Delivers the message to each member. Returns the names of their answers."""
        return [f"{self.add('deliver', group, member, message)}.1" for member in members]

    def deliver_pieces(self, group, members, line):
        """Delivers the pieces of all durable records, which that line made, to each member. Returns the names of the answers to the last ones."""
        last = []
        for member in members:
            for piece in range(1, self.pieces() + 1):
                answer = self.add("deliver", group, member, f"{line}.{piece}")
            last.append(f"{answer}.1")
        return last

    def pieces(self):
        """The number of pieces of all durable records."""
        return max(1, -(-self.records // PIECE))

    def take(self, messages):
        for message in messages:
            self.add("take", self.volume, message)

    def issue(self, groups, block=None):
        """Issues a transaction with a record in each of these groups, on this block or on one of 16 in turn. Returns the records' LSNs and the names of their messages."""
        first = max(self.last, self.start) + 1
        lsns = list(range(first, first + len(groups)))
        block = self.transactions % 16 if block is None else block
        changes = [f"{group}:{block}:{lsn % 64 * 8}:{lsn:016x}" for group, lsn in zip(groups, lsns)]
        line = self.add("issue", self.volume, *changes)
        self.last = lsns[-1]
        self.transactions += 1
        return lsns, [f"{line}.{place}" for place in range(1, len(groups) + 1)]

    def write(self, groups, members):
        """Makes a transaction durable: delivers each record to these members of its group, and lets the writer take their acknowledgements."""
        _, messages = self.issue(groups)
        for group, message in zip(groups, messages):
            self.take(self.deliver(group, members, message))
        self.durable = self.last
        self.records += len(messages)

    def ends(self):
        """The lines at the run's end."""
        return "".join(self.writers + [self.writer_end()] + self.recoveries)

    def writer_end(self):
        return f"writer {self.volume} durable {self.durable} next {max(self.last, self.start) + 1}\n"


def four_from(first):
    """Four of the six members, beginning with this one and going round."""
    return [(first + i) % 6 for i in range(4)]


def one_group(script):
    """The groups of the next transaction's one to four records, if there is one group."""
    return [0] * (1 + script.transactions % 4)


def many_groups(script):
    """The same for GROUPS groups: the records are in successive groups."""
    number = script.transactions
    return [(number + i) % GROUPS for i in range(1 + number // GROUPS % 4)]


def write_until(script, size, groups_of, members):
    """Makes durable transactions, as long as one of four records still fits into this many lines."""
    while len(script.lines) + 1 + 8 * len(members) <= size:
        script.write(groups_of(script), members)


def steady(size):
    """One writer and one group of six. Four members get all records, and all their acknowledgements are taken."""
    script = Script("steady writing")
    write_until(script, size, one_group, four_from(0))
    return script


def reverse(size):
    """Like `steady`, but the records of a hundredth of the lines' transactions are issued first, and then delivered last first."""
    script = Script("records in reverse")
    window = size // 100
    lines = window + 8 * sum(1 + k % 4 for k in range(window + 3))
    while len(script.lines) + lines <= size:
        messages = [message for _ in range(window) for message in script.issue(one_group(script))[1]]
        for message in reversed(messages):
            script.take(script.deliver(0, four_from(0), message))
        script.durable = script.last
        script.records += len(messages)
    return script


def one_block(size, arrange):
    """Full transactions on one block, all issued first. One member gets their records, in the order that `arrange` gives the list of their messages."""
    script = Script("one block")
    messages = [message for _ in range(size // 33) for message in script.issue([0] * 32, block=0)[1]]
    arrange(messages)
    for message in messages:
        script.deliver(0, [0], message)
    return script


def recover(script):
    """The writer's last transaction reaches only one member. Three others are read, so the recovery cuts before it. The log found is installed on four, and the recovery becomes the writer."""
    _, messages = script.issue(one_group(script))
    for message in messages:
        script.take(script.deliver(0, [script.volume % 6], message))
    view = script.add("assign")
    script.writers.append(script.writer_end())
    readers = four_from(script.volume + 2)[:3]
    script.volume += 1
    fence = script.add("take", script.volume, f"{view}.1")
    script.take(script.deliver(0, readers, f"{fence}.1"))
    install = script.add("cut", script.volume)
    script.last = script.durable
    script.start = max(script.last, script.start) + LAL
    script.recoveries.append(f"recovery {script.volume} cut {script.last} start {script.start}\n")
    script.take(script.deliver_pieces(0, four_from(script.volume), install))
    script.add("open", script.volume)


def recoveries(size):
    """Like `steady`, with a recovery after each SPAN lines. A report has all records that its node holds; an install comes in pieces."""
    script = Script("recoveries between")
    while len(script.lines) + SPAN + 30 + 4 * (script.pieces() + 1) <= size:
        write_until(script, len(script.lines) + SPAN, one_group, four_from(script.volume))
        recover(script)
    write_until(script, size, one_group, four_from(script.volume))
    return script


def quick_recoveries(size):
    """Like `recoveries`, with one durable record between two recoveries, so that the lineage grows as fast as the log."""
    script = Script("recoveries after each record")
    while len(script.lines) + 9 + 30 + 4 * (script.pieces() + 1) <= size:
        script.write([0], four_from(script.volume))
        recover(script)
    return script


def copy_to_new_member(script):
    """Advances the group; the new member 6 asks 0, 1 and 2 for copies. Returns the StepTo and the lines that made the copies, which it hasn't taken yet."""
    step = f"{script.add('advance', 0, 1)}.1"
    ask = script.deliver(0, [6], step)[0]
    script.deliver(0, [0, 1, 2], step)
    return step, [script.add("deliver", 0, member, ask) for member in (0, 1, 2)]


def replace(script):
    """Adds member 6 beside 5, and makes it whole. Transactions that the writer issues meanwhile reach only 5 of the two. They are sent again once the writer has the new configuration, and become durable then."""
    step, copies = copy_to_new_member(script)
    pieces = script.pieces()
    open_lsns = []
    for _ in range(4):
        lsns, messages = script.issue(one_group(script))
        open_lsns += lsns
        for message in messages:
            script.take(script.deliver(0, [5], message))
    for line in copies:
        for piece in range(1, pieces + 1):
            script.add("deliver", 0, 6, f"{line}.{piece}")
    script.add("hydrate", 0, 6)
    script.take([f"{script.add('refresh', 1)}.1"])
    script.deliver(0, [3, 4, 5], step)
    for lsn in open_lsns:
        again = script.add("resend", 1, lsn)
        script.take(script.deliver(0, [0, 1, 2, 6], f"{again}.1"))
    script.durable = script.last
    script.records += len(open_lsns)


def replaced(size):
    """One writer; halfway a member is replaced. Before that 0, 1, 2 and 5 get all records, after it 6 too: four of the old six and four of the new."""
    script = Script("a member replaced")
    write_until(script, size // 2, one_group, [0, 1, 2, 5])
    replace(script)
    write_until(script, size, one_group, [0, 1, 2, 5, 6])
    return script


def four_groups(size):
    """Like `steady` with four groups, and transactions over one to four of them."""
    script = Script("four groups")
    write_until(script, size, many_groups, four_from(1))
    return script


def six_copies(groups):
    """The text of a plan of this many groups of six full copies."""
    group = {"configurations": [configuration(None)]}
    return json.dumps({"format": 1, "lal": LAL, "groups": [group] * groups})


def member_replaced():
    """The text of the example's plan, with a large LAL."""
    with open(REPLACED) as file:
        plan = json.load(file)
    return json.dumps({**plan, "lal": LAL})


def start(words, out):
    """Starts a process that writes to a file. An alarm ends it after LONGEST seconds."""
    child = os.fork()
    if child == 0:
        os.dup2(out.fileno(), 1)
        os.dup2(out.fileno(), 2)
        signal.alarm(LONGEST)
        os.execvp(words[0], words)
    return child


def run(words, path):
    """Runs a process. Returns its seconds, its most memory in MB, its status, and its output; the status is negative if a signal ended it."""
    with open(path, "w+") as out:
        begun = time.perf_counter()
        _, status, used = os.wait4(start(words, out), 0)
        took = time.perf_counter() - begun
        out.seek(0)
        return took, used.ru_maxrss / 1024, os.waitstatus_to_exitcode(status), out.read()


def fault(script, status, said):
    """What is wrong with a run, None if nothing is."""
    if status == -signal.SIGALRM:
        return f"stopped after {LONGEST} s"
    if status != 0:
        wrong = [line for line in said.splitlines() if " ok " not in line]
        return f"status {status}: {wrong[0] if wrong else 'nothing said'}"
    events = len(script.lines) - 1
    lines = said.splitlines(keepends=True)
    if not all(" ok " in line for line in lines[:events]):
        return "not a line for each event"
    if "".join(lines[events:]) != script.ends():
        return "another end than was worked out"
    return None


def measure(tool, script, plan, rounds, folder):
    """The least seconds and the memory of a script's runs, or what is wrong with one."""
    paths = [os.path.join(folder, name) for name in ("plan.json", "script", "out")]
    for path, text in zip(paths, (plan, "\n".join(script.lines) + "\n")):
        with open(path, "w") as file:
            file.write(text)
    times = []
    for _ in range(rounds):
        took, memory, status, said = run([tool, "run", paths[0], paths[1]], paths[2])
        wrong = fault(script, status, said)
        if wrong:
            return None, None, wrong
        times.append(took)
    return min(times), memory, None


def memory_cell(memory):
    own = resource.getrusage(resource.RUSAGE_SELF).ru_maxrss / 1024
    return f"{'' if memory > own else 'at most '}{memory:,.0f} MB"


def row(name, script, bare, took, memory, wrong):
    lines = len(script.lines)
    cells = f"| {name} | {lines:,} | {lines - 1:,} | {script.transactions:,} | {len(script.recoveries):,} |"
    if wrong:
        return f"{cells} {wrong} | | |"
    return f"{cells} {took * 1000:,.1f} ms | {(took - bare) * 1e6 / lines:.2f} us | {memory_cell(memory)} |"


def measure_kind(tool, name, make, plan, folder):
    """Prints a kind's rows. Returns whether all its sizes were measured, or it ended only because of its time."""
    bare, memory, wrong = measure(tool, Script(name), plan, max(ROUNDS.values()), folder)
    print(row(name, Script(name), bare, bare, memory, wrong), flush=True)
    for size, rounds in ROUNDS.items():
        if wrong:
            break
        script = make(size)
        took, memory, wrong = measure(tool, script, plan, rounds, folder)
        print(row(name, script, bare, took, memory, wrong), flush=True)
    return not wrong or wrong.startswith("stopped")


def main():
    tool = sys.argv[1] if len(sys.argv) > 1 else "crates/plan_tool/out/plan_tool"
    os.sched_setaffinity(0, {min(os.sched_getaffinity(0))})
    print("| Kind | Lines | Events | Transactions | Recoveries | Time | Time a line | Memory |")
    print("|---|---|---|---|---|---|---|---|")
    with tempfile.TemporaryDirectory() as folder:
        went = [
            measure_kind(tool, "steady writing", steady, six_copies(1), folder),
            measure_kind(tool, "records in reverse", reverse, six_copies(1), folder),
            measure_kind(tool, "one block in random order", lambda size: one_block(size, random.Random(1).shuffle), six_copies(1), folder),
            measure_kind(tool, "one block in reverse", lambda size: one_block(size, list.reverse), six_copies(1), folder),
            measure_kind(tool, "recoveries between", recoveries, six_copies(1), folder),
            measure_kind(tool, "recoveries after each record", quick_recoveries, six_copies(1), folder),
            measure_kind(tool, "a member replaced", replaced, member_replaced(), folder),
            measure_kind(tool, "four groups", four_groups, six_copies(GROUPS), folder),
        ]
    sys.exit(0 if all(went) else 1)


if __name__ == "__main__":
    main()
