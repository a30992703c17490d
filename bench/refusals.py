#!/usr/bin/env python3
"""Lets each allocation fail in turn, and checks that no answer changes.

    python3 bench/refusals.py [crates/plan_tool/out/plan_tool] [--calls]

A small library that is loaded before the C library (`LD_PRELOAD`) lets the N-th call for memory fail. It is built by `cc`. N goes from 1
on until no call fails any more.

First the program itself: `check` and `search` of plans of all kinds, certified, without certificates, with a wrong one, and half a
text; `replace` of a member; `run` and `fleet` of two scripts, one that writes three bytes and one in which a member joins. Each run has to end as with enough
memory, or with status 2, nothing on standard output, and `input: 9 NoMemory` on standard error.

With `--calls`, then the calls of the library, by two small programs that are built in other folders, each in some two minutes, without a
proof and with the run-time checks of `rt try`. Each runs its scenarios twice. `core_scenarios.py` prints what `TapedPlan`'s calls, `read_plan`, `lent_claims`,
`claims`, `check`, `check_plan`, `copy_in`, `search_one`, `search_all` by one worker and by three, and `write_plan` answer, over plans of every format, with
full members and members that keep only the log, with weights, with certificates of each rule, and over texts with faults. `fleet_scenarios.py`
prints the results of a fleet's calls with one pass or three over the same two scripts: each step's numbers, the closed journal and the end of
the world's run of it. It also compares them with a run in which a member restarts between lines and between the pieces of a copy. An
allocation fails during the first of the two times. A call that answers `NoMemory` is made again, on the same values, and the scenario goes on
with that answer. So if such a call had added anything, changed what a later one sees, or answered another fault, the outputs would differ.
"""
import concurrent.futures
import json
import os
import pathlib
import subprocess
import sys
import tempfile

sys.dont_write_bytecode = True
from building import TOP, tried
from core_scenarios import CORES
from fleet_scenarios import FLEETS, SITE

REFUSING = r"""
#include <errno.h>
#include <fcntl.h>
#include <stdlib.h>
#include <unistd.h>

extern void *__libc_malloc(size_t);
extern void *__libc_calloc(size_t, size_t);
extern void *__libc_realloc(void *, size_t);
extern void *__libc_memalign(size_t, size_t);

static long wanted = -1, asked;

/* Whether this call is the one that is refused; then the file that REFUSALS names is made. */
static int refused(void) {
  if (wanted < 0) {
    const char *number = getenv("REFUSED");
    wanted = number ? strtol(number, NULL, 10) : 0;
  }
  if (__atomic_add_fetch(&asked, 1, __ATOMIC_SEQ_CST) != wanted) return 0;
  const char *path = getenv("REFUSALS");
  int file = path ? open(path, O_CREAT | O_WRONLY, 0600) : -1;
  if (file >= 0) close(file);
  errno = ENOMEM;
  return 1;
}

void *malloc(size_t size) { return refused() ? NULL : __libc_malloc(size); }
void *calloc(size_t count, size_t size) { return refused() ? NULL : __libc_calloc(count, size); }
void *realloc(void *block, size_t size) { return refused() ? NULL : __libc_realloc(block, size); }
void *aligned_alloc(size_t align, size_t size) { return refused() ? NULL : __libc_memalign(align, size); }
int posix_memalign(void **to, size_t align, size_t size) {
  void *block = refused() ? NULL : __libc_memalign(align, size);
  if (!block) return ENOMEM;
  *to = block;
  return 0;
}
"""

MAIN = r"""//! Runs a scenario twice; during the first time a growth may be refused.
#![tactic(auto)]

mod scenarios;
mod texts;

use std::alloc::AllocError;
use std::process::ExitCode;
use std::sync::Wait;
use std::thread::Threads;
use std::{env, io};
use scenarios::output_of;

/// A scenario's output, unless memory ran out around its calls.
pub type ScenarioOutput = Result<String, AllocError>;

/// Runs the scenario with this name twice. Prints both outputs if they differ, else the second if `aloud`.
fn compare<H: Threads + Wait + Sync>(
    rt: &HostRuntime,
    threads: &H,
    name: &str,
    aloud: bool,
) -> io::Result<()> {
    // If memory ran out around the calls, the scenario runs once more.
    let first = match output_of(threads, rt.alloc(), name) {
        Ok(first) => Ok(first),
        Err(_) => output_of(threads, rt.alloc(), name),
    };
    match (first, output_of(threads, rt.alloc(), name)) {
        (Ok(first), Ok(second)) => {
            if aloud || first != second {
                println!(rt; "{second}")?;
            }
            if first != second {
                println!(rt; "{first}")?;
            }
            Ok(())
        }
        (_, _) => println!(rt; "a scenario has no output"),
    }
}

fn run<H: Threads + Wait + Sync>(rt: &HostRuntime, threads: &H) -> io::Result<()> {
    let words: Vec<String> = env::args(rt)?.collect(rt.alloc())?;
    match words.as_slice() {
        [_, name] => compare(rt, threads, name.as_str(), false),
        [_, name, _] => compare(rt, threads, name.as_str(), true),
        _ => Ok(()),
    }
}

fn main(rt: HostRuntime) -> ExitCode {
    let _ = run(&rt, &rt);
    ExitCode::from(0)
}
"""

CORE_CRATES = ["volume_model", "quorum_expr", "refutation", "quorum_checker", "plan", "cert_search", "json"]

FLEET_CRATES = ["volume_model", "plan", "redo_record", "wire", "epochs", "writer_core", "recovery", "world", "board", "journal", "node_fleet"]

# The scenarios with one pass and with three, and those of the cores.
FLEET_SCENARIOS = ["one pass", "three passes"]
CORE_SCENARIOS = ["reading", "claims", "checking", "copying", "searching", "searching by three", "writing"]

PLANS = ["six_copies.json", "member_replaced.json", "every_rule.json", "large_and_small.json", "uncertified.json", "growing.json", "write_three.json", "two_zones.json"]

# The output of the fleet's program for restarts between a script's lines, where each step has the result of a run of the same events, and for
# three passes that take the four acknowledgements of a commit on three threads.
COMPARED = {
    "restarts": "15 scripts with a restart, 0 answered otherwise than by a run\n",
    "threads": "a new fleet reads 0; 4 steps on threads, durable 3 in all and 3 of step 17, 9 read by three\n",
}

# Plans and scripts, and the numbers of drivers with which a fleet runs each. The result must not depend on the order in which drivers take lines.
SCRIPTS = [("six_copies.json", "three_bytes_written.script", ("1", "3")), ("member_replaced.json", "early_acknowledgement.script", ("1",))]

HALF = 200  # characters of half a text


def example(name):
    """A file of the examples."""
    return (TOP / "examples" / name).read_text()


def example_text(name):
    """The text of a file of the examples, on one line."""
    return " ".join(example(name).split())


def with_tail(plan):
    """A plan with other members and expressions: two members keep whole pages, and three only the log."""
    zones = {"k": 1, "of": [{"k": 2, "of": "full"}, {"k": 2, "of": [{"k": 1, "of": "full"}, {"k": 2, "of": "tail"}]}]}
    this = {"members": [0, 1, 2, 3, 4], "full": [0, 1], "read": {"k": 4, "of": "all", "weights": [2, 2, 1, 1, 1]}, "write": zones}
    configuration = {"parent": None, **this, "meets": None, "step": None}
    return {**plan, "groups": [{"configurations": [configuration, {**configuration, "parent": 0}]}] * 2}


def changed(name, change):
    """The text of an example whose plan is changed."""
    plan = json.loads(example(name))
    return json.dumps(change(plan) or plan, separators=(",", ":"))


def of_configuration(number, key, value):
    """A change of the value at a key of a configuration of the first group."""

    def change(plan):
        plan["groups"][0]["configurations"][number][key] = value

    return change


def plan_texts():
    """Plans of each kind, and texts that aren't plans, by the names of their constants."""
    shown = {f"PLAN_{i}": example_text(name) for i, name in enumerate(PLANS)}
    shown["SORTED"] = json.dumps(json.loads(example("member_replaced.json")), sort_keys=True)
    shown["REVERSED"] = changed("six_copies.json", lambda plan: dict(reversed(plan.items())))
    shown["TAIL"] = json.dumps(with_tail({"format": 3, "lal": 10, "born": 1}))
    shown["PARENT"] = changed("member_replaced.json", of_configuration(1, "parent", 1))
    shown["REUSED"] = changed("member_replaced.json", of_configuration(3, "parent", 2))
    shown["STRANGER"] = changed("member_replaced.json", of_configuration(1, "read", {"k": 1, "of": [0, 63]}))
    shown["HALF"] = example_text("six_copies.json")[:HALF]
    return shown


def constants(shown, listed):
    """A module of these texts."""
    lines = ["//! Plans.\n"]
    for name, text in shown.items():
        spelled = text.replace('"', '\\"')
        lines.append(f'/// A plan, or a text that is none.\npub const {name}: &str = "{spelled}";\n')
    if listed:
        lines.append(f"/// All of them.\npub const PLANS: [&str; {len(shown)}] = [{', '.join(shown)}];")
    return "\n".join(lines) + "\n"


class Refusing:
    """Runs programs in which one allocation fails."""

    def __init__(self, folder):
        self.library, self.flag, self.refused = folder / "refusing.so", folder / "refused", 0
        source = folder / "refusing.c"
        source.write_text(REFUSING)
        subprocess.run(["cc", "-O2", "-shared", "-fPIC", "-o", self.library, source], check=True)

    def run(self, words, number):
        """A run in which allocation `number` fails: its status, its outputs, and whether it reached that allocation."""
        self.flag.unlink(missing_ok=True)
        names = {"LD_PRELOAD": str(self.library), "REFUSED": str(number), "REFUSALS": str(self.flag)}
        ran = subprocess.run(words, env={**os.environ, **names}, capture_output=True, text=True, timeout=60)
        return ran.returncode, ran.stdout, ran.stderr, self.flag.exists()

    def growths(self, words):
        """The number of allocations of a run."""
        least, most = 0, 1 << 20
        while least < most:
            middle = (least + most) // 2
            if self.run(words, middle + 1)[3]:
                least = middle + 1
            else:
                most = middle
        return least

    def sweep(self, name, words, count, is_right):
        """Lets allocations 1 to `count` fail, each in another run, in parallel on all processors. Returns whether nothing was wrong."""
        with concurrent.futures.ThreadPoolExecutor(os.cpu_count()) as pool:
            answers = pool.map(lambda number: self.run(words, number)[:3], range(1, count + 1))
            wrong = [(number, said) for number, said in enumerate(answers, 1) if not is_right(*said)]
        for number, said in wrong[:3]:
            print(f"  growth {number}: {said}")
        print(f"{name}: {count} growths refused, {len(wrong)} wrong answers", flush=True)
        self.refused += count
        return not wrong


def program_jobs(folder):
    """The program's jobs: a name, and the words of the command line."""
    half = folder / "half.json"
    half.write_text(example("six_copies.json")[:HALF])
    plans = [(name, TOP / "examples" / name) for name in PLANS] + [("half a text", half)]
    for name, path in plans:
        yield f"check, {name}", ["check", path]
        for workers in "1", "4":
            yield f"search -w {workers}, {name}", ["search", path, "-w", workers]
    for options in "-w 1", "-w 4", "--direct -w 1", "--tail -c 1":
        yield f"replace {options}", ["replace", TOP / "examples/six_copies.json", "--out", "5", "--in", "6", *options.split()]
    for plan, script, drivers in SCRIPTS:
        files = [TOP / "examples" / plan, TOP / "examples" / script]
        yield f"run, {script}", ["run", *files]
        for count in drivers:
            yield f"fleet -w {count}, {script}", ["fleet", *files, "-w", count]


def sweep_program(refusing, folder, tool):
    """Sweeps the program. Returns whether nothing was wrong."""
    right = True
    for name, words in program_jobs(folder):
        words = [tool, *map(str, words)]
        ample = refusing.run(words, 0)[:3]
        allowed = [ample, (2, "", "input: 9 NoMemory\n")]
        right &= refusing.sweep(name, words, refusing.growths(words), lambda *said: said in allowed)
    return right


def sweep_scenarios(refusing, program, scenarios):
    """Sweeps the scenarios of a program. Returns whether nothing was wrong."""
    right = True
    for name in scenarios:
        output = subprocess.run([program, name, "aloud"], capture_output=True, text=True, check=True).stdout
        print(f"{name}: {output[:160]}..", flush=True)
        words = [program, name]
        right &= refusing.sweep(name, words, refusing.growths(words) // 2, lambda *said: said == (0, "", ""))
    return right


def core_program():
    """The program for the cores: its name, its crates, the texts of its proofs and its modules."""
    return "core_scenarios", CORE_CRATES, {}, {"scenarios": CORES, "texts": constants(plan_texts(), True)}


def fleet_program():
    """The same for a fleet's calls."""
    shown = {"SIX": example_text("six_copies.json"), "REPLACED": example_text("member_replaced.json"), "LONG": example_text("long_log.json")}
    return "fleet_scenarios", FLEET_CRATES, {"scenarios/over/Invariants.antt": SITE}, {"scenarios": FLEETS, "texts": constants(shown, False)}


def sweep_calls(refusing, folder):
    """Sweeps the calls of the library. Returns whether nothing was wrong."""
    right = True
    for (name, crates, proofs, modules), scenarios in ((core_program(), CORE_SCENARIOS), (fleet_program(), FLEET_SCENARIOS)):
        work = folder / name
        work.mkdir()
        program = str(tried(work, name, MAIN, crates, [scenarios[0]], proofs, modules))
        right &= sweep_scenarios(refusing, program, scenarios)
        if name == "fleet_scenarios":
            right &= all(compare(program, *one) for one in COMPARED.items())
    return right


def compare(program, scenario, due):
    """Compares a program's output for a scenario with the expected one. Returns whether they are equal."""
    said = subprocess.run([program, scenario, "aloud"], capture_output=True, text=True).stdout
    print(f"{scenario}: {said}", end="", flush=True)
    return said == due


def main():
    tools = [word for word in sys.argv[1:] if not word.startswith("--")] or ["crates/plan_tool/out/plan_tool"]
    with tempfile.TemporaryDirectory() as folder:
        folder = pathlib.Path(folder)
        refusing = Refusing(folder)
        right = sweep_program(refusing, folder, tools[0])
        if "--calls" in sys.argv:
            right &= sweep_calls(refusing, folder)
        print(f"refusals: {refusing.refused} growths refused, {'no answer' if right else 'an answer'} changed by it")
    sys.exit(0 if right else 1)


if __name__ == "__main__":
    main()
