#!/usr/bin/env python3
"""Measures how much memory the program asks for, in relation to the length of its texts.

    python3 bench/asked.py [crates/plan_tool/out/plan_tool]

A small library that is loaded before the C library (`LD_PRELOAD`; it is built by `cc`) counts the bytes in use, and records the
greatest number in use at once and the greatest that one call asks for, whether they are touched or not. Each job is run over valid plans
and scripts of several lengths, and over misleading texts: numbers that claim more than there is, brackets that only open, one string,
one number, or one list of the greatest allowed length. A job may use at most BASE bytes and TIMES bytes for each byte of its texts; a
search may use SEARCH bytes more.
"""
import json
import os
import pathlib
import subprocess
import sys
import tempfile
from array import array

sys.dont_write_bytecode = True
from memory import LARGEST, certified, many_nodes, plan_text, uncertified, wide_plan, wide_script
from scripts import six_copies, steady

COUNTING = r"""
#define _GNU_SOURCE
#include <errno.h>
#include <fcntl.h>
#include <malloc.h>
#include <stdlib.h>
#include <sys/mman.h>
#include <unistd.h>

extern void *__libc_malloc(size_t);
extern void *__libc_calloc(size_t, size_t);
extern void *__libc_realloc(void *, size_t);
extern void *__libc_memalign(size_t, size_t);
extern void __libc_free(void *);

/* What is told lies in the file that ASKED names, since a program may end by _exit. */
static long in_use, before_start[2], *told = before_start;

__attribute__((constructor)) static void start(void) {
  const char *path = getenv("ASKED");
  int file = path ? open(path, O_CREAT | O_RDWR | O_TRUNC, 0600) : -1;
  if (file < 0 || ftruncate(file, sizeof before_start)) return;
  long *shared = mmap(NULL, sizeof before_start, PROT_READ | PROT_WRITE, MAP_SHARED, file, 0);
  close(file);
  if (shared == MAP_FAILED) return;
  shared[0] = before_start[0];
  shared[1] = before_start[1];
  told = shared;
}

static void at_least(long *number, long now) {
  long before = __atomic_load_n(number, __ATOMIC_RELAXED);
  while (before < now && !__atomic_compare_exchange_n(number, &before, now, 0, __ATOMIC_RELAXED, __ATOMIC_RELAXED)) {}
}

static void *taken(void *block, size_t size) {
  at_least(&told[1], (long)size);
  if (block) at_least(&told[0], __atomic_add_fetch(&in_use, (long)malloc_usable_size(block), __ATOMIC_RELAXED));
  return block;
}

static void given_back(void *block) {
  if (block) __atomic_sub_fetch(&in_use, (long)malloc_usable_size(block), __ATOMIC_RELAXED);
}

void *malloc(size_t size) { return taken(__libc_malloc(size), size); }
void *calloc(size_t count, size_t size) { return taken(__libc_calloc(count, size), count * size); }
void *aligned_alloc(size_t align, size_t size) { return taken(__libc_memalign(align, size), size); }
void free(void *block) { given_back(block); __libc_free(block); }
void *realloc(void *block, size_t size) {
  long before = block ? (long)malloc_usable_size(block) : 0;
  void *moved = __libc_realloc(block, size);
  if (!moved) return taken(moved, size);
  __atomic_sub_fetch(&in_use, before, __ATOMIC_RELAXED);
  return taken(moved, size);
}
int posix_memalign(void **to, size_t align, size_t size) {
  void *block = taken(__libc_memalign(align, size), size);
  if (!block) return ENOMEM;
  *to = block;
  return 0;
}
"""

# The most bytes that a job may use at once: a base, an amount for each byte of its texts, and an extra amount for a search.
BASE = 256 * 1024
TIMES = 48
SEARCH = 1024 * 1024

LONG = LARGEST - 256


def around(middle):
    """A plan whose first configuration begins with this."""
    return f'{{"format":1,"lal":10,"groups":[{{"configurations":[{{"parent":null,{middle}'


def of_copies(read):
    """A plan of six copies with this read expression, cut off after it."""
    return around(f'"members":[0,1,2,3,4,5],"full":[0,1,2,3,4,5],"read":{read}')


def with_certificate(certificate):
    """A plan of six copies with this beginning of a certificate."""
    return of_copies('{"k":3,"of":"all"},"write":{"k":4,"of":"all"},"meets":' + certificate)


def zeros(count):
    """A list with this many entries."""
    return ",".join(["0"] * count)


def misleading_plans():
    """Texts that aren't plans, each with its name."""
    yield "nothing", ""
    yield "brackets that open", "[" * LONG
    yield "braces that open", '{"a":' * (LONG // 5)
    yield "one string", '"' + "a" * LONG + '"'
    yield "one string of escapes", '"' + "\\u0061" * (LONG // 6) + '"'
    yield "one number", "1" * LONG
    yield "spaces", " " * LONG
    yield "a list of numbers", "[" + zeros(LONG // 2) + "]"
    yield "a list of lists", "[" + ",".join(["[]"] * (LONG // 3)) + "]"
    yield "many groups", '{"format":1,"lal":10,"groups":[' + ",".join(['{"configurations":[]}'] * (LONG // 22))
    yield "members without end", around('"members":[' + zeros(LONG // 2))
    yield "a count of 4,294,967,295", of_copies('{"k":4294967295,"of":"all"}')
    yield "children without end", of_copies('{"k":1,"of":[' + zeros(LONG // 2))
    yield "an expression without end", of_copies('{"k":1,"of":[' * (LONG // 13))
    yield "weights without end", of_copies('{"k":1,"of":"all","weights":[' + zeros(LONG // 2)).replace('"format":1', '"format":2')
    yield "pairs without end", with_certificate('{"rule":"match","left":0,"right":0,"pairs":[' + ",".join(["[0,0]"] * (LONG // 6)))
    yield "branches without end", with_certificate('{"rule":"pick","side":"left","item":0,"children":[' + zeros(LONG // 2))
    yield "a certificate without end", with_certificate('{"rule":"open","side":"left","item":0,"then":' * (LONG // 45))
    yield "rules without end", with_certificate('{"rule":"pick","side":"left","item":0,"children":[0],"then":[' + ",".join(['{"rule":"clash","left":0,"right":0}'] * (LONG // 36)))


def plans():
    """Plans, each with its name."""
    for groups in 1, 4, 16:
        yield f"{groups * 127} certificates", certified(groups)
    yield "three certificates of 100,000 nodes", wide_plan()
    yield "two of them, one of 100,000 nodes left out", wide_plan().replace(many_nodes(), "null", 1)


def searches():
    """Plans whose claims are searched."""
    members = list(range(6))
    yield "64 plain claims", uncertified({"k": 3, "of": "all"}, {"k": 4, "of": "all"}, members, 1)
    heavy = {"k": 1801, "of": "all", "weights": [200 + 3 * i for i in range(16)]}
    light = {"k": 1800, "of": "all", "weights": [255 - 3 * i for i in range(16)]}
    yield "a claim of weights nearly alike", uncertified(heavy, light, list(range(16)), 1).replace('"format":1', '"format":2')
    wide = {"k": 32, "of": "all"}
    yield "claims that don't hold", uncertified(wide, wide, list(range(64)), 1)
    rows = {"k": 8, "of": [{"k": 1, "of": list(range(8 * row, 8 * row + 8))} for row in range(8)]}
    row = {"k": 1, "of": [{"k": 7, "of": list(range(8 * row, 8 * row + 8))} for row in range(8)]}
    yield "grids, a member less", uncertified(rows, row, list(range(64)), 1)


def scripts():
    """Scripts, each with its name."""
    for lines in 1_000, 10_000, 99_999:
        yield f"steady writing, {lines} lines", "\n".join(steady(lines).lines) + "\n"
    yield "issues of 32 changes of 64 bytes", wide_script()
    yield "nothing", ""
    yield "newlines", "\n" * LONG
    yield "one comment", "#" * LONG
    yield "one word", "a" * LONG
    yield "spaces", " " * LONG
    yield "a transaction without end", "issue 1" + " 0:0:0:61" * (LONG // 9)
    yield "a payload without end", "issue 1 0:0:0:" + "61" * (LONG // 2)
    yield "great numbers", "offer 0 0 18446744073709551615\nresend 1 18446744073709551615\nread 1 255 4294967295\nassign\ntake 4294967295 1.18446744073709551615\n"
    yield "deliveries of nothing", "assign\n" + "deliver 0 0 1.1\n" * 99_999


def jobs():
    """Each job: its name, its command, its texts, and how much more a search may use."""
    for name, text in [*plans(), *misleading_plans()]:
        yield name, "check", [text], 0
    for name, text in [*searches(), *misleading_plans()]:
        yield name, "search", [text], SEARCH
    for name, text in scripts():
        yield name, "run", [six_copies(1), text], 0


def asked(library, folder, words):
    """The most bytes that a run uses at once, the most that one call asks for, and its status."""
    told = folder / "asked"
    told.unlink(missing_ok=True)
    names = {"LD_PRELOAD": str(library), "ASKED": str(told)}
    ran = subprocess.run(words, env={**os.environ, **names}, stdout=subprocess.DEVNULL, stderr=subprocess.DEVNULL, timeout=600)
    most, largest = array("l", told.read_bytes())
    return most, largest, ran.returncode


def row(program, library, folder, job):
    """Prints a line of the table. Returns whether the job uses no more than it may."""
    name, word, given, beside = job
    paths = [folder / f"text{i}" for i in range(len(given))]
    for path, text in zip(paths, given):
        path.write_text(text)
    most, largest, status = asked(library, folder, [program, word, *map(str, paths)])
    size = sum(map(len, given))
    is_right = most <= BASE + TIMES * size + beside
    each = f"{most / size:.1f}" if size > 4096 else ""
    print(f"| {word} | {name} | {size:,} | {most:,} | {each} | {largest:,} | {status} |{'' if is_right else ' too much'}", flush=True)
    return is_right


def main():
    program = (sys.argv[1:] or ["crates/plan_tool/out/plan_tool"])[0]
    right = True
    print("| Job | Text | Bytes | Most in use | A byte | Largest asked for | Status |\n|---|---|---|---|---|---|---|")
    with tempfile.TemporaryDirectory() as folder:
        folder = pathlib.Path(folder)
        library, source = folder / "counting.so", folder / "counting.c"
        source.write_text(COUNTING)
        subprocess.run(["cc", "-O2", "-shared", "-fPIC", "-o", library, source], check=True)
        for job in jobs():
            right &= row(program, library, folder, job)
    sys.exit(0 if right else 1)


if __name__ == "__main__":
    main()
