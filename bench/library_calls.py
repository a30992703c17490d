#!/usr/bin/env python3
"""Measures the calls of the C library: the tables of docs/EMBEDDING.md.

    python3 bench/library_calls.py [LIBRARY]

LIBRARY is a folder made by `scripts/build_library`. Without it the library is built without its proof, as
`bench/draft.py` builds the program: the kit's run-time checks are removed, functions are marked as in their sources,
and the kit's clang compiles at -O3. It needs `cc`. Each price is the least of several rounds over a log of 20,000
records of 64 bytes, in nanoseconds of a processor.

If valgrind is there, such a build is also compared with the core. The instructions of a call that count as the core's are
those of the calls into the crates below volume_c (`decode`, `Segment::deliver`, `encode_to_slice` ..), which are kept out of
line, and those that free their results, which each caller of the core needs. `volume_next_message` is compared with
`encode_into` of the same messages, into a buffer that is there.
"""
import importlib.machinery
import importlib.util
import pathlib
import re
import shutil
import subprocess
import sys
import tempfile

import draft

TOP = pathlib.Path(__file__).resolve().parent.parent
RECORDS = "20000"
CORE = [
    ("message_bytes", "decoding", None, "decode"),
    ("message_bytes", "encoding", None, "encode_to_slice"),
    ("message_bytes", "encoding", None, "encode_into"),
    ("message_bytes", "contents", None, "read_contents"),
    ("message_bytes", "writing", None, "put_contents_head"),
    ("message_bytes", "writing", None, "write_records"),
    ("segment_core", "segment", "Segment", "deliver"),
    ("segment_core", "segment", "Segment", "prepare_any"),
    ("segment_core", "segment::paging", "Segment", "page_at"),
    ("segment_core", "segment::saving", "Segment", "snapshot"),
    ("segment_core", "segment::saving", "Segment", "resumed"),
    ("world", "client", "Client", "act"),
    ("writer_core", "change", "Change", "new"),
]
FREES, NEXT = "rattle_dealloc", "volume_next_message"
# functions of the test module, which encode a message into a buffer that is there
AGAIN = ("volume_c", "called_exports", None, "encode_again")
ENCODE = re.compile(r'^define internal (?:noundef |zeroext )*(\w+) (@"volume_c::called_exports::(core_encode)")\((.*?)\)', re.M)
ENCODES = {
    "let _ = core_encode(alloc, &[])": """
use message_bytes::{decode, encode_into};
use wire::Message;

fn encode_again(alloc: Global, buffer: &mut Vec<u8>, message: &Message) -> bool {
    encode_into(alloc, buffer, message).is_ok()
}

fn core_encode(alloc: Global, bytes: &[u8]) -> bool {
    let mut buffer = Vec::new(alloc);
    match decode(alloc, bytes) {
        Ok(message) => encode_into(alloc, &mut buffer, &message).is_ok() && encode_again(alloc, &mut buffer, &message),
        Err(_) => false,
    }
}
"""
}
COMPARED = [
    ["volume_segment_take", NEXT],
    ["volume_segment_take"],
    [NEXT],
    ["volume_client_take"],
    ["volume_writer_issue"],
    ["volume_segment_page"],
    ["volume_segment_snapshot", "volume_snapshot_read"],
    ["volume_segment_resume"],
]


def script(name):
    """A script of scripts/, as a module."""
    loader = importlib.machinery.SourceFileLoader(name, str(TOP / "scripts" / name))
    module = importlib.util.module_from_spec(importlib.util.spec_from_loader(name, loader))
    loader.exec_module(module)
    return module


def without_checks(text, apart=()):
    """The text of a module without its checks, nearly as it is compiled with a proof, with some functions kept out of line."""
    text = text.replace("call void @llvm.trap()\n", "\n").replace('"target-cpu"="x86-64"', '"target-cpu"="x86-64-v2"')
    for unused in draft.UNUSED:
        text = text.replace(unused, "")
    text = text.replace("= { }", "= { nounwind }")
    found = draft.marks(TOP / "crates")
    for crate, module, owner, name in apart:
        found[crate, name] = [(module, owner, "noinline")] + found.get((crate, name), [])
    marked = (draft.marked(line, found, set()) if line.startswith("define") else line for line in text.split("\n"))
    return "\n".join(marked)


def apart_from_core(text):
    """The text of a module whose core is kept out of line, and which exports `core_encode`."""
    text = without_checks(text, [*CORE, AGAIN])
    return text + script("unproved_library").wrapper(*ENCODE.search(text).groups())


def crate_of(function):
    """The crate whose work a function does. Dropping a type is the work of the type's crate."""
    crate, _, rest = function.partition("::")
    return rest.partition("++")[0] if "++" in rest else crate


def is_own(function):
    """Whether a function belongs to the library: an export, or one of crates/volume_c."""
    return function.startswith("volume_") and crate_of(function).startswith("volume_") and not function.startswith("volume_model")


def calls_of(profile):
    """From a profile of callgrind: all instructions, and those of calls from the library's functions into other crates."""
    names, function, callee, total, core = {}, "", None, 0, 0

    def named(text):
        number, name = re.fullmatch(r"\((\d+)\)(?: (.*))?", text).groups()
        if name:
            names[number] = name
        return names[number]

    for line in profile.read_text(encoding="utf-8").splitlines():
        if line.startswith("fn="):
            function = named(line[3:])
        elif line.startswith("cfn="):
            callee = named(line[4:])
        elif callee and line[:1] in "+-*0123456789":
            into = is_own(function) and not is_own(callee) and ("::" in callee or callee == FREES)
            core += int(line.split()[1]) if into else 0
            callee = None
        elif line.startswith(("totals:", "summary:")):
            total = int(line.split()[1])
    return total, core


def counted(program, room, names):
    """The instructions of calls of these functions: all, and those of the core."""
    profile, words = room / "callgrind", [program, TOP / "examples/long_log.json", "1024", "1"]
    collected = [f"--toggle-collect={name}" for name in names]
    how = ["valgrind", "-q", "--tool=callgrind", *collected, f"--callgrind-out-file={profile}"]
    subprocess.run([*how, *words], stdout=subprocess.DEVNULL, stderr=subprocess.DEVNULL, check=True)
    return calls_of(profile)


def compared(program, room):
    """The instructions of each call, and how many of them are the core's."""
    print("\n| Call | Instructions | The core's | Library to core |\n|---|---|---|---|")
    for names in COMPARED:
        total, core = counted(program, room, names)
        if names == [NEXT]:
            print(f"`{NEXT}` has {core:,} instructions of `encode_to_slice` and of freeing messages")
            _, core = counted(program, room, ["::".join(part for part in AGAIN if part)])
        print(f"| {', '.join(f'`{name}`' for name in names)} | {total:,} | {core:,} | {total / max(core, 1):.2f} |")


def linked(library, program, *flags):
    """Links the C program that makes the calls."""
    tests = TOP / "bindings/c_tests"
    sources = [TOP / "bench/library_calls.c", tests / "support.c", library / "libvolume_c.a"]
    subprocess.run(["cc", "-std=c99", "-O2", *flags, f"-I{library}", f"-I{tests}", *sources, "-o", program], check=True)
    return program


def drafted(room, name, **how):
    """The library of a module that was translated, compiled without checks."""
    builds, library = script("unproved_library"), script("build_library")
    out = room / name
    out.mkdir()
    archive = builds.compiled(library.kit(), room / "module.bc", out, level="-O3", **how)
    library.joined([archive, library.kit() / "c/liblibc_c.a"], out / "libvolume_c.a")
    (out / "volume.h").write_bytes((TOP / "include/volume.h").read_bytes())
    return out


def main():
    if len(sys.argv) > 2:
        sys.exit(__doc__)
    with tempfile.TemporaryDirectory() as folder:
        room = pathlib.Path(folder)
        if len(sys.argv) < 2:
            script("unproved_library").translated(room / "module.bc", ENCODES)
        library = pathlib.Path(sys.argv[1]).resolve() if len(sys.argv) == 2 else drafted(room, "library", change=without_checks)
        words = [linked(library, room / "library_calls"), TOP / "examples/long_log.json", RECORDS]
        lines = subprocess.run(words, text=True, stdout=subprocess.PIPE, check=True).stdout.splitlines()
        print("| Call | Time |\n|---|---|")
        for name, price in (line.split("\t") for line in lines):
            print(f"| {name} | {int(price):,} ns |")
        if len(sys.argv) < 2 and shutil.which("valgrind"):
            apart = drafted(room, "apart", change=apart_from_core)
            compared(linked(apart, room / "compared", "-DCORE_IS_CALLED"), room)


if __name__ == "__main__":
    main()
