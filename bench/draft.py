#!/usr/bin/env python3
"""Builds plan_tool without its proof, nearly as it is built with one, to measure a change before it is proved.

    python3 bench/draft.py OUT [--inline FUNCTION..]

`rt try` translates the program, which takes some four minutes of a processor. This script removes the run-time checks from the module, marks functions
as their sources do (`inline(always)`, `inline(never)`), and those named after `--inline` (as `runs::runs::Runs::put`) too; the kit's clang then compiles it in
some two minutes more. The module is kept as OUT.module and used again while it is newer than all sources, so that other marks are tried in two minutes each.

Nothing is proved of OUT, and it takes some 10 per cent more instructions than the program as it is built over its proof (a search of 2,032 plain claims 103
million for 94): compare one draft with another, by `valgrind --tool=callgrind` where other work is on the machine.
"""
import contextlib
import os
import pathlib
import re
import shutil
import subprocess
import sys
import tempfile
import time

TOP = pathlib.Path(__file__).resolve().parent.parent
KIT = pathlib.Path(shutil.which("rt")).resolve().parent.parent
CLANG = KIT / "toolchain" / "bin" / "clang"
METHODS = re.compile(r"impl(?:<.*?>)? (\w+)(?:<.*>)? \{")
FUNCTION = re.compile(r"(?:pub(?:\([^)]*\))? )?(?:const )?(?:unsafe )?fn (\w+)")
UNUSED = [' sanitize_address "frame-pointer"="all"', ' "probe-stack"="inline-asm" "stack-probe-size"="3072"']


def sources(crates):
    """The folder of sources of each crate: of those in a folder, and of the kit's."""
    for folder in [*crates.glob("*/src"), *(KIT / "rattle").glob("*/src"), *(KIT / "rattle").glob("*/*/src")]:
        yield folder.parent.name, folder


def marks(crates):
    """The functions that the sources mark, by crate and name: each with its module and, if it is a method, its type."""
    found = {}
    for crate, folder in sources(crates):
        for file in folder.rglob("*.rt"):
            module = "::".join(file.relative_to(folder).with_suffix("").parts).removesuffix("::mod")
            mark = owner = None
            for line in file.read_text(errors="replace").splitlines():
                of = METHODS.match(line)
                owner = of[1] if of else None if line[:1].isalpha() else owner
                line = line.strip()
                if line in ("#[inline(always)]", "#[inline(never)]"):
                    mark = "alwaysinline" if "always" in line else "noinline"
                named = FUNCTION.match(line)
                if named and mark:
                    found.setdefault((crate, named[1]), []).append(("" if module in ("lib", "main") else module, owner, mark))
                if named:
                    mark = None
    return found


def mark_of(name, found, inline):
    """The mark of a function of the module, if it has one."""
    name = re.sub(r"::<#.*", "", name)
    *above, last = name.split("::")
    crate, within = (above or [""])[0], "::".join(above[1:])
    if name in inline:
        return "alwaysinline"
    here = found.get((crate, last), [])
    methods = (mark for _, owner, mark in here if owner and owner == above[-1])
    return next(methods, None) or next((mark for module, _, mark in here if within == module or within.startswith(f"{module}::") or not module), None)


def marked(line, found, inline):
    """The first line of a function, with its mark."""
    name = re.search(r'@"?([^"(]+)"?\(', line)
    mark = name and mark_of(name[1], found, inline)
    return re.sub(r" (#\d+) \{$", rf" {mark} \1 {{", line) if mark else line


def made_in(room):
    """The module below a folder, if it is there by now."""
    return next((pathlib.Path(folder, "module.bc") for folder, _, files in os.walk(room) if "module.bc" in files), None)


def translated(work, words, module):
    """Lets `rt try` translate the program of a crate, and copies the module while the program runs with these words."""
    kept = pathlib.Path(f"{module}.new")
    with tempfile.TemporaryDirectory(dir=module.parent) as room:
        tried = ["rt", "try", "--seconds", "900", "--", *words]
        ran = subprocess.Popen(tried, cwd=work, env={**os.environ, "TMPDIR": room}, stdout=subprocess.DEVNULL)
        taken = None
        while ran.poll() is None:
            made = made_in(room)
            with contextlib.suppress(FileNotFoundError):
                if made and made.stat().st_ino != taken:
                    kept.unlink(missing_ok=True)
                    os.link(made, kept)
                    taken = made.stat().st_ino
            time.sleep(0.1)
    if ran.returncode or taken is None:
        sys.exit(f"rt try made no program: run it in {work} to see why")
    kept.rename(module)


def linked(module, out):
    """Compiles a module and links it as the program OUT."""
    with tempfile.TemporaryDirectory() as room:
        made = pathlib.Path(room, "it.o")
        subprocess.run([CLANG, "-O3", "-c", "-x", "ir", str(module), "-o", str(made), "-w"], check=True)
        libraries = [KIT / "c" / "libos_c.a", KIT / "c" / "liblibc_c.a"]
        subprocess.run(["gcc", "-o", str(out), str(made), *map(str, libraries), "-lpthread", "-lm"], check=True)


def drafted(out, work, words, inline=()):
    """Builds OUT of a crate in a folder of crates, without its proof. While it is translated it is run with these words."""
    module = pathlib.Path(f"{out}.module")
    newest = max(file.stat().st_mtime for _, folder in sources(work.parent) for file in folder.rglob("*.rt"))
    if not module.exists() or module.stat().st_mtime < newest:
        translated(work, words, module)
    how = ["-x", "ir", str(module), "-w", "-S", "-emit-llvm", "-o", "-"]
    text = subprocess.run([CLANG, *how], check=True, stdout=subprocess.PIPE, text=True).stdout
    text = text.replace("call void @llvm.trap()\n", "\n").replace('"target-cpu"="x86-64"', '"target-cpu"="x86-64-v2"')
    for it in UNUSED:
        text = text.replace(it, "")
    text = text.replace("= { }", "= { nounwind }")
    found = marks(work.parent)
    lines = [marked(line, found, inline) if line.startswith("define") else line for line in text.split("\n")]
    with tempfile.TemporaryDirectory() as room:
        source = pathlib.Path(room, "it.ll")
        source.write_text("\n".join(lines))
        linked(source, out)


def main(out, *words):
    inline = set(words[words.index("--inline") + 1 :]) if "--inline" in words else set()
    drafted(out, TOP / "crates" / "plan_tool", ["check", str(TOP / "examples" / "six_copies.json")], inline)


if __name__ == "__main__":
    if len(sys.argv) < 2:
        sys.exit(__doc__)
    main(*sys.argv[1:])
