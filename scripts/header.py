#!/usr/bin/env python3
"""Writes include/volume.h from the exports of crates/volume_c.

    python3 scripts/header.py             writes the header
    python3 scripts/header.py --check     the status is 1 if the header is out of date

Each export is a function under `#[unsafe(no_mangle)]` of a file of crates/volume_c/src; its comment is its doc comment. The structs are
those under `#[repr(C)]` that an export takes, the numbers those of `Fault` in crates/volume_model and of crates/volume_c/src/status.rt.
"""
import pathlib
import re
import sys
import textwrap

TOP = pathlib.Path(__file__).resolve().parent.parent
SOURCES = TOP / "crates/volume_c/src"
HEADER = TOP / "include/volume.h"
FILES = ["handle_calls", "plan_calls", "segment_calls", "snapshot_calls", "frames", "client_calls", "authority_calls", "advance_calls"]
STRUCTS = {"VolumeChange": "changes", "VolumePoints": "client_calls", "VolumeSegmentState": "segment_calls",
           "VolumeReadiness": "advance_calls"}
NUMBERS = {"u8": "uint8_t", "u16": "uint16_t", "u32": "uint32_t", "u64": "uint64_t", "usize": "size_t", "bool": "bool"}
EXPORT = re.compile(r'((?:^///[^\n]*\n)+)#\[unsafe\(no_mangle\)\]\npub extern "C" fn (\w+)\(([^)]*)\)( -> u8)?\n', re.M)

NO_BREAK = "\N{NO-BREAK SPACE}"

HEAD = """\
/* The actors of a volume of replicated logs, by opaque handles. Made by scripts/header.py: edit the exports of
 * crates/volume_c instead. docs/EMBEDDING.md says which calls an engine makes in which order.
 *
 * docs/MODEL.md defines the terms (View, label, consistency point, whole, lineage).
 *
 * Results. A function returns 0 or a number of `enum volume_status`. On any number but 0 it changes nothing, unless its
 * comment says otherwise. 9 says that memory ran out; the same call may be made again.
 *
 * Handles. A handle is all zeros before its first use (`struct volume_handle h = {0};`) and after volume_close. It owns
 * what it holds. Never copy one that holds something, and never change its fields. It may move to another thread; calls
 * with the same handle are made one at a time. Two arguments of one call must not be the same handle. A function returns
 * 90 if a handle holds another kind of actor, if it is empty, or if it is full where it must be empty.
 *
 * Buffers. Bytes are a pointer and a length. The library keeps no pointer after the call. A pointer must not be null,
 * even if the length is 0, and during the call nothing else may write the memory behind a pointer that isn't const. If a
 * result doesn't fit into its buffer, the function returns 92 and does nothing, and `needed` is the length that it needs.
 *
 * Messages. Calls that change an actor may make messages, which wait in its handle: take each by volume_next_message.
 * Until all are taken, calls that would make others return 91, also with a handle of another kind. Messages may be
 * lost, repeated and reordered on their way, and must not be forged. docs/WIRE.md lays out their bytes.
 */
#ifndef VOLUME_H
#define VOLUME_H

#include <stdbool.h>
#include <stddef.h>
#include <stdint.h>

#ifdef __cplusplus
extern "C" {
#endif

/* A plan, an actor or a snapshot; all zeros where it is empty. */
struct volume_handle {
    void *at;
    bool live;
};

"""
TAIL = """\
#ifdef __cplusplus
}
#endif

#endif
"""


def snake(name):
    """VolumePoints as volume_points."""
    return re.sub(r"(?<=[a-z])(?=[A-Z])|(?<=[A-Z])(?=[A-Z][a-z])", "_", name).lower()


def comment(docs, indent=""):
    """A doc comment as a comment of C, wrapped again."""
    lines = [line.strip().removeprefix("///").strip() for line in docs.strip().splitlines()]
    paragraphs = re.split(r"\n\n+", "\n".join(lines))
    filled = []
    for paragraph in paragraphs:
        filled += textwrap.wrap(" ".join(paragraph.replace("`", "").split()), 116 - len(indent)) + [""]
    body = f"\n{indent} * ".join(filled[:-1]).replace(" * \n", " *\n")
    return f"{indent}/* {body} */\n"


def parameter(text):
    """A parameter in C: a slice is a pointer and a length."""
    name, kind = (part.strip() for part in text.split(":", 1))
    if kind == "Global":
        return []
    if kind == "&mut Handle":
        return [f"struct volume_handle *{name}"]
    if kind == "&[u8]":
        return [f"const uint8_t *{name}", f"size_t {name}_length"]
    if kind == "&mut [u8]":
        return [f"uint8_t *{name}", f"size_t {name}_length"]
    if found := re.fullmatch(r"&\[(Volume\w+)\]", kind):
        return [f"const struct {snake(found[1])} *{name}", f"size_t {name}_count"]
    if found := re.fullmatch(r"&mut (Volume\w+)", kind):
        return [f"struct {snake(found[1])} *{name}"]
    if found := re.fullmatch(r"&mut (\w+)", kind):
        return [f"{NUMBERS[found[1]]} *{name}"]
    return [f"{NUMBERS[kind]} {name}"]


def declaration(docs, name, parameters, result):
    """An export's comment and its declaration."""
    given = [one for text in parameters.split(",") if text.strip() for one in parameter(text)]
    head = f"{'uint8_t' if result else 'void'} {name}("
    line = f"{head}{', '.join(given)});"
    if len(line) > 120:
        whole = f"{head}{', '.join(one.replace(' ', NO_BREAK) for one in given)});".replace("uint8_t ", f"uint8_t{NO_BREAK}", 1)
        line = "\n".join(textwrap.wrap(whole, 120, subsequent_indent="    ", break_long_words=False)).replace(NO_BREAK, " ")
    return f"{comment(docs)}{line}\n\n"


def parts(name, file):
    """A struct's comment and the text of its fields."""
    text = (SOURCES / f"{file}.rt").read_text(encoding="utf-8")
    return re.search(rf"((?:^///[^\n]*\n)+)#\[repr\(C\)\]\n#\[derive\([^\n]*\npub struct {name} \{{\n([^}}]*)^\}}", text, re.M).groups()


def fields(name, file):
    """The name and the type of each field of a struct."""
    return re.findall(r"^    pub (\w+): (.+),$", parts(name, file)[1], re.M)


def struct(name, file):
    """A struct with the comments of its fields."""
    docs, fields = parts(name, file)
    made = f"{comment(docs)}struct {snake(name)} {{\n"
    for of, field, kind in re.findall(r"((?:^    ///.*\n)+)    pub (\w+): (.+),$", fields, re.M):
        array = re.fullmatch(r"\[(\w+); (\d+)\]", kind)
        made += comment(of, "    ") + (f"    {NUMBERS[array[1]]} {field}[{array[2]}];\n" if array else f"    {NUMBERS[kind]} {field};\n")
    return made + "};\n\n"


def numbers():
    """The numbers that calls return."""
    faults = re.findall(r"^    /// (.*)\n    (\w+) = (\d+),", (TOP / "crates/volume_model/src/fault.rt").read_text(encoding="utf-8"), re.M)
    own = re.findall(r"^/// (.*(?:\n/// .*)*)\npub const (\w+): u8 = (\d+);", (SOURCES / "status.rt").read_text(encoding="utf-8"), re.M)
    rows = [("The call did what it is for.", "OK", 0)]
    rows += [(says, snake(name).upper(), number) for says, name, number in faults]
    rows += [(says.replace("\n/// ", " "), name, number) for says, name, number in own]
    text = "/* The numbers that calls return. volume_fault_name gives the name of one. */\nenum volume_status {\n"
    for says, name, number in rows:
        text += f"    VOLUME_{name} = {number}, /* {says.replace('`', '')} */\n"
    return text + "};\n\n"


def exports():
    """The comment, the name, the parameters and the result of each export."""
    found = []
    for file in FILES:
        found += EXPORT.findall((SOURCES / f"{file}.rt").read_text(encoding="utf-8"))
    marked = sum(path.read_text(encoding="utf-8").count("#[unsafe(no_mangle)]") for path in SOURCES.glob("*.rt"))
    if len(found) != marked:
        sys.exit(f"header: {marked} exports, of which {len(found)} were read")
    return found


def header():
    """The text of the header."""
    handle = (SOURCES / "handle.rt").read_text(encoding="utf-8")
    for line in ["    at: *mut u8,\n    alloc: Global,\n", "    seal: Seal,\n    live: bool,\n"]:
        if line not in handle:
            sys.exit("header: the handle has other fields")
    parts = [HEAD, numbers(), *(struct(*one) for one in STRUCTS.items()), *(declaration(*one) for one in exports()), TAIL]
    return "".join(parts)


def main():
    text = header()
    if "--check" in sys.argv[1:]:
        fresh = HEADER.is_file() and HEADER.read_text(encoding="utf-8") == text
        print(f"header: {text.count('(const ') + text.count('(struct ') + text.count('(uint8_t ')} declarations, {'fresh' if fresh else 'STALE: run scripts/header.py'}")
        sys.exit(0 if fresh else 1)
    HEADER.parent.mkdir(exist_ok=True)
    HEADER.write_text(text, encoding="utf-8")


if __name__ == "__main__":
    main()
