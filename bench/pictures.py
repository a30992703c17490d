#!/usr/bin/env python3
"""Draws plans and runs, and checks the pictures: those of all examples, of each 30th plan of `families.py` and of one
that is as large as a plan may be.

    python3 bench/pictures.py [--browser] [--keep FOLDER] [--program PROGRAM]

Each picture is read as XML. The numbers of its cards, of their members (full, tail and fresh) and of its rows are
compared with those of the plan and the script, which this program counts itself. With `--browser` headless Chromium
measures each text: none may leave its card or the picture, and no two cards or lines of a card may overlap. `--keep`
writes the pictures there.
"""
import argparse
import json
import pathlib
import random
import subprocess
import sys
import tempfile
import xml.etree.ElementTree as tree

import families

TOP = pathlib.Path(__file__).resolve().parent.parent
SVG = "{http://www.w3.org/2000/svg}"
EXAMPLES = TOP / "examples"
SCRIPTS = {
    "early_acknowledgement": "member_replaced",
    "failed_writer": "five_members",
    "first_record": "six_copies",
    "growing": "growing",
    "large_and_small": "large_and_small",
    "long_log": "long_log",
    "member_made_whole": "member_replaced",
    "recovery": "six_copies",
    "three_bytes_written": "six_copies",
}

MEASURE = """<script>
const svg = document.querySelector('svg'), found = [];
const width = +svg.getAttribute('width'), height = +svg.getAttribute('height');
const right = box => box.x + box.width, below = box => box.y + box.height;
const meet = (a, b) => a.x < right(b) && b.x < right(a) && a.y < below(b) && b.y < below(a);
const within = (a, b, by) => a.x >= b.x + by && right(a) <= right(b) - by && a.y >= b.y && below(a) <= below(b);
const shrunk = box => ({x: box.x, y: box.y + 3, width: box.width, height: box.height - 6});
const groups = [...svg.querySelectorAll('g:not(.legend)')];
const cards = groups.map(card => card.querySelector('rect').getBBox());
groups.forEach((card, number) => {
    const texts = [...card.querySelectorAll('text:not(.number)')];
    const boxes = texts.map(text => text.getBBox());
    texts.forEach((text, at) => {
        if (!within(boxes[at], cards[number], 4)) found.push('outside its card: ' + text.textContent);
        const above = at > 0 && meet(shrunk(boxes[at]), shrunk(boxes[at - 1]));
        if (above) found.push('on another line: ' + text.textContent);
    });
    for (const other of cards.slice(0, number)) if (meet(cards[number], other)) found.push('cards overlap');
});
const all = {x: 0, y: 0, width: width, height: height};
for (const text of svg.querySelectorAll('text')) {
    if (!within(text.getBBox(), all, 0)) found.push('outside: ' + text.textContent);
}
for (const text of svg.querySelectorAll(':scope > text')) {
    for (const card of cards) if (meet(text.getBBox(), card)) found.push('on a card: ' + text.textContent);
}
document.body.innerHTML = '<pre id="said">' + found.length + ' faults ' + found.slice(0, 3).join('; ') + '</pre>';
</script>"""


def certified(plan):
    """A plan with certificates for plain claims: any k of the same members."""
    for group in plan["groups"]:
        for this in group["configurations"]:
            pairs = [[place, place] for place in range(len(this["members"]))]
            clash = {"rule": "clash", "left": 0, "right": 0}
            this["meets"] = {"rule": "match", "left": 0, "right": 0, "pairs": pairs, "then": [clash] * len(pairs)}
    return plan


def large_plan():
    """A plan of 16 groups of 64 configurations: chains, bushes and random trees of up to 64 members."""
    dice = random.Random(3)
    groups = []
    for group in range(16):
        made = []
        for number in range(64):
            parent = None if number == 0 else [number - 1, 0, dice.randrange(number)][group % 3]
            above = range(64) if number == 0 else made[parent]["members"]
            members = [one for one in above if number == 0 or dice.random() > 0.02]
            half = len(members) // 2
            this = {"parent": parent, "members": members, "full": members[::2], "meets": None, "step": None}
            this["read"] = {"k": half + 1, "of": "all"}
            this["write"] = {"k": half + number % 3 // 2, "of": "all"}
            made.append(this)
        groups.append({"configurations": made})
    return {"format": 1, "lal": 10, "groups": groups}


def squares(card):
    """The classes of a card's squares."""
    return [one.get("class") for one in card.findall(f"{SVG}rect") if not one.get("class").startswith("card")]


def check_card(card, this, parent):
    """Compares a card with its configuration."""
    members, full = set(this["members"]), set(this["full"])
    fresh = members - set(parent["members"]) if parent else set()
    drawn = squares(card)
    assert len(drawn) == len(members), "members"
    assert sum("full" in one for one in drawn) == len(full), "full members"
    assert sum("fresh" in one for one in drawn) == len(fresh), "fresh members"
    is_red = card.find(f"{SVG}rect").get("class") == "card-bad"
    assert is_red or this["meets"], "a card without a certificate isn't red"
    red = [one for one in card.findall(f"{SVG}text") if one.get("class") == "bad"]
    assert bool(red) == is_red, "red lines"


def check_plan(svg, plan):
    """Compares a picture with its plan."""
    cards = [one for one in tree.fromstring(svg).findall(f"{SVG}g") if one.get("class") != "legend"]
    groups = [group["configurations"] for group in plan["groups"]]
    configurations = [(this, group) for group in groups for this in group]
    assert len(cards) == len(configurations), f"{len(cards)} cards for {len(configurations)} configurations"
    for card, (this, group) in zip(cards, configurations):
        check_card(card, this, None if this["parent"] is None else group[this["parent"]])


def check_run(svg, script):
    """Compares a picture with its script."""
    numbered = enumerate(script.splitlines(), 1)
    lines = [str(number) for number, line in numbered if line and not line.startswith("#") and line != "wait"]
    texts = tree.fromstring(svg).findall(f"{SVG}text")
    assert [one.text for one in texts if one.get("class") == "line-number"] == lines, "rows"


def check_in_browser(folder, name, svg):
    """Lets Chromium measure the texts of a picture."""
    page = pathlib.Path(folder, "page.html")
    page.write_text(f"<!doctype html><meta charset=utf-8><body>{svg}{MEASURE}")
    profile = f"--user-data-dir={folder}/profile"
    words = ["chromium", "--headless", "--no-sandbox", "--disable-gpu", profile, "--dump-dom", f"file://{page}"]
    said = subprocess.run(words, check=True, capture_output=True, text=True).stdout
    said = said[said.index('<pre id="said">') + 15 : said.index("</pre>")]
    assert said.startswith("0 faults"), f"{name}: {said}"


def drawings(folder):
    """Each picture to draw: its name, the plan, and the script's file or None."""
    plans = {file.stem: json.loads(file.read_text()) for file in sorted(EXAMPLES.glob("*.json"))}
    for name, plan in plans.items():
        yield name, plan, None
    for script, name in SCRIPTS.items():
        plan = certified(plans[name]) if name == "five_members" else plans[name]
        yield f"run_{script}", plan, EXAMPLES / f"{script}.script"
    yield "large", large_plan(), None
    write = [sys.executable, families.__file__, "--plans", folder / "families"]
    subprocess.run(write, check=True, stdout=subprocess.DEVNULL)
    for file in sorted((folder / "families").rglob("*.json"))[::30]:
        yield f"family_{file.stem}", json.loads(file.read_text()), None


def check_drawing(asked, program, folder, drawing):
    """Draws a picture and checks it. Returns its number of bytes."""
    name, plan, script = drawing
    file = folder / "plan.json"
    file.write_text(json.dumps(plan))
    words = [str(program), "draw", str(file), *([str(script)] if script else [])]
    svg = subprocess.run(words, check=True, capture_output=True, text=True).stdout
    assert svg.startswith("<svg"), f"{name}: {svg[:100]}"
    if script:
        check_run(svg, script.read_text())
    else:
        check_plan(svg, plan)
    if asked.keep:
        (asked.keep / f"{name}.svg").write_text(svg)
    if asked.browser and not name.startswith("family_"):
        check_in_browser(folder, name, svg)
    return len(svg)


def main():
    parser = argparse.ArgumentParser()
    parser.add_argument("--browser", action="store_true")
    parser.add_argument("--keep", type=pathlib.Path)
    parser.add_argument("--program", type=pathlib.Path, default=TOP / "crates/plan_tool/out/plan_tool")
    asked = parser.parse_args()
    if asked.keep:
        asked.keep.mkdir(parents=True, exist_ok=True)
    with tempfile.TemporaryDirectory() as room:
        folder = pathlib.Path(room)
        sizes = [check_drawing(asked, asked.program, folder, drawing) for drawing in drawings(folder)]
    print(f"{len(sizes)} pictures, the largest of {max(sizes)} bytes, all as their plans and scripts")


if __name__ == "__main__":
    main()
