"""Tests of `new` and `draw`, for scripts/program_tests. What is due is worked out by hand, or by counting in the plans and
scripts."""
import json
import pathlib
import re
import xml.etree.ElementTree as tree

EXAMPLES = pathlib.Path(__file__).resolve().parent.parent / "examples"
SVG = "{http://www.w3.org/2000/svg}"
ANY, SIX = "all", [0, 1, 2, 3, 4, 5]


def some(k, of=ANY, **keys):
    """An expression that k of a list satisfy."""
    return {"k": k, "of": of, **keys}


def root(members, read, write, full=None):
    """A configuration without a parent and without its certificate."""
    full = members if full is None else full
    return {"parent": None, "members": members, "full": full, "read": read, "write": write, "meets": None, "step": None}


def plan(configuration, groups=1, **keys):
    """A plan of groups with one configuration."""
    return {"format": 1, "lal": 10000000, **keys, "groups": [{"configurations": [configuration]}] * groups}


FULL_AND_TAIL = some(2, [some(3), some(1, "full")]), some(1, [some(4), some(3, "full")])
PARTS = [some(2, [0, 1, 2]), some(2, [3, 4, 5]), some(2, [6, 7, 8])]

# Words, the plan that they ask for, and how many members its read sets and write sets can lose.
MADE = [
    ("--members 0-5", plan(root(SIX, some(3), some(4))), 3, 2),
    ("--members 5,0-4", plan(root(SIX, some(3), some(4))), 3, 2),
    ("--members 7", plan(root([7], some(1), some(1))), 0, 0),
    ("--members 0-4", plan(root(SIX[:5], some(3), some(3))), 2, 2),
    ("--members 0-5 --write 6", plan(root(SIX, some(1), some(6))), 5, 0),
    ("--members 0-5 --read 4 --write 5", plan(root(SIX, some(4), some(5))), 2, 1),
    ("--members 0-5 --tail 3-5", plan(root(SIX, *FULL_AND_TAIL, [0, 1, 2])), 2, 2),
    ("--zones 0-2/3-5", plan(root(SIX, some(3), some(4))), 3, 2),
    ("--members 0-2 --weights 0=2", plan(root([0, 1, 2], some(2, weights=[2, 1, 1]), some(3, weights=[2, 1, 1])), format=2),
     1, 0),
    ("--members 0-2 --weights 0=1", plan(root([0, 1, 2], some(2), some(2))), 1, 1),
    ("--members 0-4 --survive 2", plan(root(SIX[:5], some(3), some(3))), 2, 2),
    ("--members 0-5 --survive 0", plan(root(SIX, some(1), some(6))), 5, 0),
    ("--zones 0,1/2,3/4,5 --survive zone", plan(root(SIX, some(3), some(4))), 3, 2),
    ("--zones 0,1/2,3/4,5 --survive zone+1", plan(root(SIX, some(3), some(4))), 3, 2),
    ("--zones 0-2/3-5/6-8 --survive zone", plan(root([*range(9)], some(4), some(6))), 5, 3),
    ("--members 0-5 --groups 3 --born 2 --lal 1000",
     plan(root(SIX, some(3), some(4)), 3, format=3, lal=1000, born=2), 3, 2),
    ("--members 0-5 --groups 16 --born 16 --lal 1 -w 1", plan(root(SIX, some(3), some(4)), 16, lal=1), 3, 2),
]

# Words whose read sets and write sets may be disjoint.
APART = ["--members 0-5 --read 3 --write 3", "--members 0-5 --read 1", "--members 0-5 --survive 3", "--members 0 --survive 1",
         "--zones 0-2/3-5 --survive zone", "--zones 0/1/2 --survive zone+1", "--members 0-2 --weights 0=3 --read 2 --write 2"]
REFUSED = [
    ("--members 0-5 --tail 6", "6 isn't a member"), ("--members 0-5 --weights 0=2,9=1", "9 isn't a member"),
    ("--members 0-5 --tail 0-5", "one member at least must be full"),
    ("--members 0-5 --write 7", "a set needs 7, but all members have 6"),
    ("--members 0-5 --read 7", "a set needs 7, but all members have 6"),
]
UNUSABLE = ["", "--members", "--members 0-5 --zones 0/1", "--members 64", "--members 3-1", "--members 0,0", "--members 0-",
            "--members 0,", "--zones 0/0", "--zones 0//1", "--members 0-5 --tail x", "--members 0-5 --weights 0",
            "--members 0-5 --weights 0=0", "--members 0-5 --weights 0=256", "--members 0-5 --weights 0=1,0=1",
            "--members 0-5 --survive two", "--members 0-5 --survive -1", "--members 0-5 --survive zone",
            "--members 0-5 --survive 1 --read 3", "--zones 0/1 --survive zone --tail 1",
            "--members 0-5 --tail 5 --weights 0=2", "--members 0-5 --groups 0", "--members 0-5 --groups 17",
            "--members 0-5 --born 2", "--members 0-5 --lal 0", "--members 0-5 --lal 10000001", "--members 0-5 -w 17",
            "--members 0-5 --read 0", "--members 0-5 --write 16321", "p.json --members 0-5", "--members 0-5 --deep"]


def bare(made):
    """A plan without its certificates."""
    for group in made["groups"]:
        for configuration in group["configurations"]:
            configuration["meets"] = configuration["step"] = None
    return made


def numbers(text):
    """The members of the two sets of a line."""
    line = re.fullmatch(r"no: read \{([\d ]*)\} and write \{([\d ]*)\} are disjoint\n", text)
    return [set(each.split()) for each in line.groups()] if line else None


def new_plans(program):
    """Plans made from words: what `check` and `explain` say of them, and what is refused."""
    for words, due, read, write in MADE:
        status, out, err = program.answer("new", *words.split())
        yield f"{words}: status", (status, err, out.count("\n")), (0, "", 1)
        yield f"{words}: plan", bare(json.loads(out)), due
        count = len(due["groups"])
        line = f"yes: {count} groups, {count} configurations, {count} certificates\n"
        yield f"{words}: check", program.answer("check", program.write("new.json", out)), (0, line, "")
        facts = json.loads(program.answer("explain", "new.json", "--json")[1])["configurations"]
        found = {(each["read"]["survives"], each["write"]["survives"], each["meets"]["state"]) for each in facts}
        yield f"{words}: facts", (len(facts), found), (count, {(read, write, "certified")})
        yield f"{words}: search", program.answer("search", "new.json"), (0, out, "")
    for words in APART:
        status, out, err = program.answer("new", *words.split())
        sets = numbers(out)
        yield words, (status, err, bool(sets) and sets[0].isdisjoint(sets[1])), (1, "", True)
    for words, why in REFUSED:
        yield words, program.answer("new", *words.split()), (1, f"no: {why}\n", "")
    for words in UNUSABLE:
        status, out, err = program.answer("new", *words.split())
        yield words, (status, out, err.startswith("error: ")), (2, "", True)


def cards(svg):
    """The configurations of a picture: of each the numbers of its squares, how many are full, and whether it is red."""
    found = []
    for card in tree.fromstring(svg).findall(f"{SVG}g"):
        if card.get("class") == "legend":
            continue
        frame, *squares = card.findall(f"{SVG}rect")
        named = [int(one.text) for one in card.findall(f"{SVG}text") if one.get("class") == "number"]
        found.append((named, sum("full" in one.get("class") for one in squares), frame.get("class") == "card-bad"))
    return found


def pictures(program):
    """Pictures of the examples: their members, the cards that are red, the rows of scripts and the LSNs of their records."""
    for path in sorted(EXAMPLES.glob("*.json")):
        text = path.read_text()
        name = program.write("plan.json", text)
        status, svg, err = program.answer("draw", name)
        yield f"{path.name}: status", (status, err, svg.startswith("<svg ")), (0, "", True)
        facts = json.loads(program.answer("explain", name, "--json")[1])["configurations"]
        due = []
        for each in facts:
            claims = [each["meets"], *([each["step"]["claim"]] if each["step"] else [])]
            is_red = any(claim["state"] != "certified" for claim in claims)
            due.append((each["members"], len(each["full"]), is_red or bool(each["step"]) and not each["step"]["kept_can_read"]))
        yield f"{path.name}: cards", cards(svg), due
    for path in sorted(EXAMPLES.glob("*.script")):
        yield from run_picture(program, path)
    yield from no_pictures(program)


def run_picture(program, path):
    """The pictures of a script: a row for each line with an event, in red where `run` refuses it, and the LSN of each
    record that a writer makes."""
    for each in sorted(EXAMPLES.glob("*.json")):
        ran = program.answer("run", each, path)
        if ran[0] == 2 or program.answer("check", each)[0]:
            continue
        status, svg, err = program.answer("draw", each, path)
        yield f"{path.name} over {each.name}: status", (status, err), (0, "")
        texts = tree.fromstring(svg).findall(f"{SVG}text")
        events = [number for number, line in enumerate(path.read_text().splitlines(), 1)
                  if line and not line.startswith("#") and line != "wait"]
        rows = [int(one.text) for one in texts if one.get("class") == "line-number"]
        yield f"{path.name} over {each.name}: rows", rows, events
        refused = [one.text for one in texts if one.get("class") == "refused-words"]
        lines = [line.split(" refused ")[1] for line in ran[1].splitlines() if " refused " in line]
        yield f"{path.name} over {each.name}: refusals", [one.split(": refused ")[1] for one in refused], lines
        durable = re.findall(r"durable (\d+)", ran[1])
        grown = {point for one in texts for point in re.findall(r"durable up to (\d+)", one.text or "")}
        yield f"{path.name} over {each.name}: durable points", grown >= {point for point in durable if point != "0"}, True


def no_pictures(program):
    """Plans that can't be drawn, runs over plans with a fault, bad lines, and scripts of too many events."""
    six = program.write("six.json", (EXAMPLES / "six_copies.json").read_text())
    good = program.write("good.script", "issue 1 0:0:0:61\n")
    for text in ["", "{}", '{"format":7}']:
        due = program.answer("check", program.write("plan.json", text))
        yield f"{text}: plan", (program.answer("draw", "plan.json"), due[0]), (due, 2)
        yield f"{text}: run", program.answer("draw", "plan.json", good), due
    wrong = plan(root(SIX, some(3), some(4)))
    wrong["groups"][0]["configurations"].append({**root(SIX, some(3), some(4)), "parent": 5})
    due = (1, "no: 30 BadParent group 0 configuration 1\n", "")
    yield "a wrong parent", program.answer("draw", program.write("plan.json", json.dumps(wrong))), due
    fails = program.write("plan.json", json.dumps(plan(root(SIX, some(3), some(3)))))
    status, svg, err = program.answer("draw", fails)
    yield "a claim that fails", (status, err, cards(svg)), (0, "", [(SIX, 6, True)])
    yield "a run over it", program.answer("draw", fails, good), program.answer("check", fails)
    yield "a bad line", program.answer("draw", six, program.write("bad.script", "wait\nopne 2\n")), (2, "", "input: line 2\n")
    many = program.write("many.script", "wait\n" + "issue 1 0:0:0:61\n" * 2000)
    yield "2,000 events", program.answer("draw", six, many)[0], 0
    more = program.write("more.script", "issue 1 0:0:0:61\n" * 2001)
    why = "no: the script has 2001 events, and at most 2000 are drawn\n"
    yield "2,001 events", program.answer("draw", six, more), (1, why, "")
    for words in [["none"], [six, "none"], ["."]]:
        yield f"{words}", program.answer("draw", *words), (2, "", f"input: cannot read {words[-1]}\n")
