"""What `fleet` prints for a script, by what `run` prints for it."""
import re

COUNTS = re.compile(r"steps (\d+)\nrefused (\d+)\n")


def events_in(script):
    """The number of lines of a script that have an event."""
    return sum(bool(line) and not line.startswith(("#", "wait")) for line in script.splitlines())


def fleet_of(run, events):
    """What a fleet with one driver prints, by the output of a run of so many events: as many steps, and a like end."""
    lines, mark, ends = run.partition("writer")
    refused = lines.count(" refused ")
    return f"steps {events - refused}\nrefused {refused}\n{mark}{ends}journal yes\n"


def is_whole(printed, events):
    """Whether a fleet with any number of drivers printed that its journal is a run of all events."""
    counts = COUNTS.match(printed)
    return bool(counts) and sum(map(int, counts.groups())) == events and printed.endswith("\njournal yes\n")
