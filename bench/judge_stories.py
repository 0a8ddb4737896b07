"""The stories of crates/vms_model_trials/src/stories.rt, on which facts are proved, as the steps of bench/histories/pages.

Their histories there begin with their facts, and have the same legal events: so the facts speak of legal histories.
"""
import os
import re

import judge_rows

SOURCE = os.path.join(os.path.dirname(os.path.abspath(__file__)), "../crates/vms_model_trials/src/stories.rt")
NAMES = {
    "FOUR_ONLINE": "four CPUs hide what they may",
    "ONE_DEAD": "a dead CPU is buried",
    "TWO_ZONES": "a fold of two zones",
    "NARROW_GAP": "each CPU uses up a threshold of 1",
}
CALLERS = ("main", "first", "second", "third", "fourth", "control")
# What an act of the source is as a step, where `{}` stand for its values in turn and a list is named by its first entry.
STEPS = {
    "Begin": "Split {} {}", "End": "Join {}", "LoadT": "LoadT 0 {} {}", "LoadD": "LoadD {} 0 [{}]",
    "Put": "Put 0 [{}] {} {} {}", "put": "Put 0 [{}] {} {} mod", "Take": "Take {} {} [{}]", "AddG": "AddG {} {}",
    "AddS": "AddS {} {}", "LoadG": "LoadG 0 {}", "LoadM": "LoadM 0 {} {}", "LoadO": "LoadO {} {}",
    "online": "LoadO {} online", "LoadA": "LoadA {} 0 {}", "SetT": "SetT {} 0 {}", "SetM": "SetM 0 {}",
    "SetO": "SetO {}", "SetA": "SetA 0 {}",
}


def events_of(text, name):
    """The events of a story of the source."""
    numbers = dict(re.findall(r"const (\w+): \w+ = \w+ \{ number: ([0-9]+) \};", text))
    count, lines = re.search(rf"const {name}: \[Line; ([0-9]+)\] = \[\n(.*?)^\];", text, flags=re.S | re.M).groups()
    acts = re.findall(r"^    (\w+)!\((?:Act::)?(\w+)!?\((.*)\)\),$", lines, flags=re.M)
    assert len(acts) == int(count), f"{name} has {len(acts)} lines that are read"
    for caller, act, values in acts:
        words = re.sub(r"Some\((\w+)\)", r"\1", values).replace("None", "-").split(", ")
        words = [numbers.get(word, word.split("::")[-1].lower()) for word in words]
        yield CALLERS.index(caller), judge_rows.step_of(STEPS[act].format(*words).split())


def differing(rows):
    """The histories that have other legal events than the story of the source."""
    with open(SOURCE, encoding="utf-8") as file:
        text = file.read()
    legal = {row.name: [(caller, step) for caller, step, legal in row.events if legal] for row in rows}
    for name, title in NAMES.items():
        if list(events_of(text, name)) != legal[title]:
            yield title
