#!/usr/bin/env python3
"""Makes the parts of docs/MAP.md and docs/PROVED.md that the crates' READMEs say: where to change what, the list of the
crates, each with the first paragraph of its README, and the index of what carries their promises. Groups and order are
those of crates.txt.

    .ci/from_crates.py            writes the parts anew, between the two comments that enclose each
    .ci/from_crates.py --check    changes nothing, says which document is stale, and ends with 1 if one is

A crate's README begins with a line `# NAME` and a paragraph that says what it is for. Another paragraph, `Change here:
THIS; THAT.`, says what someone may want to change who has to come here. Then come some of the sections Promises,
Tested, Trusted and let through, and For callers, in this order. Crates of trials and programs that are measured need
neither promise anything nor say what is changed in them.
"""
import pathlib
import re
import sys
import textwrap

from claims import BY, FILE_NAMED, FUNCTION_NAMED, OF_HOME, functions_of

WIDTH = 120
SECTIONS = ["Promises", "Tested", "Trusted and let through", "For callers"]
CHANGE = "Change here: "
BEGIN, END = "<!-- made by .ci/from_crates.py -->", "<!-- end of what .ci/from_crates.py makes -->"


def wrapped(text, first="", other=""):
    """The text in lines of at most WIDTH characters, with no line end in a code span or a link."""
    kept = re.compile(r"`[^`]*`|\[[^]]*\]\([^)]*\)")
    whole = kept.sub(lambda found: found.group().replace(" ", "\0"), " ".join(text.split()))
    lines = textwrap.wrap(whole, WIDTH, initial_indent=first, subsequent_indent=other, break_long_words=False,
                          break_on_hyphens=False)
    return "\n".join(lines).replace("\0", " ")


def groups():
    """The headings of crates.txt, each with its crates."""
    found = []
    for line in pathlib.Path("crates.txt").read_text(encoding="utf-8").splitlines():
        if line.startswith("# "):
            found.append((line[2:], []))
        elif line.strip():
            found[-1][1].append(re.match(r"\w+", line).group())
    return found


class Readme:
    """What a crate's README says."""

    def __init__(self, crate):
        self.crate, self.wrong = crate, []
        path = pathlib.Path("crates", crate, "README.md")
        text = path.read_text(encoding="utf-8") if path.is_file() else ""
        head, *sections = re.split(r"^## (.*)\n", text, flags=re.M)
        self.sections = dict(zip(sections[::2], sections[1::2]))
        lines = head.split("\n\n")
        self.purpose = lines[1] if len(lines) > 1 else ""
        changes = [" ".join(part.split()) for part in lines[2:] if part.startswith(CHANGE)]
        self.changes = re.split(r"; ", changes[0].removeprefix(CHANGE).rstrip(".")) if changes else []
        if lines[0].strip() != f"# {crate}" or not self.purpose:
            self.wrong.append(f"{path}: wanted are a line `# {crate}` and a paragraph")
        if list(self.sections) != [name for name in SECTIONS if name in self.sections]:
            self.wrong.append(f"{path}: its sections are to be some of {', '.join(SECTIONS)}, in this order")
        if crate.endswith(("_trials", "bench")):
            return
        if "Promises" not in self.sections:
            self.wrong.append(f"{path}: it promises nothing")
        if not self.changes:
            self.wrong.append(f"{path}: it doesn't say what is changed here")

    def carriers(self):
        """The crate's functions that carry its promises, in alphabetical order."""
        promises = FILE_NAMED.sub("", OF_HOME.sub("", self.sections.get("Promises", "")))
        found = {named for by in BY.findall(promises) for named, clauses in FUNCTION_NAMED.findall(by)}
        own = {"::".join(filter(None, named)) for named in functions_of(self.crate)}
        return sorted(found & own, key=str.lower)


def sentence(text):
    return text[0].upper() + text[1:]


def linked(crate):
    return f"[`{crate}`](../crates/{crate}/README.md)"


def map_part(readmes):
    lines = ["", "| I want to change | in |", "|---|---|"]
    lines += [f"| {what} | {linked(crate)} |" for crate, readme in readmes.items() for what in readme.changes]
    lines += ["", "## The crates"]
    for group, crates in groups():
        name, _, about = group.partition(": ")
        lines += ["", f"**{sentence(name)}**: {about}.", ""]
        lines += [wrapped(f"{linked(crate)}: {readmes[crate].purpose}", "- ", "  ") for crate in crates]
    return lines


def proved_part(readmes):
    lines = []
    for group, crates in groups():
        lines += ["", f"**{sentence(group.partition(':')[0])}**", ""]
        for crate in crates:
            readme = readmes[crate]
            says = ", ".join(f"`{name}`" for name in readme.carriers())
            if not says:
                says = "trials" if crate.endswith("_trials") else "no function of its own"
            if "Trusted and let through" in readme.sections:
                says += f"; [trusted and let through](../crates/{crate}/README.md#trusted-and-let-through)"
            lines.append(wrapped(f"{linked(crate)}: {says}.", "- ", "  "))
    return lines


def main(words):
    if words not in ([], ["--check"]):
        print(__doc__)
        return 2
    readmes = {crate: Readme(crate) for _, crates in groups() for crate in crates}
    wrong = [line for readme in readmes.values() for line in readme.wrong]
    for name, part in (("docs/MAP.md", map_part(readmes)), ("docs/PROVED.md", proved_part(readmes))):
        path = pathlib.Path(name)
        text = path.read_text(encoding="utf-8")
        if text.count(BEGIN) != 1 or text.count(END) != 1:
            wrong.append(f"{name}: its made part isn't enclosed by the two comments")
            continue
        before, _, rest = text.partition(BEGIN)
        made = before + BEGIN + "\n" + "\n".join(part) + "\n\n" + END + rest.partition(END)[2]
        if made != text and words:
            wrong.append(f"{name} is stale: .ci/from_crates.py makes it anew")
        elif made != text:
            path.write_text(made, encoding="utf-8")
    print("\n".join([*wrong, f"{len(readmes)} crates, {len(wrong)} wrong"]))
    return 1 if wrong else 0


if __name__ == "__main__":
    sys.exit(main(sys.argv[1:]))
