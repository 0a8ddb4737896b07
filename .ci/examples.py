#!/usr/bin/env python3
"""Gives the examples of documents to the program, and compares its answers:

    examples.py FORMATS OTHER.. -- PROGRAM WORD..

Of each document: a block ``` WORD STATUS ``` is what the program writes, with that status, when it is called with that
word and reads the last block ``` trace ```. A line `...` stands for any lines.

Of the first document also: an item of a list of headers has the lines of an input, and then "gives" with
`line N: CAUSE`, or "is accepted"; a row of a table of body lines has a line, to be read after the block ``` header ```
and the lines above it, and `CAUSE`, `counts` or `ignored`. Traces have such a list and a table, and so have traces of
groups (``` header of groups ```). A row of the table of other lines of a history has the number of a line of the last
block ``` trace ``` above it, the line that is to stand there instead, and what `certify` answers.
"""
import re
import subprocess
import sys

COMMANDS = ("check", "replay", "run", "groups", "record", "certify")


def run(program, word, text):
    done = subprocess.run(program + [word], input=text.encode(), capture_output=True, timeout=60)
    return done.returncode, done.stdout.decode(errors="replace")


def blocks(document):
    """The code blocks: what stands after the first fence, and the lines between."""
    return re.findall(r"^```([^\n]*)\n(.*?)^```$", document, re.M | re.S)


def rows(document, first):
    """The cells of the table whose first head is this."""
    table = re.search(r"^\| %s \| answer \|.*\n\|[-|]*\n((?:\|.*\n)*)" % first, document, re.M)
    return [row.strip("|\n").split("|") for row in table.group(1).splitlines()]


def lines_of(cell):
    """The lines that a cell names: code, `A` to `B` for those that differ in one number, `A` and N blanks."""
    lines = []
    series = False
    for code, words in re.findall(r"`([^`]*)`|([^`]+)", cell):
        if code and series:
            lines += between(lines.pop(), code)
        elif code:
            lines.append(code)
        series = words == " to "
        blanks = re.fullmatch(r" and (\d+) blanks ?", words)
        if blanks:
            lines[-1] += " " * int(blanks.group(1))
    return lines


def between(first, last):
    words = list(zip(re.findall(r"\d+|\D+", first), re.findall(r"\d+|\D+", last)))
    low, high = next((int(a), int(b)) for a, b in words if a != b)
    return ["".join(a if a == b else str(n) for a, b in words) for n in range(low, high + 1)]


def shortened(text, wanted):
    """What is wanted, if the text is that with any lines for each `...`, and else the text."""
    pattern = "(?:.*\n)*?".join(re.escape(part) for part in wanted.split("...\n"))
    return wanted if re.fullmatch(pattern, text) else text


def check_blocks(program, name, document):
    trace = None
    for info, text in blocks(document):
        words = info.split()
        if words == ["trace"]:
            trace = text
        elif len(words) == 2 and words[0] in COMMANDS:
            status, found = run(program, words[0], trace)
            yield name + ": " + info, (status, shortened(found, text)), (int(words[1]), text)


def headers(document, kind):
    """The items of a list of headers: the lines as they are named, and the answer."""
    listed = re.split(r"\n##+ ", document.partition(f'before "gives" is a line of {kind}')[2])[0]
    for item in re.findall(r"^- (.*(?:\n  .*)*)", listed, re.M):
        named, gives, answer = re.match(r"(.*?)( gives | is )(`[^`]*`|accepted)", " ".join(item.split())).groups()
        yield named, answer.strip("`")


def check_headers(program, name, document, word, kind):
    for named, wanted in headers(document, kind):
        status, text = run(program, word, "".join(line + "\n" for line in lines_of(named)))
        found = text.rstrip("\n") if status == 2 else "accepted" if status == 0 else f"status {status}"
        yield name + ": " + named, found, wanted


def check_lines(program, name, document):
    """All lines in one run; what it writes of each tells the answer."""
    header = next(text for info, text in blocks(document) if info == "header")
    above = header.count("\n")
    texts, wanted, counts = [], [], {"counts": 0, "ignored": 0, "refused": 0}
    for row in rows(document, "line"):
        (line,), answer = lines_of(row[0]), row[1].strip().strip("`")
        texts.append(line)
        if answer == "counts":
            wanted.append(" ".join(line.split()))
        elif answer != "ignored":
            wanted.append(f"# line {above + len(texts)}: refused: {answer}")
        counts[answer if answer in counts else "refused"] += 1
    wanted.append(f"# done accepted {counts['counts']} refused {counts['refused']}")
    status, text = run(program, "check", header + "".join(line + "\n" for line in texts))
    found = text[len(header):].splitlines()
    yield name + ": the header of the lines", text[: len(header)], header
    for n, line in enumerate(wanted):
        yield name + ": " + line, found[n] if n < len(found) else "nothing", line
    yield name + ": the lines in all", (status, len(found)), (3, len(wanted))


def check_other_lines(program, name, document):
    """A history with another line in the place of one of its lines; `certify` tells the line at fault."""
    above, table = re.search(r"(.*)^\| line \| instead \|[^\n]*\n\|[-|]*\n((?:\|[^\n]*\n)*)", document,
                             re.M | re.S).groups()
    history = [text for info, text in blocks(above) if info == "trace"][-1].splitlines()
    for row in table.splitlines():
        number, instead, answer = (cell.strip() for cell in row.strip("|").split("|")[:3])
        lines = [*history]
        lines[int(number) - 1] = instead.strip("`")
        yield f"{name}: line {number}, {instead}", run(program, "certify", "".join(line + "\n" for line in lines)), \
            (9, answer.strip("`") + "\n")


def check_group_lines(program, name, document):
    """The same of lines of groups; `groups` tells which are refused, and how many count."""
    header = next(text for info, text in blocks(document) if info == "header of groups")
    above = header.count("\n")
    lines, wanted, counted = [], [], 0
    for row in rows(document, "line of groups"):
        (line,), answer = lines_of(row[0]), row[1].strip().strip("`")
        lines.append(line)
        counted += answer == "counts"
        if answer not in ("counts", "ignored"):
            wanted.append(f"line {above + len(lines)}: refused: {answer}")
    status, text = run(program, "groups", header + "".join(line + "\n" for line in lines))
    *printed, last = text.splitlines()
    found = [line for line in printed if ": refused: " in line]
    for line in sorted({*wanted, *found}):
        yield name + ": " + line, line in found, line in wanted
    yield name + ": the lines in all", (status, last), (3, f"done accepted {counted} refused {len(wanted)}")


def main(words):
    split = words.index("--")
    names, program = words[:split], words[split + 1 :]
    # the first call may build the program, which takes minutes
    subprocess.run(program + ["usage"], stdin=subprocess.DEVNULL, capture_output=True)
    tried = wrong = 0
    for name in names:
        with open(name, encoding="utf-8") as file:
            document = file.read()
        checks = [check_blocks(program, name, document)]
        if name == names[0]:
            checks += [check_headers(program, name, document, "check", "the input"),
                       check_lines(program, name, document),
                       check_headers(program, name, document, "groups", "a trace of groups"),
                       check_group_lines(program, name, document),
                       check_other_lines(program, name, document)]
        for check in checks:
            for what, found, wanted in check:
                tried += 1
                if found != wanted:
                    wrong += 1
                    print(f"{what}\n  wanted: {wanted}\n  found: {found}")
    print(f"{tried} answers, {wrong} wrong")
    return 1 if wrong or tried < 100 else 0


if __name__ == "__main__":
    sys.exit(main(sys.argv[1:]))
