#!/usr/bin/env python3
"""Makes manual pages of what says already how something is used, and writes one to standard output.

    manual.py library VERSION DATE HEADER    of vozhkell.h: its functions, types and statuses, by its comments
    manual.py tool VERSION DATE TOOL         of what a tool answers to --help; a release has it as vozhkell-TOOL
"""
import os
import re
import subprocess
import sys
from pathlib import Path

COMMENT = re.compile(r"/\* (.*?)\s*\*/\n", re.S)
FUNCTION = re.compile(r"static inline (int vozhkell_\w+\([^)]*\))\n\{")
TYPE = re.compile(r"^typedef struct \w+ \{\n.*?^\} \w+;$|^enum vozhkell_mark \{.*?\};$", re.M | re.S)
STATUS = re.compile(r"(VOZHKELL_\w+) = (-?\d+)")


def plain(text):
    """A text for roff: no letter of it is a request."""
    text = text.replace("\\", "\\e").replace("-", "\\-")
    return re.sub(r"^([.'])", r"\\&\1", text, flags=re.M)


def prose(text):
    """Paragraphs, in which names between backquotes and of files are as they stand, and indented lines unfilled."""
    lines = []
    for paragraph in re.split(r"\n\s*\n", text.strip("\n")):
        if paragraph.startswith(" "):
            lines += [".PP", ".RS", ".nf", plain(re.sub(r"^  ", "", paragraph, flags=re.M)), ".fi", ".RE"]
        else:
            lines += [".PP", plain(re.sub(r"\.\s+(?=[A-Z])", ".\n", " ".join(paragraph.split())))]
    return lines


def top(name, section, version, date, says):
    return [f'.TH {name.upper()} {section} {date} "Vozhkell {version}" "Vozhkell"', ".SH NAME",
            f"{plain(name)} \\- {plain(says)}"]


def body_of(comment):
    """The text of a comment in C, without the stars at the beginnings of its lines."""
    return re.sub(r"^ \*[ ]?", "", comment, flags=re.M)


def functions_of(header):
    """The functions of the header by their comments: a comment, and the functions below it up to the next one."""
    groups = []
    for found in re.finditer(rf"{COMMENT.pattern}|{FUNCTION.pattern}", header, re.S):
        if found[1] is not None:
            groups.append((body_of(found[1]), []))
        else:
            groups[-1][1].append(" ".join(found[2].split()))
    return [(comment, functions) for comment, functions in groups if functions]


def statuses_of(header):
    """The statuses by their comments, likewise."""
    groups = []
    for comment, name, number in re.findall(rf"{COMMENT.pattern}|{STATUS.pattern}",
                                            re.search(r"enum vozhkell_status \{(.*?)\};", header, re.S)[1], re.S):
        if comment:
            groups.append((body_of(comment), []))
        else:
            groups = groups or [("", [])]
            groups[-1][1].append(f"{name} ({number})")
    return groups


def library(version, date, header):
    header = Path(header).read_text(encoding="utf-8")
    introduction = body_of(COMMENT.search(header)[1])
    lines = top("vozhkell", 3, version, date, "counters of Linux's memory, from C")
    lines += [".SH SYNOPSIS", ".nf", ".B #include <vozhkell.h>", ".PP",
              "cc program.c $(pkg\\-config \\-\\-cflags \\-\\-libs vozhkell)", ".fi"]
    lines += [".SH DESCRIPTION", *prose(introduction.replace("\n- ", "\n\n"))[1:], ".SH FUNCTIONS"]
    for number, (comment, functions) in enumerate(functions_of(header)):
        lines += [".PP"] * (number > 0)
        lines += [".nf", *(f".B {plain(function)};" for function in functions), ".fi", ".RS", *prose(comment)[1:], ".RE"]
    lines += [".SH TYPES", ".nf", plain("\n\n".join(TYPE.findall(header))), ".fi", ".SH STATUSES"]
    for comment, names in statuses_of(header):
        lines += [".TP", ".B " + plain(", ".join(names)), *(prose(comment)[1:] or ["The call was made."])]
    lines += [".SH SEE ALSO", ".BR vozhkell (1)"]
    return lines


def installed(file):
    """The name that a release gives to a tool."""
    return "vozhkell-" + Path(file).stem.replace("_", "-")


def tool(version, date, file):
    asked = subprocess.run([sys.executable, "-B", file, "--help"], check=True, capture_output=True, text=True,
                           env={**os.environ, "COLUMNS": "100"})
    name = installed(file)
    text = re.sub(r"\b(?:monitor|page|drift|probe|from_kernel)\.py\b", lambda it: installed(it[0]), asked.stdout)
    usage, text = text.split("\n\n", 1)
    text, options = re.split(r"\n\n(?=positional arguments:|options:|optional arguments:)", text, maxsplit=1)
    says, text = text.split("\n\n", 1)
    lines = top(name, 1, version, date, says[0].lower() + says[1:].split(". ")[0].replace("\n", " ").rstrip("."))
    lines += [".SH SYNOPSIS", ".nf", plain(re.sub(r"^usage: ", "", usage)), ".fi"]
    lines += [".SH DESCRIPTION", *prose(f"{says}\n\n{text}")[1:], ".SH OPTIONS"]
    for words, says in re.findall(r"^  (\S.*?)(?:  +|\n +)(\S.*(?:\n {4,}\S.*)*)", options, re.M):
        lines += [".TP", f".B {plain(words)}", plain(" ".join(says.split()))]
    return [*lines, ".SH SEE ALSO", ".BR vozhkell (1)"]


def main(kind, *words):
    print("\n".join({"library": library, "tool": tool}[kind](*words)))


if __name__ == "__main__":
    main(*sys.argv[1:])
