#!/usr/bin/env python3
"""Looks for what documents name: claims.py DOCUMENT.., at the top of the repository.

Of names there are three forms, each in code spans:

  `CRATE::FUNCTION` or `CRATE::NAME::FUNCTION`, (`CLAUSE`, ..)   a function, of the type or trait NAME, with clauses
  `CRATE/specs/FILE.antt` (`WORD`, ..)                           a file, with what it defines; a folder of edits is
                                                                 `edits/CRATE/`, or `must-fail/` of a crate
  `WORD`, .. of `HOME`                                           what a file or a crate defines

A function in the first form is cited for its contract. Where that has several clauses, those that carry the sentence
stand beside the function; a sentence that needs all of them lists all of them. A function that is mentioned, and not
cited, has the third form.

In the README of a crate, `crates/CRATE/README.md`, the crate's own names stand without `CRATE::` and `CRATE/`. Its
functions are cited there where a line of a promise begins with "By", up to the end of the promise, and mentioned
elsewhere. Every other span that is one word is looked up too: it is something that the crate defines, a crate or a
library, or a word that docs/FORMATS.md has in a span or a block.

A block ```rust or ```antt is an excerpt of the file that the paragraph above it names: its lines stand there one after
another, where a line `...` stands for any that are left out. Those of docs/HEADLINE.md are cut by .ci/headline.py.

A link leads to a file that is there, and to a heading of it where it names one.

A paragraph that begins with `>` is a quotation. It has the words of a comment of the first file that the paragraph
below it names, whatever the breaks of the lines. The mark stands before each of its lines, and elsewhere in it only in
code spans.
"""
import functools
import pathlib
import re
import sys

SPAN = re.compile(r"`([^`]+)`")
CLAUSES = r"(?:\s+\(((?:`[^`\s]+`(?:,\s+|\s+and\s+)?)+)\))?"
FUNCTION_NAMED = re.compile(r"`((?:\w+::)+\w+|\w+)`" + CLAUSES)
FILE_NAMED = re.compile(r"`((?:(?:vms_\w+|vozhkell)/)?(?:src|specs|proofs|must-fail)/[\w/.-]*|"
                        r"edits/(?:vms_\w+|vozhkell)/[\w/.-]*)`" + CLAUSES)
OF_HOME = re.compile(r"((?:`[^`\s]+`(?:,\s+|,?\s+and\s+|\s+))+)of\s+`([^`\s]+)`")
CRATE = re.compile(r"vms_\w+|vozhkell")
OTHERS = re.compile(r"(?:vms_\w+|vozhkell)::")
CUT = pathlib.Path("docs/HEADLINE.md")
HEAD = re.compile(r"^(?:pub )?(?:impl\b.*?\bfor\s+|impl(?:<.*?>)?\s+|trait\s+|ghost trait\s+)(\w+)")
FUNCTION = re.compile(r"( *)(?:pub(?:\(crate\))? )?(?:const )?(?:extern \"C\" )?fn (\w+)")
CLAUSE = re.compile(r"( *)ensures (?:(\w+) )?\{")
BY = re.compile(r"^  By (.*?)(?=^- |^\S|^$)", re.M | re.S)
QUOTATION = re.compile(r"((?:^>.*\n)(?:^.+\n)*)\n*((?:^.+\n?)*)", re.M)
LINK = re.compile(r"\]\(([^)\s#]*)#?([^)\s]*)\)")
HEADING = re.compile(r"^#+ (.*)$", re.M)
BLOCK = re.compile(r"^```.*?^```$", re.M | re.S)
COMMENT = re.compile(r"(?:^ *(?:--|//[/!]?) ?.*\n)+", re.M)
COMMENT_MARK = re.compile(r"^ *(?:--|//[/!]?) ?", re.M)
MADE_IN_CODE = re.compile(r"\b(?:fn|struct|enum|trait|const|static|type|mod|ensures|requires) (\w+)|"
                          r"^\s+(?:pub(?:\(crate\))? |ghost )*(\w+):|^\s+([A-Z]\w*)\b")
MADE_IN_SPECS = re.compile(r"^\s*(?:(?:pub|abbrev|record|data|unfoldable|ruleset) )*([^\s:(){}]+)(?:\s.*)?\s:(?:\s|$)")


def text_of(path):
    return path.read_text(encoding="utf-8") if path.is_file() else ""


def sources(crate, ending):
    folder = pathlib.Path("crates", crate)
    return [path for part in ("src", "specs", "proofs") for path in sorted((folder / part).rglob(f"*.{ending}"))]


@functools.cache
def libraries():
    """The crates of crates.txt, and the libraries that they use."""
    lines = [line for line in text_of(pathlib.Path("crates.txt")).splitlines() if not line.startswith("#")]
    return set(re.findall(r"\w+", " ".join(lines)))


@functools.cache
def functions_of(crate):
    """For each function of a crate, by its owner (or "") and its name, the names of its clauses, "" for none."""
    found = {}
    for file in sources(crate, "rt"):
        owner, current, within = "", set(), ""
        for line in text_of(file).splitlines():
            head = HEAD.match(line)
            if head:
                owner = head.group(1)
            elif line.startswith("}"):
                owner = ""
            function = FUNCTION.match(line.split("//")[0])
            if function:
                current = found.setdefault((owner, function.group(2)), set())
                within = function.group(1) + "    "
            clause = CLAUSE.match(line)
            if clause and clause.group(1) == within:
                current.add(clause.group(2) or "")
    return found


def made_in(path):
    """The names of what a file defines."""
    pattern = MADE_IN_CODE if path.suffix == ".rt" else MADE_IN_SPECS
    found = [pattern.search(line) for line in text_of(path).splitlines()]
    names = {name for one in found if one for name in one.groups() if name}
    if path.suffix == ".rt":
        names.update(name for pair in re.findall(r"(?<=[ (<&])(\w+): |\b(\w+) ?=> ", text_of(path)) for name in pair)
    return names


@functools.cache
def made_by(crate):
    """The names of what a crate defines: its types, their variants and fields, functions, clauses and definitions."""
    return set().union(*(made_in(path) for ending in ("rt", "antt") for path in sources(crate, ending)))


@functools.cache
def format_words():
    """The words of traces, commands and outputs, as docs/FORMATS.md has them."""
    text = text_of(pathlib.Path("docs/FORMATS.md"))
    code = re.findall(r"^```[^\n]*\n(.*?)^```$", text, re.M | re.S) + SPAN.findall(text)
    return set(re.findall(r"[\w-]+", " ".join(code)))


def anchors_in(document):
    """What links can name of a document: its headings in small letters, with a dash for each blank and no marks."""
    headings = HEADING.findall(BLOCK.sub("", text_of(document)))
    return {re.sub(r"[^\w -]", "", heading.lower()).replace(" ", "-") for heading in headings}


def words_in(spans):
    return SPAN.findall(spans or "")


def on_one_line(text):
    return " ".join(text.split())


class Reader:
    """The names of one document, and what is wrong with them."""

    def __init__(self, name):
        self.name = pathlib.Path(name)
        self.text = text_of(self.name)
        own = re.fullmatch(r"crates/(\w+)/README\.md", self.name.as_posix())
        self.own = own.group(1) if own else None
        self.tried, self.wrong = 0, []
        self.prose = BLOCK.sub("", self.text)

    def say(self, what):
        self.wrong.append(f"{self.name}: {what}")

    def path(self, named):
        """The file that a span names, where it has the form of a file of a crate or of the repository."""
        if re.match(r"(vms_\w+|vozhkell)/", named):
            return pathlib.Path("crates", named)
        if self.own and re.match(r"(src|specs|proofs|must-fail)/", named):
            return pathlib.Path("crates", self.own, named)
        if re.match(r"(\.ci|bench|crates|docs|edits|examples|tools)/", named):
            return pathlib.Path(named)
        return None

    def home_of(self, named):
        """The crate of a function that a span names, or none, and its owner (or "") and its name."""
        parts = named.split("::")
        crate = parts.pop(0) if CRATE.fullmatch(parts[0]) and len(parts) > 1 else self.own
        return crate, (parts[-2] if len(parts) > 1 else "", parts[-1])

    def functions(self):
        for named, clauses in FUNCTION_NAMED.findall(OF_HOME.sub("", self.prose)):
            crate, (owner, name) = self.home_of(named)
            if crate is None or named == name and not clauses:
                continue
            self.tried += 1
            labels = functions_of(crate).get((owner, name))
            if labels is None:
                if clauses or not name[0].isupper() or not {owner, name} - {""} <= made_by(crate):
                    self.say(f"{named}: no such function")
                continue
            for clause in words_in(clauses):
                if clause not in labels:
                    self.say(f"{named}: no clause {clause}")

    def citations(self):
        """The functions that are cited for their contracts, each with what stands in parentheses beside it."""
        text = FILE_NAMED.sub("", OF_HOME.sub("", self.prose))
        promises = " ".join(BY.findall(text)) if self.own else ""
        return [(named, clauses) for named, clauses in FUNCTION_NAMED.findall(text) if OTHERS.match(named)] + [
            (named, clauses) for named, clauses in FUNCTION_NAMED.findall(promises) if not OTHERS.match(named)]

    def clauses_beside(self):
        for named, clauses in self.citations():
            crate, function = self.home_of(named)
            labels = functions_of(crate).get(function, set())
            if len(labels) > 1 and not clauses:
                self.say(f"{named}: which of its clauses: {', '.join(sorted(labels))}")

    def quotations(self):
        for quotation, below in QUOTATION.findall(self.prose):
            self.tried += 1
            lines = quotation.splitlines()
            words = on_one_line(" ".join(line.removeprefix(">") for line in lines))
            if any(not line.startswith("> ") for line in lines) or ">" in SPAN.sub("", words):
                self.say(f"a mark is missing or stray in the quotation {words[:40]}..")
            named = FILE_NAMED.search(below)
            path = self.path(named.group(1)) if named else None
            comments = COMMENT.findall(text_of(path)) if path else []
            if not any(words in on_one_line(COMMENT_MARK.sub("", one)) for one in comments):
                self.say(f"no comment of {path or 'a file that stands below it'} has the words {words[:40]}..")

    def files(self):
        for named, words in FILE_NAMED.findall(self.prose):
            path = self.path(named)
            if path is None:
                continue
            self.tried += 1
            if not path.exists():
                self.say(f"{named}: no such file")
                continue
            for word in words_in(words):
                if word not in made_in(path):
                    self.say(f"{named}: defines no {word}")

    def of_homes(self):
        for words, home in OF_HOME.findall(self.prose):
            path = self.path(home)
            if path is not None and path.is_file() and path.suffix in (".rt", ".antt"):
                made = made_in(path)
            elif path is not None and path.exists():
                made = set(re.findall(r"\w+", text_of(path)))
            elif CRATE.fullmatch(home):
                made = made_by(home) if home in libraries() else set()
            elif re.fullmatch(r"\w+\.antt", home):
                made = set().union(*map(made_in, pathlib.Path("crates").glob(f"*/specs/**/{home}")))
            elif path is not None:
                self.say(f"{home}: no such file")
                continue
            else:
                continue
            for word in words_in(words):
                self.tried += 1
                if not set(re.split(r"::|\.", word)) <= made and word not in libraries():
                    self.say(f"{home}: defines no {word}")

    def single_words(self):
        """What a crate's README names by a word alone."""
        text = OF_HOME.sub("", self.prose)
        text = FILE_NAMED.sub("", text)
        text = re.sub(r"`(?:vms_\w+|vozhkell)(?:::\w+)+`" + CLAUSES, "", text)
        for span in SPAN.findall(text):
            if re.fullmatch(r"[A-Za-z_]\w*", span):
                self.tried += 1
                if span not in made_by(self.own) | libraries() | format_words():
                    self.say(f"{span}: the crate defines no such name")

    def excerpts(self):
        for above, block in re.findall(r"([^\n]*)\n\n```(?:rust|antt)\n(.*?)^```$", self.text, re.M | re.S):
            self.tried += 1
            file = (SPAN.findall(above) or [""])[-1]
            lines = [line.strip() for line in text_of(pathlib.Path(file)).splitlines()]
            pieces = re.split(r"^ *\.\.\.\n", block, flags=re.M)
            at = 0
            for piece in [[line.strip() for line in piece.splitlines()] for piece in pieces if piece]:
                found = next((n for n in range(at, len(lines)) if lines[n:n + len(piece)] == piece), None)
                if found is None:
                    self.say(f"an example isn't an excerpt of {file or 'a file that stands above it'}: {piece[0]}")
                    break
                at = found + len(piece)

    def links(self):
        for to, heading in LINK.findall(self.prose):
            if to.startswith("http"):
                continue
            self.tried += 1
            path = self.name.parent / to if to else self.name
            if not path.exists() or heading and heading not in anchors_in(path):
                self.say(f"a link leads to nothing: {to}{'#' if heading else ''}{heading}")

    def read(self):
        if not self.text:
            self.say("no such document")
        self.links()
        self.functions()
        self.clauses_beside()
        self.quotations()
        self.files()
        self.of_homes()
        if self.own:
            self.single_words()
        if self.name != CUT:
            self.excerpts()
        return self


def main(names):
    read = [Reader(name).read() for name in names]
    wrong = [line for one in read for line in one.wrong]
    tried = sum(one.tried for one in read)
    print("\n".join([*wrong, f"{tried} names, {len(wrong)} wrong"]))
    return 1 if wrong or not tried else 0


if __name__ == "__main__":
    sys.exit(main(sys.argv[1:]))
