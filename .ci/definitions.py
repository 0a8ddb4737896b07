"""The definitions of the crates' specs: where each stands, how it reads, and which others it names."""
import pathlib
import re

IMPORT = re.compile(r"\s*(?:pub |ghost )*use\b")
HEAD = re.compile(r"(?:abbrev pub |abbrev |pub data |data |pub record |record |pub )?([^\s:]+) :|"
                  r"(?:pub data|data|pub record|record) (\S+)")
DECLARED = re.compile(r"Rattle\.(\w+)\.specs\.declared\.(.+?)(?:\.TheVariants)?$")


def below(folder, *endings):
    """The files of the crates below this folder of theirs, but for what checks write."""
    return [path for path in sorted(pathlib.Path("crates").rglob("*"))
            if path.suffix in endings and path.parts[2] != "out" and (not folder or path.parts[2] == folder)]


def read(path):
    return path.read_text(encoding="utf-8")


def uncommented(line):
    return re.sub(r"(^|\s)--.*$", "", line).rstrip()


class Module:
    """The names that a file imports, and of each definition that it makes the lines, without comments and with them."""

    def __init__(self, text, path=None):
        self.path = path
        self.names, self.modules, self.made, self.shown, self.within = {}, {}, {}, {}, {}
        current, inner, heading, comments = None, None, [], []
        for whole in text.splitlines():
            line = uncommented(whole)
            if IMPORT.match(line):
                self.take(line)
                comments = []
                continue
            if heading and not heading[-1].endswith(" where") and line[:1].isspace():
                heading.append(line)  # a heading that goes on
                continue
            if line and not line[0].isspace():
                inner = heading = [*comments, line] if line.startswith("module ") else None
                heading = heading or []
                current = None if inner else current
            elif inner:
                line = line[2:]
            if not line.strip():
                comments = comments + [whole] if whole.strip() else []
                continue
            if line.startswith(("module ", "pub mod ", "mod ")):
                comments = []
                continue
            head = not line[0].isspace() and HEAD.match(line)
            if head:
                current = head.group(1) or head.group(2)
            elif not line[0].isspace() and line.split()[0].strip("()") in self.made:
                current = line.split()[0].strip("()")
            if current:
                self.made.setdefault(current, []).append(line)
                self.shown.setdefault(current, []).extend([*comments, whole.rstrip()])
                self.within.setdefault(current, inner)
            comments = []

    def take(self, line):
        path, items, alias = re.match(r"\s*(?:pub |ghost )*use\s+([^\s{;]+?)(?:\.\{(.*?)\})?(?:\s+as\s+(\S+?))?;?\s*$",
                                      line).groups()
        for item in (items or "").split(","):
            if item.strip():
                name, _, other = item.strip().partition(" as ")
                self.names[other.strip() or name] = (path, name.strip())
        if items is None:
            self.modules[alias or path.split(".")[-1]] = path

    def named(self, own, lines):
        """What these lines name, as modules and names."""
        for word in re.split(r"[\s(){}\[\];,]+", re.sub(r'"[^"]*"', "", " ".join(lines))):
            first, _, rest = word.partition(".")
            if rest and first in self.modules:
                yield self.modules[first], rest.split(".")[0]
            elif first in self.names:
                yield self.names[first]
            elif first in self.made:
                yield own, first


def contracts():
    """The contracts of the program, from its arguments to its exit code, and of `tool`: the lines of each with the comment
    above, its clauses, and the imports of its file as a module."""
    return [contract_of("run_program"), contract_of("tool")]


def contract_of(name):
    head = f"\npub fn {name}<"
    code = next(read(path) for path in below("src", ".rt") if path.parts[1] == "vms_tool" and head in read(path))
    before, _, after = code.partition(head)
    comment = re.search(r"(?:^///.*\n?)*\Z", before, re.M).group()
    contract = head.strip() + after.partition("\n{")[0]
    clauses = re.findall(r"(?:requires|ensures)(?: \w+)? (\{.*?\})(?=\s+(?:requires|ensures)|\s*$)", contract, re.S)
    imports = "\n".join(" ".join(line.split()) for line in re.findall(r"^ghost use [^;]*;", code, re.M))
    return [*comment.splitlines(), *contract.splitlines()], clauses, Module(imports)


class Below:
    """The definitions to which names lead, by module and name, the nearest first: their modules and how many names lead
    to them. With them the types of code that they name, and how many names lead to each, and the definitions at which
    the way stops."""

    def __init__(self, modules, stops=lambda module: False):
        self.modules, self.stops = modules, stops
        self.found, self.types, self.stopped = {}, {}, {}

    def go(self, named):
        """Goes on from these modules and names."""
        waiting = [(it, 1) for it in named]
        for (path, name), depth in waiting:
            declared = DECLARED.match(path)
            if declared:
                self.types.setdefault(declared.groups(), depth)
                continue
            if path not in self.modules and path.rpartition(".")[0] in self.modules:
                path, _, name = path.rpartition(".")  # a constructor of a `data`
            module = self.modules.get(path)
            if module and name in module.made:
                if self.stops(module):
                    self.stopped.setdefault((path, name), module)
                elif (path, name) not in self.found:
                    self.found[path, name] = module, depth
                    waiting += [(it, depth + 1) for it in module.named(path, module.made[name])]
            elif module and name in module.names:
                waiting.append((module.names[name], depth))
        return self


def all_modules():
    """The files of definitions and of lemmas, by the path that names them."""
    return {".".join(("Rattle", path.parts[1], *path.parts[2:-1], path.stem)): Module(read(path), path)
            for folder in ("specs", "proofs") for path in below(folder, ".antt")}


def below_the_contracts(modules, stops=lambda module: False):
    """What the contracts of the program lead to."""
    walk = Below(modules, stops)
    return walk.go([it for _, clauses, start in contracts() for it in start.named("", clauses)])
