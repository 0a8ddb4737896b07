"""Which pythons take the tools: 3.8 and later. An older one shows one line, of the monitor's one file python 2 too."""
import ast
import glob
import os
import shutil
import subprocess
import sys
import unittest

from calls import SAMPLES, TOOLS, ToolTest, vmtrace

import interrupts  # once the directory of the tools is known

NAMES = [path.stem for path in sorted(TOOLS.glob("*.py"))]
CALLED = [name for name in NAMES if os.access(TOOLS / f"{name}.py", os.X_OK)]
# What came after python 3.8, by where its name stands.
LATER = {
    ast.Attribute: {"removeprefix", "removesuffix", "bit_count", "is_relative_to", "with_stem", "hardlink_to",
                    "pairwise", "batched", "unparse", "lcm", "cache", "to_thread", "TaskGroup", "add_note", "aclosing", "chdir"},
    ast.ImportFrom: {"pairwise", "batched", "cache", "chdir", "aclosing", "StrEnum", "KW_ONLY", "Annotated",
                     "TypeAlias", "Self", "override"},
    ast.Import: {"tomllib", "graphlib"},
    ast.keyword: {"strict", "slots", "kw_only", "root_dir", "exit_on_error", "weakref_slot"},
    ast.Name: {"aiter", "anext", "ExceptionGroup", "BaseExceptionGroup", "EncodingWarning"},
}
GENERIC = {"list", "dict", "tuple", "set", "frozenset", "type", "Tally", "Path"}
READS = ["--zoneinfo", str(SAMPLES / "zoneinfo"), "--vmstat", str(SAMPLES / "vmstat.before"), "--page-size", "4096"]


def named(node):
    """The names of a node that may be of a later python."""
    if isinstance(node, (ast.Import, ast.ImportFrom)):
        return {part for alias in node.names for part in alias.name.split(".")}
    return {getattr(node, {ast.Attribute: "attr", ast.keyword: "arg", ast.Name: "id"}[type(node)])}


def annotations_of(node):
    return [found for found in (getattr(node, "annotation", None), getattr(node, "returns", None)) if found]


def later_features(text):
    """What in a text needs a python after 3.8, beyond its syntax: names, and types that aren't types there."""
    tree = ast.parse(text, feature_version=interrupts.OLDEST)
    lazy = any(isinstance(node, ast.ImportFrom) and node.module == "__future__" for node in tree.body)
    unread = {inner for node in ast.walk(tree) if lazy for found in annotations_of(node) for inner in ast.walk(found)}
    read = {inner for node in ast.walk(tree) for found in annotations_of(node) for inner in ast.walk(found)}
    for node in ast.walk(tree):
        if node in unread:
            continue
        if type(node) in LATER and named(node) & LATER[type(node)]:
            yield f"{node.lineno if hasattr(node, 'lineno') else 0}: {named(node)}"
        if isinstance(node, ast.Subscript) and isinstance(node.value, ast.Name) and node.value.id in GENERIC:
            yield f"{node.lineno}: {node.value.id}[..]"
        if isinstance(node, ast.BinOp) and isinstance(node.op, ast.BitOr) and node in read:
            yield f"{node.lineno}: a type with |"
        if isinstance(node, ast.withitem) and isinstance(node.context_expr, ast.Tuple):
            yield f"{node.context_expr.lineno}: a with of several in parentheses"


def pythons():
    """Pythons on the path or of pyenv, by version: those up to the oldest that the tools need, and the latest."""
    names = ["python2", "python2.7", *(f"python3.{minor}" for minor in range(4, 20))]
    root = os.environ.get("PYENV_ROOT", os.path.expanduser("~/.pyenv"))
    found = {}
    for path in [*filter(None, map(shutil.which, names)), *sorted(glob.glob(f"{root}/versions/*/bin/python"))]:
        said = subprocess.run([path, "-c", "import sys; print('%d %d' % sys.version_info[:2])"], capture_output=True,
                              text=True, check=False)
        if said.returncode == 0:
            found.setdefault(tuple(map(int, said.stdout.split())), path)
    return {version: path for version, path in found.items() if version <= interrupts.OLDEST or version == max(found)}


class PythonTest(unittest.TestCase):
    def text(self, name):
        return (TOOLS / f"{name}.py").read_text(encoding="utf-8")

    def test_nothing_is_of_a_later_python(self):
        for name in NAMES:
            self.assertEqual(list(later_features(self.text(name))), [], name)

    def test_what_is_of_a_later_python(self):
        rows = ["'a'.removeprefix('b')", "zip([], [], strict=True)", "from itertools import pairwise", "import tomllib",
                "x: list[int] = []", "def f(x: 'int', y: int | None): pass", "def f() -> dict[int, int]: pass",
                "x = list[int]", "from dataclasses import dataclass\n@dataclass(slots=True)\nclass A: pass"]
        for text in rows:
            self.assertNotEqual(list(later_features(text)), [], text)
        for text in ["from __future__ import annotations\nx: list[int] | None = []", "x: 'list[int] | None' = []",
                     "x = 4 | 3", "x = y[0]"]:
            self.assertEqual(list(later_features(text)), [], text)
        for text in ["match 4:\n    case _: pass", "try: pass\nexcept* OSError: pass"]:
            with self.assertRaises(SyntaxError):
                list(later_features(text))

    def test_what_runs_before_the_version_is_known(self):
        """Python 3.6 reads it, and the first import of each tool is the one that says so."""
        for name in [*CALLED, "interrupts"]:
            tree = ast.parse(self.text(name), feature_version=(3, 6))
            imports = [node for node in tree.body if isinstance(node, (ast.Import, ast.ImportFrom))]
            self.assertEqual(ast.dump(imports[0]), ast.dump(ast.parse(
                "import os" if name == "interrupts" else "import interrupts").body[0]), name)
        with self.assertRaises(SyntaxError):
            ast.parse("if x := 4: pass", feature_version=(3, 6))

    def test_each_python_here(self):
        for version, path in pythons().items():
            for name in CALLED if version >= (3, 6) else ():
                with self.subTest((version, name)):
                    ended = subprocess.run([path, "-B", TOOLS / f"{name}.py", "--help"], capture_output=True, text=True,
                                           check=False)
                    if version < interrupts.OLDEST:
                        said = "{}: needs python 3.8 or later, and this is {}.{}\n".format(name, *version)
                        self.assertEqual((ended.returncode, ended.stdout, ended.stderr), (1, "", said))
                    else:
                        self.assertEqual((ended.returncode, ended.stderr), (0, ""))


class OneFileTest(ToolTest):
    tool = "make_monitor"

    def setUp(self):
        super().setUp()
        status, self.made, errors = self.call()
        self.assertEqual((status, errors), (0, ""))
        os.mkdir("empty")
        os.chdir("empty")
        self.file("../vozhkell-monitor.py", self.made)

    def run_it(self, *words, python=(sys.executable, "-I", "-B", "-S"), **settings):
        """What the one file says in an empty folder, where nothing is imported from the reader's folders."""
        ended = subprocess.run([*python, "../vozhkell-monitor.py", *words], capture_output=True, text=True, check=False,
                               **settings)
        self.assertEqual(os.listdir(), [])
        return ended.returncode, ended.stdout, ended.stderr

    def test_help(self):
        self.tells_help()

    def test_it_says_what_the_monitor_says(self):
        for words in ([], ["--all", "--json"], ["--all", "--prometheus"], ["--strict", "--item", "nr_dirty"],
                      ["--openmetrics"]):
            with self.subTest(words):
                words = [*READS, *words]
                ended = subprocess.run([sys.executable, "-B", TOOLS / "monitor.py", *words], capture_output=True,
                                       text=True, check=True)
                self.assertEqual(self.run_it(*words), (0, ended.stdout, ""))

    def test_its_messages(self):
        self.assertEqual(self.run_it("--zoneinfo", "nowhere"),
                         (1, "", "vozhkell-monitor: nowhere: No such file or directory\n"))
        status, output, errors = self.run_it("--nothing")
        self.assertEqual((status, output), (2, ""))
        self.assertTrue(errors.startswith("usage: vozhkell-monitor.py "), errors)
        self.assertIn("usage: vozhkell-monitor.py ", self.run_it("--help")[1])

    def test_from_standard_input(self):
        """As of a machine that is asked by ssh."""
        words = [sys.executable, "-I", "-B", "-S", "-", *READS]
        ended = subprocess.run(words, input=self.made, capture_output=True, text=True, check=False)
        self.assertEqual((ended.returncode, ended.stderr), (0, ""))
        self.assertEqual(ended.stdout, self.run_it(*READS)[1])

    def test_a_text_that_can_not_stand_in_it(self):
        whole = vmtrace.text_of
        for wrong in ("'''", "\u00e9"):
            with unittest.mock.patch("vmtrace.text_of", lambda name: whole(name) + wrong):
                self.fails("make_monitor: monitor.py: has a letter that isn't ASCII, or three apostrophes")

    def test_each_old_python_reads_it(self):
        """Its outermost text has nothing that python 2.7 lacks, but what stands in texts."""
        self.assertTrue(self.made.isascii())
        tree = ast.parse(self.made, feature_version=(3, 4))
        late = (ast.JoinedStr, ast.AnnAssign, ast.NamedExpr, ast.AsyncFunctionDef, ast.Starred, ast.Nonlocal)
        self.assertEqual([node.lineno for node in ast.walk(tree) if isinstance(node, late)], [])
        self.assertEqual([type(node).__name__ for node in tree.body[:3]], ["Import", "Import", "If"])

    def test_each_python_here(self):
        _, output, _ = self.run_it(*READS)
        for version, path in pythons().items():
            with self.subTest(version):
                python = (path, "-B", "-S") if version < (3, 4) else (path, "-I", "-B", "-S")
                said = "vozhkell-monitor: needs python 3.8 or later, and this is {}.{}\n".format(*version)
                self.assertEqual(self.run_it(*READS, python=python),
                                 (1, "", said) if version < interrupts.OLDEST else (0, output, ""))


if __name__ == "__main__":
    unittest.main()
