"""How the tests call a tool: with words, files and standard input, as its user does."""
import importlib
import io
import os
import sys
import tempfile
import unittest
from contextlib import redirect_stderr, redirect_stdout
from pathlib import Path
from unittest import mock

TOOLS = Path(__file__).resolve().parent.parent
SAMPLES = TOOLS / "samples"
sys.path.insert(0, str(TOOLS))

import vmtrace  # once its directory is known


class ToolTest(unittest.TestCase):
    """Calls of one tool, in a directory of their own."""

    tool = ""

    def setUp(self):
        directory = tempfile.TemporaryDirectory()
        self.addCleanup(directory.cleanup)
        self.addCleanup(os.chdir, os.getcwd())
        os.chdir(directory.name)

    def file(self, name, text):
        Path(name).write_bytes(text.encode())
        return name

    def call(self, *words, stdin="", **settings):
        """The status, the standard output and the standard error of a call."""
        main = importlib.import_module(self.tool).main
        output, errors = io.TextIOWrapper(io.BytesIO()), io.StringIO()
        with (mock.patch("sys.argv", [f"{self.tool}.py", *map(str, words)]),
              mock.patch("sys.stdin", io.TextIOWrapper(io.BytesIO(stdin.encode()))),
              redirect_stdout(output), redirect_stderr(errors),
              self.assertRaises(SystemExit) as end):
            vmtrace.run(lambda arguments: main(arguments, **settings))
        output.flush()
        return end.exception.code, output.buffer.getvalue().decode(), errors.getvalue()

    def fails(self, message, *words, status=1, **settings):
        """The call writes this message and nothing else, and ends with this status."""
        found, output, errors = self.call(*words, **settings)
        self.assertEqual((found, output), (status, ""), errors)
        self.assertIn(message, errors)

    def tells_help(self):
        status, output, _ = self.call("--help")
        self.assertEqual(status, 0)
        self.assertIn(f"usage: {self.tool}.py", output)
