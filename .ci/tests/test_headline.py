"""headline.py: what the page of the top contract holds, and in which order, in small repositories."""
import io
import os
import sys
import tempfile
import unittest
from contextlib import redirect_stdout
from pathlib import Path
from unittest import mock

sys.path.insert(0, str(Path(__file__).resolve().parent.parent))
import headline  # once its directory is known

FILES = {
    "crates.txt": "# low\nvms_low: std\n# high\nvms_tool: vms_low\n",
    "crates/vms_tool/src/commands.rt": """\
ghost use Rattle.vms_tool.specs.Answers.{Answers};

/// Not the headline.
fn other() {}

/// Runs the program.
pub fn run_program<S>(src: &mut S) -> u8
    ensures { Answers src.old result }
{
    tool(src)
}

/// Does what the words say.
pub fn tool<S>(src: &mut S) -> u8
    ensures answers { Answers src.old
        result }
{
    0
}
""",
    "crates/vms_tool/specs/Answers.antt": """\
-- What the statuses say.
use Rattle.std.specs.Prelude.{ℕ}
use Rattle.vms_low.specs.Common.{most}
use Rattle.vms_low.specs.declared.kinds.Kind.TheVariants.{Plain}

-- what nobody names
abbrev pub unread : ℕ
unread = 7

-- what a status says
pub record Answers (s status : ℕ) : Type 0 where
  -- the limit
  pub within : Below Plain s
  pub below : status ≡ most

abbrev pub Below : Kind → ℕ → Type 0
Below kind s = Unit {0}
""",
    "crates/vms_low/specs/Common.antt": "pub use Rattle.vms_low.specs.Limits.{most}\n",
    "crates/vms_low/specs/Limits.antt": """\
use Rattle.std.specs.Prelude.{ℕ}

-- about the numbers
module _ (n : ℕ)
    (m : ℕ) where
  abbrev pub least : ℕ
  least = n

  -- the most
  abbrev pub most : ℕ
  most = least
""",
    "crates/vms_low/src/kinds.rt": """\
/// A kind.
#[derive(Clone, Copy)]
pub enum Kind {
    Plain,
}

pub enum Kinds {
    Many,
}
""",
}
LEAVES = [("No numbers", "Nothing is here.", "vms_none/"), ("The limits", "What numbers may be.", "vms_low/Limits")]
BODY = """\
## The contracts

```rust
/// Runs the program.
pub fn run_program<S>(src: &mut S) -> u8
    ensures { Answers src.old result }

/// Does what the words say.
pub fn tool<S>(src: &mut S) -> u8
    ensures answers { Answers src.old
        result }
```

## The top layer

It ends at these subjects:

- [The limits](#appendix-the-limits): What numbers may be. By `most`.

### `vms_tool/specs/Answers.antt`

```antt
-- what a status says
pub record Answers (s status : ℕ) : Type 0 where
  -- the limit
  pub within : Below Plain s
  pub below : status ≡ most

abbrev pub Below : Kind → ℕ → Type 0
Below kind s = Unit {0}
```

### Types of the code of `vms_low`

```rust
/// A kind.
#[derive(Clone, Copy)]
pub enum Kind {
    Plain,
}
```

## Appendix: The limits

What numbers may be.

### `vms_low/specs/Limits.antt`

```antt
-- about the numbers
module _ (n : ℕ)
    (m : ℕ) where
  -- the most
  abbrev pub most : ℕ
  most = least

  abbrev pub least : ℕ
  least = n
```
"""


class HeadlineTest(unittest.TestCase):
    def setUp(self):
        folder = tempfile.TemporaryDirectory()
        self.addCleanup(folder.cleanup)
        self.addCleanup(os.chdir, os.getcwd())
        self.top = Path(folder.name)
        for name, text in {**FILES, "docs/other.md": ""}.items():
            self.file(name, text)

    def file(self, name, text):
        path = self.top / name
        path.parent.mkdir(parents=True, exist_ok=True)
        path.write_text(text, encoding="utf-8")

    def call(self, *words):
        """The status and what was said."""
        said = io.StringIO()
        with (mock.patch("sys.argv", ["headline.py", *words]), redirect_stdout(said),
              mock.patch.object(headline, "__file__", str(self.top / ".ci" / "headline.py")),
              mock.patch.object(headline, "LEAVES", LEAVES)):
            return headline.main(), said.getvalue()

    def page(self):
        return (self.top / "docs/HEADLINE.md").read_text(encoding="utf-8")

    def test_page(self):
        self.assertEqual(self.call(), (0, ""))
        self.assertEqual(self.page(), headline.OPENING + "\n" + BODY)
        self.assertEqual(self.call("--check"), (0, ""))

    def test_stale_pages(self):
        self.assertEqual(self.call("--check")[0], 1, "a page that isn't there")
        self.call()
        self.file("crates/vms_low/src/kinds.rt", FILES["crates/vms_low/src/kinds.rt"].replace("    Plain,", "    Other,"))
        status, said = self.call("--check")
        self.assertEqual((status, "'    Other,' is to stand there" in said), (1, True), said)
        self.call()
        self.assertEqual(self.call("--check"), (0, ""))

    def test_what_no_leaf_has_stands_in_the_first_that_leads_to_it(self):
        self.file("crates/vms_low/specs/Limits.antt",
                  FILES["crates/vms_low/specs/Limits.antt"].replace("use Rattle.std", "use Rattle.vms_low.specs.Least.{first}\n"
                                                                    "use Rattle.std").replace("least = n", "least = first"))
        self.file("crates/vms_low/specs/Least.antt", "-- the first number\nabbrev pub first : ℕ\nfirst = 0\n")
        self.assertEqual(self.call(), (0, ""))
        before, _, appendix = self.page().partition("## Appendix: The limits\n")
        self.assertNotIn("the first number", before)
        self.assertIn("### `vms_low/specs/Least.antt`\n\n```antt\n-- the first number\n", appendix)

    def test_a_large_top_layer(self):
        with mock.patch.object(headline, "MOST_DEFINITIONS", 1):
            self.assertEqual(self.call(), (1, "the top layer has 2 definitions and 5 lines, where 1 and 1600 are the most\n"))
        with mock.patch.object(headline, "MOST_LINES", 4):
            self.assertEqual(self.call()[0], 1)

    def test_wide_lines(self):
        words = "word " * 30
        specs = FILES["crates/vms_tool/specs/Answers.antt"]
        self.file("crates/vms_tool/specs/Answers.antt", specs.replace("-- what a status says", f"-- {words}end"))
        self.assertEqual(self.call(), (0, ""))
        self.assertIn(f"-- {('word ' * 23).rstrip()}\n-- {'word ' * 7}end\n", self.page())
        self.file("crates/vms_tool/specs/Answers.antt", specs.replace("Unit {0}", "Unit " * 30))
        self.assertEqual(self.call(), (0, ""))
        self.assertRegex(self.page(), r" Unit\n    (Unit )+Unit")
        self.file("crates/vms_tool/specs/Answers.antt", specs.replace("Unit {0}", "U" * 130))
        self.assertEqual(self.call()[0], 1)


if __name__ == "__main__":
    unittest.main()
