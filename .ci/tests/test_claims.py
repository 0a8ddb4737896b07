"""claims.py and from_crates.py: what they refuse, in a small repository."""
import contextlib
import io
import os
import sys
import tempfile
import unittest
from pathlib import Path

sys.path.insert(0, str(Path(__file__).resolve().parent.parent))
import claims  # once its directory is known
import from_crates

BEGIN, END = from_crates.BEGIN, from_crates.END
PROMISES = """# vms_low

What stands below.

Change here: how small a number
is; what `mod` does.

## Promises

- A number is small, and one that is stored by `Row::set` stays so.
  By `small` (`value`), `Row::get`, `Row::set` (`kept`, `full`);
  `specs/Numbers.antt` (`IsSmall`), `least` of `specs/Numbers.antt`.

## For callers

From `crates/vms_low/src/numbers.rt`:

```rust
pub fn small() -> u8
...
    7
```
"""
FILES = {
    "crates.txt": "# low: numbers\nvms_low: itoa\n",
    "docs/FORMATS.md": "A line `mod PLACE` changes.\n",
    "docs/MAP.md": f"# Crates\n\n{BEGIN}\n{END}\n",
    "docs/PROVED.md": f"""\
# Proved

> Every number is small,
> and `7 > 6`.

That is of `vms_low/specs/Numbers.antt`: `vms_low::small` (`value`), `vms_low::Row::set` (`kept`, `full`). One that is
mentioned is `set` of `vms_low`.

{BEGIN}
{END}
""",
    "crates/vms_low/README.md": PROMISES,
    "crates/vms_low/src/numbers.rt": """\
pub fn small() -> u8
    ensures value { IsSmall result }
{
    7
}

pub fn kept() -> bool
{
    true
}

impl Row {
    pub fn get(&self) -> u8
        ensures { result ≡ self.now }
    {
        self.number
    }

    pub fn set(&mut self, number: u8)
        ensures kept { self.new ≡ number }
        ensures full { IsFull self.new }
    {
        filled(self, || -> u8
            ensures closed { result ≡ number }
        { number })
    }
}
""",
    "crates/vms_low/specs/Numbers.antt": """\
-- every definition of numbers. Every number
-- is small, and `7 > 6`.
abbrev pub IsSmall : ℕ → Type 0
IsSmall n = n ≤ 7

pub record Least (n : ℕ) : Type 0 where
  pub least : n ≡ 0
""",
}
README = "crates/vms_low/README.md"


class Refusals(unittest.TestCase):
    def setUp(self):
        room = tempfile.TemporaryDirectory()
        self.addCleanup(room.cleanup)
        self.addCleanup(os.chdir, os.getcwd())
        os.chdir(room.name)
        for name, text in FILES.items():
            Path(name).parent.mkdir(parents=True, exist_ok=True)
            Path(name).write_text(text, encoding="utf-8")

    def said(self, call, *words):
        for known in (claims.libraries, claims.functions_of, claims.made_by, claims.format_words):
            known.cache_clear()
        with contextlib.redirect_stdout(io.StringIO()) as out:
            status = call(list(words))
        return status, out.getvalue()

    def refuses(self, old, new, said, document=README):
        text = FILES[document]
        self.assertEqual(text.count(old), 1)
        Path(document).write_text(text.replace(old, new), encoding="utf-8")
        status, out = self.said(claims.main, document)
        self.assertEqual((status, said in out), (1, True), out)

    def test_names_that_are_there(self):
        status, out = self.said(claims.main, README, "docs/PROVED.md")
        self.assertEqual(status, 0, out)

    def test_functions_and_clauses(self):
        self.refuses("`small` (`value`)", "`tiny` (`value`)", "tiny: no such function")
        self.refuses("`small` (`value`)", "`small` (`bound`)", "small: no clause bound")
        self.refuses("`Row::get`", "`Row::put`", "Row::put: no such function")
        self.refuses("`vms_low::small`", "`vms_low::tiny`", "vms_low::tiny: no such function", "docs/PROVED.md")
        self.refuses("(`kept`, `full`);", "(`kept`, `closed`);", "Row::set: no clause closed")

    def test_citations_name_one_of_several_clauses(self):
        which = "which of its clauses: full, kept"
        self.refuses("`Row::set` (`kept`, `full`)", "`Row::set`", f"{README}: Row::set: {which}")
        self.refuses("`vms_low::Row::set` (`kept`, `full`)", "`vms_low::Row::set`", f"vms_low::Row::set: {which}",
                     "docs/PROVED.md")

    def test_functions_with_one_clause_stand_alone(self):
        Path(README).write_text(PROMISES.replace("`small` (`value`)", "`small`"), encoding="utf-8")
        self.assertEqual(self.said(claims.main, README)[0], 0)

    def test_quotations(self):
        proved = "docs/PROVED.md"
        stray = "a mark is missing or stray in the quotation"
        self.refuses("> and `7 > 6`.", "and `7 > 6`.", stray, proved)
        self.refuses("> Every number is", "> Every > number is", stray, proved)
        self.refuses("> Every number is small", "> Every number is large",
                     "no comment of crates/vms_low/specs/Numbers.antt has the words Every number is large", proved)
        self.refuses("That is of `vms_low/specs/Numbers.antt`:", "So say",
                     "no comment of a file that stands below it has the words Every number", proved)

    def test_definitions_and_files(self):
        self.refuses("(`IsSmall`)", "(`IsTiny`)", "specs/Numbers.antt: defines no IsTiny")
        self.refuses("`specs/Numbers.antt` (`IsSmall`)", "`specs/Words.antt` (`IsSmall`)", "Words.antt: no such file")

    def test_folders_of_edits(self):
        Path("edits/vms_low").mkdir(parents=True)
        told = "What stands below. The edits of `edits/vms_low/` are refused."
        Path(README).write_text(PROMISES.replace("What stands below.", told), encoding="utf-8")
        self.assertEqual(self.said(claims.main, README)[0], 0)
        self.refuses("What stands below.", told.replace("vms_low", "vms_mid"), "edits/vms_mid/: no such file")
        self.refuses("What stands below.", told.replace("edits/vms_low", "must-fail"), "must-fail/: no such file")

    def test_names_of_a_home(self):
        named = "`least` of `specs/Numbers.antt`"
        self.refuses(named, "`most` of `specs/Numbers.antt`", "specs/Numbers.antt: defines no most")
        self.refuses(named, "`least` of `specs/Words.antt`", "specs/Words.antt: no such file")
        self.refuses(named, "`most` of `Numbers.antt`", "Numbers.antt: defines no most")
        self.refuses("`set` of `vms_low`", "`most` of `vms_low`", "vms_low: defines no most", "docs/PROVED.md")

    def test_single_words(self):
        self.refuses("What stands below.", "What `medium` is.", "medium: the crate defines no such name")
        known = PROMISES.replace("What stands below.", "What `mod`, `itoa` and `IsSmall` are.")
        Path(README).write_text(known, encoding="utf-8")
        self.assertEqual(self.said(claims.main, README)[0], 0)

    def test_excerpts(self):
        self.refuses("    7\n```", "    8\n```", "an example isn't an excerpt of crates/vms_low/src/numbers.rt: 8")
        guide = Path("docs/GUIDE.md")
        shown = "From `crates/vms_low/specs/Numbers.antt`:\n\n```antt\nIsSmall n = n ≤ 7\n```\n"
        guide.write_text(shown, encoding="utf-8")
        self.assertEqual(self.said(claims.main, str(guide))[0], 0)
        guide.write_text(shown.replace("≤ 7", "≤ 8"), encoding="utf-8")
        self.assertIn("an example isn't an excerpt of crates/vms_low/specs/Numbers.antt: IsSmall n = n ≤ 8",
                      self.said(claims.main, str(guide))[1])

    def test_links(self):
        guide = Path("docs/GUIDE.md")
        rows = [("MAP.md", 0), ("MAP.md#crates", 0), ("../crates/vms_low/README.md#for-callers", 0),
                ("#a-free-page", 0), ("https://kernel.org/#x", 0), ("ROWS.md", 1), ("MAP.md#rows", 1),
                ("#in-a-block", 1)]
        for link, status in rows:
            text = f"## A `free` page\n\n```\n# in a block\n```\n\n[Here]({link}) is `least` of `vms_low`.\n"
            guide.write_text(text, encoding="utf-8")
            self.assertEqual(self.said(claims.main, str(guide))[0], status, link)

    def test_made_parts(self):
        self.assertEqual(self.said(from_crates.main, "--check")[0], 1)
        self.assertEqual(self.said(from_crates.main)[0], 0)
        self.assertEqual(self.said(from_crates.main, "--check")[0], 0)
        link = "[`vms_low`](../crates/vms_low/README.md)"
        made = Path("docs/MAP.md").read_text(encoding="utf-8")
        self.assertIn(f"{link}: What stands below.", made)
        self.assertIn(f"| how small a number is | {link} |\n| what `mod` does | {link} |\n", made)
        self.assertIn(f"{link}: `Row::get`, `Row::set`, `small`.", Path("docs/PROVED.md").read_text(encoding="utf-8"))
        Path(README).write_text(PROMISES.replace("What stands below.", "What stands at the bottom."), encoding="utf-8")
        status, out = self.said(from_crates.main, "--check")
        self.assertEqual((status, "docs/MAP.md is stale" in out), (1, True), out)

    def test_readmes_that_lack_something(self):
        Path(README).write_text(PROMISES.replace("## Promises", "## Tested"), encoding="utf-8")
        self.assertIn("it promises nothing", self.said(from_crates.main, "--check")[1])
        Path(README).write_text(PROMISES.replace("Change here:", "See:"), encoding="utf-8")
        self.assertIn("it doesn't say what is changed here", self.said(from_crates.main, "--check")[1])
        Path(README).unlink()
        self.assertIn("wanted are a line `# vms_low` and a paragraph", self.said(from_crates.main, "--check")[1])


if __name__ == "__main__":
    unittest.main()
