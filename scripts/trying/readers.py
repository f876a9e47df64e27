"""Tests of the scripts that read Rattle: definitions, contracts, edits, refusals and long lines.

    scripts/trial readers

Each reads a short text that stands here, and the whole tree once. The last line says how many tests
passed; the status is 0 where all did.
"""

import argparse
import pathlib
import re
import sys
import tempfile
import unittest

import definitions
import homonyms
import readmes
import references
import refusals
import renames
import wraps

SPECS = """-- Lines, as the test has them.
use Rattle.line_names.specs.Lines.{choice_at}

-- how many there are
abbrev pub count_of : List ℕ → ℕ
count_of [] = 0
count_of (_ ∷ rest) = suc (count_of rest)

pub record IsLong (items : List ℕ) : Type 0 where
  pub most : 3 < count_of items
"""
CODE = """//! A type and its calls.
ghost use Rattle.line_names.specs.Lines.{choice_at};

/// "A brace { in a docstring."
#[derive(Drop)]
pub struct Store {
    kept: Vec<u8>,
}

impl Store {
    /// Takes one more.
    pub fn add(&mut self, byte: u8) -> Result<(), AllocError>
        requires { length self.old < 9 }
        ensures kept { OnOk result (self.new ≡ self.old ++ byte ∷ []) }
        // As it was.
        ensures same { OnErr result
            (self.new ≡ self.old) }
    {
        self.kept.push(byte)
    }

    fn first(&self) -> u8 {
        "}"; self.kept[0]
    }
}

pub fn first_choice(line: &Line) -> Choice
    ensures { result ≡ choice_at line.now 0 }
{
    line.at(0)
}
"""
README = """# `store`

```text
fn Store::add(&mut self, byte: u8) -> Result<(), AllocError>
    ensures same { OnErr result (self.new ≡ self.old) }
```

| Promise | Contract | `must-fail/` | `further-edits/` |
|---|---|---|---|
| One more is kept | `Store::add`, clause `kept` | `loses_one` | `keeps_two`, `keeps_none` |
| It is a law | `law` | none: a law |  |
| It says nothing | `law` |  | `keeps_two` |

| Other | Table |
|---|---|
| `word` | `another` |
"""
ERRORS = """/// Why nothing is kept.
#[derive(Error)]
pub enum StoreError {
    /// Memory was refused.
    #[error("out of memory")]
    OutOfMemory = 0,

    /// It has no place.
    #[error("no place is left")]
    Full = 7,
}

impl StoreError {
    pub fn code(self) -> u32
        ensures { result ≡ number_of_error self }
    {
        self as u32
    }
}
"""


class Definitions(unittest.TestCase):
    """What definitions.py finds."""

    def test_definitions_of_a_file(self) -> None:
        with tempfile.TemporaryDirectory(prefix="recline-readers-") as folder:
            path = pathlib.Path(folder) / "Lines.antt"
            path.write_text(SPECS, encoding="utf-8")
            found = list(definitions.definitions_in("store", path))
        self.assertEqual([it.name for it in found],
                         [("store", "Lines", "count_of"), ("store", "Lines", "IsLong")])
        self.assertEqual([len(it.lines) for it in found], [3, 2])
        self.assertEqual(found[0].source, "-- Lines, as the test has them.")

    def test_imports(self) -> None:
        scope = definitions.imports(SPECS)
        self.assertEqual(scope, {"choice_at": ("line_names", "Lines", "choice_at")})
        scope = definitions.imports("use Rattle.line_names.specs.Lines as lines")
        self.assertEqual(scope["lines.choice_at"], ("line_names", "Lines", "choice_at"))

    def test_names_in_a_clause(self) -> None:
        scope = definitions.imports(CODE)
        name = ("line_names", "Lines", "choice_at")
        self.assertEqual(definitions.named("result ≡ choice_at line.now 0", scope), {name})
        self.assertEqual(definitions.named("(λ choice_at. choice_at ≡ 0)", scope), set())
        self.assertEqual(definitions.named("choice_at ≡ 0", scope, ["choice_at"]), set())

    def test_comments_and_strings_are_no_code(self) -> None:
        bare = definitions.without_words(CODE)
        self.assertNotIn("A brace", bare)
        self.assertNotIn('"}"', bare)

    def test_calls_and_their_clauses(self) -> None:
        text = definitions.without_words(CODE)
        free = list(definitions.calls_in(text, "", definitions.imports(text), False))
        self.assertEqual([(it.name, it.is_public) for it in free], [("first_choice", True)])
        self.assertEqual(len(free[0].clauses), 1)
        inside = next(it for before, it in definitions.blocks(text) if "impl Store" in before)
        calls = list(definitions.calls_in(inside, "Store", {}, False))
        self.assertEqual([(it.name, it.is_public, len(it.clauses)) for it in calls],
                         [("add", True, 3), ("first", False, 0)])

    def test_tree(self) -> None:
        names = definitions.definitions()
        self.assertIn(("line_tape", "Survival", "IsLatest"), names)
        reached = definitions.reached([("line_tape", "Survival", "IsLatest")])
        self.assertIn(("line_tape", "Survival", "IsLatest"), reached)
        self.assertLess(1, len(reached))


class Readmes(unittest.TestCase):
    """What readmes.py finds."""

    def test_edits_of_a_table(self) -> None:
        self.assertEqual(readmes.edits_named(README),
                         {"must-fail": {"loses_one"}, "further-edits": {"keeps_two", "keeps_none"}})

    def test_rows_say_why_they_have_no_edit(self) -> None:
        bare = [it[0] for it in readmes.rows(README) if not it[2]]
        self.assertEqual(bare, ["It says nothing"])

    def test_quotes(self) -> None:
        quoted = [it for block in readmes.BLOCK.findall(README) for it in readmes.quotes(block)]
        self.assertEqual([it.name for it in quoted], ["Store::add"])
        self.assertEqual(list(quoted[0].clauses), ["ensures same"])

    def test_a_quote_is_what_the_code_has(self) -> None:
        code = CODE.split("\n")
        at = next(k for k, line in enumerate(code) if "pub fn add" in line)
        real = readmes.parted("Store::add", readmes.lines_of(code, at, 4))
        self.assertEqual(list(real.clauses), ["requires", "ensures kept", "ensures same"])
        quoted = next(readmes.quotes(readmes.BLOCK.findall(README)[0]))
        self.assertEqual(readmes.squeezed(quoted.clauses["ensures same"]),
                         readmes.squeezed(real.clauses["ensures same"]))

    def test_what_a_crate_stands_on(self) -> None:
        self.assertEqual(readmes.faults_of_uses("line_words", "It stands on `clap`. More."), [])
        self.assertTrue(readmes.faults_of_uses("line_words", "It stands on `clap` and `csv`."))
        self.assertTrue(readmes.faults_of_uses("line_words", "Nothing is said."))

    def test_long_lines_are_broken(self) -> None:
        line = "    ensures { " + " × ".join(["(a ≡ b)"] * 20) + " }"
        parts = readmes.broken(line)
        self.assertLess(1, len(parts))
        self.assertTrue(all(len(it) <= readmes.WIDTH for it in parts))
        self.assertEqual(readmes.squeezed(parts), readmes.squeezed([line]))


class References(unittest.TestCase):
    """What references.py finds."""

    def test_a_type(self) -> None:
        code = CODE.split("\n")
        at = code.index("pub struct Store {")
        self.assertEqual(references.item_at(code, at), (
            "Store", references.Item("struct", "struct Store", '"A brace { in a docstring."', [])))
        self.assertIsNone(references.item_at(code, at + 1))

    def test_methods(self) -> None:
        code = CODE.split("\n")
        found = references.methods_at(code, code.index("impl Store {"))
        self.assertEqual(found, [references.Item(
            "call", "fn add(&mut self, byte: u8) -> Result<(), AllocError>",
            "Takes one more. Has a `requires`.", [])])

    def test_variants(self) -> None:
        code = ERRORS.split("\n")
        found = references.item_at(code, code.index("pub enum StoreError {"))
        said = [(it.signature, it.said) for it in found[1].parts] if found else []
        self.assertEqual(said, [("OutOfMemory = 0", "Memory was refused."),
                                ("Full = 7", "It has no place.")])

    def test_signatures(self) -> None:
        lines = ["pub fn gather(", "    mut posts: Vec<Post>, // all", "    n: u32,", ") -> u32"]
        self.assertEqual(references.flat(lines), "fn gather(posts: Vec<Post>, n: u32) -> u32")

    def test_tree(self) -> None:
        names = [it.name for it in references.modules()]
        self.assertEqual(names[0], "")
        self.assertLessEqual({"plan", "check", "world", "text", "workers", "service"}, set(names))
        self.assertIn("**`struct Catalogue`** ", references.page())


class Others(unittest.TestCase):
    """What refusals.py, homonyms.py, renames.py and wraps.py find."""

    def test_refusals_of_an_error(self) -> None:
        (error, body), = refusals.ENUM.findall(ERRORS)
        found = list(refusals.refusals_of(error, body, ERRORS))
        self.assertEqual([(it.number, it.name, it.sentence) for it in found],
                         [(0, "OutOfMemory", "out of memory"), (7, "Full", "no place is left")])

    def test_types_of_a_text(self) -> None:
        self.assertEqual(homonyms.TYPE.findall(CODE), ["Store"])
        self.assertEqual(homonyms.TYPE.findall(ERRORS), ["StoreError"])

    def test_bound_names_stand_for_nothing(self) -> None:
        tokens = renames.tokens_of("f (λ count. count + 1) count -- count")
        hidden = renames.hidden_in(tokens, "count", False, False)
        kept = [k for k, it in enumerate(tokens) if it.text == "count" and k not in hidden]
        self.assertEqual([tokens[k].at for k in kept], [23])

    def test_long_imports_are_parted(self) -> None:
        names = [f"definition_number_{k}" for k in range(9)]
        line = f"ghost use Rattle.store.specs.Lines.{{{', '.join(names)}}};"
        parts = wraps.split_uses(line).split("\n")
        self.assertTrue(all(len(it) <= wraps.WIDTH for it in parts))
        found = [it for part in parts for it in re.findall(r"definition_number_\d", part)]
        self.assertEqual(found, names)

    def test_long_lines_are_wrapped(self) -> None:
        line = "IsLong items = " + " × ".join(["(count_of items ≡ 3)"] * 9)
        parts = wraps.wrapped(line, 4)
        self.assertTrue(all(len(it) <= wraps.WIDTH for it in parts))
        self.assertEqual(" ".join(it.strip() for it in parts), line)


class Limits(unittest.TestCase):
    """The limits that clauses cite by their names, with the numbers written out."""

    def test_limits(self) -> None:
        wanted = {
            "MOST_PROCESSES": 256, "MOST_BODY": 64, "MOST_STATE": 4096, "MOST_EVENTS": 1_000_000,
            "LAST_INCARNATION": 65_535, "LAST_ROUND": 65_535, "LAST_NUMBER": 4_294_967_295,
            "MOST_WORKERS": 64, "MOST_DRILL_WORKERS": 64, "MOST_CAPACITY": 1_024,
            "MOST_INPUT": 67_108_864, "MOST_LINE": 65_536, "MOST_IN_FIRST_VERSION": 64,
        }
        found = refusals.constants()
        self.assertEqual({name: int(found[name]) for name in wanted}, wanted)

    def test_pieces(self) -> None:
        writers = definitions.ROOT / "crates" / "line_fields" / "src" / "writers.rt"
        self.assertIn("const ROOM: usize = 65_536;", writers.read_text(encoding="utf-8"))


def add_words(_words: argparse.ArgumentParser) -> None:
    """Adds no words: this job takes none."""


def run(_asked: argparse.Namespace) -> int:
    """Runs all tests, and answers the status."""
    found = unittest.defaultTestLoader.loadTestsFromModule(sys.modules[__name__])
    done = unittest.TextTestRunner(stream=sys.stderr, verbosity=0).run(found)
    failed = len(done.failures) + len(done.errors)
    print(f"tests of readers: {done.testsRun - failed} of {done.testsRun} passed")
    return 0 if done.wasSuccessful() else 1
