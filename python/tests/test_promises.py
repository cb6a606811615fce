"""The list of promises: that docs/promises.txt is what the crates promise, and that a hash changes if and only if a promise does."""

from __future__ import annotations

import re
import shutil
import tempfile
import unittest
from collections.abc import Mapping
from contextlib import redirect_stderr, redirect_stdout
from io import StringIO
from pathlib import Path

from corpus import TOP, text_at
from promises.listing import LIST, Listing, main
from promises.scanning import Unreadable
from promises.tree import Tree

CRATES = Path(TOP, "crates")

FILES = {
    "crates.txt": "base:\n# the top\ntop: base\n",
    "crates/base/specs/Lib.antt": "pub mod Limits\npub mod Files\npub mod Values\n",
    "crates/base/specs/Limits.antt": """\
-- Limits.
use Rattle.std.specs.Prelude.{ℕ, ◌+◌}

abbrev pub least : ℕ
least = 12

abbrev pub most : ℕ
most = least + 1
""",
    "crates/base/specs/Files.antt": """\
-- Files.
use Rattle.std.specs.Prelude.{◌≡◌, ◌≤◌, ℕ, List, [], ◌∷◌, length, Option, None, Some, elim_option}
use Rattle.base.specs.Limits.{most}

-- few bytes
abbrev pub IsShort : List ℕ → Type 0
IsShort bytes = length bytes ≤ most

abbrev pub Grows : {T : Type 0} → ℕ → ℕ → Type 0
Grows before now = (n : ℕ) × (before ≤ n) × (λ m. m ≤ now) n

abbrev pub first_of : List ℕ → Option ℕ
first_of [] = None
first_of (x ∷ xs) = Some x

infixl 10 ◌>>=◌
abbrev pub ◌>>=◌ : Option ℕ → (ℕ → Option ℕ) → Option ℕ
o >>= f = elim o [ None ↦ None | Some x ↦ f x ]

pub both : List ℕ → Option ℕ
both xs = do
  x ← first_of xs
  y ← first_of xs
  Some y
""",
    "crates/base/specs/Values.antt": """\
-- A value.
use Rattle.std.specs.Prelude.{◌≡◌, ◌<◌, ℕ, List, length}
use Rattle.base.specs.declared.TheConstants.{MAX}

pub record Plain : Type 0 where
  pub number : ℕ
  pub texts : List ℕ

pub data Tree : Type 0 where
  leaf : ℕ → Tree
  node : Tree → Tree → Tree

abbrev pub size : Tree → ℕ
size (leaf n) = n
size (node left right) = size right

abbrev mutual
  pub Even : Tree → Type 0
  Even (leaf n) = n ≡ 0
  Even (node left right) = Odd left

  pub Odd : Tree → Type 0
  Odd (leaf n) = n ≡ 1
  Odd (node left right) = Even right

abbrev pub IsPlain : Plain → Type 0
IsPlain p = p.number < MAX
""",
    "crates/base/src/lib.rt": """\
//! Inputs.
#![tactic(auto)]
ghost use Rattle.std.specs.Prelude.{◌≡◌, ◌≤◌, ℕ, List};
ghost use Rattle.base.specs.Files.{Grows};
ghost use Rattle.base.specs.Files as files;

use std::marker::Model;

pub const LEAST: u32 = 6;
pub const MAX: u32 = LEAST + 1;

/// Inputs by name.
pub trait Inputs {
    /// How many faults there were.
    ghost faults: { Self → ℕ };

    fn read(&mut self, into: &mut [u8]) -> usize
        ensures grows { Grows (faults self.old) (faults self.new) }
        ensures all { result ≤ 8 };
}

pub struct Value {
    number: u32,
    texts: Vec<u8>,
}

impl Model for Value {
    ghost use Rattle.base.specs.Values.{Plain, IsPlain};

    ghost Value = { Plain };

    ghost view = { λ v. record { number = v.number; texts = v.texts.items } };

    ghost invariant = { λ v. IsPlain (record { number = v.number; texts = v.texts.items }) };
}

pub struct Memory;

impl Inputs for Memory {
    ghost faults = { λ _. 0 };

    fn read(&mut self, into: &mut [u8]) -> usize {
        0
    }
}

impl Value {
    /// The most.
    pub const N: u32 = 4;

    /// The number.
    pub fn number(&self, other: u32) -> u32
        requires { other ≤ self.now.number }
        ensures { result ≡ self.now.number }
    {
        self.number
    }
}

/// A private one.
fn hidden(a: u32) -> u32
    ensures { result ≡ a }
{
    a
}

pub fn first(words: &[u8]) -> Option<u8>
    ensures { result ≡ files.first_of words.now }
{
    words.first().copied()
}
""",
    "crates/base/src/one.rt": "pub enum Kind {\n    A,\n    B,\n}\n",
    "crates/base/src/two.rt": "pub enum Kind {\n    B,\n    A,\n}\n",
    "crates/top/specs/Lib.antt": "",
    "crates/top/src/lib.rt": """\
//! The top.
#![tactic(auto)]
mod run;

pub use run::{copied, ordered, run, trees};
""",
    "crates/top/src/run.rt": """\
//! Runs.
ghost use Rattle.std.specs.Prelude.{◌≡◌, ◌≤◌, ◌×◌, ℕ};
ghost use Rattle.base.specs.Files.{IsShort, both};
ghost use Rattle.base.specs.Values.{Tree, Even, size};

use base::{Inputs, Value};

pub fn run<I: Inputs>(words: &[u8], inputs: &mut I, least: u32) -> u32
    requires { IsShort words.now }
    ensures counted { I.faults inputs.old ≤ I.faults inputs.new }
    ensures short { (n : ℕ) → n ≤ least → n ≤ result }
    ensures most { result ≤ 3 }
{
    // let x = "a { brace";
    inputs.read(&mut [0; 8]) as u32
}

pub fn copied(value: &Value, pair: (u32, u32)) -> u32
    ensures same { result ≡ value.now.number }
    ensures pair { pair.0 ≤ pair.1 }
{
    value.number(0)
}

pub fn ordered(low: u32, high: u32) -> bool
    requires { low ≤ high }
{
    low < high
}

pub fn trees(words: &[u8])
    ensures size { (t : Tree) → Even t → size t ≡ 0 }
    ensures both { both words.now ≡ both words.now }
{
}
""",
}

RUN = "crates/top/src/run.rt"
FILE = "crates/base/specs/Files.antt"
VALUES = "crates/base/specs/Values.antt"
LIMITS = "crates/base/specs/Limits.antt"
BASE = "crates/base/src/lib.rt"

SIGNATURE = "run<I: Inputs>(words: &[u8], inputs: &mut I, least: u32)"
SAME = [
    ("layout of a clause", RUN, "(n : ℕ) → n ≤ least → n ≤ result", "(n : ℕ) →\n        n ≤ least\n          → n ≤ result"),
    ("layout of a definition", FILE, "length bytes ≤ most", "length bytes\n    ≤ most"),
    (
        "layout of a block",
        FILE,
        "  x ← first_of xs\n  y ← first_of xs\n  Some",
        "    x ← first_of xs\n    y ← first_of\n      xs\n    Some",
    ),
    ("layout of a signature", RUN, SIGNATURE, "run<I: Inputs>(\n    words: &[u8],\n    inputs: &mut I,\n    least: u32,\n)"),
    ("a comment on a definition", FILE, "-- few bytes", "-- {- a few bytes"),
    ("a comment in a definition", FILE, "IsShort bytes =", "IsShort bytes = -- = most\n   {- ≤ -}"),
    ("a comment in the code", RUN, "    ensures counted", "    // } ensures\n    /* { */ ensures counted"),
    ("a parameter", RUN, "words", "arguments"),
    ("a type parameter", RUN, "I", "T"),
    ("a variable of a clause", RUN, "(n : ℕ) → n ≤ least → n ≤ result", "(k : ℕ) → k ≤ least → k ≤ result"),
    ("a variable of an equation", FILE, "bytes", "words"),
    ("a variable of a pattern", FILE, "(x ∷ xs) = Some x", "(y ∷ x) = Some y"),
    ("a variable of a λ", FILE, "λ m. m", "λ n. n"),
    ("a variable of a pair", FILE, "(n : ℕ) × (before ≤ n) × (λ m. m ≤ now) n", "(m : ℕ) × (before ≤ m) × (λ m. m ≤ now) m"),
    ("a variable of a branch", FILE, "Some x ↦ f x", "Some y ↦ f y"),
    ("a variable of a statement", FILE, "y ← first_of xs\n  Some y", "z ← first_of xs\n  Some z"),
    ("a comment in a comment", FILE, "-- few bytes", "{- a {- few -} bytes -}"),
    ("a comment in a comment of the code", BASE, "number: u32,\n    texts", "number: /* a /* b */ c */ u32,\n    texts"),
    ("the notation of a number", LIMITS, "least = 12", "least = 0xc"),
    ("the notation of a number of the code", BASE, "LEAST: u32 = 6", "LEAST: u32 = 0b1_10"),
    ("the name of a definition", None, "IsShort", "IsBrief"),
    ("the name of a definition in a cycle", None, "Odd", "Uneven"),
    ("an alias", BASE, "files", "texts_of_files"),
    ("a clause of a private function", BASE, "ensures { result ≡ a }", "ensures { result ≡ 7 }"),
    ("a body", BASE, "        0\n", "        1\n"),
    ("a modifier", FILE, "pub both", "unfoldable pub both"),
]
"""Changes of one file, or of all, which change no promise."""

NUMBER = {"Value::number requires", "Value::number ensures", "copied same"}
SHORT, COUNTED = {"run requires"}, {"run counted"}
GROWS = {"Inputs::read grows", *COUNTED}
INVARIANT = {"impl Model for Value invariant"}
VIEW = {"impl Model for Value view"}
ONE_VIEW = "view = { λ v. record { number = v.number"
SIZE, BOTH = {"trees size"}, {"trees both"}

CHANGED = [
    ("a constant three levels down", LIMITS, "least = 12", "least = 13", SHORT),
    ("a definition below", FILE, "length bytes ≤ most", "most ≤ length bytes", SHORT),
    ("a definition that says nothing", FILE, "IsShort bytes = length bytes ≤ most", "IsShort bytes = ⊤", SHORT),
    ("a clause of a trait", BASE, "Grows (faults self.old) (faults self.new)", "Grows 0 (faults self.new)", GROWS),
    ("another clause of a trait", BASE, "result ≤ 8", "result ≤ 9", {"Inputs::read all", *COUNTED}),
    ("what a clause of a trait speaks of", FILE, "before ≤ n", "n ≤ before", GROWS),
    ("a ghost member of a trait", BASE, "faults: { Self → ℕ }", "faults: { Self → Self }", {"trait Inputs faults", *GROWS}),
    ("a constant of the code", BASE, "LEAST: u32 = 6", "LEAST: u32 = 7", NUMBER | INVARIANT),
    ("an invariant", VALUES, "p.number < MAX", "MAX < p.number", NUMBER | INVARIANT),
    ("a view", BASE, ONE_VIEW, ONE_VIEW.replace("v.number", "0"), NUMBER | VIEW),
    ("a field", VALUES, "pub texts : List ℕ", "pub texts : ℕ", NUMBER | INVARIANT | {"impl Model for Value Value"}),
    ("a field of the code", BASE, "texts: Vec<u8>", "texts: Vec<u16>", NUMBER),
    ("a member of an impl", BASE, "ghost faults = { λ _. 0 }", "ghost faults = { λ _. 1 }", {"impl Inputs for Memory faults"}),
    ("a clause that is emptied", RUN, "{ result ≤ 3 }", "{ ⊤ }", {"run most"}),
    ("a clause that is left out", RUN, "    ensures most { result ≤ 3 }\n", "", {"run most"}),
    ("a clause that is added", RUN, "    ensures size {", "    requires { ⊥ }\n    ensures size {", {"trees requires"}),
    ("a clause whose name stays", RUN, "result ≤ 3", "result ≤ 4", {"run most"}),
    ("a clause that is turned into a premise", RUN, "ensures most", "requires most", {"run most"}),
    ("a component", RUN, "pair.0 ≤ pair.1", "pair.0 ≤ pair.0", {"copied pair"}),
    ("a type of a parameter", RUN, "pair: (u32, u32)", "pair: (u32, u64)", {"copied", "copied pair"}),
    ("parameters that exchange their names", RUN, "low: u32, high: u32", "high: u32, low: u32", {"ordered requires"}),
    ("a bound", RUN, "<I: Inputs>", "<I: Inputs + Copy>", {"run", *COUNTED}),
    (
        "the order of equations",
        VALUES,
        "size (leaf n) = n\nsize (node left right) = size right",
        "size (node left right) = size right\nsize (leaf n) = n",
        SIZE,
    ),
    ("another variable", VALUES, "= size right", "= size left", SIZE),
    ("a definition in a cycle", VALUES, "n ≡ 1", "n ≡ 2", SIZE),
    ("another definition in a cycle", VALUES, "= Odd left", "= Even left", SIZE),
    ("the type of a constructor", VALUES, "leaf : ℕ → Tree", "leaf : Tree → Tree", SIZE),
    ("another name in an import", RUN, "{Tree, Even, size}", "{Tree, Odd as Even, size}", SIZE),
    ("the operator by which a block is read", FILE, "Some x ↦ f x", "Some x ↦ None", BOTH),
    ("the end of a statement", FILE, "x ← first_of xs\n  y ← first_of xs", "x ← first_of\n  xs y ← first_of xs", BOTH),
    ("another variable of a statement", FILE, "Some y\n", "Some x\n", BOTH),
    ("the name of an implicit argument", FILE, "{T : Type 0}", "{U : Type 0}", GROWS),
    ("a fixity", FILE, "infixl 10", "infixl 20", BOTH),
    ("a signature", FILE, "pub both : List ℕ → Option ℕ", "pub both : List ℕ → Option Bool", BOTH),
]
"""Changes of one file, each with the lines that it changes: of a function, or of a clause of it."""

APART = [
    ("a path without a use", RUN, "value: &Value", "value: &base::Value", BASE, "LEAST: u32 = 6", "LEAST: u32 = 7"),
    ("the path of a constant", BASE, "LEAST + 1", "crate::LEAST + 1", BASE, "LEAST: u32 = 6", "LEAST: u32 = 7"),
    ("a constant of a type", BASE, "self.now.number }\n    {", "self.now.number + Value.N }\n    {", BASE, "= 4;", "= 5;"),
    (
        "constructors that no line imports",
        RUN,
        "result ≤ 3",
        "elim words [ Ok v ↦ ⊤ | Err e ↦ ⊥ ]",
        RUN,
        "Ok v ↦ ⊤ | Err e ↦ ⊥",
        "Err v ↦ ⊤ | Ok e ↦ ⊥",
    ),
    ("two constructors in a line", VALUES, "leaf : ℕ → Tree", "leaf more : ℕ → Tree", VALUES, "size (leaf n) = n", "size (more n) = n"),
    (
        "a file and a name in it",
        FILE,
        "use Rattle.base.specs.Limits.{most}",
        "use Rattle.base.specs.Limits.{most}\nuse Rattle.other.most",
        LIMITS,
        "12",
        "13",
    ),
    ("implicit arguments", FILE, "{T : Type 0}", "{T U : Type 0}", FILE, "{T U : Type 0}", "{U T : Type 0}"),
    (
        "a variable of the field before",
        VALUES,
        "pub number : ℕ",
        "pub low : (size : ℕ) → ℕ\n  pub number : size ≡ size",
        VALUES,
        "= size right",
        "= size left",
    ),
    ("a variable of a let's value", FILE, "length bytes ≤ most", "let f = λ most. most in f ≤ most", LIMITS, "12", "13"),
    (
        "a variable of the statement before",
        FILE,
        "x ← first_of xs\n",
        "x ← (λ first_of. first_of) xs\n",
        FILE,
        "(x ∷ xs) = Some x",
        "(x ∷ xs) = None",
    ),
    (
        "the end of an inner block",
        FILE,
        "  y ← first_of xs\n  Some",
        "  y ← do\n    z ← first_of xs\n    None\n  Some",
        FILE,
        "    None\n  Some",
        "    None\n    Some",
    ),
    (
        "operators in one fixity",
        FILE,
        "infixl 10 ◌>>=◌",
        "infixl 10 ◌>>=◌ ◌⊕◌\nabbrev pub ◌⊕◌ : ℕ → ℕ\nn ⊕ m = n\n",
        FILE,
        "infixl 10",
        "infixr 10",
    ),
    (
        "the type parameters of an impl",
        BASE,
        "impl Model for Value {",
        "impl<T, U> Model for Value {",
        BASE,
        "impl<T, U> Model for Value {",
        "impl<T, U> Model for Value<U, T> {",
    ),
    ("an import below its use", BASE, "impl Value {", "ghost use Rattle.base.specs.Limits.{most};\nimpl Value {", LIMITS, "12", "13"),
    (
        "an associated type",
        BASE,
        "impl Inputs for Memory {",
        "impl Inputs for Memory {\n    type Item = u8;",
        BASE,
        "Item = u8",
        "Item = u16",
    ),
    (
        "two types of one name",
        BASE,
        "use std::marker::Model;",
        "mod one;\nmod two;\nuse std::marker::Model;\nuse crate::one::Kind;\npub fn kind(kind: Kind)\n    ensures { kind ≡ Kind.A }\n{\n}",
        BASE,
        "crate::one",
        "crate::two",
    ),
    ("a bound of a trait", BASE, "pub trait Inputs {", "pub trait Inputs: Copy {", BASE, "Inputs: Copy", "Inputs: Drop"),
]
"""Changes that bring in what the small repository lacks, each with a change after it, which some line has to show."""

UNKNOWN = [
    (
        "an import of nothing",
        FILE,
        "specs.Limits.{most}",
        "specs.Limits.{mist}",
        "Rattle.base.specs.Limits.mist is imported, and not defined",
    ),
    ("a file that is not there", FILE, "specs.Limits.{most}", "specs.Bounds.{most}", "there is no file of Rattle.base.specs.Bounds"),
    ("an item of another kind", RUN, "use base", "union base {}\nuse base", "fn or struct or enum"),
    ("a brace that is not closed", RUN, "{ result ≤ 3 }", "{ result ≤ 3", "a brace is not closed"),
    ("a line that defines nothing", FILE, "-- few bytes", "axiom x", "neither a signature nor an equation"),
    ("a path in a term", FILE, "length bytes ≤ most", "length bytes ≤ Rattle.base.specs.Limits.most", "import the name"),
    (
        "a pair that may reach two ways",
        FILE,
        "length bytes ≤ most",
        "(x : ℕ) × (x ≤ most) → x ≤ x",
        "brackets have to say how far x reaches",
    ),
    ("a let of a pattern", FILE, "length bytes ≤ most", "let (x, y) = bytes in x", "a let of a pattern"),
    ("a let without in", FILE, "  y ← first_of xs", "  let y = (let z = 1)", "a let without its in"),
    ("two statements in a line", FILE, "  x ← first_of xs\n  y", "  x ← first_of xs; y", "a statement on each line"),
    ("an equation with a where", FILE, "= Some x", "= y where y = Some x", "neither a signature nor an equation"),
    ("a fixity of nothing", FILE, "◌>>=◌\nabbrev", "◌>>◌\nabbrev", "a fixity of ◌>>◌"),
    ("a use of all names", RUN, "use base::{Inputs, Value}", "use base::*", "a use of all names"),
    ("a public name that is another", "crates/top/src/lib.rt", "{copied, ", "{copied as same, ", "a public one under another name"),
    ("a constant that is computed elsewhere", BASE, "LEAST + 1", "next(LEAST)", "MAX calls a function"),
    ("a file that ends too early", FILE, "  Some y\n", "  Some y\n\nabbrev", "has another form"),
    ("a comment that is not closed", BASE, "//! Inputs.", "/* Inputs.", "a comment is not closed"),
]
"""Changes after which a file is not what this tool knows, and what it says."""


def lines_of(text: str) -> dict[str, str]:
    """The lines of a list, by their function, and of a clause by its name too, or by its kind if it has none."""
    found: dict[str, str] = {}
    owner = ""
    for line in text.splitlines():
        words = line.split()
        if line.startswith("    "):
            found[f"{owner} {words[-2]}"] = line
        elif line.startswith("  "):
            owner = re.split(r"[(<]", words[1])[0] if words[0] == "fn" else line.strip()
            found[owner] = line
    return found


class Small(unittest.TestCase):
    """A small repository, in which one thing at a time is changed."""

    def setUp(self) -> None:
        held = tempfile.TemporaryDirectory()
        self.addCleanup(held.cleanup)
        self.top = Path(held.name)
        self.write(FILES)
        self.before = lines_of(self.listed())

    def write(self, files: Mapping[str, str]) -> None:
        """Writes the files of the repository."""
        for name, text in files.items():
            path = self.top / name
            path.parent.mkdir(parents=True, exist_ok=True)
            path.write_text(text, encoding="utf-8")

    def listed(self) -> str:
        """The list of the repository."""
        return Listing(Tree(self.top)).text()

    def change(self, name: str | None, old: str, new: str) -> None:
        """Puts a text in the place of another one in one file, or in all; a name is changed as a whole word."""
        pattern = rf"\b{old}\b" if old.isidentifier() else re.escape(old)
        changed = {file: re.sub(pattern, lambda _: new, text) for file, text in FILES.items() if name in (None, file)}
        self.assertNotEqual(changed, {file: FILES[file] for file in changed})
        self.write({**FILES, **changed})

    def test_what_is_listed(self) -> None:
        self.assertEqual(self.before["run"], "  fn run<A: Inputs>(&[u8], &mut A, u32) -> u32")
        self.assertEqual(self.before["ordered"], "  fn ordered(u32, u32) -> bool")
        self.assertNotIn("hidden", self.before)
        self.assertRegex(self.before["run counted"], r"^    ensures counted [0-9a-f]{10}$")
        self.assertEqual(len({line for line in self.before.values() if "ensures" in line}), 11)

    def test_what_changes_no_line(self) -> None:
        for title, name, old, new in SAME:
            with self.subTest(title):
                self.change(name, old, new)
                self.assertEqual(lines_of(self.listed()), self.before)

    def test_what_changes_a_line(self) -> None:
        for title, name, old, new, wanted in CHANGED:
            with self.subTest(title):
                self.change(name, old, new)
                after = lines_of(self.listed())
                self.assertEqual({key for key in self.before | after if self.before.get(key) != after.get(key)}, wanted)

    def test_what_was_found_by_attacks(self) -> None:
        for title, name, old, new, other, before, after in APART:
            with self.subTest(title):
                self.change(name, old, new)
                one = self.listed()
                path = self.top / other
                text = path.read_text(encoding="utf-8")
                self.assertIn(before, text)
                path.write_text(text.replace(before, after), encoding="utf-8")
                self.assertNotEqual(one, self.listed())

    def test_what_is_not_known(self) -> None:
        for title, name, old, new, said in UNKNOWN:
            with self.subTest(title):
                self.change(name, old, new)
                with self.assertRaisesRegex(Unreadable, re.escape(said)):
                    self.listed()

    def test_the_command(self) -> None:
        (self.top / LIST).parent.mkdir()
        self.assertEqual(main([], self.top), 0)
        with redirect_stdout(StringIO()) as out:
            self.assertEqual(main(["--check"], self.top), 0)
            self.change(RUN, "result ≤ 3", "result ≤ 4")
            self.assertEqual(main(["--check"], self.top), 1)
        self.assertEqual(
            [line[:20] for line in out.getvalue().splitlines() if line[:2] in ("- ", "+ ")],
            ["-    ensures most " + self.before["run most"][17:19], "+    ensures most " + lines_of(self.listed())["run most"][17:19]],
        )
        with redirect_stderr(StringIO()):
            self.assertEqual(main(["--write"], self.top), 2)


class Whole(unittest.TestCase):
    """The crates of this repository."""

    def test_the_list_is_what_the_crates_promise(self) -> None:
        text = Listing(Tree(Path(TOP))).text()
        self.assertEqual(
            text, text_at(str(LIST)), "tools/promises writes it anew: say in the commit why each new promise is as strong, or why it is not"
        )
        for line in ("  fn run<A: Inputs, B: Sink>(Global, &[String], &mut A, &mut B) -> Status", "  fn main(HostRuntime) -> ExitCode"):
            self.assertIn(line, text.splitlines())

    def test_layout_and_a_constant(self) -> None:
        with tempfile.TemporaryDirectory() as folder:
            top = Path(folder)
            shutil.copy(Path(TOP, "crates.txt"), top)
            for path in sorted(CRATES.glob("*/s*/**/*.*t*")):
                other = top / path.relative_to(TOP)
                other.parent.mkdir(parents=True, exist_ok=True)
                other.write_text(laid_out(path.read_text(encoding="utf-8"), path.suffix == ".antt"), encoding="utf-8")
            self.assertEqual(Listing(Tree(top)).text(), text_at(str(LIST)))
            limits = top / "crates/net_core/specs/Limits.antt"
            limits.write_text(limits.read_text(encoding="utf-8").replace("max_intervals = 1024", "max_intervals = 1025"), encoding="utf-8")
            before, after = lines_of(text_at(str(LIST))), lines_of(Listing(Tree(top)).text())
            self.assertNotEqual(before["run outcome"], after["run outcome"])
            self.assertEqual(before["named_by exact"], after["named_by exact"])


def laid_out(text: str, is_antt: bool) -> str:
    """A file with a comment at the end of each line of antt, or of some lines of code, and with twice the indentation."""
    end = " -- {" if is_antt else " // {"
    lines = (line.replace("  ", "    ") for line in text.splitlines())
    return "".join(f"{line}{end if is_antt or line.startswith(('use ', 'mod ', '}')) else ''}\n" for line in lines)


if __name__ == "__main__":
    unittest.main()
