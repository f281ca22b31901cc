"""What a crate promises to those above it: a crate with all that there is to see, and this checkout's own.

verdict_trials.py changes the crate, and makes these trials.
"""
from __future__ import annotations

from collections.abc import Iterator
from pathlib import Path
from tempfile import TemporaryDirectory
from unittest import mock

import crates
from crates import Crate, read_crates
from promises import promises, read_of
from trials import Trial

# A crate below that of the edits.
LOW = {
    "src/lib.rt": """//! A source.

ghost use Rattle.std.specs.Prelude.{◌≡◌, ◌≤◌, ◌<◌};
ghost use Rattle.l6_low.specs.Least.{least, hidden};

use crate::other::{Hidden, Shown};

/// What is given.
#[inline]
pub fn give(one: Shown) -> u8
    requires { least ≤ one }
    ensures { result ≡ 1 }
{
    let hidden = help(one);
    hidden
}

pub fn plain(
    one: u8,
) -> u8 {
    one
}

fn help(one: Shown) -> u8
    requires { hidden < one }
{
    Hidden::of(one)
}

pub(crate) fn inside() {}

pub struct Pair {
    first: u8,
}

impl Shape for Pair {
    fn width(&self) -> u8
        ensures { result ≡ self.first }
    {
        if self.first == 0 {
            0
        } else {
            self.first
        }
    }
}

impl Pair {
    pub const MOST: u8 = 7;

    fn half(&self) -> u8 {
        self.first / 2
    }
}

pub trait Shape {
    fn width(&self) -> u8
        ensures { result ≤ least };

    fn double(&self) -> u8 {
        self.width() * 2
    }
}
""",
    "specs/Least.antt": "abbrev least : ℕ = 1\n",
    "specs/inner/Ties.antt": "abbrev tie : ℕ = 2\n",
    "proofs/Cited.antt": "use Rattle.l6_low.proofs.Further.{further}\n",
    "proofs/Further.antt": "further : 1 ≤ 2\n",
    "proofs/Own.antt": "own : 2 ≤ 3\n",
}
PROMISED = """ghost use Rattle.l6_low.specs.Least least
ghost use Rattle.std.specs.Prelude ◌≡◌
ghost use Rattle.std.specs.Prelude ◌≤◌
use crate::other Shown
pub fn give(one: Shown) -> u8
    requires { least ≤ one }
    ensures { result ≡ 1 }
{
pub fn plain(
    one: u8,
) -> u8 {
pub struct Pair {
    first: u8,
}
impl Shape for Pair {
    fn width(&self) -> u8
        ensures { result ≡ self.first }
    {
}
impl Pair {
    pub const MOST: u8 = 7;
}
pub trait Shape {
    fn width(&self) -> u8
        ensures { result ≤ least };
    fn double(&self) -> u8 {
}"""
# What is changed below, in which file, the old text and the new one, and whether edits above are tried again.
CHANGES_BELOW = (
    ("a body", "src/lib.rt", "    hidden\n}", "    hidden + 1\n}", False),
    ("the body of a method", "src/lib.rt", "            0\n", "            3\n", False),
    ("a comment", "src/lib.rt", "//! A source.", "//! Another source.", False),
    ("a private function", "src/lib.rt", "hidden < one", "one < hidden", False),
    ("what only the crate can call", "src/lib.rt", "inside() {}", "within() {}", False),
    ("an import for a private function", "src/lib.rt", "least, hidden}", "least, hidden, further}", False),
    ("a hint", "src/lib.rt", "#[inline]\n", "#[inline(always)]\n", False),
    ("a lemma that nothing above cites", "proofs/Own.antt", "2 ≤ 3", "3 ≤ 4", False),
    ("an inner definition that nothing above cites", "specs/inner/Ties.antt", "= 2", "= 3", False),
    ("a clause", "src/lib.rt", "result ≡ 1", "result ≡ 2", True),
    ("what a caller owes", "src/lib.rt", "least ≤ one", "one ≤ least", True),
    ("the clause of a method", "src/lib.rt", "result ≡ self.first", "result ≤ self.first", True),
    ("the clause of a trait", "src/lib.rt", "{ result ≤ least };", "{ least ≤ result };", True),
    ("a type", "src/lib.rt", "first: u8,\n", "first: u16,\n", True),
    ("a constant", "src/lib.rt", "u8 = 7", "u8 = 8", True),
    ("what a name in a clause means", "src/lib.rt", "specs.Least.{least", "specs.Most.{least", True),
    ("a definition", "specs/Least.antt", "= 1", "= 2", True),
    ("a lemma that is cited", "proofs/Cited.antt", "{further}", "{further, own}", True),
    ("a lemma that a cited one cites", "proofs/Further.antt", "1 ≤ 2", "1 ≤ 3", True),
)


# The files of two crates and of one above both, and what a check of that one reads of each, if anything.
CITES = "use Rattle.{}.{{it}}\n".format
FILES_READ = {
    "low/src/lib.rt": ("pub fn low() -> u8 {\n    1\n}\n", "pub fn low() -> u8 {"),
    "low/src/more.rt": ("fn more() {}\n", ""),
    "low/specs/Least.antt": ("least = 1\n",) * 2,
    "low/specs/Most.antt": ("most = 2\n",) * 2,
    "low/specs/inner/Ties.antt": ("tie = 1\n",) * 2,
    "low/specs/inner/Own.antt": ("own = 1\n", None),
    "low/proofs/Further.antt": (CITES("nowhere.proofs.Further"),) * 2,
    "low/proofs/Own.antt": ("own\n", None),
    "mid/src/lib.rt": ("pub const MID: u8 = 1;\n",) * 2,
    "mid/specs/Mid.antt": (CITES("low.specs.inner.Ties"),) * 2,
    "mid/proofs/Cited.antt": (CITES("mid.proofs.Cited") + CITES("low.proofs.Further"),) * 2,
    "mid/proofs/Other.antt": ("other\n", None),
    "top/src/lib.rt": ("fn top() {\n    2\n}\n",) * 2,
    "top/src/inner/deep.rt": ("// deep\n",) * 2,
    "top/src/.lib.rt": ("hidden\n", None),
    "top/src/lib.txt": ("a note\n", None),
    "top/specs/Top.antt": (CITES("mid.proofs.Cited"),) * 2,
    "top/proofs/Last.antt": ("last\n",) * 2,
    "top/edits/one.edit": ("file: src/lib.rt\n", None),
}


def read_below() -> Trial:
    """The trial of all that a check of a crate reads of it and of those below it."""
    with TemporaryDirectory(prefix="l6-promises-") as folder, mock.patch.object(crates, "TOP", Path(folder)):
        for name, (text, _) in FILES_READ.items():
            file = Path(folder, "crates", name)
            file.parent.mkdir(parents=True, exist_ok=True)
            file.write_text(text, "utf-8")
        low = Crate("low", ())
        read = read_of(Crate("top", (low, Crate("mid", (low,)))))
        found = {file.relative_to(Path(folder, "crates")).as_posix(): text.strip("\n") for file, text in read}
    expected = {name: text.strip("\n") for name, (_, text) in FILES_READ.items() if text is not None}
    return "what a check reads of crates", expected, found


def promised() -> Iterator[Trial]:
    """What a source promises; and that no public item of this checkout is taken for a private one."""
    yield "what a source promises", PROMISED, promises(LOW["src/lib.rt"])
    yield read_below()
    for crate in read_crates().values():
        lost = [
            f"{file.name}: {line.strip()}"
            for file in sorted((crate.folder / "src").rglob("*.rt"))
            for line in public_lines(file.read_text("utf-8"))
            if line not in promises(file.read_text("utf-8")).splitlines()
        ]
        yield f"public items of {crate.name} that are no promise", [], lost


def public_lines(source: str) -> list[str]:
    """The lines of a source with which something public begins, and those of what only a prover reads, but imports."""
    begins = ("pub fn ", "pub struct ", "pub enum ", "pub trait ", "pub const ", "pub type ", "pub mod ", "ghost ")
    lines = (line for line in source.splitlines() if line.lstrip().startswith(begins))
    return [line for line in lines if not line.lstrip().startswith("ghost use ")]
