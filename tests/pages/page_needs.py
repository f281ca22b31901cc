"""What programs need and measure, wherever a text says it: each version and number is tied to what it follows from.

A rule is a pattern, and the one value that every text must have. The newest version of the GNU C library is read from
the programs of dist/, that of musl from the notes beside them, and the others from the scripts that look at them.
"""
from __future__ import annotations

import re
from collections.abc import Iterator
from dataclasses import dataclass

from page_tables import TOP, plain, text_of
from trials import Trial

TEXTS = (
    "README.md", "THIRD-PARTY.md", "CHANGELOG.md", "CONTRIBUTING.md", "dist/README.md", "ports/README.md", "ports/bundle",
    "ports/command.js", "bench/README.md", "tools/README.md", "tools/make_dist", "web/README.md", "editors/neovim/l6.lua",
    "terminal/l6db.py",
    *(str(file.relative_to(TOP)) for file in sorted((TOP / "docs").glob("*.*")) if file.suffix in (".md", ".1")),
)
OF_V8 = {"10": "18", "11": "20"}  # the versions of Node that have these of V8, by Node's own table of releases
NUMBERS = {"3": "three", "5": "five", "7": "seven", "9": "nine", "11": "eleven", "15": "fifteen"}


@dataclass(frozen=True)
class Rule:
    """A thing that texts say, and the value that each must have."""

    what: str
    pattern: str
    value: str


def newest_symbol(*programs: str) -> str:
    """The newest version of the GNU C library of which programs need a symbol."""
    found = (it for name in programs for it in re.findall(rb"GLIBC_(\d+)\.(\d+)\0", (TOP / name).read_bytes()))
    return "{}.{}".format(*max((int(major), int(minor)) for major, minor in found))


def noted_musl() -> str:
    """The version of musl that all static programs were linked with; all of them, if they are several."""
    notes = (file.read_text("utf-8") for file in (TOP / "dist").glob("*.provenance"))
    return ", ".join(sorted({it for note in notes for it in re.findall(r"^musl ([\d.]+)", note, re.MULTILINE)}))


def found_in(pattern: str, name: str) -> str:
    """What the first group of a pattern is in a file; nothing if it is not there."""
    found = re.search(pattern, text_of(name), re.MULTILINE)
    return found[1] if found else ""


def rules() -> Iterator[Rule]:
    """All rules."""
    engines = re.findall(r'"(\d+)"', found_in(r"^const ENGINES = \[(.*)\];", "ports/command.js"))
    yield Rule("the GNU C library", r"version (\d+\.\d+) of the GNU C library", newest_symbol("dist/l6", "dist/l6db"))
    yield Rule("musl", r"\bmusl (\d+(?:\.\d+)+), the C library", noted_musl())
    yield Rule("Node", r"\bNode(?:\]\([^)]*\))? (\d+) or later", min((OF_V8[it] for it in engines), key=int))
    yield Rule("Python", r"\bPython (3\.\d+) or later", found_in(r"version_info < \((3), ", "terminal/l6db.py") + "." +
               found_in(r"version_info < \(3, (\d+)\)", "terminal/l6db.py"))
    of_neovim = found_in(r"^-- .*neovim (\d+\.\d+) and later", "editors/neovim/l6.lua")
    yield Rule("neovim", r"\b(?:neovim|neovim Version) (\d+\.\d+)(?: and| or) later", of_neovim)
    default = found_in(r'"--times", type=int, default=(\d+)', "bench/run")
    yield Rule("how often is measured", r"times in turn, and not (\w+);", NUMBERS.get(default, default))


# What pages say of the size of a file of dist/, in thousands of bytes: a page, a pattern, and the file. A tenth more or
# less counts for nothing, since sizes change with the toolchain.
SIZES = (
    ("docs/measurements.md", r"The program has (\d+) KB\.", "dist/l6"),
    ("docs/library.md", r"a proved buddy system in (\d+) KB,", "dist/l6_store.a"),
)


def sizes() -> Iterator[Trial]:
    """What pages say of sizes is so, nearly."""
    for page, pattern, name in SIZES:
        said = [int(it) * 1000 for it in re.findall(pattern, plain(text_of(page)))]
        size = (TOP / name).stat().st_size
        yield f"{page}: the size of {name}", [True], [abs(it - size) * 10 <= size for it in said]


def needs() -> Iterator[Trial]:
    """Each text that says one of these things says the same, and one does."""
    for rule in rules():
        found = {name: set(re.findall(rule.pattern, plain(re.sub(r"[#]+ ", "", text_of(name))))) for name in TEXTS}
        said = {name: values for name, values in found.items() if values}
        yield f"what is said of {rule.what}", dict.fromkeys(said, {rule.value}), said
        yield f"whether something is said of {rule.what}", True, bool(said)
    yield from sizes()
