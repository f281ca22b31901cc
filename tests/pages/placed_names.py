"""Names of the code in the pages, with the file or the crate in which they are said to be: that one defines them.

A page says so by "`name` of `crate`", by "`name` (`file.rt`)", also with a crate behind it, by a row of a table of crates, and of
the clauses of a law by "law `name`, clause `name`".
"""
from __future__ import annotations

import functools
import re
from collections.abc import Iterator

from failing_sentences import calls
from page_tables import TOP, spans_of, tables_of, text_of
from trials import Trial

PAGES = (
    "README.md", "CONTRIBUTING.md", "web/README.md", "ports/README.md", "tests/README.md", "bench/README.md",
    *sorted(f"docs/{it.name}" for it in (TOP / "docs").glob("*.md") if it.stem not in ("contracts", "definitions")),
)
NAMES = re.compile(r"((?:`[\w:]+`(?:, and |, | and )?)+),? \(`([\w/]+\.(?:rt|antt))`(?: of `([\w/]+)`)?[,;)]")
OF_CRATE = re.compile(r"`([\w:]+)` of `(l6\w*)`")
FILE_OF_CRATE = re.compile(r"`([\w/]+\.(?:rt|antt))` of `(l6\w*)`")
LAW = re.compile(r"[Ll]aw `(\w+)`(?: of `\w+`)?,? clauses? ((?:`\w+`(?:, | and )?)+)")
DEFINES = r"\b(?:fn|struct|enum|trait|const|type|mod|ensures|requires|ghost|data) {0}\b|^ *\(?{0}\b[^\n]*[:=]"
OF_OTHERS = {  # names in rows of crates that are others': a call of the crate below, a command, messages of a protocol
    ("l6_check", "assemble"), ("l6_session", "save"), ("l6_rpc", "initialize"), ("l6_rpc", "shutdown"),
}


@functools.cache
def code() -> dict[str, str]:
    """The files of code, definitions and edits of all crates."""
    found = [it for it in (TOP / "crates").rglob("*") if it.suffix in (".rt", ".antt", ".edit") and "out" not in it.parts]
    return {str(it.relative_to(TOP)): it.read_text("utf-8") for it in found}


def is_in(name: str, files: list[str]) -> bool:
    """Whether one of these files defines a name, by its last part, or is an edit of that name."""
    pattern = re.compile(DEFINES.format(name.rpartition("::")[2]), re.MULTILINE)
    return any(it.endswith(f"/{name}.edit") or pattern.search(code()[it]) for it in files)


def files_at(file: str, folder: str = "") -> list[str]:
    """The files of code that a page names so, in a crate or any folder of it."""
    return [it for it in code() if f"/{it}".endswith(f"/{file}") and (not folder or f"/{folder}/" in f"/{it}")]


def of_files(_program: str) -> Iterator[Trial]:
    """Names with their files."""
    for page in PAGES:
        text = " ".join(text_of(page).split())
        for names, file, folder in NAMES.findall(text):
            named = [it for it in spans_of(names) if not (TOP / "crates" / it).is_dir()]  # (a crate may read by a file of another one)
            yield f"{page}: {' '.join(named)} in {file} {folder}".strip(), named, [it for it in named if is_in(it, files_at(file, folder))]
        for file, crate in FILE_OF_CRATE.findall(text):
            yield f"{page}: {file} of {crate}", True, bool(files_at(file, crate))


def of_crates(_program: str) -> Iterator[Trial]:
    """Names with their crates."""
    for page in PAGES:
        for name, crate in OF_CRATE.findall(" ".join(text_of(page).split())):
            yield f"{page}: {name} of {crate}", True, is_in(name, [it for it in code() if it.startswith(f"crates/{crate}/")])
        for table in tables_of(text_of(page)):
            for first, *cells in table.rows if table.head[0] == "Crate" else ():
                crates = [it for it in spans_of(first) if (TOP / "crates" / it).is_dir()]
                files = [it for it in code() if it.split("/")[1] in crates]
                named = [it for it in spans_of(" ".join(cells)) if re.fullmatch(r"(?:\w+::)?[a-z_]+", it) and not it.startswith("l6_")]
                named = [it for it in named if (crates[:1] and (crates[0], it) not in OF_OTHERS)]
                yield f"{page}: what is of {' '.join(crates)}, under {table.head[-1]}", [], [it for it in named if not is_in(it, files)]


def of_laws(_program: str) -> Iterator[Trial]:
    """Clauses with their laws."""
    for page in PAGES:
        for law, named in LAW.findall(" ".join(text_of(page).split())):
            head = calls(False).partition(f"fn {law}")[2].partition("\npub fn")[0]
            known = re.findall(r"\bensures (\w+) \{", head)
            yield f"{page}: clauses of {law}", [], [it for it in spans_of(named) if it not in known]


def placed_names(program: str) -> Iterator[Trial]:
    """All of them."""
    for group in (of_files, of_crates, of_laws):
        yield from group(program)


# Each group, and a name of it that is put elsewhere.
TURNED = [
    (of_files, "docs/proof.md", "is a clause of `exit_code` (`program.rt`)", "is a clause of `exit_code` (`arguments.rt`)"),
    (of_crates, "docs/robustness.md", "`tests/program/cases.jsonl`", "`perform` of `l6_store`"),
    (of_crates, "docs/proof.md", "`frames_are_one`", "`boards_are_stores`"),
    (of_laws, "docs/proof.md", "clauses `each` and `written`", "clauses `each` and `decks`"),
]
