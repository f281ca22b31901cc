"""A small checkout with the scripts of this repository, and with a stand-in for rt.

The stand-in proves nothing. It "builds" programs that print which sources they were made from, so a test
can see which program ran.
"""
from __future__ import annotations

import contextlib
import hashlib
import os
import shutil
import subprocess
import sys
import tempfile
from collections.abc import Callable, Iterable, Iterator
from pathlib import Path
from typing import Any

from answers import Answer
from trials import Trial, groups_asked_for

TOP = Path(__file__).resolve().parents[2]
SCRIPTS = (
    "l6", "l6db", "l6ed", "install", "terminal", "tools", "docs/l6.1", "docs/l6db.1", "docs/l6ed.1", "completions", "editors",
    "LICENSE-MIT", "LICENSE-APACHE", "THIRD-PARTY.md", "licenses", ".gitattributes", "library",
)
SECONDS = 60  # for one command
SOURCES = ("src", "specs", "proofs")
NOBODY = 65_534  # a user and a group without rights
TRACING = ("L6_TRACED", "PYTHONPATH")  # variables of the environment by which lines are noted
SHELL_LINE = "+ line $BASH_SOURCE:$LINENO: "  # what bash writes before each command that it obeys
UNPROVED = "UNPROVED"  # a crate with this text in its sources is not proved
WARNED = "WARNED"  # and of one with this text rt warns

# All commands besides the shell that the scripts may use when neither rt nor Python is needed.
PLAIN = ("cat", "chmod", "cmp", "cp", "dirname", "find", "grep", "mkdir", "mv", "readlink", "rm", "rmdir",
         "sed", "sha256sum", "sh", "sort", "uname", "uniq", "xargs")
PROGRAMS = ("l6", "l6-static", "l6-aarch64", "l6.mjs")

RT = f'''#!{sys.executable}
"""A stand-in for rt: prints its version, and "builds" a library or a program in a crate's folder."""
import os, shutil, sys
from pathlib import Path
sys.path.insert(0, {str(TOP / "tests/harness")!r})
from checkout import UNPROVED, WARNED, program_text, sum_of_sources
state = Path(os.environ["STAND_IN"])
verb = sys.argv[1]
if verb == "version":
    print((state / "version").read_text())
    sys.exit(0)
crate = Path.cwd()
with open(state / "log", "a") as log:
    log.write(f"{{verb}} {{crate.name}}\\n")
hook = state / "edit"
if hook.exists():
    Path(hook.read_text()).open("a").write("edited while it builds\\n")
    hook.unlink()
files = [file for part in ("src", "specs", "proofs") for file in (crate / part).rglob("*.*")]
texts = [file.read_text() for file in files if file.is_file()]
if any(UNPROVED in text for text in texts):
    print(f"fn {{crate.name}}::main: not proved")
    sys.exit(1)
if any(WARNED in text for text in texts):
    print("./specs/Lib.antt:1:8: warning: this pattern binds a variable spelled like a constructor")
kill = state / "kill"
if kill.exists():
    kill.unlink()
    sys.exit(-9)
(crate / "out/incremental").mkdir(parents=True, exist_ok=True)
(crate / "out/incremental/kept").write_text("kept\\n")
made = sum_of_sources(crate.parent.parent)
if verb == "lib":
    shutil.rmtree(crate / "out/rlib", ignore_errors=True)
    (crate / "out/rlib").mkdir(parents=True)
    (crate / "out/rlib/stamp").write_text(made)
    (crate / f"out/lib{{crate.name}}.a").write_text(f"archive of {{crate.name}}, {{made}}\\n")
else:
    program = crate / "out" / crate.name
    program.write_text(program_text(made))
    program.chmod(0o755)
    (crate / f"out/{{crate.name}}.stamp").write_text(made)
'''


# Stand-ins for what makes the page and the other programs. Each program says first which one it is.
MAKERS = {
    "web/build": "#!/bin/sh\n",
    "web/bundle": "#!/bin/sh\necho a page > $1\n",
    "ports/build": """#!/bin/sh
for name in "${1##*/}-static" "${1##*/}-aarch64"; do
    sed "2i it=$name" "$1" > "$2/$name"
    echo "host of $name" > "$2/$name.made_of"
done
echo "the module of ${1##*/}" > "$2/${1##*/}.bc.xz"
""",
    "ports/bundle": """#!/bin/sh
from="${1%/*}/l6"
[ "$1" != --module ] || { shift; from="${2%.mjs}"; }
sed "2i it=${2##*/}" "$from" > "$2"
echo "module of $1" | sed 's|/.*/||' > "$2.made_of"
""",
    "ports/libraries": """#!/bin/sh
for name in l6_store l6_offset; do
    cp "${0%/ports/libraries}/crates/${name}_c/out/lib${name}_c.a" "$1/$name.a" || exit 1
    for kind in aarch64 riscv64 nosse; do
        echo "an archive for $kind, of $(cat "$1/$name.a")" > "$1/$name-$kind.a"
        echo "module of $name" > "$1/$name-$kind.a.made_of"
    done
done
""",
}
NODE = '#!/bin/sh\nexec sh "$@"\n'  # a stand-in for Node, for which l6.mjs is a script of the shell


def sum_of_sources(top: Path) -> str:
    """A sum of the sources that the program of a checkout, or of a part of one, is made of."""
    total = hashlib.sha256()
    for crate in ("l6_word", "l6"):
        for file in sorted((top / "crates" / crate).rglob("*")):
            if file.is_file() and file.relative_to(top).parts[2] in SOURCES:
                total.update(f"{file.relative_to(top)} ".encode() + file.read_bytes())
    return total.hexdigest()


def is_of_shell(file: Path) -> bool:
    """Whether a file is a script of the shell."""
    with open(file, "rb") as opened:
        return opened.readline() in (b"#!/bin/sh\n", b"#!/usr/bin/env bash\n")


def program_text(made_of: str) -> str:
    """A program that prints its sources, its arguments and its input, and ends with the given status.

    It says which program it is if it is not l6, and does not start if it is one of $REFUSES.
    """
    return (
        "#!/bin/sh\n"
        'case " ${REFUSES-} " in *" ${it-l6} "*) exit 127 ;; esac\n'
        '[ -z "${it-}" ] || echo "this is $it"\n'
        f"echo made of {made_of}\n"
        'for word; do printf "<%s>\\n" "$word"; done\n'
        "cat\n"
        '[ "$*" != --version ] || exit 64\n'
        'exit "${STATUS-0}"\n'
    )


class Checkout:
    """A small checkout, with a program in its dist/ that belongs to its sources."""

    def __init__(self, folder: Path) -> None:
        self.folder, self.top = folder, folder / "top"
        self.state = folder / "state"  # of the stand-in
        self.state.mkdir(parents=True)
        self._make_commands()
        for name in SCRIPTS:
            source, target = TOP / name, self.top / name
            target.parent.mkdir(parents=True, exist_ok=True)
            if source.is_dir():
                shutil.copytree(source, target)
            else:
                shutil.copy(source, target)
        for name, text in {**MAKERS, "examples/first.deck": " (A,E,5)(A,PD)\n"}.items():
            self.write(name, text)
            (self.top / name).chmod(0o755)
        self.write("crates.txt", "# a comment\nl6_word:\nl6: l6_word\nl6_tests: l6_word\n")
        self.write("HANDLES", "Handles allowed: none.\n")
        for crate, root in (("l6_word", "lib.rt"), ("l6", "main.rt"), ("l6_tests", "lib.rt")):
            for name in (f"src/{root}", "specs/Lib.antt", "proofs/Lib.antt", "proofs/main/Answers.antt"):
                self.write(f"crates/{crate}/{name}", f"-- {name} of {crate}\n")
        self.set_version("a toolchain")
        (self.top / "dist").mkdir()
        made = self.run("tools/make_dist")
        assert made.status == 0, made
        self.forget_what_was_built()

    def _make_commands(self) -> None:
        plain, whole = self.folder / "plain", self.folder / "whole"
        plain.mkdir()
        whole.mkdir()
        for name in PLAIN:
            (plain / name).symlink_to(shutil.which(name) or name)
        (whole / "python3").symlink_to(sys.executable)
        for name, text in (("whole/rt", RT), ("nodes/node", NODE)):
            (self.folder / name).parent.mkdir(exist_ok=True)
            (self.folder / name).write_text(text)
            (self.folder / name).chmod(0o755)

    @property
    def made_of(self) -> str:
        """The line in which the program of the present sources says what it was made of."""
        return f"made of {sum_of_sources(self.top)}\n"

    def leave_only(self, *names: str) -> None:
        """Removes the programs of dist/ but these."""
        for name in set(PROGRAMS) - set(names):
            (self.top / "dist" / name).unlink()

    def set_version(self, line: str) -> None:
        """Sets the line of the toolchain's version."""
        (self.state / "version").write_text(line)

    def write(self, name: str, text: str) -> None:
        """Writes a file of the checkout."""
        file = self.top / name
        file.parent.mkdir(parents=True, exist_ok=True)
        file.write_text(text)

    def calls(self) -> list[str]:
        """The builds that rt was asked for since this was last asked."""
        log = self.state / "log"
        calls = log.read_text().splitlines() if log.exists() else []
        log.unlink(missing_ok=True)
        return calls

    def forget_what_was_built(self) -> None:
        """Removes all that was built outside of dist/."""
        for crate in (self.top / "crates").iterdir():
            shutil.rmtree(crate / "out", ignore_errors=True)
        self.calls()

    def run(
        self, command: str, *words: str, has_rt: bool = True, stdin: str = "", umask: int = 0o022,
        **environment: str,
    ) -> Answer[str]:
        """The answer of a script of the checkout; without rt there is no Python either.

        FIRST in the environment is a folder that comes first on the path.
        """
        path = f"{self.folder / 'whole'}:{os.environ['PATH']}" if has_rt else str(self.folder / "plain")
        first = environment.pop("FIRST", "")
        interpreter = [sys.executable] if command.endswith(".py") else []
        return self.run_words(
            [*interpreter, str(self.top / command), *words], self.folder,
            {"PATH": f"{first}:{path}" if first else path, "STAND_IN": str(self.state), **environment},
            input=stdin, umask=umask,
        )

    def run_words(
        self, words: list[str], folder: Path, environment: dict[str, str], **options: Any
    ) -> Answer[str]:
        """The answer of a command in a folder, with just this environment."""
        options = {"input": "", **options}
        # (what notes which lines are run: harness/traced)
        with contextlib.ExitStack() as opened:
            if TRACING[0] in os.environ:
                environment = {**{it: os.environ[it] for it in TRACING}, **environment}
                if is_of_shell(folder / words[0]):
                    trace = opened.enter_context(open(Path(os.environ[TRACING[0]], "shell.trace"), "a", encoding="utf-8"))
                    begin = Path(os.environ[TRACING[0]], "begin.bash")  # (bash takes no PS4 from root's environment)
                    begin.write_text(f"PS4='{SHELL_LINE}'\nset -x\n")
                    environment |= {"BASH_ENV": str(begin), "BASH_XTRACEFD": str(trace.fileno())}
                    words, options = ["/bin/bash", *words], {**options, "pass_fds": [trace.fileno()]}
            ended = subprocess.run(
                words, capture_output=True, text=True, timeout=SECONDS, cwd=folder, env=environment, **options
            )
        return Answer(ended.stdout, ended.stderr, ended.returncode)

    def run_as_somebody(self, words: list[str], folder: Path) -> Answer[str]:
        """The answer of a command of a user who may read the checkout, and write nothing in it."""
        if os.geteuid() != 0:
            return self.run_words(words, folder, dict(os.environ))
        above = [it for it in folder.parents if it != Path("/tmp") and Path("/tmp") in it.parents]
        for it in above:
            it.chmod(0o755)
        return self.run_words(words, folder, {}, user=NOBODY, group=NOBODY, extra_groups=[])

    def run_on_terminal(self, *words: str) -> Answer[str]:
        """The answer of ./l6 whose standard input is a terminal, on which nothing is typed but its end."""
        ours, theirs = os.openpty()
        os.write(ours, b"\4")
        answer = self.run_words(
            ["./l6", *words], self.top, {"PATH": str(self.folder / "plain")}, input=None, stdin=theirs
        )
        os.close(ours)
        os.close(theirs)
        return answer


WRONG = ("wrong\n" * 10, "wrong\n", 77)  # what another script answers


class Idle(Checkout):
    """A copy of a checkout whose scripts do nothing, and answer something else, and whose rt was asked for something else."""

    def __init__(self, whole: Checkout, folder: Path) -> None:
        shutil.copytree(whole.folder, folder, symlinks=True)
        self.folder, self.top, self.state = folder, folder / "top", folder / "state"

    def run_words(self, words: list[str], folder: Path, environment: dict[str, str], **options: Any) -> Answer[str]:
        """Another answer."""
        return Answer(*WRONG)

    def calls(self) -> list[str]:
        """Other builds."""
        return ["nothing"]


def without_files(trials: Iterator[Trial]) -> Iterator[Trial]:
    """Trials up to one that needs a file which should have been made."""
    with contextlib.suppress(FileNotFoundError):
        yield from trials


Group = Callable[[Checkout], Iterator[Trial]]


def on_checkouts(rows: Iterable[tuple[Group, ...]]) -> Iterator[Trial]:
    """The trials of groups, or of the one that is asked for, by their names. Each row has a checkout of its own."""
    all_rows = tuple(rows)
    asked = groups_asked_for(group.__name__ for row in all_rows for group in row)
    for row in all_rows:
        wanted = [group for group in row if group.__name__ in asked]
        if not wanted:
            continue
        with tempfile.TemporaryDirectory() as folder:
            checkout = Checkout(Path(folder) / "checkout")
            for group in wanted:
                for name, expected, actual in group(checkout):
                    yield f"{group.__name__}: {name}", expected, actual


def on_terminal(
    checkout: Checkout, words: list[str], stream: str, **further: str
) -> tuple[subprocess.CompletedProcess[str], str]:
    """What becomes of ./l6 where one of its streams is a terminal, and what is shown there."""
    ours, theirs = os.openpty()
    output, errors = (theirs, subprocess.DEVNULL) if stream == "stdout" else (subprocess.PIPE, theirs)
    environment = {"PATH": str(checkout.folder / "plain"), **further}
    made = subprocess.run(["./l6", *words], cwd=checkout.top, stdin=subprocess.DEVNULL, stdout=output, stderr=errors,
                          env=environment, check=False, text=True)
    os.write(theirs, b"|")
    os.close(theirs)
    shown = os.read(ours, 4096).decode().replace("\r", "")
    os.close(ours)
    return made, shown.removesuffix("|")
