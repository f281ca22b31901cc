"""What docs/l6.1, command-line.md and l6db.md say of judged traces, jobs, systems and terminals: calls and scripts show the "
"words."""
from __future__ import annotations

import re
import select
import shutil
import subprocess
from collections.abc import Iterator

from answers import Answer
from debugger_sentences import session
from held import Words, all_held, answered, held, told
from option_lists import debugger_beside
from page_tables import TOP
from session_sentences import DECK
from trials import Trial

MANUAL, COMMANDS, SESSIONS, EDITORS = "docs/l6.1", "docs/command-line.md", "docs/l6db.md", "docs/editors.md"
JUDGED = "trace --any-place --units 1"
FIVE = " (A,E,5)(A,PD)\n"
SOON = 0.1  # seconds in which a printout would begin


def findings(answer: Answer[bytes]) -> str:
    """The kinds of findings, and the numbers in them."""
    lines = answer.stdout.decode().partition("findings ")[0].splitlines()
    return " ".join(re.sub(r"line (\d+): (\w+)[^\d]*", r"\1 \2 ", it).strip() for it in lines) or "none"


def end(answer: Answer[bytes]) -> str:
    """The last line."""
    return answer.stdout.decode().splitlines()[-1].strip()


TRACES = [
    told("where blocks may be", "at a multiple of their size, ___ the allocator's places, and ___ from each other",
         {"1 misaligned | 1 outside 1024 and end before 2048 | 2 overlaps 1024: a, got at line 1 | none": ("within", "apart")},
         "get a 8 = 1028\nend 1\n", "get a 8 = 512\nend 1\n", "get a 8 = 1024\nget b 8 = 1024\nend 2\n",
         "get a 8 = 1024\nget b 8 = 1040\nend 2\n", command=JUDGED, look=findings),
    told("buddies that are joined", "and a free has to join ___ free buddy",
         {"none | 2 joined 0, where free halves were 1 | 2 joined 0, where free halves were 10": "each",
         "none | none | none": "no"},
         "get a 512 = 1024\nget b 512 = 1536\nfree a = 0\nfree b = 1\nend 4\n", "get a 512 = 1024\nfree a = 0\nend 2\n",
         "get a 1 = 1024\nfree a = 0\nend 2\n", command=JUDGED, look=findings),
    told("a finding", "Each finding is a ___, with the lines of the blocks that it concerns; a summary ___.",
         {"2 overlaps 1024: a, got at line 1 findings 1": ("line", "follows")}, "get a 8 = 1024\nget b 8 = 1024\nend 2\n",
         command=JUDGED,
         look=lambda it: f"{findings(it)} {it.stdout.decode().splitlines()[1]}"),
    told("the largest block", "The ___ block has 2^K smallest pieces",
         {"refused 0 | refused 1": "largest", "refused 1 | refused 0": "smallest"}, "get a 4 = 4\nend 1\n",
         "get a 5 = none\nend 1\n",
         command="trace --any-place --levels 2 --units 3", look=lambda it: it.stdout.decode().splitlines()[1].split(", ")[1]),
    told("units of an allocator", "The allocator has so many ___ as many", {"1 outside 4 and end before 16": "times"},
         "get a 3 = 16\nend 1\n",
         command="trace --any-place --levels 2 --units 3", look=findings),
    told("the first place", "Its ___ place, in ___ pieces; 2^K without this option",
         {"none | 1 outside 8 and end before 20": ("first", "smallest")}, "get a 4 = 8\nend 1\n", "get a 4 = 4\nend 1\n",
         command="trace --any-place --levels 2 --units 3 --first 8", look=findings),
    told("pieces of bytes", "Sizes and places of the trace are in ___, and a smallest piece has so many. Findings and the summary "
         "count ___ "
         "pieces", {"findings 0 gets 1, refused 0 frees 0 places used at most 4": ("bytes", "smallest")},
         "get a 64 = 16384\nend 1\n",
         command="trace --any-place --piece 16", look=lambda it: " ".join(it.stdout.decode().partition(", lost")[0].split())),
    told("JSON", "Write a JSON object for each ___, and ___ for the summary", {"line findings": ("finding", "one")},
         "get a 8 = 1028\nend 1\n", command="trace --any-place --json",
         look=lambda it: " ".join(row.split('"')[1] for row in it.stdout.decode().splitlines())),
    told("joinings", "how often another allocator ___ the piece",
         {"joined": "joined", "halved": "halved"}, "get a 1\nfree a = 9\nend 2\n", command="trace --store 1",
         look=lambda it: " ".join(re.findall(r"differs: free a: (\w+)", it.stdout.decode()))),
    told("the end of a trace", "the trace, which has .Ar N gets and ___.", {"2": "frees", "1": "lists"},
         "get a 1 = 1024\nfree a = 10\nlists\nend 2\n", command="trace --store 1", look=lambda it: "2" if it.status == 0 else "1"),
    told("what stats shows", "Show how many words are ___, asked for and ___.",
         {"words in blocks 4, asked for 3, wasted 1 free words 8188":
         ("used", "free")}, "get a 3\nstats\nend 1\n", command="trace",
         look=lambda it: " ".join(it.stdout.decode().splitlines()[1:3])),
]
JOBS = [
    told("advice", "its card and its column, and advice on a line that is ___.", {"1:3 4": "indented"}, " (A)\n", command="check",
         look=lambda it: f"{it.stdout.decode()[:3]} {re.findall('^ +', it.stdout.decode(), re.MULTILINE)[0].count(' ')}"),
    told("--long", "the card stands ___, with signs ___ its columns", {"1 | ^": ("between", "under")}, " (A,Q)\n",
         command="check --long",
         look=lambda it: f"{it.stdout.decode().splitlines()[1].split()[0]} | {it.stdout.decode().splitlines()[2].split()[-1]}"),
    told("--name", "that name stands at the ___ of each line, as ___ want it", {"X:1:5": ("beginning", "editors")}, " (A,Q)\n",
         command="check --name X", look=lambda it: it.stdout.decode().split(": ")[0]),
    told("$COMMANDS", ".Cm debug ___: the commands follow", {"card 2: no reading": "alone", "5": "too"}, f"{FIVE}$COMMANDS\n"),
    told("commands after the input", "Only the ___ such line counts, and only if it is ___ .Li $INPUT",
         {"?? NOT A COMMAND AT 0.1 AFTER 1 STEPS | -": ("first", "before")}, f"{FIVE}$COMMANDS\n$COMMANDS\nstep 1\n",
         f"{FIVE}$INPUT\n$COMMANDS\nstep 1\n", command="debug"),
    told("past the columns", "Anything after column 72 is ___; .Cm check ___ of it", {"1:73 1 warning": ("ignored", "warns")},
         f"{' (A,PD)':<72}(X)\n", command="check",
         look=lambda it: f"{it.stdout.decode().split(': ')[0]} {it.stdout.decode().splitlines()[-1].split(', ')[1]}"),
    told("a lost block", "A block that nothing leads to any more is ___, and is ___ freed by itself",
         {"1024 BLOCK 1 LOST 1025 FREE 8191 1 WORDS USED 8191 FREE": ("lost", "never")},
         session(" (A,GT,1)(A,E,0)(A,PD)(PL)\n", "go", "store"), command="debug"),
    told("faults of a long deck", "An ___ card has the same label", {"card 2: label given twice": "earlier",
         "card 1: label given twice": "later"},
         "X\nX\n"),
    told("where traps are", "at action .Ar e of statement .Ar s . Statements are numbered from 0, as a listing shows them; action "
         "0 is the ___.",
         {"TRAP 1 UNDEFINED FIELD AT 0.0": "condition"}, " IF (AN,E,0) THEN\n",
         look=lambda it: it.stdout.decode()[3:].partition(" AFTER")[0]),
]


def judged(program: str) -> Iterator[Trial]:
    """Traces that are judged."""
    yield from all_held(program, MANUAL, TRACES)


def is_silent(program: str) -> bool:
    """Whether a run that goes on for long has written nothing of what it has printed."""
    with subprocess.Popen([program, "run", "--steps", "1000000000"], stdin=subprocess.PIPE, stdout=subprocess.PIPE) as ended:
        assert ended.stdin and ended.stdout
        ended.stdin.write(b" (FIRST,PH)(PL)\nL L\n")
        ended.stdin.close()
        written = select.select([ended.stdout], [], [], SOON)[0]
        ended.kill()
        return not written


def jobs(program: str) -> Iterator[Trial]:
    """Jobs, and what is said of them."""
    yield from all_held(program, MANUAL, JOBS)
    yield held(MANUAL, "when a printout is written", "The printout is written when the run is ___, as in a batch system",
               "over" if is_silent(program) else "going on")
    ignore = [verb for verb in ("asm", "list", "check") if answered(program, verb, FIVE) == answered(program, verb,
         f"{FIVE}$INPUT\nX\n")]
    sentence = ".Cm asm , list , check and .Cm renew ___ the input"
    yield held(MANUAL, "verbs without an input", sentence, "ignore" if len(ignore) == 3 else "read")


def systems(program: str) -> Iterator[Trial]:
    """Which program is taken, and what stands between it and a terminal."""
    shell = (TOP / "tools/program.sh").read_text("utf-8")
    taken = dict(re.findall(r'"(Linux \w+)"\) echo "(.*)"', shell))
    first, second, third = taken["Linux x86_64"].replace("$program_name", "l6").split()
    arm = taken["Linux aarch64"].replace("$program_name", "l6").split()
    yield held(COMMANDS, "programs for Linux", "on x86-64 Linux ___, which needs version 2", first)
    yield held(COMMANDS, "without a C library", "or later, and then ___, which needs ___;", (second, "none"))
    yield held(COMMANDS, "on ARM", "on Linux for 64-bit ARM ___; and then, as on ___ other systems", (arm[0],
         "all" if arm[1] == third else "no"))
    started = (TOP / "terminal/start.sh").read_text("utf-8")
    plain = re.findall(r"(--\w+) \|", started.partition("case $word in")[2].partition(")")[0])
    words: Words = (*dict.fromkeys(plain[:3]), "dumb" if '!= dumb ]' in started else "known", re.findall(r"\$\{(L6DB_\w+)-\}",
         started)[0])
    yield held(SESSIONS, "the program as it is", "Over pipes, with ___, ___ or ___, at a ___ terminal and with ___ set", words)
    others = re.findall(r"command -v (\w+)", started)
    ignored = "nothing" if "trap '' INT" in started else "end"
    sentence = "else ___, if it is there, which gives editing and a history; else the program as it is, and then Ctrl-C does ___ |"
    yield held(SESSIONS, "what stands between", sentence, (others[1], ignored))
    yield held("CHANGELOG.md", "what stands between", "with ___ alone there are editing and a history", others[1])
    pager = re.findall(r'environ.get\("PAGER", "(\w+)"\)', (TOP / "terminal/front.py").read_text("utf-8"))
    yield held(SESSIONS, "pagers", "long answers go through a pager | $PAGER, or ___ |", pager[0])
    states = answered(debugger_beside(program), "--batch -", f"{DECK}$COMMANDS\ns\nsave\n").stdout.decode().splitlines()[-1]
    yield held(SESSIONS, "Ctrl-C", "another program is started and obeys what ___ shows", "save" if states == "goto 3" else None)


def prefix_of_vim() -> str:
    """The prefix below which Vim looks for files of other packages; Debian's where there is no Vim."""
    if not shutil.which("vim"):
        return "/usr"
    ran = subprocess.run(["vim", "-Nu", "NONE", "-es", "+put =&rtp", "+%print", "+qa!"], capture_output=True, text=True)
    found = re.search(r"(?:^|,)(/[^,]*)/share/vim/vimfiles(?:,|$)", ran.stdout, re.MULTILINE)
    return found[1] if found else ""


def vim(_program: str) -> Iterator[Trial]:
    """Where files for Vim must be installed."""
    yield held(EDITORS, "the prefix of Vim", "Vim looks for them below its own prefix, so sudo ./install ___ or a package is found", prefix_of_vim())


def installing_sentences(program: str) -> Iterator[Trial]:
    """All of them."""
    for group in (judged, jobs, systems, vim):
        yield from group(program)


# Each group, and a sentence of it that is turned round.
TURNED = [
    (judged, MANUAL, "and a free has to join each free buddy", "and a free has to join no free buddy"),
    (jobs, MANUAL, "The printout is written when the run is over", "The printout is written when the run is going on"),
    (systems, SESSIONS, "and then Ctrl-C does nothing", "and then Ctrl-C does harm"),
    (vim, EDITORS, "so `sudo ./install /usr` or", "so `sudo ./install` or"),
]
