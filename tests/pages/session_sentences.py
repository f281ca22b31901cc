"""What docs/l6db.md says of commands in words: sessions show which words are right."""
from __future__ import annotations

import functools
import re
from collections.abc import Iterator

from answers import Answer
from held import Told, Words, all_held, answered, held, seen_of, told
from option_lists import debugger_beside
from trials import Trial

PAGE = "docs/l6db.md"
# A loop with a call: statements 0, 1, 2, and the subroutine 3 and 4.
DECK = "MORE (I,A,1)(PUT,DO)\n IF (I,L,3) THEN MORE\n DONE\nPUT (J,A,I)(K,E,J)\n (K,E,0) DONE\n"
FREED = " (0,DN,0,35)(A,GT,2)(AN,E,5)(AN,E,6)(B,E,A)\n (A,FR)\n (C,E,BN)\n"


def stops(answer: Answer[bytes]) -> str:
    """At which states a session stops: where each is, and after how many steps; and what is said if a command is refused."""
    lines = answer.stdout.decode("latin-1").splitlines()
    at = [re.match(r"AT ([\d.]+) AFTER (\d+) STEPS|== (\w+)", it) for it in lines]
    return " ".join(f"{it[1]}/{it[2]}" if it[1] else it[3] for it in at if it)


def last(answer: Answer[bytes], text: str = "") -> str:
    """The last line that is written, of those with a text."""
    return " ".join([*(it for it in answer.stdout.decode("latin-1").splitlines() if text in it), ""][-2].split())


def at(subject: str, sentence: str, words: dict[str, Words], *commands: str, deck: str = DECK) -> Told:
    """A sentence that the stops of sessions decide; the commands of each are parted by semicolons."""
    jobs = (f"{deck}$COMMANDS\n" + "".join(f"{it.strip()}\n" for it in one.split(";")) for one in commands)
    return told(subject, sentence, words, *jobs, command="--batch -", look=stops)


def says(subject: str, sentence: str, words: dict[str, Words], *commands: str, deck: str = DECK, text: str = "") -> Told:
    """A sentence that the last lines of sessions decide, of those with a text."""
    return at(subject, sentence, words, *commands, deck=deck)._replace(look=functools.partial(last, text=text))


GOING = [
    at("step", "on, or back, to where a statement ___, ___ in a call (DO), or to where one stops before",
       {"0.0/0 3.0/3 4.0/7 1.0/11 4.0/7": ("begins", "also"), "0.0/0 1.0/11 2.0/13 1.0/11": ("begins", "not")}, "s;s;s;back"),
    at("stepi", "goes N states on, or ___: an action leads from one state to the ___",
       {"0.0/0 0.1/1 3.0/3 0.2/2": ("back", "next")}, "si;si 2;rsi"),
    at("next", "as step and back, but ___ a call: to where ___ more calls wait than here",
       {"0.0/0 1.0/11 0.0/0": ("over", "no"), "0.0/0 3.0/3 0.0/0": ("into", "no")}, "n;rn"),
    at("nexti", "the same by states: also to where a statement goes on ___ its call",
       {"0.0/0 0.1/1 0.2/2 0.3/10": "after"}, "ni;ni;ni"),
    at("finish", "on to where the ___ call has returned, or ___ to where it was ___ |",
       {"0.0/0 3.0/3 0.3/10 | 0.0/0 3.0/3 4.0/7 0.2/2": ("latest", "back", "made")}, "s;finish", "s;s;rf"),
    at("continue", "on, or back, to the ___ state at which one stops",
       {"0.0/0 3.0/3 4.0/7 DONE 4.0/33": "nearest"}, "b 3;b 4;c;c;end;rc"),
    at("run", "from the ___, on to where one stops", {"0.0/0 DONE 3.0/3": "start"}, "b 3;end;run"),
    at("until",
       "on to the statement, or to where one stops ___; ___ PLACE to the statement ___ this one, so that a loop is left at "
       "its ___ |",
       {"0.0/0 1.0/11 2.0/38 | 0.0/0 3.0/3": ("before", "without", "after", "end")}, "goto 11;until", "b 3;until 4"),
    at("goto, start and end", "to a state by its number, to the ___ one, to the ___ one",
       {"0.0/0 0.2/2 0.0/0 DONE": ("first", "last"), "0.0/0 0.2/2 DONE 0.0/0": ("last", "first")}, "goto 2;start;end"),
    at("other stops", "step, next, finish and their kin ___ stop where continue would",
       {"0.0/0 3.0/3 | 0.0/0 3.0/3 4.0/7": "also", "0.0/0 1.0/11 | 0.0/0 3.0/3 0.3/10": "never"}, "b 3;n", "s;b 4;finish"),
    at("until and tests", "until PLACE stops there ___ test a breakpoint there has",
       {"0.0/0 3.0/3": "whatever"}, "b 3 if (I,E,2);until 3"),
]
STOPPING = [
    at("break and tbreak", "tbreak, tb PLACE | one stops there; ___.",
       {"0.0/0 3.0/3 3.0/16 | 0.0/0 3.0/3 DONE": "once"}, "b 3;c;c", "tb 3;c;c"),
    at("break with a test", "one stops there where it ___; where it meets a ___ one stops, ___ |",
       {"0.0/0 3.0/16 DONE | 0.0/0 3.0/3": ("holds", "trap", "too")}, "b 3 if (I,E,2);c;c", "b 3 if (IN,E,2);c"),
    at("condition", "the breakpoint there has this test, or ___ |",
       {"0.0/0 3.0/16 DONE | 0.0/0 3.0/3": "none"}, "b 3;cond 3 (I,E,2);c;c", "b 3 if (I,E,2);cond 3;c"),
    at("delete", "one stops there ___; without PLACE there is ___ breakpoint left, and ___ is watched",
       {"0.0/0 4.0/7 | 0.0/0 DONE": ("no longer", "no", "nothing"), "0.0/0 3.0/3 | 0.0/0 DONE": ("again", "no", "nothing")},
       "b 3;b 4;delete 3;c", "b 3;b 4;watch I;delete;c"),
    at("watch", "one stops where the chain or the word reads as ___ value; ___.",
       {"0.0/0 0.2/2 0.2/15 | 0.0/0 DONE": ("another", "no longer")}, "watch I;c;c", "watch I;unwatch I;c"),
    at("watch a word", "one stops also where the block comes into being or is ___.",
       {"0.0/0 0.3/3 0.4/4 0.5/5 1.2/9 TRAP": "freed", "0.0/0 0.3/3 0.4/4 0.5/5 TRAP": "kept"}, "watch *1024;c;c;c;c;c",
       deck=FREED),
    at("a watch forward and back",
       "Going forward, a watch stops right ___ the step that changed the value; going back, right ___ it. A chain that can "
       "be followed no longer has changed, ___,",
       {"0.0/0 0.3/3 0.4/4 0.3/3 | 0.0/0 0.5/5 1.2/9": ("after", "before", "too"),
        "0.0/0 0.3/3 0.3/3 0.4/4 | 0.0/0 0.5/5 1.2/9": ("before", "after", "too")}, "goto 3;watch AN;c;rc", "goto 5;watch AN;c",
       deck=FREED),
    at("disable and enable", "one stops there ___, and the test is ___; one stops there ___ |",
       {"0.0/0 DONE | 0.0/0 3.0/3": ("no longer", "gone", "again")}, "b 3 if (I,E,2);disable 3;c",
       "b 3 if (I,E,2);disable 3;enable 3;c"),
    at("an empty line",
       "An empty line ___ the last command. A line that begins with # is a ___, after which an empty line does ___",
       {"0.0/0 3.0/3 4.0/7 | 0.0/0 3.0/3": ("repeats", "comment", "nothing"),
        "0.0/0 3.0/3 | 0.0/0 3.0/3": ("skips", "comment", "nothing")}, "s;;# b 4", "s;# b 4;"),
    at("places", "also with + and how many statements ___ it",
       {"0.0/0 4.0/7": "after", "0.0/0 2.0/38": "before"}, "b PUT+1;c"),
    at("what is nearly a command", "A word that is nearly a command is answered by what that command does, and ___ is obeyed",
       {"0.0/0": "nothing", "0.0/0 3.0/3": "it"}, "stpe"),
    at("a command with what it does not take", "So is a command ___ what must follow it, or ___ what it does not take",
       {"0.0/0": ("without", "with")}, "goto;s x"),
]
SHOWING = [
    says("letters of commands", "Words are between blanks, and letters may be of ___ case",
         {"4 PUT (J,A,I)(K,E,J)": "either", "1 MORE (I,A,1)(PUT,DO)": "lower"}, "B put;C", text=" PUT ("),
    says("kinds of places", "the number of a ___, or : and the number of a ___;",
         {"break 4 PUT+1 | break 3 PUT": ("statement", "card"), "break 3 PUT | break 4 PUT+1": ("card", "statement")},
         "b 4;info", "b :4;info"),
    says("a label that is printed", "Of a ___, the statement",
         {"A label, of statement 3 PUT": "label"}, "p PUT", text="statement"),
    says("fields of a block", "the words of the block to which it leads, and what the fields that are ___ show of it",
         {"N = 5": "defined", "0 000000000005": "not defined"}, "goto 5;x B", deck=" (0,DN,0,35)(A,GT,1)(AN,E,5)(B,E,A)\n"),
    says("a word by a chain", "or a chain, of which the value counts that it has ___;",
         {"watch *1024: 5 -> 6": "now", "watch *A: 5 -> can't be read": "then"}, "goto 5;watch *A;c",
         deck=" (0,DN,0,35)(A,GT,1)(AN,E,5)(B,E,A)(A,E,0)(BN,E,6)\n", text="watch"),
    says("cards of a breakpoint", "one stops there; once. The ___ of the statement are shown",
         {"4 PUT (J,A,I)(K,E,J)": "cards"}, "b 3"),
    says("numbers of what is watched", "N is the number that info shows, and what comes after it has ___ one then",
         {'watch 1: K = 0 000000000000 " "': "another", 'watch 2: K = 0 000000000000 " "': "the same"},
         "watch I;watch K;unwatch 1;info"),
    says("numbers of breakpoints", "A breakpoint has the number of its ___",
         {"break 3 PUT": "statement", "break 4 PUT": "card"}, "b PUT;info"),
    says("what is displayed", "the chain is printed at each ___; no longer",
         {'I = 1 000000000001 " !"': "stop"}, "display I;s"),
    says("print", "what it reads as: in ___, in ___, as ___, and the block there",
         {'A = 9 000000000011 " )"': ("decimal", "octal", "characters")}, "goto 2;p A", deck=" (A,E,9)\n"),
    says("calls that wait", "where the calls that wait go on; in N lines, with how many ___ wait",
         {"and 1 more": "more", "#1 returns to 0.3 MORE": "fewer"}, "s;bt 1"),
    says("lists", "the free pieces of the store, level by level, in the order in which they are ___",
         {"LEVEL 0 SIZE 1: 1026 1024 | LEVEL 0 SIZE 1: 1024": "taken",
          "LEVEL 0 SIZE 1: 1026 1024 | LEVEL 0 SIZE 1: 1026": "freed"}, "goto 7;lists", "goto 8;lists",
         deck=" (A,GT,1)(B,GT,1)(C,GT,1)(D,GT,1)(A,FR)(C,FR)(E,GT,1)\n", text="LEVEL 0"),
    says("what is never changed", "nothing: a run is ___ changed, and that is said",
         {'I = 0 000000000000 " "': "never", 'I = 5 000000000005 " %"': "then"}, "set I 5;p I"),
    says("files of a job's commands", "may name ___ file for save or source: somebody else may have written them",
         {"No such file, or it can't be opened | No such file, or it can't be opened": "no"}, "save a.commands",
         "source /dev/null"),
    says("save", "Breakpoints are by ___, where a label names them",
         {"break PUT": "labels", "break 3": "numbers"}, "b 3;save", text="break"),
    says("the label of a state", "the line of the state and the ___ label ___ it, the cards",
         {"#0 at 2.0 Y+1": ("last", "before"), "#0 at 2.0 Z": ("next", "after")}, "goto 6;bt",
         deck="X (PL)\nY (PL)\n (PL)\nZ (PL)\n"),
    says("the action that is marked", "with the action marked that comes ___; for a trap",
         {"^^^^": "next", "^^^^^^": "last"}, "goto 2", deck=" (A,PD)(PL)\n", text="^^^^"),
    says("what was printed", "what was printed since the ___ stop, at most",
         {"printed 2": "last", "printed 12": "first"}, "b 1;c;c", deck=" (1,PH)\n (2,PH)\n", text="printed"),
    says("how much of it", "at most the ___ 400 characters of it",
         {f"printed {'O' * 398}ND": "last", f"printed BE{'O' * 398}": "first"}, "end",
         deck=f" (BE,PH)\nLOOP ({'O' * 50},PH)(A,A,1)\n IF (A,L,9) THEN LOOP\n (ND,PH)\n", text="printed"),
    says("cards before those", "list shows the ten that ___, and list - the ten ___;",
         {"30 L29 (A,A,1) | 20 L19 (A,A,1)": ("follow", "before"),
          "20 L19 (A,A,1) | 30 L29 (A,A,1)": ("were before", "that follow")}, "list 15;list", "list 15;list;list -",
         deck="".join(f"L{it} (A,A,1)\n" for it in range(40))),
]


# By what `who` answers at the end of a run that got a block twice, and at which state the session then is.
WHO = {
    "got 4 written 6 freed 7 STATE 11": ("last", "before", "no", "last", "stays"),
    "got 2 freed 3 STATE 11": ("last", "before", "no", "first", "stays"),
}
TWICE = " (0,DN,0,35)(A,GT,1)(A,FR)(A,GT,1)(AN,E,5)(AN,E,6)(A,FR)\n$COMMANDS\nend\nwho 1024\nstats\n"
LOOSE = " (0,DN,0,35)(A,GT,1)(AN,E,1500)\n$COMMANDS\nend\ndraw\n"
MANY = " (0,DN,0,35)\nM (L,GT,1,LN)(I,A,1)\n IF (I,L,50) THEN M\n$COMMANDS\nend\ndraw\n"


def blocks(program: str) -> Iterator[Trial]:
    """What is said of blocks and links."""
    debugger = debugger_beside(program)
    whose, loose, many = (answered(debugger, "--batch -", it).stdout.decode() for it in (TWICE, LOOSE, MANY))
    seen = re.findall(r"^(got|written|freed) AT \S+ AFTER (\d+)|^(STATE \d+)", whose, re.MULTILINE)
    sentence = "was got, ___ written and freed, if it was: the state right ___ each, to which goto leads. If ___ block "
    words = WHO.get(" ".join(" ".join(filter(None, it)) for it in seen))
    yield held(PAGE, "who", f"{sentence}begins there now, it is the ___ one that did. The session ___ where it is", words)
    side = "below" if loose.endswith("1 BLOCKS\n1024 N -> 1500 NO BLOCK\n") else "above"
    which = "first" if "\nL -> 1073\n" in many and many.endswith("more lines: draw all shows them\n") else "last"
    sentence = "the same, and ___ it the links that lead to ___ block: the ___ 40 lines, with how many more there are"
    yield held(PAGE, "draw", sentence, (side, "no", which))
    habits = [seen_of(debugger, "--batch -", f"{LOOSE}{it}\n") for it in ("x 1024\np A", "x/8 1024\np $A")]
    counts = "nothing" if len({*habits}) == 1 and "BLOCK 1024 SIZE 1 0 " in habits[0] else "much"
    yield held(PAGE, "what is typed by habit", "a format, as in x/8 1024, and a dollar sign before a bug count for ___.", counts)


def going(program: str) -> Iterator[Trial]:
    """Where commands lead."""
    yield from all_held(debugger_beside(program), PAGE, GOING)


def stopping(program: str) -> Iterator[Trial]:
    """Where one stops."""
    yield from all_held(debugger_beside(program), PAGE, STOPPING)


def showing(program: str) -> Iterator[Trial]:
    """What commands show."""
    yield from all_held(debugger_beside(program), PAGE, SHOWING)


def session_sentences(program: str) -> Iterator[Trial]:
    """All of them."""
    for group in (going, stopping, showing, blocks):
        yield from group(program)


# Each group, and a sentence of it that is turned round.
TURNED = [
    (going, PAGE, "so that a loop is left at its end", "so that a loop is left at its beginning"),
    (stopping, PAGE, "going back, right before it", "going back, right after it"),
    (showing, PAGE, "what comes after it has another one then", "what comes after it has the same one then"),
    (blocks, PAGE, "the state right before each", "the state right after each"),
]
