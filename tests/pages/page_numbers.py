"""Numbers of the pages: each has a source, or is of a kind that is no figure.

`page_figures.py` compares limits. Here each number in a sentence is looked at, limit or not. It has a source if

- a sentence of `facts.py`, of `page_figures.py` or of PHRASES below has it, where # stands for the number,
- a mark `<!-- fact: NAME -->` follows it,
- an example or a table of the same section has it: examples are run, and tables are compared row by row.

KINDS says what is no figure, with the reason. What is left over is listed, and the trial fails.
"""
from __future__ import annotations

import re
from collections.abc import Iterable, Iterator
from math import ceil, comb, factorial

from model import cards, characters, command, groups, operations, programs, state, store
from page_figures import DIGITS, FACTS, MARK, NO_LIMITS, TIED, in_source
from page_tables import TOP, plain, text_of
from trials import Trial

# Pages that tell what was measured, decided or done once: their numbers are of that day.
OF_A_DAY = {"docs/DECISIONS.md", "docs/measurements.md"}
PAGES = (
    "README.md", "CONTRIBUTING.md", "ports/README.md", "web/README.md", "library/l6_store.h", "library/l6_offset.h",
    *sorted(page for it in (TOP / "docs").iterdir() if it.suffix in (".md", ".1") and (page := f"docs/{it.name}") not in OF_A_DAY),
)
AROUND = 80  # characters before and behind a number in which a sentence about it is
NUMBER = re.compile(rf"(?<![\w.,#`=^+-]){DIGITS}(?![\w]|[.,:]\d)")
SECTION = "a section, which sections() looks for"
KINDS = {
    SECTION: r"\b[Ss]ections? \d+(?:(?:, \d+| to \d+)*,? and \d+)?(?: to \d+)?",
    "literature, which citations.py compares": r"\b\d+\(\d+\)|\b(?:19|20)\d\d\b|pp\. \d+(?:-|\\\(en)\d+",
    "what was measured: a time, a size, or a count of instructions": (
        rf"\b{DIGITS}(?:(?: to| and| or|,) {DIGITS})*(?: times)? ?(?:KB|MB|GB|KiB|MiB|GiB|minutes?|seconds?|hours?|ms|ns|µs|per cent|%|s\b|instructions)"
        rf"|{DIGITS} (?:states|times) (?:takes|took) [\d.]+ s|state {DIGITS} takes a second|best of \d|(?:beside|joinings,|joins nothing take|with) {DIGITS}(?=[ ;,] ?(?:of the (?:plain|loop)|beside|asserts|as they do))"),
    "the bits of a number": r"(?<= is )[01]{2} [01]{2} [01]{2}\b",
    "what counting_commands() of named.py counts": r"reaches \d+ definitions, [\d,]+ lines with their comments, in \d+ files",
    "what was tried once": r"20,000 decks that were damaged|200,000 made from numbers|400 of them under valgrind|3,000 with a stack",
    "the name of a trial, which named.py looks for": r'"[^"]*"',
    "a trap with its name, which facts.py compares": r"\b\d+ [A-Z]+(?: [A-Z]+)+",
    "the name of a kit, a language or a processor": (
        r"\b(?:Python|Node|C|GNU|clang|Debian|Vim|Emacs|neovim|Windows|Version) \d+(?:\.\d+)*|\bx86-64(?:-v\d)?|\b(?:32|64)-bit"),
}
STATIC = "tests/scripts/static_checks.py"
# Sentences of any page with a number, for which # stands; in front is the number, by the manual or by hand. They are patterns.
WORD_BITS, POINTER_BITS, UNIT = 36, 18, store.UNIT
PHRASES: dict[str, int] = {
    # (words and places)
    r"words of # bits|word has # bits|a word of six characters: # bits": WORD_BITS,
    r"upper # bits|lower # bits|place has # bits|there are 2\^# of them, and offsets|below 2\^#\. So a word": POINTER_BITS,
    r"#\^(?:k|K|top|18|24|36)\b": 2,
    r"in units of #|(?<!made of )units of # words|a unit is #|begins at place #|[Pp]laces begin at #, so|from one multiple of 4,096|strip for each unit of #": UNIT,
    r"one of # words": len(characters.LETTERS),
    r"1, 2, 4, \.\. (?:to|or) #|Of # words takes|A block of # words takes": operations.SIZE_LIMIT,
    r"block of # words takes what memset": operations.SIZE_LIMIT,
    r"\b#, 2, 4, \.\. ": 1, r"1, #, 4, \.\. ": 2, r"1, 2, #, \.\. ": 4,
    r"each kept in # bytes|Memory: # bytes a word": 8, r"a word, # bytes a place|its tag and # for its": 2, r"for its size, # bytes a level": 4,
    r"The default store has # words": state.Options().store * UNIT,
    r"has # units of 1,024|new store of # units|all # units are got": state.Options().store,
    r"may list # blocks": 255 * UNIT,
    r"# to 255 units|# to 65,535 statements": 1, r"made: # to 261,120|255 units of #,": UNIT, r"made: 1,024 to #": 255 * UNIT, r"made of units of #, up|made of units of # words, up": 128, r"name is below #": len(characters.NAMES),
    # (cards, lines and codes)
    r"Columns # to 72 count": 2, r"Columns 2 to # count": cards.COLUMNS,
    r"column # is (?:ignored|the end)|A card has # columns|to column #;|past column # is": cards.COLUMNS,
    r"[Cc]olumn # (?:of a card tells|says what)|blank (?:in|of a) column #|because of its column #|begins in column #": 1,
    r"a mark at column #": cards.COLUMNS + 1, r"ruler at column #": cards.COLUMNS, r"key leads to column #|Statements begin in column #": 8, r"shuffles # bytes": 16,
    r"[Ee]ach line of (?:the|an) input (?:has|counts as) # char|A card of the input is # char": state.LINE_CHARACTERS,
    r"prints a text of up to #": programs.PRINTED_LIMIT,
    r"base #\b(?= are)|is 33 times #": 64,
    r"code #, A has|blank is #|blank #, 0 to 9": 0,
    r"A has #|A is #\b(?= times|\. If)|A to Z # to|AB is # times": characters.code_of("A"),
    r"\? has #\.": characters.code_of("?"),
    r"64 plus #": characters.code_of("B"),
    r"64 plus 34, which is #": characters.number_of_text("AB"),
    r"A to Z 33 to #": characters.code_of("Z"),
    r"# to 9 (?:are )?16|names # to 9|fields from # to 9": 0,
    r"0 to # (?:are )?16|names 0 to #|fields from 0 to #": 9,
    r"9 (?:are )?# to": characters.code_of("0"),
    r"9 (?:are )?16 to #": characters.code_of("9"),
    r"ASCII code less #": 32,
    # (runs)
    r"stopped like that after #|default of #": state.Options().steps,
    r"seconds with #|With the most, #": command.RANGES["--steps"][1],
    r"--steps N \(#|1,000,000\), --output N \(bytes, 1": 1_000_000,
    r"--output N \(bytes, #": state.Options().output,
    r"is not in a row|[Aa]ction # is the condition": 0,
    r"condition, # to k are|k \+ # is the exit": 1,
    r"(?:numbered|indexes are counted|Places are counted) from #(?! each)|the start has the number #|session, state # is|from state #": 0,
    r"counted from #(?=\. Every)": 1,
    r"a whole job from state #": 0,
    r"else it traps #: the middle": 2, r"else it traps #\. To read": 3,
    r"used to be trap #": 6,
    # (checkpoints of the debugger)
    r"multiple of #\b(?= to the next)|asked for # states|15 times #": 4_096,
    r"oldest of # checkpoints|[Tt]he first # checkpoints|With all # kept|machines: # checkpoints": 16,
    r"is # times 4,096": 15, r"at most 4,095 steps, however long the run: #|run: #": 15 * 4_096,
    r"at most # machines": 16 + 2,
    # (faults and the calls of the library)
    r"(?:answers a number: |; after a fault |fault is below )#(?!\^)": 0,
    r"which is below #|fault is below #|nothing to tell answers #|All bytes # is|would give, or #:|or # if |piece of a level, or #\.": 0,
    r"p > #;|joined two; # after|so (?:place )?# is no|# or more, or a fault|bugs that are not #|W is # if": 0,
    r"level k, # to|from # to 10|top from # to|, # if there is none": 0,
    r"archive: # times": 10_000, r"first number, # times the second": 100,
    r"(?:takes|writes) # bytes for each of": 3, r"some # more": 100,
    r"piece of # bytes of a GPU|a place is # bytes": 256,
    r"the end at most 2\^#|above 2\^#": FACTS["largest_top"],
    r"none for # bits": 32, r"numbers of #\.": 64,
    # (examples, by hand)
    r"Seven nodes take # words": 7 * 4,
    r"A buffer of # bytes takes": 300_000, r"bytes takes # places": 2_048, r"which is # bytes: sizes": 2_048 * 256,
    r"which has # digits": len(str(factorial(100))), r"printout is # factorial": 100,
    r"there are # orders": factorial(5), r"have # elements": 5 * 5, r"blocks of # words\. The last": 32,
    r"there are 120 orders, in # lines": 120 // 6, r"The last element is #": comb(8, 4),
    r"four words have # bits": 4 * WORD_BITS, r"numbers from 0 to #\. With \(M": 4 * WORD_BITS - 1, r"traps when #": 4 * WORD_BITS,
    r"for the numbers from #": 0, r"turned by # degrees": 45, r"largest number in a word is #": characters.WORD_LIMIT - 1,
    r"reads the other #": 80 - 6 - 1 - 3, r"pieces of #, 256 and": 128, r"128, # and 512 words": 256,
    r"256 and # words": 512, r"first unit has # free": 512, r"- # is one more than a mult": 64,
    r"which is # more than": 128 - 100, r"first line is # BLOCKS": 2_048, r"BLOCKS OF SIZE #": 3, r"leads to the one at #": UNIT + 2, r"block at # leads to the one": UNIT,
    r"Then # characters are left": 160 - 3, r"can be taken # times": 157 // 6,
    r"element: # 0 5": 0, r"element: 0 # 5": 0, r"0 0 # is|0 0 5 is #": 5, r"\(0,DO,#,2\)|\(0,DP,#,2\)": 1, r"\(0,DO,1,#\)|\(0,DP,1,#\)": 2,
    r"\(#,D[OP],1": 0, r"whole, and not card #": 2, r"\(A,EO,#\)|is octal #, \(A": 17,
    r"On one card it would have # columns": 83, r"letter D, octal #": 44, r"lead to the block at #": UNIT + 6, r"octal #\. Its last": 2006,
    r"pieces that make it up, #": UNIT + 4, r"1028, #, 1040": UNIT + 8, r"1032, # and so on": UNIT + 16,
    r"memory is short: a request of #": 33, r"33 places takes #": 64,
    r"Here that is # bytes|piece is # bytes there|in pieces of # bytes": 16, r"so # bytes are": 600, r"600 bytes are # words": ceil(600 / 16),
    r"for # pieces, get": 256, r"get rest1 #": 512, r"get rest2 #": 256, r"places begin at #\. An": 2_048 - 256,
    r"piece of # bytes, level": 128, r"bytes, level #|pieces of level # are": 3, r"b29 was at #": 1_240, r"1240, in # words": 8, r"Its buddy, #": 1_232,
    r"There # words are free": 512, r"free when # are asked": 64,
    r"--levels # --units": 16, r"--units # --first": 1, r"--first # --piece": 0, r"--piece #": 16,
    r"run --steps #|stops the run after # steps": 20, r"N has # bits|its last # bits": 36 - 30, r"place # of the second block": UNIT + 6,
    r"list becomes #\.|goes to #,": (UNIT + 6) % 64, r"so # blanks are saved": 80 - 8, r"in # fewer steps": 8, r"run takes # steps": 195,
    r"line is # BLOCKS WERE": 6, r"This card has #\b": 90, r"end of a group: # is": 41, r"numbers from # down to 1": 10, r"from 10 down to #": 1,
    r"blocks of #, 2, 1 and 4": 1, r"1, 2, # and 4 words": 1, r"blocks of 1, #, 1|a block of # words is got|N to base #": 2, r"1, 2, 1 and # words": 4,
    r"N be the bits # to 35": 30, r"the bits 30 to #|leftmost, to #": 35, r"print #\. The answers": 77, r"# and 3 are printed": 2, r"2 and # are printed, and at": 3,
    r"are printed, and at # the": 4, r"x/8 #\b": UNIT, r"So a # that was counted": UNIT, r"blocks alone, and #": 0, r"Fit or # shows": 0,
    r"tree@#": 137, r"letters of # pixels": 18, r"picture has # columns": in_source("library/draw.py", r"^COLUMNS = (\d+)"),
    # (images and listings)
    r"writes version #|the version # image|image, of version #|as in version #|example, # is the bit": 2,
    r"Version #, in which|[Ii]n version # the magic|Version # (?=In version)|version #: 01 is": 1, r"version 1: # is the bit": 1,
    r"octal #\. Read as six": 542651554722, r"magic word is #, which": 542651554721,
    r"bits # to (?:22|23) ": 18, r"to # of a header|bit # is 1": 23, r"18 to # are 0": 22,
    r"header are #,|18 to 22 are #,": 0, r"bit 23 is # if": 1,
    r"image has # words": 18, r"18 words, # of": 15, r"Each has a line: # blanks": 15, r"card without a number: # blanks": 8,
    r"its number in # places|statement's number in # places": 5, r"the label in # places": groups.LABEL_LIMIT, r"■ the byte #": 128,
    r"# is 01 10 00": 30, r"# is 01 01 00": 24, r"# is 11 00 00": 60, r"# is 10 00 00": 40,
    r"smallest pieces, # to 20": 0, r"20; # without this": 10, r"as many; # without this": 8,
    r"statement of # operations": programs.ROWS_LIMIT, r"ring\", of # blocks": 100_000, r"renew\", of # bytes": 6_815_796,
    # (history)
    r"IBM #\b": 7_094, r"the first at place #\. Now|Units of # words of old": 128, r"numbers fitted # bits": 12, r"volume #,": 1, r"example's DO is #": 264077010002, r"label, and # the statement": 2,
    r"published first, in October #": 1_965, r"later, in August #": 1_966, r"the system of # ran": 1_966, r"Wesley, #": 1_968,
    r"exit status is # if there is a finding": 1,
    # (bounds on memory)
    r"answer, # bytes for each": 160, r"statement, # for each test": 80, r"it is run, # for each": 12, r"back # times holds": 300,
    r"kept, must be #": 0, r"(?:serves|makes) # (?:jobs|in one)": 10_000,
    r"Instruction of # bytes": 24, r"That is # bytes for each action": 28, r"each action and # for": 8, r"division by #": 256,
    # (pages on the code)
    r"Of # files 19": in_source(STATIC, r"^LONG, LONGEST, ONE_IN = \d+, \d+, (\d+)"), r"20 files # have": 19, r"have at most # lines|more than # it is not": in_source(STATIC, r"^LONG, LONGEST, ONE_IN = (\d+)"),
    r"none has more than #:": in_source(STATIC, r"^LONG, LONGEST, ONE_IN = \d+, (\d+)"), r"At most # findings of a kind": FACTS["findings"],
    r"set bug A to #": 5, r"branch off at step #": 4, r"divisor is not #|until the number is #": 0, r"\.antt files of step #": 5,
    r"function of step #": 4, r"reaches to # statements": 120_985, r"left: # at its start|begins with #, and": 1_000,
    r"chain at most # names": programs.NAMES_LIMIT, r"program at most # st": programs.STATEMENTS_LIMIT, r"a card # columns|the first # bytes of a line": cards.COLUMNS,
    r"for the # characters from": 64, r"begins with the number #|have numbers from #": 1, r"spans rise, from #": 0, r"width times #|field's number times #": 2, r"their names, # to 9": 0,
    r"their names, 0 to #": 9, r"is its own, :#|statement of card #, and": 7, r"and the offset #": 0, r"letters from # on": 10, r"text_of reads #": 1, r"reads 1 to #": 6,
    r"at most # letters and digits": groups.LABEL_LIMIT, r"operations, at most #": programs.ROWS_LIMIT, r"are at most #, so": programs.STATEMENTS_LIMIT - 1,
    r"at most # cards continue": cards.CONTINUATIONS_LIMIT, r"the base #\b": 64, r"bit # is the leftmost|moves, which are #|stops at #\.": 0, r"divided by # to|modulo # to": 2,
    r"store has # to 255": 1, r"has 1 to # units": 255, r"# bugs; for each": len(characters.LETTERS), r"each of the # names": len(characters.NAMES),
    r"at most # entries": operations.ENTRIES_LIMIT, r"which is # modulo": 0, r"table of the # operations": len(programs.OPERATIONS), r"the name or #,": 63,
    r"in the last # bits of a row": 18, r"number is at most #\.": 1_000_000_000, r"steps leads to statement #|\(stops_back\), or #|further back, or to #|says that it is #": 0,
    r"a block and # for each other": 1, r"its list, or #|each place: #": 0, r"some # definitions are": 400,
    # (how much is tried)
    r"by hand, # random traces": in_source("tests/program/traces.py", r"^RANDOM = (\d+)"),
    r"table, # random ones": in_source("tests/program/judged_traces.py", r"for number in range\((\d+)\)"),
    r"sends # hostile messages": in_source("tests/program/adapter.py", r"^HOSTILE = ([\d_]+)"),
    r"commands lead, # more": 6 * in_source("tests/program/l6db.py", r"^WATCHED = (\d+)"), r"where # random commands": 1_000,
    r"proved: # calls on stores": in_source("crates/l6_tests/src/buddy_stores.rt", r"for number in 0\.\.([\d_]+) \{"),
    r"stores of # and 3": 1, r"stores of 1 and #": 3, r"# random calls": in_source("tests/systems/library.py", r"^CALLS = ([\d_]+)"),
    r"module answers all cases, the examples and # random jobs": in_source("web/tests/random_jobs.py", r"^JOBS = ([\d_]+)"),
    # (messages of editors)
    r"head has at most #": 4_096, r"bytes of JSON, at most #|a body #": 16_777_216,
    # (exit statuses)
    r"(?:nothing is read|found), and the exit status is #|line is not text; the exit status is #|my\.deck \. The exit status is #|# if the command line is wrong": 64,
    r"nothing is answered, and the exit status is #|exit status is # if (?:nothing|the session)": 0,
    r"(?:after it is done, and|end the answers\. The) exit status is #|after it is done, and the exit status is #|# if a command was refused|# if an answer is": 1,
    r"# if the (?:job|trace) was refused|standard error, and the exit status is #|number of the card, and its exit status is #": 4,
    r"# if memory ran out": 5,
}


# In pages on the code an example is worked by hand, to the end of its section; Worked.antt proves many of them.
OF_CODE = {"docs/definitions.md", "docs/architecture.md"}
AN_EXAMPLE = re.compile(r"\b(?:Examples?[:,. ]|By hand: ).*|\bSay that .*|^Tried with .*?(?=^\s*$|\Z)", re.DOTALL | re.MULTILINE)


def prose(page: str, text: str) -> str:
    """The sentences of a part of a page, in one line: without blocks, tables, comments and what links lead to, and without
    the numbers of headings and of the points of lists."""
    text = re.sub(r"^( *)```.*?^\1```$", "", text, flags=re.DOTALL | re.MULTILINE)
    if page.endswith(".1"):
        text = re.sub(r"^\.Bd.*?^\.Ed$", "", text, flags=re.DOTALL | re.MULTILINE)
        lines = [line for line in text.splitlines() if not re.match(r'\.(?:\\"|Dd|Dt|Os|Xr)', line)]
        text = "\n".join(re.sub(r"^\.[A-Z]\w ?(?:\w+ )?", "", line) for line in lines)
    if page.endswith(".h"):
        text = "\n".join(re.findall(r"/\*(.*?)\*/", text, re.DOTALL))
    text = "\n".join(line for line in text.splitlines() if not line.lstrip().startswith("|"))
    text = re.sub(r"\]\([^)]*\)", "]", re.sub(r"<!--.*?-->", "", MARK.sub("", text), flags=re.DOTALL))
    return plain(re.sub(r"^ *(?:#+ |\*\*)?\d+\. ", "", text, flags=re.MULTILINE))


RUN = re.compile(r"` in place of `|\bWithout `\(|`\./l6 [^`]*<")


def without_runs(part: str) -> str:
    """A section without the lines and statuses of paragraphs that documents.py runs, since it compares these."""
    paragraphs = re.split(r"(?m)(^(?= *- | *\d+\. |\s*$))", part)
    compared = r"`(?:\d+|== [^`]*|l6: [^`]*)`|exit\s+status\s+(?:is\s+)?\d+"
    return "".join(re.sub(compared, "", it) if RUN.search(" ".join(it.split())) else it for it in paragraphs)


def parts(page: str) -> list[str]:
    """The sections of a page; a header is one part."""
    text = text_of(page)
    if page.endswith(".h"):
        return [text]
    heading = r"^(?=\.Sh )" if page.endswith(".1") else r"^(?=##+ )"
    shown = re.sub(r"^( *)```.*?^\1```$", lambda it: re.sub(r"^#", "\0", it[0], flags=re.MULTILINE), text, flags=re.DOTALL | re.MULTILINE)
    # (the statuses of manual pages are compared, item by item, by facts.py, table_decks.py and editor_files.py)
    return [it for it in re.split(heading, shown, flags=re.MULTILINE) if not it.startswith(".Sh EXIT STATUS")]


def of_examples(page: str, part: str) -> set[int]:
    """The numbers in the examples and the tables of a section."""
    blocks = re.findall(r"^\.Bd.*?^\.Ed$" if page.endswith(".1") else r"^ *```.*?^ *```$", part, re.DOTALL | re.MULTILINE)
    rows = [line for line in part.splitlines() if line.lstrip().startswith("|")]
    return {whole(it) for it in re.findall(DIGITS, "\n".join([*blocks, *rows]))}


def whole(number: str) -> int:
    """A number as pages write it, with commas or without."""
    return int(number.replace(",", ""))


def shapes(sentences: Iterable[str]) -> list[re.Pattern[str]]:
    """Sentences as patterns, of which the groups are the numbers that stand for #."""
    return [re.compile(it.replace("#", f"({DIGITS})")) for it in sentences]


def covers(shape: re.Pattern[str], text: str, start: int, end: int) -> bool:
    """Whether a number of a text is one of a sentence around it."""
    first = max(0, start - AROUND)
    for found in shape.finditer(text[first:end + AROUND]):
        if any(first + found.start(it) == start for it in range(1, len(found.groups()) + 1)):
            return True
    return False


def sections() -> Iterator[Trial]:
    """A section that a page names is there, in it or in the tutorial; headings and points of lists are counted from 1 on."""
    of_tutorial = set(re.findall(r"^#+ (\d+)\. ", text_of("docs/tutorial.md"), re.MULTILINE))
    for page in (it for it in PAGES if it.endswith(".md")):
        text = re.sub(r"^( *)```.*?^\1```$", "", text_of(page), flags=re.DOTALL | re.MULTILINE)
        there = set(re.findall(r"^#+ (\d+)\. ", text, re.MULTILINE)) | of_tutorial
        named = {it for found in re.findall(KINDS[SECTION], plain(text)) for it in re.findall(r"\d+", found)}
        yield f"{page}: sections that are not there", set(), named - there
        for mark in (r"^#+ (\d+)\. ", r"(?<=\n\n)(?:\*\*)?(\d+)\. ", r"^\*\*(\d+)\.\*\* "):
            counted = [int(it) for it in re.findall(mark, text, re.MULTILINE)]
            wrong = [it for before, it in zip([0, *counted], counted) if it not in (1, before + 1)]
            yield f"{page}: numbers by {mark} that are out of order", [], wrong


class Numbers:
    """What the pages have of numbers: those of each phrase, and those that nothing compares."""

    def __init__(self, of_facts: list[tuple[str, str]], pages: Iterable[str]) -> None:
        self.of_phrases: dict[str, set[int]] = {phrase: set() for phrase in PHRASES}
        self.left: dict[str, list[str]] = {page: [] for page in pages}
        self.phrases = dict(zip(PHRASES, shapes(PHRASES)))
        for page in self.left:
            sentences = [sentence for where, sentence in [*of_facts, *((it[0], it[1]) for it in TIED)] if where == page]
            self.known = shapes("(?i)" + re.escape(it).replace(r"\#", "#") for it in sentences)
            self.none = [re.compile(it) for it in (*KINDS.values(), *(f"(?i){re.escape(it)}" for it in NO_LIMITS.get(page, [])))]
            for part in parts(page):
                self.read(page, AN_EXAMPLE.sub("", part) if page in OF_CODE else part)

    def read(self, page: str, part: str) -> None:
        """Reads a section of a page."""
        text, shown = prose(page, without_runs(part)), of_examples(page, part)
        none = [it.span() for shape in self.none for it in shape.finditer(text)]
        for it in re.finditer(DIGITS, text):
            named = [phrase for phrase, shape in self.phrases.items() if covers(shape, text, *it.span())]
            for phrase in named:
                self.of_phrases[phrase].add(whole(it[0]))
            if named or not NUMBER.match(text, it.start()) or whole(it[0]) in shown:
                continue
            is_none = any(a <= it.start() < b for a, b in none)
            if not is_none and not any(covers(shape, text, *it.span()) for shape in self.known):
                self.left[page].append(text[max(0, it.start() - 40):it.end() + 30])


def numbers(of_facts: list[tuple[str, str]], pages: Iterable[str] = PAGES) -> Iterator[Trial]:
    """Each number that a phrase has is the one beside it, and each other number has a source; of some pages not all phrases
    are there.
    """
    found = Numbers(of_facts, pages)
    for phrase, number in PHRASES.items():
        there = found.of_phrases[phrase]
        yield f"numbers: {phrase}", {number} if pages is PAGES else there & {number}, there
    for page, left in found.left.items():
        yield f"{page}: numbers without a source", [], left
