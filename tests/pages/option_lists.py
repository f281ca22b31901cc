"""The options of all verbs and the variables of the environment: what is said of them beside the program.

The program says its ranges where a number is past one, and its defaults in its help. Completions, manual pages and
tables are compared with both.
"""
from __future__ import annotations

import re
from collections.abc import Iterator
from pathlib import Path

from answers import answer_of
from page_tables import TOP, spans_of, table_with, text_of
from trials import Trial

DEBUGGER, MANUAL, TRACE, LANGUAGE = "docs/l6db.1", "docs/l6.1", "docs/trace.md", "docs/language.md"
COUNTS = ("no", "one", "two", "three", "four", "five", "six", "seven", "eight", "nine", "ten")
TOO_LARGE = str(1 << 62)
COMMON = {"TERM", "HOME"}  # variables that every system has
Range = tuple[int, int]


def said_by(program: str, *words: str) -> str:
    """What the program says on one of its outputs."""
    answer = answer_of([program, *words], input=b"")
    return (answer.stdout + answer.stderr).decode()


def verbs_of(program: str) -> dict[str, list[str]]:
    """The options of each verb that take a number, by the help; the debugger has no verb, so its name is empty."""
    verbs = [""] if Path(program).name.startswith("l6db") else ["run", "load", "debug", "trace"]
    helps = {verb: said_by(program, *words_of(verb), "--help") for verb in verbs}
    return {verb: re.findall(r"^ +--([\w-]+) <(?:\w|BYTES)>", text, re.MULTILINE) for verb, text in helps.items()}


def words_of(verb: str) -> list[str]:
    """The words of the command line that a verb is."""
    return [verb] if verb else []


def ranges(program: str) -> dict[str, Range]:
    """The range of each option with a number, as the program says it of a number that is past it."""
    found = {}
    for verb, options in verbs_of(program).items():
        for option in options:
            judged = ["--any-place"] if verb == "trace" and option != "store" else []
            said = said_by(program, *words_of(verb), *judged, f"--{option}", TOO_LARGE)
            limits = re.search(r" is not in (\d+)\.\.=(\d+)", said)
            found[option] = (int(limits[1]), int(limits[2])) if limits else (-1, -1)
    return found


def defaults(program: str) -> dict[str, str]:
    """What counts for each option without a number, as the help says it."""
    helps = "\n".join(said_by(program, *words_of(verb), "--help") for verb in verbs_of(program))
    return dict(re.findall(r"--([\w-]+) <\w+> .*(?:\[default: |; )(\d+(?:\^K)?)(?:\]| without this option)", helps))


def numbers_of(text: str) -> Range:
    """The range that a text says; none is -1."""
    found = re.search(r"(\d[\d,]*) to (\d[\d,]*)", text)
    return (int(found[1].replace(",", "")), int(found[2].replace(",", ""))) if found else (-1, -1)


def in_completions(known: dict[str, Range], usual: dict[str, str], program: str) -> Iterator[Trial]:
    """The ranges and the defaults that shells show."""
    text = text_of(f"completions/_{program}")
    rows = re.findall(r"--([\w-]+)=\[[^\]]*\]:(\w+, [^:\[]*)(?:\[(\d+)\])?:'", text)
    yield f"the ranges that zsh shows for {program}", known, {option: numbers_of(said) for option, said, _ in rows}
    expected = {option: number if number.isdigit() else "" for option, number in usual.items()}
    yield f"the defaults that zsh shows for {program}", expected, {option: number for option, _, number in rows}
    text = text_of(f"completions/{program}.fish")
    found = {option: numbers_of(said) for option, said in re.findall(r"-l ([\w-]+) -x -d '(.*)'$", text, re.MULTILINE)}
    shown = {option: said for option, said in found.items() if said != (-1, -1)}
    yield f"the ranges that fish shows for {program}", {it: known.get(it) for it in shown}, shown


def stems(text: str) -> set[str]:
    """The beginnings of the words of a text, and its numbers."""
    return {it if it.isdigit() else it[:3] for it in re.findall(r"[a-z]{3,}|\d+", text.lower())}


def described(program: str, path: str) -> Iterator[Trial]:
    """What completions say of a verb or an option is in the words of its help."""
    verbs = re.findall(r"^  (\w+) ", said_by(path, "--help").partition("Commands:\n")[2].partition("\n\n")[0], re.MULTILINE)
    helps = {verb: said_by(path, *words_of(verb), "--help") for verb in ("", *verbs) if verb != "help"}
    zsh = text_of(f"completions/_{program}")
    fish = text_of(f"completions/{program}.fish").replace("\\\n", "").replace("\\'", "\0")
    said = [*re.findall(r"^ +['\"](\w+):(.*)['\"]$", zsh, re.MULTILINE), *re.findall(r"['\"](-[\w-]+)[=+]?\[([^\]]*)\]", zsh)]
    said += re.findall(r"-a (\w+) -d ['\"](.*)['\"]$", fish, re.MULTILINE)
    said += [(f"{'--' if dash == 'l' else '-'}{name}", what) for dash, name, what in re.findall(r"-(l|s) ([\w-]+)(?: -\w)* +-d '(.*)'$", fish, re.MULTILINE)]
    for name, what in said:
        texts = [helps[name]] if name in helps else [it for it in helps.values() if re.search(rf"{name}\b", it)]
        yield f"what completions of {program} say of {name}: {what}", set(), stems(what) - stems("\n".join(texts))


def in_texts(known: dict[str, Range], usual: dict[str, str]) -> Iterator[Trial]:
    """What the manual page and the table of traces say of a range, and of what counts without a number."""
    items = re.findall(r"^\.It Fl -([\w-]+) Ar \w+\n((?:(?!\.It|\.El|\.Sh).*\n)+)", text_of(MANUAL), re.MULTILINE)
    texts = {f"{MANUAL}: {option}": (option, " ".join(said.split())) for option, said in items}
    for cell, said in table_with(text_of(TRACE), "Option", "What it says").rows:
        option = spans_of(cell)[0].split()[0].removeprefix("--")
        texts[f"{TRACE}: {option}"] = (option, said)
    for name, (option, said) in texts.items():
        if numbers_of(said) != (-1, -1):
            yield f"{name}: its range", known.get(option), numbers_of(said)
        without = re.findall(r"(\d[\d,]*(?:\^K)?) without (?:this option|it)\b|The default is ([\d,]+)\.", said)
        found = ["".join(it).replace(",", "") for it in without]
        if found:
            yield f"{name}: without it", [usual.get(option)], found
    yield "options of which the manual page says what counts without them", {*usual} - {"piece"}, {
        option for name, (option, said) in texts.items() if name.startswith(MANUAL) and re.search("without|default", said)}


def verbs(program: str) -> Iterator[Trial]:
    """The verbs of the help are those of each list of them, and as many as the manual says."""
    listed = said_by(program, "--help").partition("Commands:\n")[2].partition("\n\n")[0]
    known = set(re.findall(r"^  (\w+) ", listed, re.MULTILINE)) - {"help"}
    synopsis, _, described = text_of(MANUAL).partition(".Sh DESCRIPTION")
    zsh, fish, bash = (text_of(f"completions/{it}") for it in ("_l6", "l6.fish", "l6.bash"))
    lists = {
        f"the synopsis of {MANUAL}": re.findall(r"\w+", " ".join(re.findall(r"^\.Cm (.*)$", synopsis, re.MULTILINE))),
        f"the description of {MANUAL}": re.findall(r"^\.It Cm (\w+)$", described, re.MULTILINE),
        LANGUAGE: [spans_of(row[0])[0].split()[1] for row in table_with(text_of(LANGUAGE), "Words", "What is done").rows],
        "completions/_l6": re.findall(r"^ +['\"](\w+):", zsh, re.MULTILINE),
        "completions/l6.fish": re.findall(r"-n \$first -a (\w+)", fish),
        "completions/l6.bash": re.findall(r"\w+", "".join(re.findall(r"2:help\) choices='(.*)'", bash))),
    }
    for where, found in lists.items():
        yield f"the verbs of {where}", known, set(found) - {"help"}
    numbered = {f"--{option}" for options in verbs_of(program).values() for option in options}
    told = re.findall(r"^ *(--.*)\) return ;; # a number$", bash, re.MULTILINE)
    yield "the options with a number in completions/l6.bash", [numbered], [set(it.split(" | ")) for it in told]
    count = re.findall(r"The program has (\w+) verbs", text_of(LANGUAGE))
    yield f"how many verbs {LANGUAGE} says", [COUNTS[len(known)]], count


def other_pages() -> Iterator[Trial]:
    """The manual page of l6 names the pages of the other programs: it is the one that people open first."""
    others = {it.stem for it in (TOP / "docs").glob("*.1")} - {"l6"}
    named = set(re.findall(r"^\.Xr (\w+) 1", text_of(MANUAL).partition(".Sh SEE ALSO")[2], re.MULTILINE))
    yield f"manual pages that {MANUAL} does not name", set(), others - named


def variables() -> Iterator[Trial]:
    """The variables of the environment that the manual page of l6db names are those that its scripts read."""
    scripts = [*sorted((TOP / "terminal").glob("*.py")), TOP / "terminal/start.sh", TOP / "ports/session.js"]
    pattern = r'environ\.get\("(\w+)"|process\.env\.(\w+)|\$\{([A-Z]\w+)[:-]'
    read = {"".join(it) for file in scripts for it in re.findall(pattern, file.read_text("utf-8"))} - COMMON
    yield f"the variables of {DEBUGGER}", read, set(re.findall(r"^\.It Ev (\w+)$", text_of(DEBUGGER), re.MULTILINE))
    page = text_of("docs/l6db.md")
    yield "variables that docs/l6db.md does not name", [], sorted(it for it in read if it not in page)


def debugger_beside(program: str) -> str:
    """The program l6db that was made with a program l6: in the same folder, or of the crate beside it."""
    beside = Path(program).with_name(Path(program).name.replace("l6", "l6db", 1))
    return str(beside if beside.is_file() else TOP / "crates/l6db/out/l6db")


def option_lists(program: str) -> Iterator[Trial]:
    """All of them."""
    known, usual = ranges(program), defaults(program)
    yield "options without a range", [], [option for option, limits in known.items() if limits[0] >= limits[1]]
    yield from in_completions(known, usual, "l6")
    yield from in_texts(known, usual)
    debugger = debugger_beside(program)
    yield from in_completions(ranges(debugger), defaults(debugger), "l6db")
    yield from described("l6", program)
    yield from described("l6db", debugger)
    yield from verbs(program)
    yield from other_pages()
    yield from variables()
