"""What CHANGELOG.md and docs/history.md say of checks, runs, the page and limits: decks are checked and run, and the words follow."""
from __future__ import annotations

import functools
import re
import select
import shutil
import subprocess
from collections.abc import Iterator

from answers import answer_of
from model.cards import assemble
from model.images import image_of
from option_lists import debugger_beside
from page_sentences import part
from told import either, the_one, told
from trials import Trial

CHANGES, HISTORY, WEB, BENCH = "CHANGELOG.md", "docs/history.md", "web/README.md", "bench/README.md"
CANARIES = (
    (CHANGES, "It goes on after an error", "It goes on before an error"),
    (CHANGES, "with signs under its\n  columns", "with signs over its\n  columns"),
    (CHANGES, "an exercise is not solved by its printout", "an exercise is also solved by its printout"),
    (HISTORY, "a printout is\nwritten at its end", "a printout is\nwritten at its begin"),
    (WEB, "shows what a deck says as text, and\nnever as markup", "shows what a deck says as markup, and\nnever as text"),
)


def checked(program: str, deck: str, *words: str) -> list[str]:
    """What a check says of a deck."""
    return answer_of([program, "check", *words], input=deck.encode()).stdout.decode("latin-1").splitlines()


def warned(program: str, deck: str, text: str) -> bool:
    """Whether a check warns of just this."""
    return any("warning: " in line and text in line for line in checked(program, deck))


def checks(program: str) -> Iterator[Trial]:
    """What a check finds, and what it shows."""
    both = [line.partition(" error: ")[0] for line in checked(program, " (A,ZZ,1)\n (B,YY,2)\n") if " error: " in line]
    column = next((column for column in (71, 72, 73) if warned(program, f" (A,PD){' ' * (column - 7)}X\n", "past column")), 0)
    label = warned(program, " (A,PD) DONE\nL (A,PD)\n", "names the label"), warned(program, " (A,PD)\nL (A,PD)\n", "names the label")
    yield told(CHANGES, r"It goes on (\w+) an error, and warns of what is past column (\d+), statements that (\w+) way leads to and their (\w+), operations that (\w+) trap "
               r"and fields that (\w+) defines", either(both == ["1:5:", "2:5:"], "after", "before"), str(column), either(
                   warned(program, " (A,PD) DONE\n (PL)\n", "no way leads"), "no", "a"), either(label == (True, False), "labels", "cards"), either(
                       warned(program, " (A,V,0)\n", "always traps"), "always", "never"), either(warned(program, " (A,E,BN)\n", "which nothing defines"), "nothing", "all"))
    spelled = [(checked(program, deck)[-1:][0].startswith("0 errors"), answer_of([program, "asm"], input=deck.encode()).status == 0)
               for deck in (" (A,E,5)\n", " (A,ZZ,5)\n", " (PL) GONE\n", " (A,V,0)\n")]
    yield told(CHANGES, r"There is an error exactly if the deck spells (\w+) program", either(
        all(right == made for right, made in spelled) and {True, False} == {right for right, _ in spelled}, "no", "a"))
    near = [" ".join(checked(program, deck)) for deck in (" (PL) DOEN\n", "LOOP (PL) LOPO\n", " (PL) FIAL\n")]
    named = [name for name, text in zip(("DONE", "LOOP", "FAIL"), near) if f"is it `{name}`?" in text]
    yield told(CHANGES, r"an exit or a label that (\w+) card gives is compared with those that are (\w+), and with (\w+) and (\w+)\.", *(
        ("no", "given", named[0], named[-1]) if len(named) == 3 else (str(near), "", "", "")))
    long = checked(program, " (A,ZZ,1)\n", "--long")
    card = next((at for at, line in enumerate(long) if line.endswith("(A,ZZ,1)")), 0)
    signs = next((at for at, line in enumerate(long) if "^^" in line), 0)
    yield told(CHANGES, r"with --long, it shows each card with signs (\w+) its columns", either(signs == card + 1, "under", "over"))
    decides = warned(program, " IF (A,E,5) THEN\n (PL) DONE\n", "decides nothing")
    yield told(CHANGES, r"It warns of a condition that decides (\w+),", either(decides, "nothing", "all"))
    missing = answer_of([debugger_beside(program), "/nowhere/a.deck"], input=b"").stderr.decode("latin-1")
    yield told(CHANGES, r"l6db says (\w+) file can't be opened, and (\w+);", either("/nowhere/a.deck" in missing, "which", "that a"), either(
        "no such file" in missing, "why", "when"))


def profile(program: str) -> Iterator[Trial]:
    """What a run of this profile has."""
    text = answer_of([program, "debug"], input=b" (A,GT,1)\n$COMMANDS\nstore\n").stdout.decode("latin-1")
    first, words = (re.findall(r"^(\d+) FREE (\d+)$", text, re.MULTILINE) or [("0", "0")])[0]
    for page in (CHANGES, HISTORY):
        yield told(page, r"The default store has ([\d,]+) words, as before", f"{int(words):,}")
    yield told(CHANGES, r"and its first block is at place (\d+); before", first)
    last = answer_of([program, "debug", "--store", "255"], input=b" (A,GT,1)\n$COMMANDS\nstore\n").stdout.decode("latin-1")
    end = sum(map(int, (re.findall(r"^(\d+) FREE (\d+)$", last, re.MULTILINE) or [("0", "0")])[0]))
    yield told(HISTORY, r"and a place has (\d+) bits, as before", str((end - 1).bit_length()))
    done, fail = (answer_of([program, "run"], input=f" (S,DO,F)(A,PD)(PL) DONE\nS (A,E,1) {end}\nF (A,E,2)(A,PD)(PL) DONE\n".encode()).stdout[:1] for end in ("DONE", "FAIL"))
    yield told(HISTORY, r"a subroutine has two exits, (\w+) and (\w+)\.", *(("done", "fail") if (done, fail) == (b"1", b"2") else (str(done), str(fail))))
    helped = answer_of([program, "run", "--help"], input=b"")
    option = "".join(re.findall(r"(--\w+) <M>\s+Units of", (helped.stdout + helped.stderr).decode("latin-1")))
    yield told(HISTORY, r"Storage \| set up by the program \| an option of the command line, (--\w+) \|", option)
    yield told(HISTORY, r"output while a run goes on \(a printout is written at its (\w+), as in", either(printed_at_the_end(program), "end", "begin"))


@functools.cache
def printed_at_the_end(program: str) -> bool:
    """Whether a run that prints first, and then goes on for long, has written nothing meanwhile."""
    deck = b" (A,PD)(PL)\nL (A,A,1)\n IF (A,L,40000000) THEN L\n"
    with subprocess.Popen([program, "run", "--steps", "1000000000"], stdin=subprocess.PIPE, stdout=subprocess.PIPE, bufsize=0) as peer:
        assert peer.stdin and peer.stdout
        peer.stdin.write(deck)
        peer.stdin.close()
        early = select.select([peer.stdout], [], [], 0.1)[0]
        return not early and peer.stdout.read().startswith(b"0\n== DONE")


def images(program: str) -> Iterator[Trial]:
    """What becomes of an image of the first version, which the model makes."""
    deck = b" (A,E,5)(A,PD)(PL)\n"
    known = assemble(deck).program
    old, new = image_of(known, 1), image_of(known, 2)
    loaded, ran = (answer_of([program, verb], input=given).stdout for verb, given in (("load", old), ("run", deck)))
    renewed = answer_of([program, "renew"], input=old).stdout
    yield told(HISTORY, r"Images of the (\w+) version can (\w+) be loaded, and \./l6 renew rewrites them in the (\w+) \(", "first", either(
        loaded == ran, "still", "not"), either(renewed == new != old, "second", "first"))
    made = answer_of([program, "asm"], input=deck).stdout
    yield told(CHANGES, r"Images of version (\d), for programs of up to [\d,]+ statements, and the verb renew, which rewrites images of version (\d)\.", *(
        ("2", "1") if made == new == renewed else ("1", "2")))


def steps(program: str) -> Iterator[Trial]:
    """What a step is, and what is cleared and trapped."""
    def counted(deck: str) -> str:
        return "".join(re.findall(r"AFTER (\d+) STEPS?", answer_of([program, "run"], input=deck.encode()).stdout.decode("latin-1"))[-1:])

    yield told(BENCH, r"A step is a (\w+), an (\w+) or an (\w+)\. One", *(("condition", "operation", "exit") if counted(" (A,E,5) DONE\n") == "3" else ("", "", "")))
    begun = " (0,DN,18,35)(A,GT,1)(AN,E,A)"
    yield told(BENCH, r"One through a chain of six names counts as (\w+) as one on a bug", either(
        counted(f"{begun}(ANNNNN,E,5)\n") == counted(f"{begun}(B,E,5)\n"), "much", "six"))
    again = answer_of([program, "run"], input=b" (0,DN,0,35)(A,GT,1)(AN,E,7)(A,FR)(B,GT,1)(BN,PD)(PL)\n").stdout.startswith(b"0\n")
    yield told(BENCH, r"l6 (\w+) each block, as a block is of (\w+);", either(again, "clears", "keeps"), either(again, "zeros", "ones"))
    traps = [answer_of([program, "run"], input=deck).status for deck in (b" (A,E,1025)(A,FR)\n", b" (A,GT,1025)\n", b" (A,GT,0)\n")]
    yield told(BENCH, r"it keeps a table of the sizes of blocks, and (\w+) at (\w+) wrong place and size", *(("traps", "every") if traps == [2, 2, 2] else (str(traps), "")))


def page() -> Iterator[Trial]:
    """What was mended in the page."""
    if not shutil.which("node"):
        print("skipped: what the changelog says of the page: node is missing")
        return
    other = bool((part("verdicts") or {}).get("other"))
    yield told(CHANGES, r"an exercise is (\w+) solved by its printout for (\w+) input", either(other, "not", "also"), "another")
    answers = part("answers") or ["", ""]
    yield told(CHANGES, r"answers are judged with the input and the options of (\w+) exercise", either(answers[0] == "" != answers[1], "their", "an"))
    yield told(CHANGES, r"a label or a text does (\w+) count as a use of a field", either(part("uses") == [False, False, False, True], "not", "also"))
    yield told(CHANGES, r"Space checks the box that has the focus, and plays (\w+);", either(part("box") == 0, "nothing", "on"))
    texts = part("texts") or []
    yield told(WEB, r"The page shows what a deck says as (\w+), and never as (\w+)\.", the_one({
        "text": texts == ["<b>A</b>"], "markup": any(isinstance(it, dict) for it in texts)}), "markup")
    yield told(CHANGES, r"fields are (\w+), numbers or texts by what they (\w+);", f"{(part('kinds') or ['', ''])[1]}s", "got")


def changes_sentences(program: str) -> Iterator[Trial]:
    """All of them."""
    for group in (checks, profile, images, steps):
        yield from group(program)
    yield from page()
