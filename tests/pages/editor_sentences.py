"""What docs/editors.md and l6ed.1 say of the language server: messages are sent, and the words follow from its answers."""
from __future__ import annotations

from collections.abc import Iterator

from answers import answer_of
from editor_peers import Said, at, framed, part, said, served, server_beside
from told import either, the_one, told
from trials import Trial

PAGE, MANUAL = "docs/editors.md", "docs/l6ed.1"
WHOLE = {"range": {"start": {"line": 0, "character": 0}, "end": {"line": 99, "character": 0}}}
CANARIES = (
    (PAGE, "also the card that gives it first", "also the card that gives it last"),
    (PAGE, "In comments and past column 72 nothing", "In comments and past column 72 everything"),
    (PAGE, "Semantic tokens are not offered", "Semantic tokens are also offered"),
    (PAGE, "but not in a test. In", "and also in a test. In"),
    (MANUAL, "each before it reads the next one", "each after it reads the next one"),
)


def labels(answer: object) -> list[str]:
    """What a completion offers."""
    return [str(part(it, "label")) for it in part(answer, "result") or []]


def lines(answer: object) -> list[int]:
    """The lines of places that are answered."""
    return [part(it, "range", "start", "line") for it in part(answer, "result") or []]


def findings(program: str) -> Iterator[Trial]:
    """What is found, where it is shown, and in which part of a job."""
    twice = served(program, "LOOP   (A,PD)\nNEXT   (PL) LOOP\nLOOP   (A,PD) NEXT\n").findings()
    other = part(twice, 0, "relatedInformation", 0, "location", "range", "start", "line")
    yield told(PAGE, r"of a label that is given (\w+) also the card that gives it (\w+)\.", either(len(twice) == 1, "twice", "once"), the_one({
        "first": other == 0, "last": other == 2}))
    columns = part(served(program, " (A,ZZ,5)\n").findings(), 0)
    word = part(columns, "range", "start", "character"), part(columns, "range", "end", "character")
    text = str(part(columns, "message"))
    yield told(PAGE, r"each error and (\w+), (\w+) the columns that it is about, with the (\w+) below it", either(
        part(served(program, " (PL) DONE\n (PL)\n").findings(), 0, "severity") == 2, "warning", "hint"), either(word == (4, 6), "under", "before"), either(
            "\n" in str(part(served(program, "A (A,PD) B\n").findings(), 0, "message")) or text.startswith("no operation"), "advice", "card"))
    parts = [len(served(program, f" (A,E,5)\n{end}\n((((\n").findings()) for end in ("$INPUT", "$COMMANDS", "*")]
    yield told(PAGE, r"In a job only the (\w+) counts, up to its line (\S+) or (\S+) \|", either(parts[2] > 0, "deck", "input"), *(
        ("$INPUT", "$COMMANDS") if parts[:2] == [0, 0] else (str(parts), "")))
    checked = answer_of([program, "check", "--name", "a.deck"], input=b" (A,ZZ,5)\n").stdout.decode("latin-1")
    yield told(PAGE, r"What is shown is what \[l6 check\]\S+ says, with the (\w+) columns and words", either(
        text.partition("\n")[0] in checked and ":1:5:" in checked, "same", "other"))


def places(program: str) -> Iterator[Trial]:
    """Where a label is given, where it is named, and which labels there are."""
    deck = "LOOP   (A,PD) NEXT\n* LOOP\nNEXT   (A,GT,1,,LOOP)(LOOP,DO)(L,E,LOOP) LOOP\nLOOPS  (A,GT,1,,NEXT) LOOPS\n"
    told_of = served(program, deck, ("textDocument/definition", at(2, 43)), ("textDocument/references", at(0, 1, context={"includeDeclaration": False})),
                     ("textDocument/documentSymbol", {}), ("textDocument/inlayHint", WHOLE))
    given = part(told_of.answer(2), "result", "range", "start", "line")
    named = sorted(part(it, "range", "start", "character") for it in part(told_of.answer(3), "result") or [] if part(it, "range", "start", "line") == 2)
    exits, calls, after = (deck.splitlines()[2].index(it) for it in (") LOOP", "LOOP,DO", ",LOOP)"))
    yield told(PAGE, r"go to definition \| the card that (\w+) the label", either(given == 0, "gives", "names"))
    yield told(PAGE, r"where the label is (\w+): in (\w+), (\w+), and (\w+) an operation that may (\w+) \|", either(0 not in lines(told_of.answer(3)), "named", "given"), *(
        ("exits", "calls", "after", "fail") if named == sorted((exits + 2, calls, after + 1)) else (str(named), "", "", "")))
    yield told(PAGE, r"symbols \| the (\w+) of the deck", either([part(it, "name") for it in part(told_of.answer(4), "result") or []] == [
        "LOOP", "NEXT", "LOOPS"], "labels", "fields"))
    hints = [(part(it, "position", "line"), part(it, "label")) for it in part(told_of.answer(5), "result") or []]
    trapped = answer_of([program, "run"], input=b"* A\n (PL)\n (PL)\n+ (AN,E,5)\n").stdout.decode("latin-1")
    other = served(program, "* A\n (PL)\n (PL)\n+ (AN,E,5)\n", ("textDocument/inlayHint", WHOLE)).answer(2)
    yield told(PAGE, r"the number of (\w+) statement, as (\w+) and (\w+) name it", either(hints == [(0, "0"), (2, "1"), (3, "2")], "each", "no"), "l6db", either(
        " AT 1." in trapped and [part(it, "label") for it in part(other, "result") or []] == ["0", "1"], "traps", "cards"))


def renames(program: str) -> Iterator[Trial]:
    """When a label gets another name, and when not."""
    def renamed(deck: str, name: str) -> Said:
        return served(program, deck, ("textDocument/rename", at(0, 1, newName=name)))

    whole = renamed("LOOP   (A,GT,1,,LOOP)\n (LOOP,DO)(A,PD) LOOP\n", "AGAIN").answer(2)
    edits = [it for listed in (part(whole, "result", "changes") or {}).values() for it in listed]
    wide = "LO     (A,PD)" + " " * 55 + " LO\n (A,PD) LO\n"
    refused = [part(renamed(deck, name).answer(2), "error") is not None for deck, name in (
        ("LOOP   (A,ZZ) LOOP\n", "AGAIN"), ("LOOP   (A,PD) LOOP\nNEXT (PL) LOOP\n", "NEXT"), (wide, "LONGER"), (wide, "AO"))]
    yield told(PAGE, r"the label gets another name (\w+) it stands\. It is (\w+) if the deck would (\w+) spell the same program then: if it has (\w+), has the new "
               r"name (\w+), or a card would be too (\w+);", either(len(edits) == 4, "wherever", "where"), *(
                   ("refused", "not", "errors", "already", "long") if refused == [True, True, True, False] else (str(refused), "", "", "", "")))
    counts = []
    for count in (999, 1000):
        deck = "L      (A,PD)\n" + "       (L,DO)\n" * count
        counts.append(part(renamed(deck, "M").answer(2), "error") is not None)
    yield told(PAGE, r"and if the label stands in (\w+) than ([\d,]+) places", either(counts == [False, True], "more", "fewer"), "1,000")


def completions(program: str) -> Iterator[Trial]:
    """What is completed where."""
    deck = "LOOP   (A,\n       IF (A,\n* (A,\n (A,E,5) \n" + " " * 75 + "(A,\n       IF \n"
    where = ((0, 10), (1, 13), (2, 5), (3, 9), (4, 78))
    told_of = served(program, deck, *(("textDocument/completion", at(*it)) for it in where))
    group, test, comment, outside, beyond = (labels(told_of.answer(number)) for number in range(2, 7))
    yield told(PAGE, r"as the (\w+) element of a group the (\w+), or the (\w+) where it is a test; (\w+) of groups IF, THEN, DONE and the like", *(
        ("second", "operations", "comparisons", "outside") if "GT" in group and "GT" not in test and "G" in test and {"IF", "THEN", "DONE"} <= {*outside} and
        "THEN" not in group else (str(group[:3]), str(test[:3]), "", "")))
    yield told(PAGE, r"the labels of the deck, but (\w+) in a test\. In comments and past column 72 (\w+) \|", either(
        "LOOP" in outside and "LOOP" not in test, "not", "also"), either(not comment and not beyond, "nothing", "everything"))
    hover = served(program, "A  (A,E,5)(NV,E,2)\n       (V,DV,0,17)(A,PD) A\n",
                   *(("textDocument/hover", at(*it)) for it in ((0, 6), (0, 12), (0, 0), (1, 22))))
    texts = [str(part(hover.answer(number), "result", "contents", "value")) for number in range(2, 6)]
    yield told(PAGE, r"of a chain in a group, the cards that (\w+) its bug", either("Named on card 1" in texts[1], "name", "define"))
    yield told(PAGE, r"and of each of its fields those that (\w+) it and those that (\w+) it;", *(
        ("define", "use") if "The field V. Defined on card 2. Used on card 1." in texts[1] else (texts[1], "")))
    yield told(PAGE, r"of a label, its (\w+) and the cards that (\w+) it", *(("statement", "name") if texts[2].endswith("Statement 0, on card 1. Named on card 2.") else (
        texts[2], "")))
    yield told(PAGE, r"hover \| of an operation or a test, how it is (\w+) and what it (\w+);", *(
        ("written", "does") if "(c,E,cd)" in texts[0] and "c becomes" in texts[0] else (texts[0], "")))


def fixes(program: str) -> Iterator[Trial]:
    """What is offered, and what is not."""
    deck = "LOOP   (A,PD) LOP\n"
    given = {"range": {"start": {"line": 0, "character": 14}, "end": {"line": 0, "character": 17}}, "context": {"diagnostics": []}}
    actions = part(served(program, deck, ("textDocument/codeAction", given)).answer(2), "result") or []
    words = [edit["newText"] for it in actions for listed in (part(it, "edit", "changes") or {}).values() for edit in listed]
    fewer = all(not served(program, deck.replace("LOP", word)).findings() for word in words)
    yield told(PAGE, r"quick fix \| the change of the card by which (\w+) is found: the label that was (\w+),", either(
        bool(words) and fewer, "less", "more"), either("LOOP" in words, "meant", "given"))
    offers = served(program, deck).answer(1)
    able = part(offers, "result", "capabilities") or {}
    yield told(PAGE, r"Semantic tokens are (\w+) offered", either("semanticTokensProvider" not in able, "not", "also"))
    yield told(PAGE, r"Formatting is (\w+) offered (\w+): a label stands", *(
        ("not", "either") if not {it for it in able if "ormatting" in it} and able else ("also", "then")))


def messages(program: str) -> Iterator[Trial]:
    """In which order answers come, what is answered by an error, and how the program ends."""
    order = served(program, "A (PL) A\n", ("textDocument/documentSymbol", {}), ("textDocument/nothing", {}), ("textDocument/documentSymbol", {}))
    numbers = [it.get("id") for it in order.messages if "id" in it]
    before = either(numbers == [1, 2, 3, 4, 0], "before", "after")
    yield told(PAGE, r"writes its answers to standard (\w+), each (\w+) it reads the next one; nobody", "output", before)
    yield told(MANUAL, r"writes its answers to standard (\w+), each (\w+) it reads the next one", "output", before)
    wrong = said(program, "lsp", framed({"jsonrpc": "2.0", "id": 1, "method": "initialize", "params": {"capabilities": {}}}, b"{x", {
        "jsonrpc": "2.0", "id": 2, "method": "textDocument/nothing", "params": {}}, {"jsonrpc": "2.0", "id": 3, "method": "shutdown"}, {
            "jsonrpc": "2.0", "method": "exit"}))
    errors = [part(it, "error", "code") for it in wrong.messages if "error" in it]
    unchanged = part(order.answer(2), "result") == part(order.answer(4), "result")
    yield told(PAGE, r"What is no (\w+), or asks for what the server does (\w+) have, is answered by the protocol's (\w+), and changes (\w+)\.", *(
        ("JSON", "not", "error") if errors == [-32700, -32601] else (str(errors), "", "")), either(unchanged, "nothing", "all"))
    left, over = served(program, "", ends=False).status, served(program, "").status
    yield told(PAGE, r"\.\. with 1 \| the editor went away (\w+) shutdown,", either((left, over) == (1, 0), "without", "after"))
    hello = said(program, "lsp", b"hello\n").status
    yield told(PAGE, r"the program ends with the exit status (\d) \| what came was (\w+) message", str(hello), "no")
    words = answer_of([server_beside(program), "nothing"], input=b"").status
    yield told(PAGE, r"\.\. with (\d+) \| the words of its command line are (\w+)", str(words), "wrong")
    long = served(program, "*" * (1 << 20) + "\n").findings()
    yield told(PAGE, r"(\w+) finding, that the deck is too (\w+) \|", either(len(long) == 1, "one", "no"), either("long" in str(part(long, 0, "message")), "long", "short"))


def editor_sentences(program: str) -> Iterator[Trial]:
    """All of them."""
    for group in (findings, places, renames, completions, fixes, messages):
        yield from group(program)
