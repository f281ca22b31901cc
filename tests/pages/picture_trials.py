#!/usr/bin/env python3
"""Checks that docs/pictures/ has just the pictures of the transcripts and traces in examples/, and the docs show them.

The texts for Graphviz and the other pictures must be those that tools/pictures.py makes. Those pictures
are read again, as pictures: the blocks of a map must have the order and the widths that the transcript says.
If words are shown, each must have its place, and each field and bug that leads to a block an arrow. What
Graphviz has drawn must have the nodes, the arrows and the words of its text. Graphviz itself is not needed.

Each difference is printed. The last line is 'N passed, M failed'.
"""
from __future__ import annotations

import re
import subprocess
import sys
import tempfile
import xml.etree.ElementTree
from collections.abc import Iterator
from itertools import chain, pairwise
from pathlib import Path
from unittest import mock

TOP = Path(__file__).resolve().parents[2]
sys.path[:0] = [str(Path(__file__).resolve().parents[1] / it) for it in ("harness", "../tools", "../tools/drawing")]
from layouts import SIDE, ranks
from pictures import EXAMPLES, PICTURES, texts_of, texts_of_trace
from transcripts import drawings_and_maps
from trials import Trial, report

DOCS = [TOP / "README.md", *sorted((TOP / "docs").glob("*.md"))]
RECORDED = ["python-calls.svg", "git-calls.svg", "sqlite3-calls.svg"]  # programs, in the order of the table of docs/trace.md
OTHERS = {"editor.svg", *RECORDED}  # of no transcript: tests/program/editors.py compares the first with what the server says
SVG = "{http://www.w3.org/2000/svg}"

# A transcript, and the texts that were worked out by hand for it. Its program has printed what looks like
# an answer. C is as wide as a character; 44 is the code of L, and 28 that of a character that both kinds
# of texts write in a way of their own.
TRANSCRIPT = """\
AT 3.0 AFTER 7 STEPS
OUTPUT 9 BYTES
5 BLOCKS

N 0 18 35
C 1 30 35
X -> 1024
BLOCK 1024 SIZE 2
  N -> 1026
BLOCK 1026 SIZE 2
  N -> 1024
2 BLOCKS
BLOCK 1024 SIZE 2
   0 000000002002
   1 000000000054
1024 BLOCK 2
1026 BLOCK 2
1028 BLOCK 4 LOST
1032 FREE 1016
8 WORDS USED 1016 FREE
AT 4.0 AFTER 8 STEPS
0 BLOCKS
C 0 0 5
N 0 18 35
Y -> 1028
BLOCK 1028 SIZE 1
  N -> 1028
1 BLOCKS
BLOCK 1028 SIZE 1
   0 340000002004
"""
NODES = ["""b1024 [.*label="{1024:|<N>N|C 44 'L'}"];""", """b1026 [.*label="{1026:|<N>N}"];"""]
LOOP = """b1028 [.*label="{1028:|C 28 '\\<'|<N>N}"];"""  # in the second drawing
EDGES = ["X -> b1024;", "b1024:N -> b1026;", "b1026:N -> b1024;"]
STRETCHES = [("block", 2), ("block", 2), ("lost", 4), ("free", 8)]  # of a strip of 16 words
WORDS = ["0", "1028", "18", "35", "5", "C 28 '<'", "N 1028", "Y", "bit"]  # of the block at 1028
# A word with fields of one, 17 and 18 bits, and a word that is a text.
NARROW = """\
AT 5.0 AFTER 9 STEPS
F 0 1 17
M 0 0 0
N 0 18 35
W 1 0 35
X -> 1024
BLOCK 1024 SIZE 2
1 BLOCKS
BLOCK 1024 SIZE 2
   0 400000000000
   1 545163646300
"""
NARROW_WORDS = ["0", "1", "1", "1024", "1025", "17", "18", "35", "F 0", "M", "N 0", "W 'LISTS'", "X", "bit"]
BITS = (184 + 18 * 16, 18 * 16)  # where N begins and how wide it is: a bit has 16 steps, and bit 0 begins at 184


def shown_stretches(picture: str) -> list[tuple[str, float]]:
    """The kinds of the stretches in a map of the store, and how many words each shows, strip after strip."""
    root = xml.etree.ElementTree.fromstring(picture)
    boxes = [it for it in root.iter(f"{SVG}rect") if it.get("height") == "54"]
    numbers = [int(it.text or "") for it in root.iter(f"{SVG}text") if it.get("font-size") == "12"]
    words = (numbers[1] - numbers[0]) * 8 / 1024  # to the right, for each step
    kinds = {"#2b6299": "block", "url(#lost)": "lost", "white": "free"}
    return [(kinds[it.get("fill", "")], float(it.get("width", "")) * words) for it in boxes]


def handmade() -> Iterator[Trial]:
    """The trials on the transcript above."""
    texts = texts_of("hand", TRANSCRIPT)
    names = ["hand-draw-1.dot", "hand-draw-2.dot", "hand-store-1.svg", "hand.svg"]
    yield "the names of pictures", names, sorted(texts)
    lines = [line.strip() for line in texts["hand-draw-1.dot"].splitlines()]
    others = [line.strip() for line in texts["hand-draw-2.dot"].splitlines()]
    for node in [*NODES, LOOP]:
        pattern = re.escape(node).replace(r"\.\*", ".*")
        found = [line for line in (others if node is LOOP else lines) if re.fullmatch(pattern, line)]
        yield f"the node {node}", 1, len(found)
    yield "the arrows", EDGES, [line for line in lines if "->" in line]
    yield "the strip", STRETCHES, shown_stretches(texts["hand-store-1.svg"])
    # (the lost block alone needs a second part of the store)
    behind = TRANSCRIPT.replace("1028 BLOCK 4 LOST\n1032 FREE 1016", "1028 FREE 16\n1044 BLOCK 4 LOST\n1048 FREE 1000")
    expected = [("block", 2), ("block", 2), ("free", 16), ("lost", 4), ("free", 8)]
    yield "a lost block behind the last live one", expected, shown_stretches(texts_of("hand", behind)["hand-store-1.svg"])
    yield "the words of a block", WORDS, drawn_words(texts["hand.svg"])
    boxes = xml.etree.ElementTree.fromstring(texts["hand.svg"]).iter(f"{SVG}rect")
    wide = [(float(it.get("x", "0")), float(it.get("width", "0"))) for it in boxes]
    yield "the bits of a field", 1, wide.count(BITS)
    yield "the arrows of a block", 2, arrows_in(texts["hand.svg"])
    narrow = texts_of("narrow", NARROW)["narrow.svg"]
    yield "a field of one bit and a text", NARROW_WORDS, drawn_words(narrow)
    yield "numbers of bits that touch", [], touching(narrow)


# What is wrong with a transcript, and how the one above becomes it.
WRONG = {
    "a map with a gap": ("1028 BLOCK 4 LOST", "1029 BLOCK 4 LOST"),
    "words that are used, but not there": ("8 WORDS USED 1016", "9 WORDS USED 1016"),
    "words that are free, but not there": ("USED 1016 FREE", "USED 1017 FREE"),
    "a block that is not drawn": ("  N -> 1024\n2 BLOCKS", "  N -> 1024\n3 BLOCKS"),
}


def refusals() -> Iterator[Trial]:
    """The trials that no picture is made of a transcript that contradicts itself."""
    for what, (old, new) in WRONG.items():
        try:
            made = ", ".join(texts_of("wrong", TRANSCRIPT.replace(old, new)))
        except ValueError:
            made = "nothing"
        yield f"pictures of {what}", "nothing", made


def touching(picture: str) -> list[tuple[str, str]]:
    """The numbers of bits above the rows that are closer than two digits are wide."""
    texts = [it for it in xml.etree.ElementTree.fromstring(picture).iter(f"{SVG}text")
             if it.get("font-size") == "12"]
    at = [(float(it.get("x", "")), float(it.get("y", "")), it.text or "") for it in texts]
    return [(left[2], right[2]) for left, right in pairwise(sorted(at))
            if left[1] == right[1] and right[0] - left[0] < 16 + 4]


def titles(text: str) -> list[str]:
    """The nodes and the arrows of a text for Graphviz, as a picture that it draws names them."""
    found = re.findall(r"^  (\w+)(?: \[shape|:?\w*:?\w* -> (\w+);)", text, re.M)
    return sorted(f"{node}->{other}" if other else node for node, other in found)


def drawn_titles(picture: str) -> list[str]:
    """The nodes and the arrows of a picture that Graphviz has drawn."""
    root = xml.etree.ElementTree.fromstring(picture)
    groups = [it for it in root.iter(f"{SVG}g") if it.get("class") in ("node", "edge")]
    found = [it.findtext(f"{SVG}title", "") for it in groups]
    return sorted(re.sub(r":\w+", "", title) for title in found)


def words_of(text: str) -> list[list[str]]:
    """The words of each label in a text for Graphviz, in their order."""
    labels = re.findall(r'label="(.*)"\];', text)
    cells = [re.sub(r"(?<!\\)(?:<\w>|[{}])", "", label).split("|") for label in labels]
    return sorted([re.sub(r"\\(.)", r"\1", cell) for cell in label] for label in cells)


def drawn_labels(picture: str) -> list[list[str]]:
    """The words of each node of a picture that Graphviz has drawn, from above or from the left."""
    root = xml.etree.ElementTree.fromstring(picture)
    nodes = [it.iter(f"{SVG}text") for it in root.iter(f"{SVG}g") if it.get("class") == "node"]
    return sorted([text.text or "" for text in sorted(node, key=place_of)] for node in nodes)


def place_of(text: xml.etree.ElementTree.Element) -> tuple[float, float]:
    """Where a text is: how far below, and how far to the right."""
    return float(text.get("y", "0")), float(text.get("x", "0"))


def drawn_words(picture: str) -> list[str]:
    """The words in a picture."""
    root = xml.etree.ElementTree.fromstring(picture)
    return sorted(it.text or "" for it in root.iter(f"{SVG}text"))


def arrows_in(picture: str) -> int:
    """How many arrows a picture has."""
    root = xml.etree.ElementTree.fromstring(picture)
    return sum(it.get("marker-end") is not None for it in root.iter(f"{SVG}path"))


def committed() -> Iterator[Trial]:
    """The trials on the pictures of examples/."""
    names = {"README.md"}
    for transcript in sorted(EXAMPLES.glob("*.transcript")):
        text = transcript.read_text("ascii")
        for name, picture in texts_of(transcript.stem, text).items():
            names.add(name)
            yield remade(name, picture)
            file = PICTURES / name
            if file.suffix == ".dot":
                names.add(file.with_suffix(".svg").name)
                yield from graph(file.with_suffix(".svg"), picture)
        yield from maps(transcript.stem, text)
        yield from layout(PICTURES / f"{transcript.stem}.svg", text)
    for answers in sorted(EXAMPLES.glob("*.answers")):
        text = answers.read_text("ascii")
        for name, picture in texts_of_trace(answers.stem, text).items():
            names.add(name)
            yield remade(name, picture)
            lines = re.findall(r"^\d+ (?!free)\S+, words (\d+)$", text, re.MULTILINE)
            shown = [size for kind, size in shown_stretches(picture) if kind == "block"]
            yield f"the blocks of {name}", list(map(int, lines)), shown
    yield "the files of docs/pictures/", sorted(names | OTHERS), sorted(it.name for it in PICTURES.iterdir())
    kinds = {re.sub(r"^[a-z]+", "NAME", re.sub(r"\d+", "N", it)) for it in names - {"README.md"}}
    listed = re.findall(r"^\| `(\S+)` \|", (PICTURES / "README.md").read_text("utf-8"), re.MULTILINE)
    yield "the kinds of files that docs/pictures/README.md lists", sorted(kinds), sorted(listed)


def remade(name: str, picture: str) -> Trial:
    """The trial that the picture of a name is the one that is made."""
    file = PICTURES / name
    return f"{name} (tools/pictures.py makes it)", picture, file.read_text("ascii") if file.exists() else "no file"


def graph(file: Path, picture: str) -> Iterator[Trial]:
    """The trials that Graphviz's picture of a text has its arrows and its words."""
    yield f"{file.name} is there", True, file.exists()
    drawing = file.read_text("utf-8") if file.exists() else "<svg/>"
    yield f"the arrows of {file.name}", titles(picture), drawn_titles(drawing)
    yield f"the words of {file.name}", words_of(picture), drawn_labels(drawing)


def maps(name: str, text: str) -> Iterator[Trial]:
    """The trials that the maps of a transcript show all its blocks, each as wide as it is."""
    for at, store in enumerate(drawings_and_maps(text)[1], 1):
        file = PICTURES / f"{name}-store-{at}.svg"
        blocks = [(it.kind, it.size) for it in store.stretches if it.kind != "free"]
        shown = shown_stretches(file.read_text("ascii")) if file.exists() else []
        yield f"the blocks of {file.name}", blocks, [it for it in shown if it[0] != "free"]


def layout(file: Path, text: str) -> Iterator[Trial]:
    """The trials that a picture of words has a place for each of them, and all arrows."""
    drawings = [it for it in drawings_and_maps(text)[0] if it.fields and all(b.words for b in it.blocks)]
    yield f"{file.name} is there", bool(drawings), file.exists()
    if not drawings or not file.exists():
        return
    blocks = drawings[0].blocks
    places = [str(block.place + word) for block in blocks for word in range(block.size)]
    arrows = sum(len(block.arrows) for block in blocks) + len(set(drawings[0].bugs.values()))
    picture = file.read_text("ascii")
    yield f"the places of {file.name}", places, [it for it in drawn_words(picture) if PLACE.fullmatch(it)]
    yield f"the arrows of {file.name}", arrows, arrows_in(picture)


def recorded() -> Iterator[Trial]:
    """The trials that the pictures of recorded programs have the calls, and at most the places, that a table says.

    But for numbers and lines they are what library/draw.py draws, with its names in its colours.
    """
    drawing = [sys.executable, "-B", str(TOP / "library/draw.py"), "--levels", "4", "--units", "1"]
    drawn = subprocess.run(drawing, input="get a 2 = 16\n", capture_output=True, text=True, check=False).stdout
    strokes = re.findall(r'<polyline .*?stroke="(#\w+)"', drawn)
    names = re.findall(r'fill="(#\w+)">(places in [a-z ]+)<', drawn)
    yield "the colours of names", sorted(zip(strokes, ("places in the largest free piece", "places in blocks"))), sorted(names)
    page = (TOP / "docs/trace.md").read_text("utf-8")
    rows = re.findall(r"^\| \w+, .* \| ([\d,]+) \| ([\d,]+) \| ([\d,]+) \| [\d,]+ \|$", page, re.MULTILINE)
    yield "programs in the table of docs/trace.md", len(RECORDED), len(rows)
    for name, row in zip(RECORDED, rows):
        gets, frees, most = (int(number.replace(",", "")) for number in row)
        root = xml.etree.ElementTree.fromstring((PICTURES / name).read_text("ascii"))
        yield f"{name}: its frame", framed(drawn), framed((PICTURES / name).read_text("ascii"))
        yield f"{name}: its calls", f"{gets + frees} calls", root.findtext(f"{SVG}title", "").partition(" in ")[0]
        box = next(it for it in root.iter(f"{SVG}rect") if it.get("fill") == "none")
        high, above = (float(box.get(of, "")) for of in ("height", "y"))
        numbers = [int(it.text or "") for it in root.iter(f"{SVG}text") if (it.text or "").isdigit()]
        line = list(root.iter(f"{SVG}polyline"))[1].get("points", "").split()
        shown = (above + high - min(float(point.partition(",")[2]) for point in line)) * max(numbers) / high
        yield f"{name}: the most places in blocks", True, abs(shown - most) < max(numbers) / high / 8


# Traces, the words of library/draw.py, how many places there are, and by hand how high the lines of what is free and of what is
# in blocks are, of 240 that are as many as the largest number: after a get of one place a half of all is the largest piece.
TRACED: tuple[tuple[list[str], str, int, float, float], ...] = (
    (["get a 1 = 17"], "--levels 4 --units 1", 16, 240, 30),
    (["get a 1 = 16"], "--levels 4 --units 2", 32, 240, 15),
    (["get a 2 = 32"], "--levels 4 --units 1 --piece 2", 16, 240, 30),
    (["get a 2 = 33"], "--levels 4 --units 1 --piece 2", 16, 240, 0),  # (no piece begins there, so nothing is in a block)
    (["get a 1 = 0"], "--levels 4 --units 1 --first 0", 16, 240, 30),
    (["get a 1 = 1024"], "", 8192, 240, 0.2),
    (["get a 1 = 16", "get a 1 = 17", "free b", "get b 1 = none"], "--levels 4 --units 1", 16, 240, 30),
    # 800 calls in 400 columns: each shows the most that is in blocks, and the least largest piece, of 16
    (["get a 1 = 16", "free a"] * 400, "--levels 4 --units 1", 16, 120, 15),
)


def drawn_traces() -> Iterator[Trial]:
    """The lines that library/draw.py draws."""
    for lines, words, places, free, used in TRACED:
        ran = subprocess.run([sys.executable, "-B", str(TOP / "library/draw.py"), *words.split()], input="\n".join([*lines, ""]),
                             capture_output=True, text=True, check=False)
        title = f"{len(lines)} calls in {places} places"
        heights = [{round(270 - float(point.partition(",")[2]), 1) for point in points.split()}
                   for points in re.findall(r'points="([^"]*)"', ran.stdout)]
        yield f"what is drawn of {lines[0]} with {words or 'no words'}, {len(lines)} calls", (0, True, [{free}, {used}]), (
            ran.returncode, f"<title>{title}</title>" in ran.stdout, heights)


def framed(picture: str) -> list[str]:
    """The lines of a picture of a recorded program without their numbers and points."""
    return re.sub(r'points="[^"]*"', "", re.sub(r">[\d ]*\d|in \d+", ">0", picture)).splitlines()


# How a picture's description begins that says how many words or blocks it shows.
COUNTED = re.compile(r"^(?:The |A \w+ of )?(\w+) (words?|blocks?)\b(?! of)", re.IGNORECASE)
PLACE = re.compile(r"[1-9]\d{3}")  # as it stands beside a word
NUMBERS = "no one two three four five six seven eight nine ten eleven twelve".split()
FIELDS = re.compile(r"\bfields ((?:[A-Z0-9], )*[A-Z0-9] and [A-Z0-9])\b")
IMAGE = re.compile(r"!\[([^\]\n]+)\]\(([^)\s]+\.svg)\)")


def shown() -> Iterator[Trial]:
    """The trials that each picture is shown in a document, with what it shows, and that no other is."""
    places = set()
    for document in DOCS:
        for what, link in IMAGE.findall(document.read_text("utf-8")):
            file = (document.parent / link).resolve()
            places.add(file)
            if file.exists():
                where = f"{document.relative_to(TOP)}: {file.name}"
                yield from described(where, what, file.read_text("utf-8"))
    pictures = sorted(it.name for it in PICTURES.glob("*.svg"))
    yield "the pictures that documents show", pictures, sorted(it.name for it in places)
    yield "the places of pictures", [], [str(it.name) for it in places if not it.exists()]


def described(where: str, what: str, picture: str) -> Iterator[Trial]:
    """The trials that a picture has as many words or blocks as its description says, and its fields."""
    words = drawn_words(picture)
    counted = COUNTED.match(what)
    if counted and counted[1].lower() in NUMBERS:
        nodes = [title for title in drawn_titles(picture) if re.fullmatch(r"b\d+", title)]
        rows = [word for word in words if PLACE.fullmatch(word)]
        is_of_blocks = counted[2].lower().startswith("block") and nodes
        count = len(nodes) if is_of_blocks or not rows else len(rows)
        if nodes or counted[2].lower().startswith("word"):
            yield f"{where}: {counted[0]}", NUMBERS.index(counted[1].lower()), count
    for names in FIELDS.findall(what):
        named = re.split(r", | and ", names)
        fields = {word.split()[0] for word in words if re.fullmatch(r"[A-Z0-9] .+|[A-Z0-9]", word)}
        yield f"{where}: its fields", [], [name for name in named if name not in fields]


def pictures_that_are_wrong() -> Iterator[Trial]:
    """Two fields exchanged, an arrow less, an arrow turned; a map and words of another transcript."""
    drawn = PICTURES / "tree-draw-1.svg"
    drawing, text = drawn.read_text("utf-8"), drawn.with_suffix(".dot").read_text("utf-8")
    exchanged = re.sub(">([LR])</text>", lambda it: f">{'LR'['RL'.index(it[1])]}</text>", drawing)
    with tempfile.TemporaryDirectory() as folder:
        file = Path(folder, "wrong.svg")
        fewer, turned = drawing.replace('class="edge"', "", 1), drawing.replace("&gt;b1026", "&gt;b1030")
        for number, wrong in ((2, exchanged), (1, fewer), (1, turned)):
            file.write_text(wrong)
            yield list(graph(file, text))[number]
    transcript = (EXAMPLES / "lost.transcript").read_text("ascii")
    yield next(maps("lost", transcript.replace("1024 BLOCK 2\n1026 BLOCK 2", "1024 BLOCK 4")))
    transcript = (EXAMPLES / "list.transcript").read_text("ascii")
    yield list(layout(PICTURES / "list.svg", transcript.replace("1026", "1027")))[1]
    yield list(layout(PICTURES / "list.svg", transcript.replace("  N -> 1024\n", "", 1)))[2]


def many_arrows() -> Iterator[Trial]:
    """Nine arrows that all pass each other, the shortest first: each goes out by 14 more, as far as there is room beside the blocks."""
    arrows = [(0.0, 10.0 * length) for length in range(1, 10)]
    room = [min(36 + 14 * at, SIDE) for at in range(9)]
    yield "how far out arrows go", list(zip(arrows, room)), [(ends, 36 + 14 * rank) for ends, rank in ranks(arrows[::-1])]


def canaries() -> Iterator[Trial]:
    """A map, words and arrows that are another transcript's, and a picture with two cells exchanged."""
    texts, others = texts_of("hand", TRANSCRIPT), texts_of("narrow", NARROW)
    yield "words of another picture", drawn_words(texts["hand.svg"]), drawn_words(others["narrow.svg"])
    order = "BLOCK 4 LOST\n1028 BLOCK 2\n1030 BLOCK 2"
    turned = TRANSCRIPT.replace("BLOCK 2\n1026 BLOCK 2\n1028 BLOCK 4 LOST", order)
    other = texts_of("hand", turned)["hand-store-1.svg"]
    yield "the stretches of another map", STRETCHES, shown_stretches(other)
    numbers = "".join(f'<text font-size="12" x="{x}" y="5">{x}</text>' for x in (10, 25))
    yield "numbers that touch", [], touching(f'<svg xmlns="http://www.w3.org/2000/svg">{numbers}</svg>')
    yield from pictures_that_are_wrong()
    with mock.patch.object(sys.modules[__name__], "DOCS", DOCS[:1]):
        yield next(it for it in shown() if it[0] == "the pictures that documents show")
    with tempfile.TemporaryDirectory() as folder, mock.patch.object(sys.modules[__name__], "DOCS", [Path(folder, "page.md")]):
        Path(folder, "page.md").write_text("![A list](nowhere.svg)\n", "ascii")
        yield next(it for it in shown() if it[0] == "the places of pictures")
    with mock.patch.object(sys.modules[__name__], "RECORDED", RECORDED[::-1]):
        yield from (it for it in recorded() if it[1] != it[2])
    wrong = list(described("a picture", "Four words with the fields C and X", texts["hand.svg"]))
    yield from wrong
    yield "a wrong description", len(wrong) != 2, True  # (a canary must fail)


if __name__ == "__main__":
    sys.exit(report(chain(handmade(), refusals(), committed(), recorded(), drawn_traces(), many_arrows(), shown()), canaries()))
