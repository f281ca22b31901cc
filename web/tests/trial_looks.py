"""Trials of how the page looks, who can reach it, and what the browser lets it do."""
from __future__ import annotations

import base64
import hashlib
import json
import re
import runpy
import tempfile
from pathlib import Path

from browser import Browser, NotBegun
from page import TOP, Page, trial

PICTURES = {  # a state of each deck of the gallery
    "first": 6, "squares": 40, "sum": 500, "primes": 300, "list": 28, "scan": 120, "reverse": 127,
    "queue": 99, "josephus": 400, "lost": 14, "tree": 137, "words": 900, "symbols": 700, "sieve": 800,
    "hash": 500, "strings": 332, "matrix": 1500, "permute": 1000, "counts": 45,
    "cells": 3000, "factor": 3000, "full": 30_000, "buddy": 134, "collect": 87, "join": 10, "store": 7,
}

# The arrows that go through blocks: points on their paths that lie in one.
CROSSINGS = """(() => {
    const found = [];
    const isIn = (x, y, b) => x > b.x + 1 && x < b.x + b.width - 1 && y > b.y + 1 && y < b.y + b.height - 1;
    for (const arrow of document.querySelectorAll('.arrow')) {
        const path = arrow.querySelector('path');
        const {from, to} = arrow.dataset;
        for (let at = 0; at < path.getTotalLength(); at += 3) {
            const {x, y} = path.getPointAtLength(at);
            const block = l6.viewer.drawing.graph.blocks.find(b => isIn(x, y, b));
            if (!block || String(block.place) === from) continue;
            found.push(`${from} to ${to} through ${block.place}`);
            break;
        }
    }
    return found;
})()"""

# The arrows to cards and small blocks whose heads are at a corner of the block, or not at its edge.
AT_CORNERS = """(() => {
    const {blocks} = l6.viewer.drawing.graph;
    const at = new Map(blocks.filter(it => !it.shape.isChip).map(it => [String(it.place), it]));
    return [...document.querySelectorAll('.arrow:not(.broken)')].filter(arrow => {
        const block = at.get(arrow.dataset.to);
        if (!block) return false;
        const path = arrow.querySelector('path');
        const end = path.getPointAtLength(path.getTotalLength());
        const [x, y] = [[end.x, block.x, block.width], [end.y, block.y, block.height]]
            .map(([it, from, size]) => Math.min(Math.abs(it - from), Math.abs(it - from - size)));
        return Math.min(x, y) > 2 || Math.max(x, y) < 6;
    }).map(({dataset: {from, to}}) => `${from} to ${to}`);
})()"""

# The texts that are wider than what holds them, in the tables.
CLIPPED = """[...document.querySelectorAll('.table')].filter(e => e.scrollWidth > e.clientWidth + 1)
    .map(e => e.textContent.slice(0, 40))"""

UNNAMED = """[...document.querySelectorAll('button, select, input:not([type=file]), textarea, summary, a')]
    .filter(e => !(e.textContent.trim() || e.getAttribute('aria-label') || e.labels?.length || e.title))
    .map(e => e.outerHTML.slice(0, 80))"""

# The colours of texts whose contrast with their ground is less than 4.5.
CONTRASTS = """(() => {
    const rgb = (text) => {
        const pen = document.createElement('canvas').getContext('2d', {willReadFrequently: true});
        pen.fillStyle = text;
        pen.fillRect(0, 0, 1, 1);
        return [...pen.getImageData(0, 0, 1, 1).data];
    };
    const shares = [0.2126, 0.7152, 0.0722];
    const linear = (v) => v <= 0.03928 ? v / 12.92 : ((v + 0.055) / 1.055) ** 2.4;
    const light = (colour) => shares.reduce((sum, share, at) => sum + share * linear(colour[at] / 255), 0);
    const ground = (e) => {
        for (; e; e = e.parentElement) {
            const colour = rgb(getComputedStyle(e).backgroundColor);
            if (colour[3] === 255) return colour;
        }
        return [255, 255, 255];
    };
    const bad = [];
    for (const e of document.querySelectorAll('body *:not(svg *)')) {
        const hasText = [...e.childNodes].some(n => n.nodeType === 3 && n.textContent.trim());
        if (!hasText || !e.getClientRects().length || e.closest('[aria-disabled=true], .hidden')) continue;
        const [a, b] = [light(rgb(getComputedStyle(e).color)), light(ground(e))];
        const ratio = (Math.max(a, b) + 0.05) / (Math.min(a, b) + 0.05);
        if (ratio < 4.5) bad.push(`${e.outerHTML.slice(0, 60)} ${ratio.toFixed(2)}`);
    }
    return bad;
})()"""

@trial
def drawings(page: Page) -> None:
    """No arrow goes through a block that it does not begin in, and no table is cut off."""
    page.open()
    page.value("l6.panes.open('tables')")
    arrows = 0
    for name, state in PICTURES.items():
        page.example(name, state)
        page.same(f"arrows of {name}", page.value(CROSSINGS), [])
        page.same(f"their heads in {name}", page.value(AT_CORNERS), [])
        page.same(f"tables of {name}", page.value(CLIPPED), [])
        arrows += page.count(".arrow")
    page.right("arrows were looked at, and tables", (arrows > len(PICTURES), page.count(".table") == 3), str(arrows))
    page.example("tree", 137)
    page.value("Object.assign(l6.viewer.drawing.graph.blocks[0], {x: 0, y: 0, width: 5000, height: 5000, place: -1})")
    page.right("arrows through a block are seen", bool(page.value(CROSSINGS)))
    page.example("lost", 14)
    page.value("l6.viewer.drawing.graph.blocks.forEach(it => Object.assign(it, {x: it.x + 1000, y: it.y + 1000}))")
    page.right("and heads that are not at the edge", bool(page.value(AT_CORNERS)))
    page.value("document.querySelector('.table').style.cssText = 'width: 20px; padding: 0'")
    page.right("and a table that is cut off", bool(page.value(CLIPPED)))
    page.value("document.querySelector('.table').style.cssText = ''")
    page.example("full", 30_000)
    page.fill("unit", 3)
    page.has("the third unit", page.label("strip"), "3072 block of 1")
    page.has("which is said of the units, too", page.label("units"), "8 units of 1,024 words; unit 3 is shown below")


@trial
def on_a_phone(page: Page) -> None:
    """All is in one column; blocks are small where cards are too wide, and drawings are seen whole."""
    page.browser.resize(390, 844, phone=True)
    for name in ("lost", "tree", "reverse", "collect"):
        page.open(f"#{name}@{PICTURES[name]}")
        width = page.value("l6.viewer.drawing.picture.getBoundingClientRect().width")
        room = page.value("document.getElementById('drawing').clientWidth")
        page.right(f"{name} is not cut off", width <= room)
        page.same(f"arrows of {name}", page.value(CROSSINGS), [])
    page.open("#tree@120")
    page.do("l6.step()")
    page.same("a small block that has changed is marked", page.count(".block.altered[data-place='1034']"), 1)
    page.open("#josephus@0")
    kinds = []
    for state in range(4, 400, 18):
        page.do(f"l6.state({state})")
        kinds.append(page.value("l6.viewer.drawing.graph.isBox"))
    page.same("blocks keep their size", sum(one != other for one, other in zip(kinds, kinds[1:])), 0)
    heights = page.value("[...document.querySelectorAll('.controls button')].map(e => e.offsetHeight)")
    heights = [it for it in heights if it]
    page.right("buttons are large enough for a thumb", min(heights) >= 36, str(heights))
    page.browser.resize(1400, 900)


# What the page must not do, and the directive of the policy that each is against.
FORBIDDEN = {
    "fetch('https://example.com/').catch(() => {})": "connect-src",
    "new Image().src = 'https://example.com/a.png'": "img-src",
    "(it => (it.textContent = 'window.broken = 1', document.body.append(it)))"
    "(document.createElement('script'))": "script-src-elem",
    "setTimeout('window.broken = 1', 0)": "script-src",
    "document.body.insertAdjacentHTML('beforeend', '<b onclick=1></b>')": "script-src-attr",
    "document.body.insertAdjacentHTML('beforeend', '<b style=color:red></b>')": "style-src-attr",
    "(it => (it.textContent = 'b {}', document.head.append(it)))(document.createElement('style'))":
        "style-src-elem",
    "(it => (it.href = 'https://example.com/', document.head.append(it)))(document.createElement('base'))":
        "base-uri",
    "(it => (it.action = 'https://example.com/', document.body.append(it), it.submit()))"
    "(document.createElement('form'))": "form-action",
    "document.body.insertAdjacentHTML('beforeend', '<iframe src=https://a.example></iframe>')": "frame-src",
    "document.body.insertAdjacentHTML('beforeend', '<object data=https://a.example></object>')": "object-src",
    "(() => { try { new Worker('data:text/javascript,1'); } catch {} })()": "worker-src",
}


def hashed(text: str) -> str:
    return f"'sha256-{base64.b64encode(hashlib.sha256(text.encode()).digest()).decode()}'"


@trial
def policy(page: Page) -> None:
    """The policy is this, and no other: its hashes are those of the page's scripts and style."""
    text = page.file.read_text("utf-8")
    parts = runpy.run_path(str(TOP / "web" / "bundle"))
    packed = json.loads(parts["part_of"](text.encode(), b"texts"))
    script = packed["script"].replace(parts["SHARED"], packed["shared"])
    loader = text.partition("<script>")[2].partition("</script>")[0]
    style = text.partition("<style>")[2].partition("</style>")[0]
    want = (f"default-src 'none'; script-src {hashed(loader)} {hashed(script)} 'wasm-unsafe-eval'; "
            f"worker-src blob:; img-src blob:; style-src {hashed(style)}; base-uri 'none'; form-action 'none'")
    page.open()
    policies = "[...document.querySelectorAll('meta[http-equiv]')].map(it => it.content)"
    page.same("the policy", page.value(policies), [want])
    page.same("nothing is against it", page.browser.troubles(), [])
    for script, directive in FORBIDDEN.items():
        page.open()
        page.value("window.seen = []; document.addEventListener('securitypolicyviolation', "
                   "(it) => seen.push(it.effectiveDirective))")
        page.value(f"void ({script})")
        page.becomes(f"refused: {script[:60]}", "[...new Set(seen)]", [directive])
        page.value("new Promise(done => setTimeout(done, 60))")
        page.same("and nothing else is", page.value("[...new Set(seen)]"), [directive])
        page.right("it was not done", page.value("window.broken === undefined"))
    page.browser.troubles()


@trial
def a_page_that_cannot_begin(page: Page) -> None:
    """It says so, and why."""
    with tempfile.TemporaryDirectory(prefix="l6-page-") as folder:
        broken = Path(folder, "l6.html")
        text = page.file.read_text("utf-8")
        for part in ("texts", "module"):
            head, tail = text.split(f'id="{part}">')
            broken.write_text(f'{head}id="{part}">AAAAA{tail[100:]}', "utf-8")
            try:
                page.browser.open(broken)
                page.right(f"a page with damaged {part} does not begin", False)
            except NotBegun as error:
                page.has("it says so", str(error), "The page can't begin: ")
    page.browser.troubles()


COLOURS = {"block": "rgb(45, 108, 171)", "lost": "rgb(185, 56, 21)", "changed": "rgb(180, 83, 9)",
           "f0": "rgb(11, 107, 95)", "f1": "rgb(123, 45, 142)", "f2": "rgb(163, 74, 6)"}
BLOCKS = """Object.fromEntries([...document.querySelectorAll('.block')].map(it => [it.dataset.place,
    [it.getAttribute('class'), it.getAttribute('aria-label'),
        getComputedStyle(it.querySelector('.top')).fill]]))"""
ARROWS = """[...document.querySelectorAll('.arrow')].map(it => [
    it.dataset.from, it.dataset.field, it.dataset.to, getComputedStyle(it.querySelector('path')).stroke
].join(' ')).sort()"""
PLACES = "Object.fromEntries(l6.viewer.drawing.graph.blocks.map(({place, x, y}) => [place, [x, y]]))"
# The stretches that two arrows share, other than the last ones into the same block.
SHARED = """(() => {
    const points = [...document.querySelectorAll('.arrow')].map(arrow => {
        const path = arrow.querySelector('path');
        const length = path.getTotalLength();
        return {to: arrow.dataset.to, all: Array.from({length: Math.floor(length / 5)},
            (_, at) => path.getPointAtLength(at * 5 + 8)).slice(0, -4)};
    });
    let shared = 0;
    points.forEach(({all, to}, index) => {
        for (const other of points.slice(index + 1)) {
            if (other.to === to) continue;
            const near = all.filter(a => other.all.some(b => Math.hypot(a.x - b.x, a.y - b.y) < 1));
            if (near.length > 3) shared++;
        }
    });
    return shared;
})()"""
STRIP = """((x, y) => [...document.getElementById('strip').getContext('2d').getImageData(x, y, 1, 1).data])"""


@trial
def what_is_lost(page: Page) -> None:
    """The blocks of the deck `lost`, their classes, texts and colours."""
    page.open("#lost@14")
    page.same("blocks", page.value(BLOCKS), {
        "1024": ["block", "Block 1024, 2 words, A leads here. N leads to 1026, V 5", COLOURS["block"]],
        "1026": ["block", "Block 1026, 2 words. N 0, V 7", COLOURS["block"]],
        "1028": ["block lost", "Block 1028, 4 words, lost. N 0, V 0", COLOURS["lost"]],
    })
    page.same("arrows", page.value(ARROWS), [f"1024 N 1026 {COLOURS['f0']}"])
    notes = "['.lost .size', '#warnings'].map(it => document.querySelector(it).textContent)"
    page.same("the lost block says so", page.value(notes), ["4 words, lost", "Lost: nothing leads to 1028"])
    scale = page.value("l6.viewer.strip.scale")
    lost = page.value(f"{STRIP}({int(6 * scale)}, 20)")[:3]
    page.right("it has its colour in the strip", (lost[0] > 180, lost[0] - lost[2] > 90), str(lost))
    page.same("as others have theirs", page.value(f"{STRIP}({int(1 * scale)}, 33)")[:3], [45, 108, 171])
    page.same("the drawing in words", page.value("l6.viewer.drawing.picture.ariaLabel"),
              "2 blocks, and 1 lost; A leads to 1024; N of 1024 to 1026")
    page.do("l6.state(7)")
    page.do("l6.step()")
    page.same("a link that has changed", page.value(ARROWS), [f"1024 N 1026 {COLOURS['changed']}"])
    names = "[...document.querySelectorAll('.cell.changed .name')].map(it => it.textContent)"
    page.same("its field, too", page.value(names), ["N"])
    new = "[...document.querySelectorAll('.block.new')].map(it => it.dataset.place)"
    page.same("a block that is new", page.value(new), ["1026"])
    stroke = "getComputedStyle(document.querySelector('.block.new .edge')).stroke"
    page.same("and how it is marked", page.value(stroke), COLOURS["changed"])
    page.do("l6.state(1)")
    page.do("l6.step()")
    page.same("a field that is defined is marked", page.count("#fields .changed"), 1)


@trial
def how_a_tree_stands(page: Page) -> None:
    page.open("#tree@137")
    blocks = page.value(BLOCKS)
    page.same("its blocks", sorted(blocks), ["1024", "1026", "1028", "1030", "1032", "1034"])
    page.same("the root", blocks["1024"], [
        "block", "Block 1024, 2 words, T leads here. L leads to 1026, R leads to 1028", COLOURS["block"]])
    arrows = [it.split(" rgb")[0] for it in page.value(ARROWS)]
    want = ["1024 L 1026", "1024 R 1028", "1026 L 1032", "1026 R 1030", "1032 L 1034"]
    page.same("its arrows", arrows, want)
    places = page.value(PLACES)
    for parent, left, right in (("1024", "1026", "1028"), ("1026", "1032", "1030"), ("1032", "1034", None)):
        x, y = places[parent]
        is_left = places[left][0] < x and places[left][1] > y
        page.right(f"what L leads to is on the left of {parent}", is_left, str(places))
        if right:
            is_right = places[right][0] > x and places[right][1] > y
            page.right(f"what R leads to is on the right of {parent}", is_right, str(places))
    for name, state in (("tree", 137), ("queue", 99), ("words", 900), ("collect", 87)):
        page.example(name, state)
        page.same(f"no two arrows of {name} run on one another", page.value(SHARED), 0)


@trial
def access(page: Page) -> None:
    """What is spoken, what has the focus, and how it is seen."""
    page.open()
    live = page.value("[...document.querySelectorAll('[aria-live], [role=status], [role=alert]')].map(it => "
                      "`${it.id} ${it.getAttribute('aria-live') ?? it.getAttribute('role')}`).sort()")
    page.same("what is spoken by itself", live, [
        "answers-note status", "fault status", "led polite", "options-note alert", "paper-note status", "spoken polite",
        "task-note status", "warnings status"])
    page.value("document.activeElement.blur()")
    page.browser.key("Tab")
    skip = page.value("(it => [it.className, it.getBoundingClientRect().top >= 0, "
                      "getComputedStyle(it).outlineStyle])(document.activeElement)")
    page.same("the first is the skip link, which is seen", skip, ["skip", True, "solid"])
    seen = []
    for _ in range(8):
        page.browser.key("Tab")
        seen.append(page.value("getComputedStyle(document.activeElement).outlineStyle"))
    page.same("each that has the focus has a ring", set(seen), {"solid"})


@trial
def reached_by_all(page: Page) -> None:
    page.open("#tree@137")
    page.same("each control has a name", page.value(UNNAMED), [])
    page.value("document.querySelector('nav').append(document.createElement('button'))")
    page.same("one without is seen", page.value(UNNAMED), ["<button></button>"])
    page.value("document.querySelector('nav').lastElementChild.remove()")
    for width, phone in ((1400, False), (1200, False), (1000, False), (390, True), (320, True)):
        page.browser.resize(width, 844, phone=phone)
        wide = page.value("document.documentElement.scrollWidth")
        page.right(f"nothing is cut off at {width} pixels", wide <= width, str(wide))
    for dark in (False, True):
        page.browser.resize(1400, 900, dark)
        page.same(f"texts can be read, dark {dark}", page.value(CONTRASTS), [])
        page.value("document.getElementById('where').style.color = getComputedStyle(document.getElementById('now')).backgroundColor")
        page.same("one that can't is seen", len(page.value(CONTRASTS)), 1)
        page.value("document.getElementById('where').style.color = ''")
        hints = page.value("getComputedStyle(document.getElementById('chain'), '::placeholder').color")
        ground = page.value("getComputedStyle(document.getElementById('chain')).backgroundColor")
        ratio = contrast(hexadecimal(ground), hexadecimal(hints))
        page.right("and hints", ratio >= 4.5, f"{hints} on {ground}")
    page.open("#lost@14")
    page.browser.resize(1400, 900, True)
    page.do("l6.state(14)")
    inks = page.value("(it => ['--block', '--block-ink', '--lost', '--lost-ink'].map(name => "
                      "it.getPropertyValue(name).trim()))(getComputedStyle(document.documentElement))")
    for what, ground, ink in (("a block", *inks[:2]), ("a lost one", *inks[2:])):
        page.right(f"letters on {what} can be read", contrast(ground, ink) >= 4.5, f"{ink} on {ground}: {contrast(ground, ink)}")
    page.browser.resize(1400, 900)


def hexadecimal(colour: str) -> str:
    """A colour as #rrggbb."""
    return "#" + "".join(f"{int(it):02x}" for it in re.findall(r"\d+", colour)[:3])


def contrast(one: str, other: str) -> float:
    """The contrast of two colours."""
    def light(colour: str) -> float:
        digits = colour[1:] if len(colour) == 7 else "".join(it * 2 for it in colour[1:])
        parts = [int(digits[at:at + 2], 16) / 255 for at in (0, 2, 4)]
        linear = [it / 12.92 if it <= 0.03928 else ((it + 0.055) / 1.055) ** 2.4 for it in parts]
        return sum(share * it for share, it in zip((0.2126, 0.7152, 0.0722), linear))

    low, high = sorted((light(one), light(other)))
    return (high + 0.05) / (low + 0.05)


def pictures(browser: Browser, file: Path, folder: Path) -> None:
    """Writes a picture of each deck of the gallery, in light and dark by turns."""
    folder.mkdir(parents=True, exist_ok=True)
    for index, (name, state) in enumerate(PICTURES.items()):
        browser.resize(1400, 900, dark=index % 2 == 1)
        browser.open(file, f"#{name}@{state - 1}")
        browser.value("l6.step()")
        browser.picture(folder / f"{name}.png")
