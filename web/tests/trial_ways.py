"""Trials of the ways through a run and of its pictures: each leads, and each shows, what the model of the language says."""
from __future__ import annotations

import json
from collections.abc import Sequence

from expected import commas, count, seen_through
from modelled import Moment, Run
from page import TOP, Page, trial
from trial_model import ALL_OF_IT
from trial_stays import READ

NUMBERS = "(async () => { const found = []; for (const at of %s) found.push(await l6.session.steps.%s(at)); return found; })()"
# Goes from change to change, or from breakpoint to breakpoint, from a state on, and answers where it comes to.
GONE = """(async (from, act) => {
    const found = [];
    await l6.state(from);
    for (let time = 0; time < 60; time++) {
        const before = l6.view.state.number;
        await act();
        if (l6.view.state.number === before) return found;
        found.push(l6.view.state.number);
    }
    return found;
})(%d, () => %s)"""
# The tree of calls with all of it opened: of each call its label, the states, how many it makes, and how deep it is.
TREE = """(async () => {
    const tree = document.getElementById('call-tree');
    for (let more = 1; more;) {
        const closed = [...tree.querySelectorAll('details:not([open])')];
        closed.forEach(it => { it.open = true; });
        more = closed.length;
        await new Promise(it => setTimeout(it, 20));
    }
    return [...tree.querySelectorAll('li')].map(it => {
        const own = it.querySelector(':scope > details > summary') ?? it;
        let depth = -1;
        for (let up = it; up && up !== tree; up = up.parentElement) depth += up.tagName === 'LI';
        return [own.textContent.replace(/\\s+/g, ' ').trim(), depth, it.classList.contains('waits')];
    });
})()"""
CARDS = """(async (from, to) => {
    const found = [];
    for (let number = from; number < to; number++) {
        await l6.state(number);
        const mark = document.querySelector('.cards .at mark');
        found.push(mark ? [[...document.querySelectorAll('.cards li')].indexOf(mark.closest('li')), mark.textContent] : null);
    }
    return found;
})(%d, %d)"""
# The colours in the middle of some pieces of the strip, by what of it they take.
PIECES = """(parts => {
    const canvas = document.getElementById('strip'), pen = canvas.getContext('2d');
    const style = getComputedStyle(document.documentElement);
    const names = Object.fromEntries(['block', 'lost', 'free'].map(name => {
        const probe = document.createElement('canvas').getContext('2d');
        probe.fillStyle = style.getPropertyValue(`--${name}`).trim();
        probe.fillRect(0, 0, 1, 1);
        return [[...probe.getImageData(0, 0, 1, 1).data].join(), name];
    }));
    return parts.map(([from, to]) => {
        const seen = {};
        for (let part = 0.2; part < 0.9; part += 0.02)
            for (const y of [5, 33]) {
                const x = Math.floor((from + (to - from) * part) * canvas.width);
                const name = names[[...pen.getImageData(x, Math.floor(y * canvas.width / canvas.clientWidth), 1, 1).data].join()];
                if (name) seen[name] = (seen[name] ?? 0) + 1;
            }
        return Object.entries(seen).sort((a, b) => b[1] - a[1])[0]?.[0] ?? '';
    });
})(%s)"""
# What is drawn of the store, recorded: the boxes, frames and texts with their colours, in the pixels of the page.
RECORDED = """(id => {
    const found = [], pen = CanvasRenderingContext2D.prototype, own = {...Object.fromEntries(['fillRect', 'strokeRect', 'fillText'].map(it => [it, pen[it]]))};
    const style = getComputedStyle(document.documentElement);
    const names = Object.fromEntries(['block', 'lost', 'free', 'changed', 'ink', 'line', 'soft', 'block-ink', 'lost-ink'].map(it => {
        const probe = document.createElement('canvas').getContext('2d');
        probe.fillStyle = style.getPropertyValue(`--${it}`).trim();
        return [probe.fillStyle, it];
    }).reverse());
    for (const name of Object.keys(own)) pen[name] = function (...words) {
        if (this.canvas.id === id) found.push([name, names[name === 'strokeRect' ? this.strokeStyle : this.fillStyle] ?? '', this.textAlign, ...words]);
        return own[name].apply(this, words);
    };
    l6.viewer.strip.draw();
    Object.assign(pen, own);
    return found;
})('%s')"""
STORES = " (A,GT,4)(B,GT,8)(C,GT,2)(D,GT,16)(B,E,0)(C,FR)(D,FR)(E,GT,1)\n"


def tree() -> tuple[str, str]:
    head, _, text = (TOP / "examples/tree.session").read_text("latin-1").partition("$INPUT\n")
    return head.partition("$COMMANDS\n")[0], text


def open_run(page: Page, deck: str, text: str = "", most: int = 400, **options: int) -> Run:
    """Puts a deck into the page, whose run is read; answers the run by the model."""
    page.put(deck, text, **options)
    page.do("l6.end()")
    page.browser.wait(READ)
    return Run(deck, text, most, **options)


def after_call(run: Run, moment: Moment, depth: int) -> int:
    """The first state after one in which so many calls wait."""
    found = (it.number for it in run.moments[moment.number + 1:] if len(it.calls) == depth)
    return next(found, run.moments[-1].number)


def others(begun: Sequence[int], got: list[int], want: list[int]) -> Sequence[tuple[int, ...]]:
    """The first few states from which one came elsewhere; where none was tried, or not each, how many there are."""
    if not want or len({len(begun), len(got), len(want)}) > 1:
        return [(len(begun), len(got), len(want))]
    return [it for it in zip(begun, got, want) if it[1] != it[2]][:4]


@trial
def ways_to_go_on(page: Page) -> None:
    """Step, Back, Statement, Over and Out lead from each state where the model says."""
    page.open()
    for deck, text in (tree(), (ALL_OF_IT, "OK THEN\nAND MORE\n")):
        run = open_run(page, deck, text)
        moments = run.moments[:-1]
        last = run.moments[-1].number
        want: dict[str, list[int]] = {"on": [], "statement": [], "over": []}
        for moment in moments:
            at = run.number_after(moment)
            want["on"].append(at)
            want["statement"].append(next((it.number for it in run.moments[moment.number + 1:] if it.action == 0 and not it.ending), last))
            begun = run.moments[min(at, last) - 1]
            row = run.operation_at(begun.statement, begun.action)
            is_call = row is not None and row.name == "DO" and len(run.moments[at].calls) > len(begun.calls)
            want["over"].append(after_call(run, run.moments[at], len(begun.calls)) if is_call else at)
        numbers = json.dumps([it.number for it in moments])
        for way, all_of_it in want.items():
            got = page.value(NUMBERS % (numbers, way))
            page.same(f"{way} from each state", others(range(last), got, all_of_it), [])
        inner = [it for it in moments if it.calls]
        got = page.value(NUMBERS % (json.dumps([it.number for it in inner]), "out"))
        out = [after_call(run, it, len(it.calls) - 1) for it in inner]
        page.same("out of each call", others([it.number for it in inner], got, out), [])


@trial
def ways_to_changes(page: Page) -> None:
    """From change to change of each bug, field and definition, on and back, and from breakpoint to breakpoint."""
    page.open()
    run = open_run(page, ALL_OF_IT, "OK THEN\nAND MORE\n")
    last = run.moments[-1].number
    watched: dict[str, list[object]] = {}
    for name in "ABDLPWZ":
        watched[json.dumps({"chain": name})] = [it.bugs.get(name, 0) for it in run.moments]
    for name in "NQM":
        watched[json.dumps({"definition": name})] = [it.fields.get(name) for it in run.moments]
    place = next(place for it in run.moments for place in it.blocks)
    watched[json.dumps({"place": place, "field": "V"})] = [
        seen_through(it.blocks[place][0], it.fields["V"]) if place in it.blocks and "V" in it.fields else None for it in run.moments]
    for what, values in watched.items():
        changes = [at for at in range(1, len(values)) if values[at] != values[at - 1]]
        page.value(f"l6.viewer.watch({what})")
        page.same(f"on, {what}", page.value(GONE % (0, "l6.change(true)")), changes)
        # (where it has changed in the last state, the way back begins before that)
        page.same(f"back, {what}", page.value(GONE % (last, "l6.change(false)")), [it for it in reversed(changes) if it < last])
    for statements in ([1], [3, 5], [len(run.parts)]):
        states = [it.number for it in run.moments if it.action == 0 and it.statement in statements and not it.ending]
        page.value(f"l6.setBreakpoints({json.dumps(statements)})")
        page.same(f"on to breakpoints at {statements}", page.value(GONE % (0, "l6.nextBreakpoint()")), [*[it for it in states if it], last])
        page.same(f"back to them at {statements}", page.value(GONE % (last, "l6.breakpointBefore()")), [*reversed(states), *([] if 0 in states else [0])])
    page.value("l6.setBreakpoints([])")


@trial
def the_tree_of_all_calls(page: Page) -> None:
    """Each call of a run is in the tree, at its depth, with the states from it to its return; those that wait are marked."""
    page.open()
    run = open_run(page, *tree())
    calls: list[list[int]] = []
    waiting: list[int] = []
    for before, now in zip(run.moments, run.moments[1:]):
        if len(now.calls) > len(before.calls):
            calls.append([before.number, -1, len(waiting)])
            waiting.append(len(calls) - 1)
        elif len(now.calls) < len(before.calls):
            calls[waiting.pop()][1] = now.number
    for number in (0, 60, 137, 150, run.moments[-1].number):
        page.do(f"l6.state({number})")
        if page.value("document.getElementById('call-tree').hidden"):
            page.click("show-calls")
        page.same(f"the heading in {number}", page.value("document.querySelector('#call-tree h3').textContent"), f"All calls of the run {len(calls)}")
        want = []
        for index, (begun, until, depth) in enumerate(calls):
            inner = next((at for at, it in enumerate(calls[index + 1:]) if it[2] <= depth), len(calls) - index - 1)
            label = next(it for it in run.moments[begun + 1].calls if it.number == begun).operation.strip("()").split(",")[0]
            makes = f" ▲ {count(inner, 'call')}" if inner else ""
            says = f"{label} {begun}{f'–{until}' if until >= 0 else ''}{makes}"
            want.append([says, depth, any(it.number == begun for it in run.moments[number].calls)])
        page.same(f"the calls in {number}", page.value(TREE), want)
    page.click("show-calls")


@trial
def cards_that_are_marked(page: Page) -> None:
    """In a lecture the part of a card is marked that comes next, in each state."""
    page.open("#tree@0;lecture")
    run = Run(*tree(), most=60)
    want = []
    for moment in run.moments[:60]:
        statement, action = run.next_shown(moment)
        part = run.parts[statement][action]
        want.append([part.card, run.deck.split("\n")[part.card][part.begin:part.end]])
    page.same("marks", page.value(CARDS % (0, 60)), want)
    page.value("l6.panes.lecture(false)")


@trial
def chains_that_are_typed(page: Page) -> None:
    """Each chain of up to three names has the value, the way and the trap that the model says."""
    page.open()
    run = open_run(page, *tree())
    moment = run.moments[137]
    page.do("l6.state(137)")
    wrong = []
    for chain in ["A", "T", "X", "B", *(f"{bug}{field}" for bug in "TXA" for field in "LRCV"), "TLC", "TRL", "TLLL", "TRRR", "TLRC"]:
        value, way, trap = moment.bugs.get(chain[0], 0), [], 0
        way.append(f"bug {chain[0]} = {value}")
        for name in chain[1:]:
            words = moment.blocks.get(value)
            window = moment.fields.get(name)
            trap = 1 if not window else 2 if words is None else 3 if window[0] >= len(words) else 0
            if trap or not window or words is None:
                break
            owner, value = value, seen_through(words[window[0]], window)
            way.append(f"{name} of block {owner} = {value}")
        page.fill("chain", chain)
        page.browser.wait("!l6.engine.isBusy")
        shown = page.value("[document.getElementById('answer').textContent.split(' ').slice(0, 2).join(' '), document.getElementById('led').textContent]")
        answer = f"trap {trap}" if trap else f"= {value}"
        if shown[0] != answer or any(it not in shown[1] for it in way if len(chain) > 1) or (f"trap {trap}: " in shown[1]) != bool(trap):
            wrong.append([chain, shown, answer, way])
    page.same("chains with another answer", wrong[:3], [])
    for chain in ("1A", "A-", "A B"):
        page.fill("chain", chain)
        page.same(f"{chain} is no chain", page.value("[document.getElementById('answer').textContent, document.getElementById('answer').classList.contains('wrong')]"),
                  ["a chain is 1 to 6 names, the first a letter", True])
    page.fill("chain", "")


@trial
def words_of_blocks(page: Page) -> None:
    """The words of each block that is chosen are there in octal, with what the fields show, and what has changed is marked."""
    page.open()
    page.value("l6.panes.open('tables')")
    run = open_run(page, ALL_OF_IT, "OK THEN\nAND MORE\n")
    moments = [it for it in run.moments if it.blocks and len(it.blocks) < 9][::6]
    wrong, compared = [], 0
    for moment in moments:
        page.do(f"l6.state({moment.number})")
        for place, words in moment.blocks.items():
            if len(words) > 8:
                continue
            page.do(f"l6.viewer.chooseBlock({place})")
            got = page.value("[...document.querySelectorAll('#words .wordline')].map(it => [...it.children].slice(0, 2).map(one => one.textContent))")
            cells = page.value("[...document.querySelectorAll('#words .bits button')].map(it => it.textContent).sort()")
            fields = sorted(f"{name} {seen_through(words[it[0]], it)}" for name, it in merged(moment).items() if it[0] < len(words))
            if got != [[str(at), f"{word:012o}"] for at, word in enumerate(words)] or cells != fields:
                wrong.append([moment.number, place, got, cells, fields])
            compared += len(got) == len(words)
    page.same("blocks with other words", wrong[:2], [])
    page.right("blocks in several states were compared", compared > len(moments) > 3, str(compared))
    page.fill("place", 5)
    page.same("where no block begins that is said", page.text("words"), "No block begins at 5.")
    page.fill("place", "")
    page.same("and what to do where none is chosen", page.text("words"), "Choose a block in the drawing or in the store, or type a place or a chain.")


def merged(moment: Moment) -> dict[str, tuple[int, int, int]]:
    """The windows by their names, of which several may share one."""
    names: dict[tuple[int, int, int], list[str]] = {}
    for name, window in moment.fields.items():
        names.setdefault(window, []).append(name)
    return {" ".join(all_of_it): window for window, all_of_it in names.items()}


@trial
def the_store_as_the_model_has_it(page: Page) -> None:
    """The strip has the colour of each piece, its text all of them, and the graph the words of each state."""
    page.open()
    page.value("l6.panes.open('store')")
    run = open_run(page, STORES, store=2)
    for moment in run.moments:
        page.do(f"l6.state({moment.number})")
        pieces = [(place, len(words), "block" if place in moment.reached else "lost") for place, words in moment.blocks.items()]
        pieces += [(place, size, "free") for place, size in moment.free.items()]
        reach = max((place + size - 1024 for place, size, kind in pieces if kind != "free" and place < 2048), default=0)
        whole = max(32, 1 << (reach - 1).bit_length() if reach else 32)
        own = [it for it in sorted(pieces) if it[0] - 1024 + it[1] <= whole]
        parts = json.dumps([[(place - 1024) / whole, (place + size - 1024) / whole] for place, size, _ in own])
        page.same(f"colours in {moment.number}", page.value(PIECES % parts), [kind for *_, kind in own])
    page.value("document.getElementById('over-states').click()")
    page.browser.wait("document.querySelectorAll('#history polyline').length === 3")
    lines = page.value("""[...document.querySelectorAll('#history polyline')].map(it =>
        it.getAttribute('points').split(' ').map(one => Math.round((88 - Number(one.split(',')[1])) / 86 * 2048)))""")
    used = [sum(map(len, it.blocks.values())) for it in run.moments]
    want = [used, [2048 - it for it in used], [max(it.free.values()) for it in run.moments]]
    near = [all(abs(one - other) < 3 for one, other in zip(got, line)) and len(got) == len(line) for got, line in zip(lines, want)]
    page.same("the lines of the graph", near, [True, True, True])
    for number in (0, 4, len(run.moments) - 1):
        page.do(f"l6.state({number})")
        said = [f"words in blocks: {commas(used[number])}", f"free words: {commas(2048 - used[number])}",
                f"largest free piece: {commas(max(run.moments[number].free.values()))}"]
        page.same(f"below the graph in {number}", page.value("[...document.querySelectorAll('#history .amounts span')].map(it => it.textContent)"), said)
        line = page.value("Number(document.querySelector('#history .now-line').getAttribute('x1'))")
        page.right(f"its line in {number}", abs(line - number * 600 / (len(run.moments) - 1)) < 1, str(line))
    page.value("document.getElementById('over-states').click()")


@trial
def what_is_drawn_of_the_store(page: Page) -> None:
    """Each piece has its box, with its place and its size in it; what has changed and what is chosen has a frame."""
    page.open()
    page.value("l6.panes.open('store')")
    run = open_run(page, STORES, store=2)
    for before, moment in zip(run.moments, run.moments[1:]):
        page.do(f"l6.state({before.number})")
        page.do(f"l6.state({moment.number})")
        for name in ("strip", "levels"):
            page.value(f"document.getElementById('by-size').checked === {json.dumps(name == 'levels')} || document.getElementById('by-size').click()")
            drawn_store(page, name, before, moment)
    page.value("document.getElementById('by-size').checked && document.getElementById('by-size').click()")
    place = next(iter(run.moments[-2].blocks))
    page.do(f"l6.viewer.chooseBlock({place})")
    page.same("the block that is chosen has a frame", sum(it[:2] == ["strokeRect", "ink"] for it in page.value(RECORDED % "strip")), 1)


def pieces_of(moment: Moment) -> set[tuple[int, int, str]]:
    """The pieces of a store: where, how large, and what."""
    found = {(place, len(words), "block" if place in moment.reached else "lost") for place, words in moment.blocks.items()}
    return found | {(place, size, "free") for place, size in moment.free.items()}


def drawn_store(page: Page, name: str, before: Moment, moment: Moment) -> None:
    """What is drawn of a unit, as a strip or by size."""
    drawn = page.value(RECORDED % name)
    texts = page.value("document.getElementById('strip').getAttribute('aria-label')").split(", ")
    shown = sorted(it for it in pieces_of(moment) if any(text.startswith(f"{it[0]} ") for text in texts))
    boxes = [it for it in drawn if it[0] == "fillRect" and it[1] in ("block", "lost", "free")]
    what = f"{name} in {moment.number}"
    page.same(f"the colours of the {what}", ([it[1] for it in boxes], bool(boxes)), ([it[2] for it in shown], True))
    changed = sorted(it for it in shown if it not in pieces_of(before))
    frames = sum(it[:2] == ["strokeRect", "changed"] for it in drawn)
    page.same(f"frames of what has changed, {what}", (frames, len(boxes)), (len(changed), len(shown)))
    wrong = []
    for (place, size, kind), (*_, x, y, width, height) in zip(shown, boxes):
        inside = [it for it in drawn if it[0] == "fillText" and x <= it[4] <= x + width and y <= it[5] <= y + height + 3]
        said = [it[3] for it in inside]
        labels = [str(place)] if name == "levels" else [commas(size)]
        if width > 60 and any(it not in said for it in labels):
            wrong.append([place, labels, said])
        ink = {"free": {"soft"}}.get(kind, {"block-ink", "lost-ink"})  # (which are one colour in light)
        wrong += [it for it in inside if it[1] not in ink or it[3] not in (str(place), commas(size))]
        if name == "levels" and abs(y - (10 - (size.bit_length() - 1)) * 16) > 2:
            wrong.append([place, size, y])
    page.same(f"what is in the boxes of the {what}", wrong[:2], [])
    if name == "levels":
        sizes = {it[3]: it[5] for it in drawn if it[0] == "fillText" and it[2] == "right"}
        page.same(f"the lines by size, {what}", [0 < sizes.get(commas(2**at), 0) - (10 - at) * 16 < 16 for at in range(11)], [True] * 11)


@trial
def changes_far_away(page: Page) -> None:
    """A change is found however far away it is, also where it is in the first or the last of the states that are looked at together."""
    page.open()
    page.put(" (A,E,5)\nL (B,A,1)\n IF (B,L,200) THEN L\n (C,E,6) DONE\n")
    page.do("l6.state(0)")
    page.do("l6.end()")
    last = page.state()
    page.value("l6.viewer.watch({chain: 'C'})")
    page.do("l6.change(false)")
    begins = page.state()
    for away in (*range(62, 69), *range(319, 324)):
        # (the condition of the statement is the first step, and then A changes)
        for chain, at, act, want in (("A", 2 + away, "l6.change(false)", 2), ("C", begins - away, "l6.change(true)", begins)):
            page.value(f"l6.viewer.watch({{chain: '{chain}'}})")
            page.do(f"l6.state({at})")
            page.do(act)
            page.same(f"{act} from {away} states away", page.state(), want)
    page.right("the run is long enough", (begins > 324, last >= begins), f"{begins} of {last}")
