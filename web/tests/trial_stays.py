"""Trials of the lasting drawing: no block that lives moves, going back shows the same picture, all is seen."""
from __future__ import annotations

import json
from pathlib import Path

from page import Page, trial

DECKS = json.loads((Path(__file__).resolve().parent / "decks.json").read_text("utf-8"))
READ = "l6.session?.chronicle !== null && !l6.isBusy"

# Steps on and back; measures on the screen where each block is. Answers how many blocks that live moved, the
# states in which going back showed another picture, and how many steps there were.
WALK = """(async (from, steps, back) => {
    const read = () => new Map([...document.querySelectorAll('#drawing .block:not(.ghost)')].map(group => {
        const {x, y, width} = group.querySelector('.edge').getBoundingClientRect();
        return [group.dataset.place, [x, y, width]];
    }));
    const pictureOf = () => JSON.stringify([[...read()].sort(),
        [...document.querySelectorAll('#drawing .arrow')].map(it => [it.dataset.from, it.dataset.to,
            it.querySelector('path').getAttribute('d')]).sort()]);
    const pictures = new Map();
    const moved = [];
    await l6.state(from);
    let old = read(), [blocks, there] = [old.size, l6.view.store.blocks];
    pictures.set(l6.view.state.number, pictureOf());
    for (let step = 0; step < steps && !l6.view.state.ending; step++) {
        await l6.step();
        const now = read();
        for (const [place, [x, y]] of now) {
            const was = old.get(place);
            if (was && Math.hypot(x - was[0], y - was[1]) > 1) moved.push(`${place} in ${l6.view.state.number}`);
        }
        old = now;
        [blocks, there] = [Math.max(blocks, now.size), Math.max(there, l6.view.store.blocks)];
        pictures.set(l6.view.state.number, pictureOf());
    }
    const other = [];
    const shown = pictures.size;
    for (let step = 0; step < back && l6.view.state.number > from; step++) {
        await l6.back();
        const known = pictures.get(l6.view.state.number);
        if (known && known !== pictureOf()) other.push(l6.view.state.number);
    }
    return {moved, other, shown, blocks, there};
})(%d, %d, %d)"""

# Steps on until there is one more block.
NEXT_BLOCK = """(async () => {
    const {blocks} = l6.view.store;
    while (l6.view.store.blocks === blocks) await l6.step();
})()"""

# What the surveyor has read does not come to the page, until it is released.
HOLD = """(() => {
    const {surveyor} = l6;
    window.held = [];
    window.isHeld = true;
    const settle = surveyor.settle.bind(surveyor);
    surveyor.settle = data => isHeld ? held.push(data) : settle(data);
    window.release = () => { isHeld = false; held.forEach(settle); };
})()"""
RELEASE = "release()"

# The clock goes on, and the next frames of an animation come, when the trial says so, however busy the machine is.
FRAMES = """(() => {
    window.frames_ = new Map();
    let [number, clock] = [0, performance.now()];
    performance.now = () => clock;
    window.requestAnimationFrame = what => { frames_.set(++number, what); return number; };
    window.cancelAnimationFrame = it => frames_.delete(it);
    window.frame = after => {
        clock += after;
        const due = [...frames_.values()];
        frames_.clear();
        due.forEach(it => it(clock));
    };
    window.ways = () => Object.fromEntries([...document.querySelectorAll('.arrow')].map(it =>
        [it.dataset.from, it.querySelector('path').getAttribute('d')]));
})()"""

# The part of the window's height that shows the drawing.
IN_SIGHT = """(({top, bottom}) => Math.round((Math.min(bottom, innerHeight) - Math.max(top, 0)) / innerHeight * 100) / 100)
    (document.getElementById('drawing').getBoundingClientRect())"""

# How many blocks are wholly in the frame, how many there are, and how large their letters are on the screen.
SEEN = """(() => {
    const frame = document.getElementById('drawing').getBoundingClientRect();
    const blocks = [...document.querySelectorAll('#drawing .block:not(.ghost)')];
    const isIn = ({left, right, top, bottom}) => left >= frame.left - 1 && right <= frame.right + 1 &&
        top >= frame.top - 1 && bottom <= frame.bottom + 1;
    const whole = blocks.filter(it => isIn(it.querySelector('.edge').getBoundingClientRect())).length;
    const text = document.querySelector('#drawing .block .value') ?? document.querySelector('#drawing .block text');
    const letters = parseFloat(getComputedStyle(text).fontSize) * text.getScreenCTM().a;
    return {whole, all: blocks.length, letters, note: document.getElementById('warnings').textContent};
})()"""

# The names of fields that an arrowhead or a line covers, and arrowheads that lie on a bug's sign.
COVERED = """(() => {
    const tip = path => {
        const end = path.getPointAtLength(path.getTotalLength());
        const before = path.getPointAtLength(path.getTotalLength() - 6);
        const {a, e, d, f} = path.getScreenCTM();
        const [x, y] = [(end.x + before.x) / 2 * a + e, (end.y + before.y) / 2 * d + f];
        return {left: x - 3 * a, right: x + 3 * a, top: y - 3 * a, bottom: y + 3 * a};
    };
    const isOver = (a, b) => a.left < b.right && b.left < a.right && a.top < b.bottom && b.top < a.bottom;
    const inner = ({left, right, top, bottom}) => ({left: left + 1, right: right - 1, top: top + 3, bottom: bottom - 4});
    const arrows = [...document.querySelectorAll('#drawing .arrow')];
    const tips = arrows.map(it => [it, tip(it.querySelector('path'))]);
    const lines = arrows.flatMap(it => {
        const path = it.querySelector('path');
        const {a, e, d, f} = path.getScreenCTM();
        return Array.from({length: Math.floor(path.getTotalLength() / 3)}, (_, at) => {
            const {x, y} = path.getPointAtLength(at * 3);
            return {left: x * a + e - 1, right: x * a + e + 1, top: y * d + f - 1, bottom: y * d + f + 1};
        });
    });
    const found = [];
    for (const arrow of arrows) {
        const tag = arrow.querySelector('.tag');
        if (!tag) continue;
        const box = inner(tag.getBoundingClientRect());
        for (const [other, head] of tips)
            if (isOver(box, head)) found.push(`${tag.textContent} of ${arrow.dataset.from} by ${other.dataset.to}`);
        if (lines.some(it => isOver(box, it))) found.push(`${tag.textContent} of ${arrow.dataset.from} by a line`);
    }
    for (const pill of document.querySelectorAll('#drawing .pill'))
        for (const [other, head] of tips)
            if (isOver(inner(pill.getBoundingClientRect()), head))
                found.push(`${pill.dataset.bug} on the head of ${other.dataset.from}`);
    return found;
})()"""


# The links between two blocks of one row that pass another one which stands between them.
PASSED = """(() => {
    const {blocks} = l6.viewer.drawing.graph;
    const at = new Map(blocks.map(it => [it.place, it]));
    return blocks.flatMap(({place, x, y, links}) => links.filter(({target, isBroken}) => {
        const other = at.get(target);
        const isBetween = it => it.y === y && it.x > Math.min(x, other.x) && it.x < Math.max(x, other.x);
        return other && !isBroken && other.y === y && blocks.some(isBetween);
    }).map(({target}) => `${place} to ${target} in ${l6.view.state.number}`));
})()"""


def put(page: Page, name: str) -> None:
    """Puts an example or a further deck into the page, and waits until its run is read."""
    if name in DECKS:
        page.put(DECKS[name]["deck"], DECKS[name]["input"])
    else:
        page.example(name)
    page.do("l6.state(0)")
    page.browser.wait(READ)


def walk(page: Page, names: list[str], begin: float = 0.0, steps: int = 80, back: int = 25) -> None:
    """Walks through runs, from a part of their states on."""
    for name in names:
        put(page, name)
        first = int(page.value("l6.session.last") * begin)
        found = page.value(WALK % (first, steps, back))
        page.same(f"{name}: blocks that live and move", found["moved"][:4], [])
        page.same(f"{name}: back shows the same picture", found["other"][:4], [])
        page.right(f"{name}: it was walked through", (found["shown"] > 1, (found["blocks"] > 0) == (found["there"] > 0)), str(found))


@trial
def blocks_stay(page: Page) -> None:
    """While a list is reversed, a ring shrinks, and a tree is walked through."""
    page.browser.resize(1280, 720)
    page.open()
    page.value("document.getElementById('follow')?.click()")
    walk(page, ["reverse", "josephus", "tree", "double"], 0.4, 40, 12)
    page.browser.resize(1400, 900)


@trial
def any_way_to_a_state(page: Page) -> None:
    """A state has one picture, whichever way one came; Tidy has another one, and goes back to it."""
    page.browser.resize(1280, 720)
    page.open()
    places = "JSON.stringify(l6.viewer.drawing.graph.blocks.map(({place, x, y}) => [place, x, y]))"
    for name, state in (("reverse", 121), ("queue", 99), ("sorted", 150), ("double", 121)):
        put(page, name)
        page.do(f"l6.state({state})")
        jumped = page.value(places)
        page.do("l6.end()")
        page.do(f"l6.state({state})")
        page.same(f"{name}: from the end", page.value(places), jumped)
        page.do(f"l6.state({state - 2})")
        page.do("l6.step()")
        page.do(f"l6.state({state})")
        page.same(f"{name}: by steps", page.value(places), jumped)
    page.click("tidy")
    tidy = page.value(places)
    page.right("Tidy has a picture of its own", tidy != jumped)
    page.click("tidy")
    page.same("and again that of the run", page.value(places), jumped)
    page.browser.resize(1400, 900)


@trial
def shapes(page: Page) -> None:
    """Structures look as on a blackboard."""
    page.open()
    place = "(it => l6.viewer.drawing.plan.places.get(it))"
    put(page, "double4")
    page.do("l6.end()")
    across = page.value(f"[1024, 1025, 1026, 1027].map({place})")
    page.same("a list that is linked both ways is a line", len({it["y"] for it in across}), 1)
    ways = "[...document.querySelectorAll('.legend .way')].map(it => it.textContent)"
    page.same("its links lead to and fro", page.value(ways), ["P ←", "N →"])
    page.right("from its first block to its last", [it["x"] for it in across] == sorted(it["x"] for it in across))
    put(page, "tree15")
    page.do("l6.end()")
    below = """(() => {
        const {plan, graph} = l6.viewer.drawing;
        return graph.blocks.length === 15 && graph.blocks.flatMap(it => it.links).length === 14 && graph.blocks.every(block => block.links.every(({target, name}) => {
            const [from, to] = [plan.places.get(block.place), plan.places.get(target)];
            return to.y > from.y && (name === 'L' ? to.x < from.x : to.x > from.x);
        }));
    })()"""
    page.right("in a tree L leads down and left, R down and right", page.value(below))
    for name in ("list", "reverse", "queue", "josephus", "twostacks"):
        put(page, name)
        passed, links = [], 0
        for part in range(1, 9):
            page.do(f"l6.state(Math.round(l6.session.last * {part} / 8))")
            passed += page.value(PASSED)
            links += page.value("l6.viewer.drawing.graph.blocks.flatMap(it => it.links).length")
        page.same(f"{name}: links that pass a block of their row", passed[:3], [])
        page.right("there are links", links > 8, str(links))
    covered = []
    for name in ("double", "reverse", "josephus", "twostacks"):
        put(page, name)
        for state in range(60, 170, 11):
            page.do(f"l6.state({state})")
            covered += [f"{name} in {state}: {it}" for it in page.value(COVERED)]
    put(page, "josephus")
    for state in range(250, 730, 31):
        page.do(f"l6.state({state})")
        covered += [f"josephus in {state}: {it}" for it in page.value(COVERED)]
    for mode in ("", ";lecture"):
        for state in (100, 125, 137, 150, 175, 200):
            page.open(f"#tree@{state}{mode}")
            covered += [f"tree in {state}{mode}: {it}" for it in page.value(COVERED)]
    page.open()
    put(page, "graph")
    page.fill("detail", "boxes", "change")
    for state in range(80, 130, 7):
        page.do(f"l6.state({state})")
        covered += [f"graph in {state}: {it}" for it in page.value(COVERED)]
    page.fill("detail", "auto", "change")
    page.same("no arrowhead or line covers a name, and no bug an arrowhead", covered[:4], [])
    put(page, "double")
    page.fill("detail", "boxes", "change")
    page.do("l6.state(93)")
    page.right("there are names and bugs", min(page.count(it) for it in ("#drawing .tag", "#drawing .pill")) > 0)
    page.value("(it => { const {x, y} = it.querySelector('path').getPointAtLength(30); it.querySelector('.tag').setAttribute('x', x - 4);"
               " it.querySelector('.tag').setAttribute('y', y + 4); })(document.querySelector('#drawing .arrow:has(.tag)'))")
    page.right("a line over a name is seen", bool(page.value(COVERED)))
    page.fill("detail", "auto", "change")


@trial
def a_jump_paints_nothing(page: Page) -> None:
    """Where the reader comes from far away, and all blocks are new, links keep their colours."""
    page.open()
    put(page, "tree15")
    page.do("l6.end()")
    page.same("no block is marked", [page.count(".block"), page.count(".block.new"), page.count(".arrow.changed")], [15, 0, 0])
    page.do("l6.state(0)")
    page.value(NEXT_BLOCK)
    page.same("the first block is, where it is got", page.count(".block.new"), 1)
    page.value(NEXT_BLOCK)
    page.same("and the next", [page.count(".block"), page.count(".block.new")], [2, 1])


@trial
def glides(page: Page) -> None:
    """What moves glides: the sign of a bug, and an arrow that leads elsewhere."""
    page.open()
    put(page, "reverse")
    page.do("l6.state(120)")
    pill = "getComputedStyle(document.querySelector('.pill')).transitionProperty"
    page.same("where little motion is wanted nothing glides", page.value(pill), "none")
    page.browser.moving(True)
    page.has("else a bug does", page.value(pill), "transform")
    page.has("and a block, where Tidy moves it", page.value(pill.replace(".pill", ".block")), "transform")
    page.value(FRAMES)
    page.value("void (window.kept = document.querySelector('.pill[data-bug=R]'))")
    between = 0
    for _ in range(6):
        before = page.value("ways()")
        page.do("l6.step()")
        page.value("frame(50)")
        midst = page.value("ways()")
        page.value("frame(1000)")
        after = page.value("ways()")
        between += sum(midst.get(key) not in (before[key], after[key]) for key in before if after.get(key, "") != before[key])
    page.right("its sign is the same element", page.value("kept === document.querySelector('.pill[data-bug=R]')"))
    page.same("and there is one", page.count(".pill[data-bug=R]"), 1)
    page.right("an arrow goes from way to way", between > 0, str(between))
    page.same("and then is still", page.value("frame(2000), frames_.size"), 0)
    page.browser.moving(False)


@trial
def all_in_view(page: Page) -> None:
    """Of trees all blocks are seen by Fit; small letters are never left without a word."""
    page.browser.resize(1280, 720)
    page.open()
    for name, count, least in (("tree15", 15, 12), ("tree31", 31, 12), ("tree100", 100, 0), ("list100", 100, 0)):
        put(page, name)
        page.do("l6.end()")
        first = page.value(SEEN)
        page.right(
            f"{name}: its letters, or a word", first["letters"] >= 10 or first["note"] != "", json.dumps(first)
        )
        page.right(f"{name}: a word where not all is seen", first["whole"] == first["all"] or first["note"] != "")
        page.browser.click("#camera button")
        found = page.value(SEEN)
        page.same(f"{name}: whole blocks by Fit", [found["whole"], found["all"]], [count, count])
        page.right(f"{name}: its letters", found["letters"] >= least, str(found["letters"]))
        page.right(f"{name}: a word on small ones", found["letters"] >= 10 or "Small letters" in found["note"])
    page.browser.resize(1400, 900)


@trial
def a_camera(page: Page) -> None:
    """Wheel, drag, pinch, keys, the map, and what follows."""
    spot = "[l6.viewer.drawing.camera.at.x, l6.viewer.drawing.camera.at.y, l6.viewer.drawing.camera.at.scale]"
    page.open()
    put(page, "tree31")
    page.do("l6.end()")
    fitted = page.value(spot)
    # (on a block, which must not be chosen by a drag)
    x, y = page.value("(it => [it.x + it.width / 2, it.y + it.height / 2])"
                      "(document.querySelectorAll('.block')[9].getBoundingClientRect())")
    frame = page.value("(it => [it.left, it.top])(document.getElementById('drawing').getBoundingClientRect())")
    under = f"(([left, top, scale]) => [({x} - {frame[0]} - left) / scale, ({y} - {frame[1]} - top) / scale].map(Math.round))({spot})"
    pointed = page.value(under)
    page.browser.wheel(x, y, -200)
    near = page.value(spot)
    page.same("what is under the pointer stays there", page.value(under), pointed)
    page.right("the wheel comes nearer", near[2] > fitted[2] * 1.3, str(near))
    page.right("the map is there", page.value("getComputedStyle(document.querySelector('.map')).display !== 'none'"))
    page.has("and a word", page.text("warnings"), " blocks in view")
    page.browser.drag_from(x, y, 80, 40)
    dragged = page.value(spot)
    page.same("a drag moves it", [round(dragged[0] - near[0]), round(dragged[1] - near[1])], [80, 40])
    page.same("and chooses no block", page.box("place"), "")
    page.browser.pinch(x, y, 40, 120)
    page.right("a pinch comes nearer", page.value(spot)[2] > dragged[2] * 1.2, str(page.value(spot)))
    page.same("and chooses no block, too", page.box("place"), "")
    map_x, map_y = page.value("(it => [it.x + 10, it.y + 10])(document.querySelector('.map').getBoundingClientRect())")
    page.browser.click_at(map_x, map_y)
    page.right("a click on the map goes there", page.value(spot)[0] > dragged[0])
    page.value("l6.viewer.drawing.focusBlock()")
    page.browser.key("0")
    page.same("0 shows all", page.value(spot), fitted)
    page.do("l6.state(60)")
    page.browser.key("0")
    page.right("0 again shows the blocks that are there now", page.value(spot)[2] > fitted[2])
    page.right("all of them", page.value("(it => it.length > 1 && it.every(one => l6.viewer.drawing.camera.sees(one)))(l6.viewer.drawing.graph.blocks)"))
    page.browser.key("0")
    page.same("and once more all", page.value(spot), fitted)
    page.do("l6.end()")
    page.browser.key("+")
    page.right("+ comes nearer", page.value(spot)[2] > fitted[2])
    page.browser.key("-")
    page.browser.key("-")
    page.right("- goes away", page.value(spot)[2] < fitted[2])
    for number, is_nearer in ((2, True), (3, False)):
        before = page.value(spot)[2]
        page.browser.click(f"#camera button:nth-child({number})")
        page.same(f"button {number} of the camera comes nearer", page.value(spot)[2] > before, is_nearer)
    page.value("l6.viewer.drawing.focusBlock()")
    before = page.value(spot)[0]
    page.browser.key("ArrowRight", modifiers=8)
    page.right("Shift and an arrow move it", page.value(spot)[0] < before)
    page.browser.wheel(x, y, -2000)
    page.do("l6.state(40)")
    page.do("l6.step()")
    page.right(
        "it follows what changes", page.value("l6.viewer.drawing.graph.blocks.some(it => "
        "(it.isNew || it.isChanged) && l6.viewer.drawing.camera.sees(it)) || "
        "!l6.viewer.drawing.graph.blocks.some(it => it.isNew || it.isChanged)")
    )
    page.value("l6.viewer.drawing.camera.fit(false)")
    x, y = page.value("(it => [it.x + it.width / 2, it.y + it.height / 2])"
                      "(document.querySelector('.block').getBoundingClientRect())")
    page.browser.drag_from(x, y, 2, 1)
    page.becomes("a click by a hand that shakes chooses a block", "document.getElementById('place').value !== ''", True)


@trial
def subtrees_fold(page: Page) -> None:
    page.open()
    put(page, "tree31")
    page.do("l6.end()")
    page.value("l6.viewer.drawing.fold(l6.viewer.drawing.plan.first)")
    folded = page.value("document.querySelector('.folded').textContent")
    page.same("all below the root is folded", [page.count(".block"), folded.replace(" ", "")[:3]], [1, "▲30"])
    page.has("it is said", page.text("warnings"), "Folded: 30 blocks")
    page.value("l6.viewer.drawing.focusBlock()")
    page.browser.key("f")
    page.same("F unfolds it", page.count(".block"), 31)
    page.value("l6.viewer.drawing.fold(l6.viewer.drawing.plan.first)")
    page.same("folded again", page.count(".block"), 1)
    page.click("tidy")
    page.same("Tidy unfolds it", [page.count(".block"), page.count(".folded")], [31, 0])
    page.click("tidy")
    page.value("l6.viewer.drawing.fold(l6.viewer.drawing.plan.first)")
    page.put("* ANOTHER DECK\n" + DECKS["tree31"]["deck"], DECKS["tree31"]["input"])
    page.do("l6.end()")
    page.browser.wait(READ)
    page.same("another deck has all its blocks", [page.count(".block"), page.count(".folded")], [31, 0])
    page.put(DECKS["tree100"]["deck"].replace("I,E,100", "I,E,900"))
    page.do("l6.run()")
    page.browser.wait(READ)
    page.right("of very many some are folded", page.count(".folded") > 0)


@trial
def by_provenance(page: Page) -> None:
    """A number that is the place of a block by chance is no link; the reader may choose."""
    page.open()
    put(page, "powers")
    page.do("l6.end()")
    fields = "[...document.querySelectorAll('.arrow')].map(it => it.dataset.field).filter((it, at, all) => all.indexOf(it) === at)"
    page.same("links", page.value(fields), ["N"])
    signs = "[...document.querySelectorAll('.legend .kind')].map(it => it.textContent)"
    page.same("signs", page.value(signs), ["⚭", "#"])
    page.browser.click(".legend [id='kind-1.0.35']")
    page.browser.click(".legend [id='kind-1.0.35']")
    page.same("clicks make it a link", [page.value(signs), sorted(page.value(fields))], [["⚭", "⚭"], ["N", "V"]])
    page.do("l6.library.makeLink()")
    link = page.value("location.hash")
    page.open(link)
    page.do("l6.end()")
    page.browser.wait(READ)
    page.same("a link keeps it", sorted(page.value(fields)), ["N", "V"])
    page.example("josephus", 150)
    page.browser.click(".legend [id='kind-0.18.35']")
    page.do("l6.library.makeLink()")
    page.open(page.value("location.hash"))
    page.do("l6.state(150)")
    page.same("also one to an example", page.value(signs), ["#", "#"])
    page.put(" (C,E,1024)(A,GT,1)(B,E,A)\n")
    page.do("l6.run()")
    page.same("a counter is no pointer", page.value("[...document.querySelectorAll('.pill')].map(it => it.dataset.bug)"),
              ["A", "B"])


@trial
def use_after_free(page: Page) -> None:
    """Ghosts, broken arrows, a place that was given again, and the step that follows an old pointer."""
    page.open()
    put(page, "dangling")
    page.do("l6.state(13)")
    page.same("before", [page.count(".ghost"), page.count(".arrow.broken"), page.text("warnings")], [0, 0, ""])
    page.do("l6.state(14)")
    page.same(
        "a ghost, a broken arrow and a broken bug",
        [page.count(".ghost"), page.count(".arrow.broken .break"), page.count(".pill.broken")], [1, 1, 1]
    )
    page.has("in words", page.text("warnings"), "C leads to 1025, which was freed at state 14")
    page.do("l6.state(17)")
    page.has("given again", page.text("warnings"), "C leads to 1025 from get 2; now the block of get 3 is there")
    page.same("no ghost then", [page.count(".ghost"), page.count(".arrow.broken")], [0, 1])
    texts = []
    for _ in range(8):
        page.do("l6.step()")
        texts.append(page.text("changes"))
    used = [it for it in texts if "Use after free" in it]
    page.same("one step follows it", len(used), 1)
    page.has("which is said", used[0] if used else "", "C leads to 1025, freed at state 14, and follows it to the block of get 3")


@trial
def a_large_run_is_shown_at_once(page: Page) -> None:
    """The first picture does not wait until the run is read; then there is the plan of all of it."""
    page.open()
    page.put(" (0,DN,18,35)(0,DV,0,17)\nG (L,GT,1,LN)(LV,E,I)(I,A,1)\n IF (I,L,20000) THEN G\n", store=30)
    page.value(HOLD)
    page.value("l6.state(5000)")
    page.same("it is shown", [page.state(), page.count(".block") > 100], [5000, True])
    page.right("before it is read", page.value("l6.session.chronicle === null"))
    page.value("(async () => { await l6.step(); await l6.step(); })()")
    page.same("and steps do not wait for it", [page.state() > 5000, page.value("l6.session.chronicle")], [True, None])
    page.value("l6.state(5000)")
    page.value(RELEASE)
    page.value("l6.telling")
    page.right("and then read", page.value("l6.session.chronicle.lives.size > 2000"))
    page.same("the page shows the same state", page.state(), 5000)


@trial
def shares(page: Page) -> None:
    """The drawing has 35 % of a screen of 1280x720; empty papers are a line; nothing shakes."""
    page.browser.resize(1280, 720)
    page.open()
    share = "(it => it.width * it.height / (innerWidth * innerHeight))(document.getElementById('drawing').getBoundingClientRect())"
    for name, state in (("reverse", 121), ("tree", 137), ("queue", 99)):
        page.example(name, state)
        page.right(f"{name}: the drawing's share", page.value(share) >= 0.35, str(page.value(share)))
    letters = page.value("parseFloat(getComputedStyle(document.getElementById('deck')).fontSize)")
    page.right("letters of the deck", letters >= 14, str(letters))
    page.put(" (A,GT,1)\n")
    papers = "document.getElementById('papers-below').offsetHeight"
    page.same("empty papers are a line", page.value(papers), 22)
    page.value("document.getElementById('input').focus()")
    page.right("and open where one types", page.value(papers) > 150)
    page.example("buddy")
    frames = set()
    for state in range(0, 120, 7):
        page.do(f"l6.state({state})")
        frames.add(page.value("JSON.stringify(document.getElementById('drawing').getBoundingClientRect())"))
    page.same("the frame is the same in all states", len(frames), 1)
    page.value("l6.panes.open('tables')")
    cut = """[...document.querySelectorAll('.table')].filter(it => it.scrollWidth > it.clientWidth + 1).length"""
    page.same("tables are not cut", [page.value(cut), page.count(".table")], [0, 3])
    page.example("lost", 14)
    page.do("l6.viewer.chooseBlock(1028)")
    hidden = """[...document.querySelectorAll('.table')].filter(it => it.scrollHeight > it.clientHeight + 1)
        .map(it => it.scrollHeight)"""
    page.same("the words of a block, bugs and fields are seen whole", page.value(hidden), [])
    page.browser.resize(1400, 900)


@trial
def small_windows(page: Page) -> None:
    """In landscape and with 200 % zoom half of the height shows the drawing; in a lecture on a phone nothing is cut."""
    for width, height in ((667, 375), (640, 360), (375, 667)):
        page.browser.resize(width, height, phone=True)
        page.open("#tree@137")
        share = page.value("document.getElementById('drawing').offsetHeight / innerHeight")
        least = 0.5 if width > height else 0.3
        page.right(f"the drawing's height at {width}x{height}", share >= least, str(share))
        page.click("run")
        shares = [page.value(IN_SIGHT)]
        for way in ("back()", "back()", "state(137)", "step()", "state(60)", "step()"):
            page.do(f"l6.{way}")
            shares.append(page.value(IN_SIGHT))
        page.right(f"what is in sight of it after Run at {width}x{height}", min(shares) >= least, str(shares))
        page.same("and it stays where it is", len(set(shares)), 1)
        page.open("#tree@137;lecture")
        wide = page.value("document.documentElement.scrollWidth")
        page.right(f"in a lecture at {width}x{height} nothing is cut", wide <= width, str(wide))
        cut = "[...document.querySelectorAll('.cards code')].filter(it => it.scrollWidth > it.clientWidth + 1).length"
        page.same(f"each card is whole at {width}x{height}", page.value(cut), 0)
    page.browser.resize(1400, 900)
