"""Trials that walk through the runs of all examples and of further decks: no block that lives moves."""
from __future__ import annotations

from page import TOP, Page, trial
from trial_stays import put, walk

EXAMPLES = sorted(it.stem for it in (TOP / "examples").glob("*.deck"))
FURTHER = ["tree15", "tree31", "tree100", "twostacks", "double", "dangling", "graph", "sorted", "list100", "powers"]
MOST_STATES = 150  # of a run that are looked at; of a longer one, so many that are as far from one another

# Goes through a run, and says which blocks were elsewhere than when they were first seen, and how far; a block is known
# by its place and the state in which it was got. With all its steps a run is gone through by Step, else by jumps. Some
# states are looked at at once, so that the browser answers in time on a machine that is busy, too.
WHOLE = """void (() => {
    const {chronicle, last} = l6.session;
    const most = %d;
    const [spots, moved] = [new Map(), []];
    let states = 0;
    const look = () => {
        const {number} = l6.view.state;
        for (const block of document.querySelectorAll('#drawing .block:not(.ghost)')) {
            const {x, y} = block.querySelector('.edge').getBoundingClientRect();
            const {place} = block.dataset;
            const name = `${place} of ${chronicle.lifeAt(Number(place), number)?.born}`;
            const [left, top] = spots.get(name) ?? [x, y];
            if (x !== left || y !== top) moved.push(`${name} in ${number} by ${Math.hypot(x - left, y - top)}`);
            else spots.set(name, [x, y]);
        }
        states++;
    };
    window.lookOn = async (count) => {
        for (let time = 0; time < count && (states === 0 || !l6.view.state.ending); time++) {
            await (last <= most && states ? l6.step() : l6.state(last <= most ? 0 : Math.round(last * states / most)));
            look();
        }
        return {moved, states, blocks: spots.size, isEnd: l6.view.state.number === last};
    };
})()"""
AT_ONCE = 10  # states

# Steps on as a reader does who left all as it is. Answers in how many steps blocks moved among one another, in how many
# all of them were moved by as much, and whether all of the drawing is seen.
FOLLOWED = """(async (from, steps) => {
    const read = () => new Map([...document.querySelectorAll('#drawing .block:not(.ghost)')].map(group => {
        const {x, y} = group.querySelector('.edge').getBoundingClientRect();
        return [group.dataset.place, [x, y]];
    }));
    let [apart, slid, old] = [0, 0, (await l6.state(from), read())];
    for (let step = 0; step < steps && !l6.view.state.ending; step++) {
        await l6.step();
        const now = read();
        const ways = [...now].filter(([place]) => old.has(place))
            .map(([place, [x, y]]) => [x - old.get(place)[0], y - old.get(place)[1]]);
        const isSame = ([x, y]) => Math.hypot(x - ways[0][0], y - ways[0][1]) < 0.1;
        apart += ways.every(isSame) ? 0 : 1;
        slid += ways.length && Math.hypot(...ways[0]) > 0.1 ? 1 : 0;
        old = now;
    }
    return {apart, slid, isWhole: l6.viewer.drawing.camera.isWhole};
})(%d, %d)"""


def walk_whole(page: Page, names: list[str]) -> None:
    """Goes through whole runs: no block is a pixel, or a part of one, from where it was first seen."""
    for name in names:
        put(page, name)
        page.value(WHOLE % MOST_STATES)
        found: dict = {"isEnd": False}
        for _ in range(MOST_STATES // AT_ONCE + 2):
            if not found["isEnd"]:
                found = page.value(f"lookOn({AT_ONCE})")
        page.same(f"{name}: blocks that move in its run", found["moved"][:3], [])
        lives = page.value("l6.session.chronicle.lives.size")
        page.right(f"{name}: it was gone through", found["isEnd"] and found["states"] > 3 and (found["blocks"] > 0) == (lives > 0), str(found))


@trial
def what_moves_is_seen(page: Page) -> None:
    """A drawing that is moved between two states moves all blocks that are in both: along their rows, and up or down."""
    page.browser.resize(1280, 720)
    page.open()
    for way in ("X", "Y"):
        put(page, "reverse")
        page.value("l6.state(20)")
        page.value(WHOLE % MOST_STATES)
        page.value("lookOn(40)")
        page.value(f"void (document.getElementById('drawing').style.transform = 'translate{way}(7px)')")
        found = page.value("lookOn(1)")
        page.right(f"blocks that move by {way}", len(found["moved"]) >= 3 and all(it.endswith(" by 7") for it in found["moved"]), str(found))
        page.value("void (document.getElementById('drawing').style.transform = '')")
    page.browser.resize(1400, 900)


@trial
def nothing_moves(page: Page) -> None:
    """From the begin of each run, and from its midst."""
    page.browser.resize(1280, 720)
    page.open()
    page.value("document.getElementById('follow')?.click()")
    walk(page, EXAMPLES)
    walk(page, ["reverse", "josephus", "queue", "tree", "scan", "words", "collect", "counts"], 0.5)
    page.browser.resize(1400, 900)


@trial
def nothing_moves_further(page: Page) -> None:
    page.browser.resize(1280, 720)
    page.open()
    page.value("document.getElementById('follow')?.click()")
    walk(page, FURTHER)
    walk(page, ["double", "graph", "sorted", "tree31"], 0.5)
    page.browser.resize(1400, 900)


@trial
def nothing_moves_in_whole_runs(page: Page) -> None:
    """From the first state of each run to its last one."""
    page.browser.resize(1280, 720)
    page.open()
    page.value("document.getElementById('follow')?.click()")
    walk_whole(page, EXAMPLES)
    page.browser.resize(1400, 900)


@trial
def nothing_moves_in_whole_further_runs(page: Page) -> None:
    page.browser.resize(1280, 720)
    page.open()
    page.value("document.getElementById('follow')?.click()")
    walk_whole(page, FURTHER)
    page.browser.resize(1400, 900)


@trial
def nothing_moves_where_it_follows(page: Page) -> None:
    """As the page is opened: where all is seen nothing moves; where it is not, the camera moves all by as much."""
    page.browser.resize(1280, 720)
    page.open()
    for name, is_whole in (("reverse", True), ("josephus", True), ("queue", True), ("tree", True), ("tree15", True),
                           ("tree31", True), ("tree100", False), ("list100", False)):
        put(page, name)
        found = page.value(FOLLOWED % (int(page.value("l6.session.last") * 0.4), 60))
        page.same(f"{name}: steps in which blocks move among one another", found["apart"], 0)
        if is_whole:
            page.same(f"{name}: all is seen, and nothing slides", [found["isWhole"], found["slid"]], [True, 0])
        else:
            page.right(f"{name}: all slides in few steps", found["slid"] <= 6, str(found))
    page.browser.resize(1400, 900)
