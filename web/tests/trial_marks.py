"""Trials of marks and pictures: what of them stays, goes, or is counted, in the deck, the drawing and the store."""
from __future__ import annotations

from page import Page, trial
from trial_class import change
from trial_stays import READ, put

# Where the camera is in each state of some steps on and back.
SPOTS = """(async (from, steps) => {
    const spot = () => ['x', 'y', 'scale'].map(it => Math.round(l6.viewer.drawing.camera.aim[it])).join(' ');
    await l6.state(from);
    l6.viewer.drawing.camera.fit(false);
    l6.viewer.drawing.camera.zoom(3, 0, 0, false);
    const states = [];
    for (let step = 0; step < steps; step++) {
        await l6.step();
        states.push([l6.view.state.number, spot()]);
    }
    const went = new Map(states), other = [];
    const compare = () => {
        const known = went.get(l6.view.state.number);
        if (known && known !== spot()) other.push(l6.view.state.number);
    };
    for (let step = 1; step < steps; step++) await l6.back(), compare();
    for (let step = 1; step < steps; step++) await l6.step(), compare();
    return {spots: new Set(went.values()).size, other};
})(%d, %d)"""
# The colours of a picture of the store, from left to right, at a part of its height.
COLOURS = """((id, part) => {
    const canvas = document.getElementById(id), pen = canvas.getContext('2d');
    return Array.from({length: 40}, (_, at) => [...pen.getImageData(
        Math.floor(canvas.width * (at + 0.5) / 40), Math.floor(canvas.height * part), 1, 1).data].join(' '));
})"""
# Goes to the end, where the page begins to ask why the run has trapped, and elsewhere before there is an answer.
TRAPS = """(async (way) => {
    await l6.end();
    await l6.back();
    await l6.state(3);
    const {session} = l6, own = session.ask, gates = [];
    session.ask = (...words) => new Promise(it => gates.push(it)).then(() => own(...words));
    await l6.end();
    await new Promise(it => setTimeout(it, 50));
    const asked = gates.length;
    await (way === 'back' ? l6.back() : way === 'state' ? l6.state(3) : null);
    session.ask = own;
    for (const go of gates) go();
    await new Promise(it => setTimeout(it, 400));
    while (l6.engine.isBusy) await new Promise(it => setTimeout(it, 5));
    const lit = document.querySelectorAll('.block.lit, .block.stopped').length;
    return [asked > 0, !document.getElementById('trap').hidden, lit > 0];
})"""
# Where a long run is in some states, asked for in each way; the states in which the debugger says something else.
TRAIL = """(async numbers => {
    const {session} = l6, wrong = [];
    let looked = 0;
    await session.run();
    for (const ahead of [1, 2, 4, -1, -2, -4])
        for (const number of numbers) {
            session.trail.stretches.clear();
            await session.trail.near(number, ahead);
            for (const at of [number, number - 1, number + 1, number - 4096, number + 4096]) {
                if (at < 0 || at > session.last) continue;
                looked++;
                const [spot, {state}] = [await session.trail.at(at, ahead), await session.view(at)];
                if (spot?.statement !== state.statement || spot?.action !== state.action) wrong.push(`${at} by ${ahead}`);
            }
        }
    return [looked, wrong.slice(0, 4)];
})([9, 4095, 4096, 6000, 12288, 20001])"""
LONG_CALL = " (A,E,1)(S,FC,A)(LOOP,DO) DONE\nLOOP (B,A,1)\n IF (B,L,6000) THEN LOOP\n (R,FC,C) DONE\n"


@trial
def a_breakpoint_stays_on_its_card(page: Page) -> None:
    """It is there still when its own card is edited, or as many cards as there were."""
    page.open()
    page.put(" (A,E,1)\n (A,E,2)\n (A,E,3)\n (A,E,4)\n")
    page.value("l6.toggle(1), l6.toggle(2)")
    marks = "[...l6.editor.breakpoints].sort()"
    for what, deck in (
        ("a number", " (A,E,1)\n (A,E,20)\n (A,E,3)\n (A,E,4)\n"),
        ("a letter of a comment to be", " (A,E,1)\n (A,E,20)  DONE\n (A,E,3)\n (A,E,4)\n"),
        ("two cards", " (A,E,1)\n (B,E,2)\n (B,E,3)\n (A,E,4)\n"),
        ("a card that has no reading for a moment", " (A,E,1)\n (B,E,2\n (B,E,3)\n (A,E,4)\n"),
        ("all cards", " (C,E,1)\n (C,E,2)\n (C,E,3)\n (C,E,4)\n"),
    ):
        change(page, deck)
        page.same(f"the breakpoints where {what} was changed", page.value(marks), [1, 2])
        page.same("and their marks", page.count("#gutter [aria-pressed='true']"), 2)
    page.click("mark-next")
    page.has("Next break goes there", page.text("where"), "AT 1.0 ")
    page.value("l6.library.isChanged = false")


@trial
def the_camera_where_motion_is_liked(page: Page) -> None:
    """Going back, and on again, shows what was shown there, also where the camera glides."""
    page.open()
    put(page, "tree31")
    for is_moving in (False, True):
        page.browser.moving(is_moving)
        found = page.value(SPOTS % (60, 30))
        page.right(f"it went elsewhere, motion {is_moving}", found["spots"] > 1, str(found))
        page.same(f"states in which it was elsewhere than before, motion {is_moving}", found["other"], [])
    page.browser.moving(False)


@trial
def directions_of_one_deck(page: Page) -> None:
    """Where links were turned they lead as ever in the next deck."""
    page.open()
    ways = "[...document.querySelectorAll('.legend .way')].map(it => it.textContent)"
    for name, state in (("list", 60), ("reverse", 121)):
        page.example(name, state)
        page.browser.wait(READ)
        before = page.value(ways)
        page.value("document.querySelector('.legend .way').click()")
        page.right(f"those of {name} are turned", page.value(ways) != before, str(before))
        page.example("lost", 14)
        page.example(name, state)
        page.browser.wait(READ)
        page.same(f"and are not when {name} is opened again", page.value(ways), before)
    page.example("list", 60)
    page.value("document.querySelector('.legend .way').click()")
    page.example("reverse", 121)
    page.same("nor in another deck", page.value(ways), before)


@trial
def folded_blocks_are_those_that_are_there(page: Page) -> None:
    """A folded block says how many blocks are below it in the state that is shown."""
    page.open()
    put(page, "tree31")
    page.do("l6.end()")
    page.value("l6.viewer.drawing.fold(l6.viewer.drawing.plan.first)")
    counts = set()
    for part in (0.3, 0.5, 0.7, 1):
        page.do(f"l6.state(Math.round(l6.session.last * {part}))")
        below = page.value("l6.view.store.blocks - 1")
        counts.add(below)
        shown = page.value("document.querySelector('.folded')?.textContent.replace(/\\D+/g, '') ?? ''")
        page.same(f"with {below} below", shown, str(below))
        page.has("in words", page.text("warnings"), f"Folded: {below} blocks")
    page.right("there are states with fewer", len(counts) > 2, str(counts))


@trial
def lost_blocks_are_blocks(page: Page) -> None:
    """The line of the store counts them, and they are drawn, also where no other is there."""
    page.open("#lost@14")
    page.has("of three", page.text("store-text"), "3 blocks, 1 lost; ")
    page.put(" (A,GT,1)(A,E,0)\n")
    page.do("l6.end()")
    page.has("of one", page.text("store-text"), "1 block, 1 lost; ")
    page.same("it is drawn", page.count(".block.lost"), 1)
    page.right("where one sees it", page.value("document.getElementById('drawing').offsetHeight > 50"))
    page.right("the board is not empty", not page.value("document.getElementById('board').classList.contains('vacant')"))


@trial
def the_store_on_fine_screens(page: Page) -> None:
    """Where a pixel has more than one dot the pictures of the store are the same, and finer."""
    drawn = {}
    for dots in (1, 2, 3):
        page.browser.resize(1400, 900, dots=dots)
        page.open()
        page.value("l6.panes.open('store')")
        page.put(" (A,GT,256)(B,GT,512)(C,GT,128)(D,GT,1024)\n", store=3)
        page.do("l6.run()")
        page.fill("unit", 1)
        widths = page.value("['units', 'strip'].map(it => document.getElementById(it)).map(it => it.width / it.clientWidth)")
        page.same(f"their dots of {dots}", [round(it, 1) for it in widths], [dots, dots])
        drawn[dots] = [page.value(f"{COLOURS}('strip', 0.55)"), page.value(f"{COLOURS}('units', 0.5)")]
        page.value("document.getElementById('by-size').click()")
        drawn[dots].append(page.value(f"{COLOURS}('levels', 0.13)"))
        page.value("document.getElementById('by-size').click()")
    for dots in (2, 3):
        for name, one, other in zip(("strip", "units", "levels"), drawn[1], drawn[dots]):
            same = sum(it == its for it, its in zip(one, other))
            page.right(f"the {name} of {dots} dots", same >= 34, f"{same} of 40 are the same")
    page.browser.resize(1400, 900)


@trial
def a_trap_is_told_where_it_is(page: Page) -> None:
    """Why a run has trapped is not told in another state, to which one goes before it is known."""
    page.open()
    for deck in (" (0,DN,0,35)(A,GT,1)(B,E,A)(A,FR)(C,E,BN)\n", " (0,DN,0,35)(A,GT,1)(B,GT,1)(AN,E,B)(B,FR)(C,E,ANN)\n"):
        page.put(deck)
        page.do("l6.run()")
        page.browser.wait("!l6.engine.isBusy && !document.getElementById('trap').hidden")
        for way, want in (("", [True, True]), ("back", [False, False]), ("state", [False, False])):
            asked, *told = page.value(f"{TRAPS}('{way}')")
            page.same(f"after {way or 'nothing'} of {deck.strip()}", [asked, told[0]], [True, want[0]])
            if way:
                page.same("no chain is lit", told[1], False)


@trial
def warnings_stay_after_a_run(page: Page) -> None:
    """What the checker warns of is said, and marked, as long as the deck is the same."""
    page.open()
    page.put(" (A,E,1)".ljust(72) + "(A,PD)\n (B,E,2)\n")
    page.do("l6.checker.check()")
    said = [page.text("fault"), page.value("l6.editor.findings.length"), page.count(".spot.warned, .spot.bad, .spot.warn")]
    page.right("it is said", ("1:73 warning" in said[0], said[1] == 1), str(said))
    for what, act in (("a step", "l6.step()"), ("a run", "l6.run()"), ("going back", "l6.back()")):
        page.do(act)
        now = [page.text("fault"), page.value("l6.editor.findings.length"), page.count(".spot.warned, .spot.bad, .spot.warn")]
        page.same(f"after {what}", now, said)


@trial
def the_trail_of_a_long_run(page: Page) -> None:
    """Far from its begin, too, a run is where the debugger says, and calls that wait are those of the state."""
    page.open()
    page.put(LONG_CALL)
    page.do("l6.state(0)")
    page.same("how many states were looked at, and those that are elsewhere", page.value(TRAIL), [6 * (4 + 4 + 5 + 5 + 5 + 5), []])
    for number in (6000, 20_000):
        page.put(LONG_CALL)
        page.do(f"l6.state({number})")
        page.browser.wait("!l6.engine.isBusy && document.querySelectorAll('#frames li').length > 1")
        calls = page.value("[...document.querySelectorAll('#frames li')].map(it => it.textContent)")
        page.same(f"the calls in {number}", calls, ["LOOP from statement 0 at 3", "outside of callsA = 1 "])
