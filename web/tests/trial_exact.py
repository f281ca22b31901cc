"""Trials of what is like something else: keys like their buttons, maps like what is seen, ends of glides, and what is opened again."""
from __future__ import annotations

import json

from modelled import Run
from page import Page, trial
from trial_beside import GUTTER
from trial_class import CALLS
from trial_lines import HOVER
from trial_model import number_before
from trial_outside import KEPT
from trial_stays import FRAMES, READ, SEEN, put
from trial_tasks import TASK

# Decks that trap with their inputs and options, and what is said of it.
TRAPS: list[tuple[str, str, dict[str, int], str]] = [
    (" (R,FC,A)\n", "", {}, "No content is saved here."),
    ("L (S,FD,A) L\n", "", {}, "1,024 definitions are saved."),
    ("L (A,IN,6) L\n", "AB\n", {}, "Asked for: 6; left: 2 characters."),
    ("L (A,IN,6) L\n", "AB\nC\n", {}, "Asked for: 6; left: 4 characters."),
    (" (A,GT,512)\nL (B,DP,A) L\n", "", {"store": 1}, "512 words asked for; 0 words free, and none is free."),
    ("L (A,GT,1) L\n", "", {"store": 1}, "1 word asked for; 0 words free, and none is free."),
    (" (A,E,64)(0,DN,A,35)\n", "", {}, "The word: 0; the first bit: A is 64; the last: 35."),
    (" (A,E,5)(A,Y,B)\n", "", {}, "The divisor of A: B is 0."),
    (" (B,E,2000)(A,GT,B)\n", "", {}, "The size that is asked for: B is 2,000."),
    (" (B,E,9)(A,PR,B)\n", "", {}, "The number of characters: B is 9."),
    ("L (ABC,PH) L\n", "", {"output": 100}, "99 bytes are printed, and 100 is the most."),
    # (the chain behind a get leads to a place that is free, and that the get does not take)
    (" (0,DN,18,35)(B,GT,1)(D,GT,1)(C,E,B)(B,FR)(A,GT,2,CN)\n", "", {}, "CN ends before N: C is 1024, whose block was freed at state 6 by (B,FR)."),
    (" (0,DN,18,35)(B,GT,1)(D,GT,1)(E,GT,1)(F,GT,1)(C,E,B)(B,FR)\n+(E,FR)(A,GT,1,CN)\n", "", {},
     "CN ends before N: C is 1024, whose block was freed at state 8 by (B,FR)."),
]
MOST_LOST = 40  # lost blocks that are drawn
# A key that is pressed in the drawing, so many times; answers where the camera is then.
PRESSED = """((key, times, shiftKey) => {
    for (let time = 0; time < times; time++)
        document.getElementById('drawing').dispatchEvent(new KeyboardEvent('keydown', {key, shiftKey, bubbles: true, cancelable: true}));
    const {x, y, scale} = l6.viewer.drawing.camera.aim;
    return [x, y, scale];
})"""
# How far the frame on the map is from the part of the drawing that the window shows, and blocks that the map has elsewhere.
MAPPED = """(() => {
    const frame = document.getElementById('drawing').getBoundingClientRect(), map = document.querySelector('.map');
    const inverse = document.querySelector('#drawing > .picture').getScreenCTM().inverse();
    const [a, b] = [[frame.left, frame.top], [frame.right, frame.bottom]].map(([x, y]) => new DOMPoint(x, y).matrixTransform(inverse));
    const seen = map.querySelector('.seen').getBBox();
    const spots = [...map.querySelectorAll('path')].flatMap(it => [...it.getAttribute('d').matchAll(/M([^ h]+) ([^ h]+)h/g)].map(([, x, y]) => `${x} ${y}`));
    const blocks = [...document.querySelectorAll('#drawing .block:not(.ghost)')].map(it => it.style.transform.match(/[\\d.]+/g).join(' '));
    const far = [a.x - seen.x, a.y - seen.y, b.x - seen.x - seen.width, b.y - seen.y - seen.height];
    return [Math.max(...far.map(Math.abs)) < 3, spots.sort().join() === blocks.sort().join(), blocks.length > 20];
})()"""
# The point of the window at which the map has a block, and how far the block is from the middle of the frame.
ON_MAP = """(place => {
    const block = document.querySelector(`.block[data-place="${place}"]`), {x, y, width, height} = block.querySelector('.edge').getBBox();
    const [left, top] = block.style.transform.match(/[\\d.]+/g).map(Number);
    const at = new DOMPoint(left + x + width / 2, top + y + height / 2).matrixTransform(document.querySelector('.map').getScreenCTM());
    const box = block.querySelector('.edge').getBoundingClientRect(), frame = document.getElementById('drawing').getBoundingClientRect();
    return [at.x, at.y, box.x + box.width / 2 - frame.x - frame.width / 2, box.y + box.height / 2 - frame.y - frame.height / 2];
})('%s')"""
# Of a broken arrow: how far its mark is from it, whether it is about in its midst, and how far from the ghost it ends.
BROKEN = """(() => {
    const arrow = document.querySelector('.arrow.broken'), path = arrow.querySelector('path'), mark = arrow.querySelector('.break').getBBox();
    const [x, y, whole] = [mark.x + mark.width / 2, mark.y + mark.height / 2, path.getTotalLength()];
    const far = Array.from({length: Math.ceil(whole)}, (_, at) => path.getPointAtLength(at)).map(it => Math.hypot(it.x - x, it.y - y));
    const at = far.indexOf(Math.min(...far)), end = path.getPointAtLength(whole).matrixTransform(path.getScreenCTM());
    const {left, right, top, bottom} = document.querySelector('.ghost .edge').getBoundingClientRect();
    const aside = Math.max(left - end.x, end.x - right, top - end.y, end.y - bottom, 0);
    return [far[at] < 2, at > 2 && at < whole - 2, aside < 3, mark.width > 5 && mark.height > 5];
})()"""
# What of a block is done in the drawing: how often it is chosen then, which block is, and whether anything plays.
CHOSEN = """((place, act) => {
    const block = document.querySelector(`.block[data-place="${place}"]`);
    block.focus();
    block.dispatchEvent(act === 'click' ? new MouseEvent('click', {bubbles: true}) : new KeyboardEvent('keydown', {key: act, bubbles: true, cancelable: true}));
    return [[...document.querySelectorAll('.block.chosen')].map(it => it.dataset.place), document.getElementById('place').value, l6.player.isPlaying];
})(%s, %s)"""
# Whether the strip of the store has the colour of a block where its first one is, and is as fine as it is wide.
STRIP = """(() => {
    const canvas = document.getElementById('strip'), probe = document.createElement('canvas').getContext('2d');
    probe.fillStyle = getComputedStyle(document.documentElement).getPropertyValue('--block').trim();
    probe.fillRect(0, 0, 1, 1);
    const colour = (pen, x, y) => [...pen.getImageData(x, y, 1, 1).data].join();
    return [colour(canvas.getContext('2d'), 12, 20) === colour(probe, 0, 0), canvas.width === Math.round(canvas.clientWidth * devicePixelRatio)];
})()"""
# All that a link, or the browser's store, must have of what is typed and shown.
WHOLE = """(() => ({
    boxes: ['deck', 'input', 'store', 'steps', 'output'].map(it => document.getElementById(it).value),
    marks: [...l6.editor.breakpoints].sort(), state: l6.view?.state.number ?? -1, kinds: l6.viewer.drawing.kinds.code,
    signs: [...document.querySelectorAll('.legend .kind')].map(it => it.textContent).join(''), arrows: document.querySelectorAll('.arrow').length,
    task: document.getElementById('exercise').hidden ? '' : [...document.querySelectorAll('#exercise > p:first-child, #exercise pre')].map(it => it.textContent).join(),
}))()"""
# The deck is scrolled by so many lines; answers which lines are in sight then.
SCROLLED = """(it => {
    const line = parseFloat(getComputedStyle(it).lineHeight);
    it.scrollTop = %s * line;
    it.dispatchEvent(new Event('scroll'));
    return [it.scrollTop / line, (it.scrollTop + it.clientHeight) / line];
})(document.getElementById('deck'))"""
CARDS = "* A CARD\n" + " (A,A,1)\n" * 79


def element_click(name: str) -> str:
    """The script that clicks an element."""
    return f"document.getElementById({json.dumps(name)}).click()"


@trial
def leaps_by_keys_and_buttons(page: Page) -> None:
    """Where a step, a call, a return, a statement and a change lead elsewhere, each key and each button leads where the model says."""
    page.open()
    page.put(CALLS)
    page.value("l6.panes.open('tables')")
    run = Run(CALLS)
    values = [it.bugs.get("A", 0) for it in run.moments]
    changes = [at for at in range(1, len(values)) if values[at] != values[at - 1]]
    depths = [len(it.calls) for it in run.moments]
    at, inner = 6, 12
    wanted = {
        ("n", "step", at): run.number_after(run.moments[at]),
        ("p", "back", inner): number_before(run, run.moments[inner]),
        ("v", "over", at): next(it for it in range(at + 2, len(depths)) if depths[it] == depths[at]),
        ("u", "out", inner): next(it for it in range(inner, len(depths)) if depths[it] == depths[inner] - 1),
        ("s", "statement", inner + 2): next(it.number for it in run.moments[inner + 3:] if it.action == 0 or it.ending),
        ("c", "change-next", at): next(it for it in changes if it > at),
        ("x", "change-back", inner): next(it for it in reversed(changes) if it < inner),
    }
    shown: dict[str, int] = {}
    for (key, name, begin), want in wanted.items():
        for act in (f"document.body.dispatchEvent(new KeyboardEvent('keydown', {{key: '{key}', bubbles: true, cancelable: true}}))", element_click(name)):
            page.do(f"l6.state({begin})")
            page.value("l6.viewer.watch({chain: 'A'})")
            page.value(act)
            page.settle()
            shown[key] = page.state()
            page.same(f"from {begin} by {name}", shown[key], want)
    page.same("they lead elsewhere", [shown["v"] > 16, shown["c"] > shown["n"], shown["x"] < shown["p"]], [True, True, True])


@trial
def the_camera_by_its_keys(page: Page) -> None:
    """Shift and an arrow bring what is there into sight; +, = and the button come as much nearer as − goes away, round the middle, within bounds."""
    page.open("#tree@137")
    x, y, scale = page.value(f"{PRESSED}('+', 1, false)")
    for key, across, down in (("ArrowRight", -1, 0), ("ArrowLeft", 1, 0), ("ArrowDown", 0, -1), ("ArrowUp", 0, 1)):
        now = page.value(f"{PRESSED}('{key}', 1, true)")
        page.same(f"Shift and {key}", [round(now[0] - x), round(now[1] - y), now[2]], [60 * across, 60 * down, scale])
        x, y, _ = now
    middle = "[document.getElementById('drawing').clientWidth / 2, document.getElementById('drawing').clientHeight / 2]"
    width, height = page.value(middle)
    for what, act, factor in (("+", f"{PRESSED}('+', 1, false)", 1.25), ("−", f"{PRESSED}('-', 1, false)", 0.8), ("=", f"{PRESSED}('=', 1, false)", 1.25),
                              ("the button −", f"(document.querySelectorAll('#camera button')[2].click(), {PRESSED}('', 1, false))", 0.8),
                              ("the button +", f"(document.querySelectorAll('#camera button')[1].click(), {PRESSED}('', 1, false))", 1.25)):
        now = page.value(act)
        page.same(f"how much nearer {what} comes", round(now[2] / scale, 3), factor)
        aside = [(width - now[0]) / now[2] - (width - x) / scale, (height - now[1]) / now[2] - (height - y) / scale]
        page.same(f"round the middle, by {what}", [round(it) for it in aside], [0, 0])
        x, y, scale = now
    page.same("no nearer than 4 to 1", page.value(f"{PRESSED}('+', 40, false)")[2], 4)
    page.same("no further than 1 to 20", page.value(f"{PRESSED}('-', 60, false)")[2], 0.05)


@trial
def the_map_of_a_drawing(page: Page) -> None:
    """It has each block where the drawing has it, and a frame round what is seen; a click puts what is there into the middle."""
    page.open()
    put(page, "tree31")
    page.do("l6.end()")
    page.value("l6.viewer.drawing.camera.zoom(5, 0, 0, false)")
    for way in ("", "drag"):
        if way:
            page.value("l6.viewer.drawing.camera.pan(-200, -90)")
        page.same(f"its frame, and its blocks {way}", page.value(MAPPED), [True, True, True])
    for index in (3, 20):
        place = page.value(f"document.querySelectorAll('#drawing .block')[{index}].dataset.place")
        page.browser.click_at(*page.value(ON_MAP % place)[:2])
        page.same(f"a click on block {place}", [abs(it) < 45 for it in page.value(ON_MAP % place)[2:]], [True, True])
    page.value("document.querySelector('#camera button').click()")
    page.same("where all is seen there is none", page.value("getComputedStyle(document.querySelector('.map')).display"), "none")
    page.value(f"{PRESSED}('+', 2, false)")
    found = page.value(SEEN)
    page.same("how many blocks are in view is said", found["note"].split("(")[0].strip(), f"{found['whole']} of 31 blocks in view")


@trial
def where_glides_end(page: Page) -> None:
    """Where arrows glide they end on the ways that they have where nothing glides."""
    page.open()
    put(page, "reverse")
    page.value(FRAMES)
    page.do("l6.state(120)")
    still = []
    for _ in range(6):
        page.do("l6.step()")
        still.append(page.value("ways()"))
    page.do("l6.state(120)")
    page.browser.moving(True)
    for want in still:
        page.do("l6.step()")
        for after in (60, 120, 400):
            page.value(f"frame({after})")
        page.same("the ways of a state", page.value("ways()"), want)
    page.browser.moving(False)


@trial
def a_mark_on_a_broken_arrow(page: Page) -> None:
    """It is on the arrow, between its ends; the arrow ends at the ghost, which is where the block was."""
    page.open()
    put(page, "dangling")
    box = "(({x, y}) => [x, y].map(Math.round))(document.querySelector('[data-place=\"1025\"] .edge').getBoundingClientRect())"
    for detail in ("auto", "boxes"):
        page.fill("detail", detail, "change")
        page.do("l6.state(13)")
        block = page.value(box)
        page.do("l6.state(14)")
        page.same(f"the ghost, {detail}", page.value(box), block)
        page.same(f"the mark, {detail}", page.value(BROKEN), [True, True, True, True])
    page.fill("detail", "auto", "change")


@trial
def blocks_by_hand(page: Page) -> None:
    """A click, Enter and Space choose a block, and that alone; a double click folds what is below, and again unfolds it."""
    page.open("#lost@14")
    for place, act in ((1026, "click"), (1024, " "), (1028, "Enter"), (1026, " "), (1024, "click")):
        page.same(f"{act!r} on {place}", page.value(CHOSEN % (place, json.dumps(act))), [[str(place)], str(place), False])
    page.do("l6.step()")
    page.same("it stays chosen", page.value("[...document.querySelectorAll('.block.chosen')].map(it => it.dataset.place)"), ["1024"])
    page.fill("chain", "A")
    page.fill("place", 1026)
    page.becomes("a place that is typed", "[...document.querySelectorAll('.block.chosen')].map(it => it.dataset.place)", ["1026"])
    page.same("and no chain", page.box("chain"), "")
    put(page, "tree31")
    page.do("l6.end()")
    fold = "l6.viewer.drawing.figures.blocks.get(l6.viewer.drawing.plan.first).dispatchEvent(new MouseEvent('dblclick', {bubbles: true}))"
    for want in (1, 31):
        page.value(fold)
        page.same("after a double click on the root", page.count(".block"), want)
    page.example("tree", 137)
    page.becomes("what is saved", "document.querySelectorAll('#frames .saved button').length > 0", True)
    place = page.value("document.querySelector('#frames .saved').textContent.match(/\\d+/)[0]")
    page.value("document.querySelector('#frames .saved button').click()")
    page.becomes("an arrow beside what is saved chooses its block", "document.getElementById('place').value", place)


@trial
def what_is_shared(page: Page) -> None:
    """Each button of Share closes the menu; a frame of one's own deck has all of it."""
    page.open("#lost@14")
    page.value(KEPT)
    page.value("window.print = () => {}, navigator.clipboard.writeText = () => Promise.resolve()")
    left = """['save-svg', 'save-png', 'keep-state', 'print', 'frame-code'].filter(it => {
        document.getElementById('share').open = true;
        document.getElementById(it).click();
        return document.getElementById('share').open;
    })"""
    page.same("the buttons that leave it open", page.value(left), [])
    page.put(" (A,IN,1)(B,GT,A)\n", "#\n", store=3)
    page.do("l6.state(2)")
    page.value("l6.panes.lecture(true)")
    link = page.value("l6.library.frameLink()")
    page.value("l6.panes.lecture(false)")
    page.open("#" + link.split("#")[1])
    found = [page.value("['embed', 'lecture'].filter(it => document.body.classList.contains(it)).join()"), *(page.box(it) for it in ("deck", "input", "store")), page.text("empty")]
    page.same("a frame", found, ["embed", " (A,IN,1)(B,GT,A)\n", "#\n", "3", "This deck came with the link, and was not run.Go to state 2"])


@trial
def the_store_is_drawn_again(page: Page) -> None:
    """Where the window gets dark, light or narrow, and where the store is shown again, its strip is drawn again."""
    page.open("#lost@14")
    page.value("l6.panes.open('store')")
    page.becomes("the colour of a block, as wide as it is", STRIP, [True, True])
    for what, size in (("dark", (1400, 900, True)), ("light", (1400, 900, False)), ("narrow", (1100, 900, False)), ("wide", (1400, 900, False))):
        page.browser.resize(*size)
        page.becomes(f"where the window gets {what}", STRIP, [True, True])
    page.value(element_click("show-store"))
    page.do("l6.state(13)")
    page.browser.resize(1300, 900)
    page.value(element_click("show-store"))
    page.becomes("where it is shown again", STRIP, [True, True])
    page.browser.resize(1400, 900)
    page.do("l6.state(14)")
    page.same("a block that is lost", page.value(f"{HOVER}('strip', 0.18)"), "block 1028, 4 words, lost")


@trial
def all_of_it_is_there_again(page: Page) -> None:
    """What a link opens, what is there after a reload, and what is among the last decks, is what it was: boxes, marks, fields, task and state."""
    page.open()
    page.value("localStorage.clear()")
    cases: tuple[tuple[str, str, dict[str, int], str], ...] = (
        (" (0,DN,18,35)(A,GT,1)(B,GT,1)(AN,E,B)\n DONE\n (PL)\n", "IN\n", {"store": 3, "steps": 77, "output": 99}, ""),
        (" (0,DN,0,5)(A,GT,1)\n (AN,E,33)\n", "OTHER\n", {"steps": 50}, json.dumps(TASK)), (" (0,DN,18,35)(A,GT,2)(AN,E,5)\n", "", {}, "exercise-5"),
    )
    for deck, text, options, task in cases:
        if task.startswith("{"):
            page.value(f"l6.library.openTask({task})")
        elif task:
            page.value(f"l6.library.chooseExample('{task}')")
        page.fill("deck", deck)
        page.fill("input", text)
        for name, number in options.items():
            page.fill(name, number, "change")
        page.do("l6.state(3)")
        page.browser.wait(READ)
        page.value("l6.toggle(0), l6.toggle(1), document.querySelector('.legend .kind').click()")
        page.do("l6.state(4)")
        page.browser.wait("JSON.parse(localStorage.getItem('l6.work'))?.kinds && JSON.parse(localStorage.getItem('l6.work')).number === 4")
        was = page.value(WHOLE)
        page.do("l6.library.makeLink()")
        link = page.value("location.hash")
        for what in ("a reload", "the last decks", "a link"):
            if what == "a reload":
                page.open("", keeps=True)
            elif what == "the last decks":
                page.value("l6.library.isChanged = false, l6.library.chooseExample('tree'), l6.library.chooseExample('last:0')")
            else:
                page.open(link)
            page.same(f"{what} offers its state", page.value("document.querySelector('#empty button')?.textContent ?? ''"), "Go to state 4")
            page.value("document.querySelector('#empty button').click()")
            page.browser.wait("l6.view?.state.number === 4 && !l6.isBusy")
            page.browser.wait(READ)
            page.same(f"after {what}", page.value(WHOLE), was)
        page.value("localStorage.clear(), l6.library.isChanged = false")


@trial
def each_trap_in_words(page: Page) -> None:
    """Of each trap there is what was asked for and what was there, by name and value."""
    page.open()
    for deck, text, options, want in TRAPS:
        page.put(deck, text, **options)
        page.do("l6.run()")
        page.becomes(f"the trap of {deck.strip()}", "document.getElementById('trap').hidden ? '' : document.getElementById('trap').textContent", want)


@trial
def words_on_the_drawing(page: Page) -> None:
    """Of lost blocks four are named; where there is more to say than one thing that is counted."""
    page.open()
    for deck, want, is_note in ((f" {'(A,GT,1)' * 6}\n", "Lost: nothing leads to 1024, 1025, 1026, 1027 ..", True),
                                (" (A,GT,1)(A,GT,1)\n", "Lost: nothing leads to 1024", True),
                                (" (A,GT,1)(B,E,A)(C,E,A)(A,FR)\n", "⚠ B leads to 1024, which was freed at state 5 (and 1 more)", False)):
        page.put(deck)
        page.do("l6.end()")
        page.browser.wait(READ)
        told = page.value("(it => [it.textContent, it.classList.contains('note')])(document.getElementById('warnings'))")
        page.same(f"the words on {deck.strip()}", told, [want, is_note])
    page.put("L (A,GT,1)(K,A,1)\n IF (K,L,60) THEN L\n")
    page.do("l6.end()")
    page.becomes("all of these words", "document.getElementById('warnings').title",
                 f"Lost: nothing leads to 1024, 1025, 1026, 1027 ..\nNot drawn: {60 - 1 - MOST_LOST} lost")


@trial
def numbers_beside_a_deck_that_is_scrolled(page: Page) -> None:
    """Each card that is in sight has its number at its line; the statement with the cursor is the next one where a comment is."""
    page.open()
    page.put(CARDS)
    for lines in (0, 7.4, 30, 61.8):
        first, last = page.value(SCROLLED % lines)
        rows = page.value(GUTTER)
        cards = {int(it[1]) - 1: it[2] for it in rows if it[0] == "SPAN"}
        page.same(f"cards at other lines, from line {lines}", [it for it in cards.items() if it[0] != it[1]], [])
        numbers = [it for it in rows if it[0] == "BUTTON"]
        page.same("statements at other lines", [it for it in numbers if int(it[1]) + 1 != it[2]], [])
        page.right("there are statements", len(numbers) > 5, str(len(numbers)))
        page.same("cards without a number", [it for it in range(80) if first <= it and it + 1 <= last and it not in cards], [])
    page.focus("deck", 3)
    page.key("F9")
    page.same("F9 on a comment", page.value("[...l6.editor.breakpoints]"), [0])


@trial
def what_a_group_does(page: Page) -> None:
    """While nothing runs, the page says what the group with the cursor does, until the cursor leaves it; in a run it says what comes next."""
    page.open()
    page.put(" (A,GT,4) DONE\n")
    page.focus("deck", 4)
    page.becomes("in a group", "document.getElementById('next').textContent", "(A,GT,4) gets a block for 4 words; A becomes its place")
    page.focus("deck", 12)
    page.becomes("after the cursor has left it", "document.getElementById('next').textContent", "")
    page.do("l6.state(2)")
    page.focus("deck", 4)
    page.value("document.dispatchEvent(new Event('selectionchange'))")
    page.same("of a run", page.text("next"), "Next: DONE returns from the latest call, or ends the run")
    page.same("its title", page.value("document.getElementById('next').title"), "DONE returns from the latest call, or ends the run")
    page.example("lost")
    own = page.value("l6.library.find('lost').commands ?? ''")
    page.same("the commands are those of the example", [page.box("commands") == own, own != ""], [True, True])
    page.put(" (PL)\n")
    page.same("another deck has none", page.box("commands"), "")
