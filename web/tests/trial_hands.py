"""Trials of what hands do at the same time, or otherwise than most: play and pause, hide, drop, Caps Lock."""
from __future__ import annotations

import json

from page import Page, trial
from trial_stays import READ, put

# Steps that last until they are let go, and Play pressed so often meanwhile; answers how many had begun, and how
# many more begin then.
BEATS = """(async times => {
    const {player} = l6, own = player.step, waits = [];
    const rest = () => new Promise(it => setTimeout(it, 150));
    player.step = () => new Promise(it => waits.push(it));
    document.getElementById('speed').value = '40';
    player.toggle();
    await rest();
    for (let time = 0; time < times; time++) player.toggle();
    await rest();
    const begun = waits.length;
    for (const go of [...waits]) go();
    await rest();
    const more = waits.length - begun;
    player.pause();
    player.step = own;
    return [begun, more];
})(%d)"""
# The blocks of a state that is asked for while a bug is hidden, or shown again, and of the same state after that.
HIDDEN = """(async () => {
    const {session} = l6, found = [];
    for (let time = 0; time < 2; time++) {
        session.views.clear();
        const asked = session.view(4);
        session.hide('A');
        found.push((await asked).shown.places, (await session.view(4)).shown.places);
    }
    return found;
})()"""
# Whether the page takes what is dropped on an element: a text, or a file beside it.
TAKES = """((selector, kind, text) => {
    const data = new DataTransfer();
    data.setData('text/plain', 'X');
    if (text) data.items.add(new File([text], 'a.deck'));
    const event = new DragEvent(kind, {dataTransfer: data, bubbles: true, cancelable: true});
    return !document.querySelector(selector).dispatchEvent(event);
})"""
EMPTY = """[...document.querySelectorAll('*')].flatMap(it => [...it.attributes])
    .filter(({name, value}) => name.startsWith('aria-') && value === '').map(({name}) => name)"""


@trial
def play_and_pause_in_a_slow_step(page: Page) -> None:
    """Pause holds while a step is being made, and Play after it gives one beat, and not two."""
    page.open("#list@3")
    page.same("it plays on", page.value(BEATS % 0), [1, 1])
    page.same("Pause within a step", page.value(BEATS % 1), [1, 0])
    page.same("Pause and Play within a step", page.value(BEATS % 2), [2, 1])
    page.same("both once more", page.value(BEATS % 4), [2, 1])


@trial
def a_bug_hidden_while_states_are_asked_for(page: Page) -> None:
    """What was asked for before a bug was hidden, or shown again, is not kept as if it were asked for after that."""
    page.open()
    page.put(" (A,GT,1)(B,GT,1)(C,GT,1)\n")
    page.do("l6.run()")
    both, without = [1024, 1025, 1026], [1025, 1026]
    page.same("the blocks", page.value(HIDDEN), [without, without, both, both])


@trial
def what_is_dropped(page: Page) -> None:
    """A text goes into the box on which it is dropped; a file is opened, wherever it is dropped."""
    page.open()

    def takes(selector: str, kind: str, text: str = "") -> bool:
        return page.value(f"{TAKES}({json.dumps(selector)}, {json.dumps(kind)}, {json.dumps(text)})")

    for kind in ("dragover", "drop"):
        for selector in ("#deck", "#input", "#chain"):
            page.right(f"{kind} of a text on {selector} is the box's", not takes(selector, kind))
        page.right(f"{kind} of a text elsewhere is the page's", takes("#drawing", kind))
        page.right(f"{kind} of a file is, too", takes("#deck", kind, " (A,E,5)\n"))
    page.becomes("it is opened", "document.getElementById('deck').value", " (A,E,5)\n")


@trial
def caps_lock_in_the_drawing(page: Page) -> None:
    """Its letters are keys in both cases."""
    page.open()
    put(page, "tree31")
    page.do("l6.end()")
    page.browser.wait(READ)
    page.same("the blocks", page.count(".block"), 31)
    page.value("l6.viewer.drawing.figures.blocks.get(l6.viewer.drawing.plan.first).focus()")
    page.browser.key("F")
    page.same("F folds", page.count(".block"), 1)
    page.browser.key("f")
    page.same("f unfolds", page.count(".block"), 31)
    page.open("#lost@14")
    page.value("l6.viewer.drawing.focusBlock()")
    page.browser.key("H")
    page.becomes("H hides a bug", "l6.session.hidden", ["A"])


@trial
def what_screen_readers_are_told(page: Page) -> None:
    """No attribute for them is empty, the map is hidden from them, and the graph has as many states as the run."""
    page.open()
    put(page, "tree100")
    page.do("l6.end()")
    page.browser.wait(READ)
    page.same("empty attributes", page.value(EMPTY), [])
    page.value("document.getElementById('tidy').setAttribute('aria-label', '')")
    page.same("one is seen", page.value(EMPTY), ["aria-label"])
    page.value("document.getElementById('tidy').removeAttribute('aria-label')")
    page.same("the map", page.value("document.querySelector('.map').getAttribute('aria-hidden')"), "true")
    page.value("l6.panes.open('store'), document.getElementById('over-states').click()")
    label = "document.querySelector('#history svg')?.getAttribute('aria-label').split(',')[0] ?? ''"
    for steps, want in ((0, "Over 1 state"), (1, "Over 2 states"), (5, "Over 6 states")):
        page.put("L (A,A,1) L\n", steps=steps)
        page.do("l6.run()")
        page.becomes(f"a run of {steps} steps", label, want)
    page.value("document.getElementById('over-states').click()")


@trial
def the_unit_is_a_whole_number(page: Page) -> None:
    """Of the numbers that are typed only those of units count."""
    page.open("#full@30000")
    page.value("l6.panes.open('store')")
    shown = "[l6.viewer.strip.part.unit, document.getElementById('units').getAttribute('aria-label').split('; ')[1]]"
    page.fill("unit", 3)
    page.same("3 is one", page.value(shown), [2, "unit 3 is shown below"])
    for text in ("1.5", "0", "-1", "999", "", "1e-1"):
        page.fill("unit", text)
        page.same(f"{text!r} is none", page.value(shown), [2, "unit 3 is shown below"])
    page.fill("unit", "2")
    page.same("2 is one", page.value(shown), [1, "unit 2 is shown below"])


@trial
def a_box_without_a_number(page: Page) -> None:
    """An option that is no number, or none at all, is said, and nothing is run with it."""
    page.open()
    for name, right in (("store", 8), ("steps", 1000), ("output", 1000), ("memory", 1024)):
        for text in ("", " ", "1.5", "-1", "99999999999"):
            page.fill(name, text, "change")
            invalid = page.value(f"document.getElementById('{name}').getAttribute('aria-invalid')")
            page.same(f"{name} of {text!r}", [invalid, page.text("options-note") != ""], ["true", True])
            page.do("l6.run()")
            page.same("nothing is run", [page.state(), page.text("options-note") in page.text("empty")], [-1, True])
        page.fill(name, right, "change")
        page.do("l6.run()")
        page.same(f"{name} of {right}", [page.state(), page.text("options-note")], [6, ""])


@trial
def keys_in_menus_and_boxes(page: Page) -> None:
    """In a menu or a box, arrows and letters are its own: the run stays where it is."""
    page.open("#lost@14")
    page.value("l6.panes.open('tables'), l6.panes.open('store'), document.getElementById('options').open = true")
    names = page.value("""[...document.querySelectorAll('select, textarea, input')]
        .filter(it => !/checkbox|range|file/.test(it.type))
        .filter(it => it.checkVisibility() && it.getClientRects().length && it.id).map(it => it.id)""")
    page.right("there are many", {"example", "speed", "detail", "deck", "input", "chain", "number"} <= set(names), str(names))
    page.value("addEventListener('keydown', it => { window.prevented = it.defaultPrevented; })")
    look = "[prevented, l6.isBusy, l6.view.state.number, l6.player.isPlaying, l6.editor.breakpoints.size]"
    for name in names:
        chooses = name == "example" or page.value(f"document.getElementById('{name}').type === 'number'")
        # (there an arrow puts another deck or number)
        for key in ("n", "p", "m", " ", *(() if chooses else ("ArrowRight", "ArrowLeft", "ArrowDown", "End"))):
            page.focus(name)
            page.browser.key(key)
            page.same(f"{key} in {name}", page.value(look), [False, False, 14, False, 0])
    page.value("document.getElementById('options').open = false")


@trial
def a_slow_paper(page: Page) -> None:
    """What is answered late goes into no other tab, and Download saves what is seen."""
    page.open("#lost@14")
    slow = """(async (first, second) => {
        const {papers} = l6, own = papers.source.ask, gates = [];
        papers.source.ask = (...words) => new Promise(it => gates.push(it)).then(() => own(...words));
        const one = papers.open(first);
        papers.source.ask = own;
        await papers.open(second);
        const shown = document.getElementById('paper').textContent;
        for (const go of gates) go();
        await one;
        return [gates.length, shown.length > 20, document.getElementById('paper').textContent === shown, papers.text === shown];
    })"""
    for first, second in (("printout", "asked"), ("listing", "printout"), ("session", "image")):
        page.same(f"{first} after {second}", page.value(f"{slow}('{first}', '{second}')"), [1, True, True, True])
    page.value("document.getElementById('papers-dialog').close()")


SPOT = "(({x, y, scale}) => [x, y, scale].map(it => Math.round(it * 100) / 100))(l6.viewer.drawing.camera.aim)"
MIDDLE = "(it => [it.x + it.width / 2, it.y + it.height / 2])(document.getElementById('drawing').getBoundingClientRect())"


def press_in_drawing(page: Page, key: str, modifiers: int = 0) -> None:
    """Presses a key on a block of the drawing."""
    page.value("l6.viewer.drawing.focusBlock()")
    page.browser.key(key, modifiers=modifiers)


@trial
def what_was_moved_by_hand_stays(page: Page) -> None:
    """Where the drawing was moved or come nearer to, in whatever way, it stays so in steps and in another window, until Fit."""
    page.browser.resize(1400, 900)
    page.open()
    put(page, "tree31")
    page.do("l6.end()")
    page.value("document.getElementById('follow').click()")
    fitted = page.value(SPOT)
    x, y = page.value(MIDDLE)
    ways = {
        "a drag": lambda: page.browser.drag_from(x, y, 60, 30),
        "the wheel": lambda: page.browser.wheel(x, y, -100),
        "a pinch": lambda: page.browser.pinch(x, y, 60, 90),
        "the button for nearer": lambda: page.browser.click("#camera button:nth-child(2)"),
        "the key for further away": lambda: press_in_drawing(page, "-"),
        "Shift and an arrow": lambda: press_in_drawing(page, "ArrowDown", 8),
    }
    for what, move in ways.items():
        page.do("l6.state(400)")
        page.do("l6.step()")
        move()
        spot = page.value(SPOT)
        page.right(f"{what} moves it", spot != fitted, str(spot))
        for way in ("step()", "back()", "back()", "state(400)", "step()"):
            page.do(f"l6.{way}")
        page.same(f"after {what} it stays in steps", page.value(SPOT), spot)
        page.browser.resize(1400, 860)
        page.value("new Promise(it => setTimeout(it, 400))")
        page.same(f"after {what} it stays in another window", page.value(SPOT), spot)
        page.browser.resize(1400, 900)
        page.value("new Promise(it => setTimeout(it, 400))")
        page.browser.click("#camera button")
        page.same(f"after {what} Fit shows all", page.value(SPOT), fitted)
    page.browser.resize(1400, 860)
    page.value("new Promise(it => setTimeout(it, 400))")
    page.right("what is fitted is fitted to another window", page.value(SPOT) != fitted)
    page.right("all of it", page.value("l6.viewer.drawing.camera.isWhole"))
    page.browser.resize(1400, 900)
    page.value("document.getElementById('follow').click()")
