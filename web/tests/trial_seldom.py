"""Trials of what is used seldom: keys on controls, windows of each width, states that few see, other input."""
from __future__ import annotations

import json
import xml.etree.ElementTree as ElementTree

from page import Page, trial
from trial_class import LETTERS
from trial_outside import KEPT
from trial_stays import DECKS, READ, put

# What is pressed by Space, and whether it is; what it would do is not done.
PRESSABLE = """[...document.querySelectorAll('button[id], summary, input[type=checkbox]')]
    .filter(it => it.checkVisibility() && it.getClientRects().length)"""
PRESSED = """(index => {
    const element = (%s)[index];
    window.pressed = 0;
    element.addEventListener('click', it => { pressed++; it.preventDefault(); it.stopImmediatePropagation(); },
        {capture: true, once: true});
    element.focus();
    return element.id || element.parentElement.id;
})""" % PRESSABLE
DETAILS = ["options", "share"]
DIALOGS = ["task-dialog", "answers-dialog", "papers-dialog", "help-dialog"]
OUTSIDE = """(it => {
    const {left, right} = it.getBoundingClientRect();
    return left < 0 || right > innerWidth + 1 || it.scrollWidth > it.clientWidth + 1 ? [Math.round(left), Math.round(right)] : [];
})"""
SAVES_DEFINITIONS = " (0,DN,18,35)(A,GT,1)(S,FD,N)(0,DN,0,17)(R,FD,N)(AN,E,0)\n"
# The place of the drawing in each state of a run.
FRAMES = """(async () => {
    const found = new Set();
    for (let number = 0; number <= l6.session.last; number++) {
        await l6.state(number);
        while (l6.engine.isBusy) await new Promise(it => setTimeout(it, 5));
        const {y, height} = document.getElementById('drawing').getBoundingClientRect();
        if (l6.view.store.blocks) found.add(`${Math.round(y)} ${Math.round(height)}`);
    }
    return [...found];
})()"""
# The states in which the tree of calls has not as many that wait as the debugger says.
WAITING = """(async (from, to) => {
    const wrong = [];
    for (let number = from; number <= to; number++) {
        await l6.state(number);
        const waits = document.querySelectorAll('#call-tree .waits').length;
        if (waits !== l6.view.amounts.returns) wrong.push(number);
    }
    return wrong;
})(%d, %d)"""
# Of each field in a table: where its window is and how wide, in bits.
WINDOWS = """(id => [...document.querySelectorAll(`#${id} .bits button`)].map(it => {
    const bar = it.parentElement.getBoundingClientRect(), window = it.getBoundingClientRect();
    return [window.left - bar.left, window.width].map(part => Math.round(part / bar.width * 36 * 10) / 10);
}))"""
RESIZED = "new Promise(it => setTimeout(it, 400))"  # all is drawn again where the frame has another size
DRAWN = "[...document.querySelectorAll('.pill')].map(it => it.dataset.bug).sort().join()"
BOTH_WAYS = """* A LIST THAT IS LINKED BOTH WAYS, SO LONG THAT ITS BLOCKS ARE THE SMALLEST ONES
 (0,DN,0,17)(0,DP,18,35)(L,GT,1)(E,E,L)
G (EN,GT,1)(ENP,E,E)(E,E,EN)(C,A,1)
 IF (C,L,70) THEN G
"""
# The arrows that lead to and fro between two blocks, and are less than 3 pixels from one another in their midst.
TO_AND_FRO = """(() => {
    const paths = new Map([...document.querySelectorAll('.arrow')].map(it =>
        [`${it.dataset.from} ${it.dataset.to}`, it.querySelector('path')]));
    return [...paths].filter(([name, path]) => {
        const other = paths.get(name.split(' ').reverse().join(' '));
        if (!other || other === path) return false;
        const {x, y} = path.getPointAtLength(path.getTotalLength() / 2);
        return Array.from({length: Math.ceil(other.getTotalLength())}, (_, at) => other.getPointAtLength(at))
            .some(it => Math.hypot(it.x - x, it.y - y) < 3);
    }).map(([name]) => name);
})()"""
SOLVES = " (A,IN,2)(A,PR,2)(PL)\n"


def saved(page: Page) -> None:
    """Waits until the work is kept."""
    page.value("new Promise(it => setTimeout(it, 450))")


@trial
def space_on_each_control(page: Page) -> None:
    """Space presses the button, the box or the panel that has the focus, and plays nothing."""
    page.open("#lost@14")
    page.value("l6.panes.open('store'), l6.panes.open('tables'), document.getElementById('options').open = true")
    count = page.value(f"({PRESSABLE}).length")
    page.right("there are many", count > 35, str(count))
    for index in range(count):
        name = page.value(f"{PRESSED}({index})")
        page.browser.key(" ", text=" ")
        page.same(f"Space on {name}", page.value("[pressed, l6.player.isPlaying, l6.view.state.number]"), [1, False, 14])
    page.value("document.getElementById('options').open = false")
    page.focus("by-size")
    page.browser.key(" ", text=" ")
    page.right("a box is checked by it", page.value("document.getElementById('by-size').checked"))


@trial
def nothing_opens_past_the_window(page: Page) -> None:
    """What opens is in the window, and has room for what is in it, from a phone to a screen."""
    for width, phone in ((1400, False), (1280, False), (1024, False), (900, False), (760, False), (375, True), (320, True)):
        page.browser.resize(width, 720, phone=phone)
        page.open("#list@20")
        found = {}
        for name in DETAILS:
            page.value(f"void (document.getElementById('{name}').open = true)")
            found[name] = page.value(f"{OUTSIDE}(document.querySelector('#{name} .panel'))")
            page.value(f"void (document.getElementById('{name}').open = false)")
        page.value("document.getElementById('task-more').open = true")
        for name in DIALOGS:
            page.value(f"document.getElementById('{name}').showModal()")
            found[name] = page.value(f"{OUTSIDE}(document.getElementById('{name}'))")
            page.value(f"document.getElementById('{name}').close()")
        page.value("l6.manual.toggle()")
        found["manual"] = page.value(f"{OUTSIDE}(document.getElementById('manual-pane'))")
        page.same(f"what is cut off at {width}", {name: it for name, it in found.items() if it}, {})
    page.value("void (document.getElementById('options').open = true)")
    page.value("document.querySelector('#options .panel').style.cssText = 'width: 3000px; max-width: none'")
    page.right("what is too wide is seen", bool(page.value(f"{OUTSIDE}(document.querySelector('#options .panel'))")))
    page.browser.resize(1400, 900)


@trial
def letters_of_what_a_lecture_tells(page: Page) -> None:
    """In a lecture also traps, faults, answers, warnings and the tree of calls are in letters of 18 pixels and more."""
    tells = {
        "#lost@21;lecture": "!document.getElementById('trap').hidden",
        "#lost@14;lecture": "document.getElementById('warnings').textContent !== ''",
        "#tree@137;lecture": "document.querySelectorAll('#frames li').length > 1",
    }
    for width, height in ((1024, 640), (1280, 720)):
        page.browser.resize(width, height)
        for link, is_there in tells.items():
            page.open(link)
            page.browser.wait(is_there)
            if "tree" in link:
                page.value("document.getElementById('show-calls').click()")
                page.value(RESIZED)
            page.fill("chain", "ANNV")
            page.browser.wait("document.getElementById('answer').textContent !== ''")
            letters = page.value(f"{LETTERS}('body')")
            page.same(f"small letters in {link} at {width}", [it for it in letters if it < 18], [])
            page.right("there are letters of several sizes", len(letters) > 1, str(letters))
        page.put(" (A,E,5\n (A,Q,1)\n")
        page.do("l6.checker.check()")
        page.same("three lines at least", page.count("#fault p") >= 2, True)
        page.same(f"small letters of faults at {width}", [it for it in page.value(f"{LETTERS}('body')") if it < 18], [])
    page.browser.resize(1400, 900)


@trial
def a_lecture_prints_the_newest(page: Page) -> None:
    """Of a long printout the lecture's line shows what came last."""
    page.browser.resize(1024, 640)
    page.open()
    page.put("L (A,A,1)(A,PD)(PL)\n IF (A,L,200) THEN L\n (END,PH)\n")
    page.value("l6.panes.lecture(true)")
    page.do("l6.run()")
    page.do("l6.back()")
    page.do("l6.back()")
    page.do("l6.step()")
    page.same("what came last", page.value("document.querySelector('#printed-strip .fresh').textContent"), "END")
    seen = """(() => {
        const strip = document.getElementById('printed-strip').getBoundingClientRect();
        const fresh = document.querySelector('#printed-strip .fresh').getBoundingClientRect();
        return fresh.width > 0 && fresh.left >= strip.left && fresh.right <= strip.right;
    })()"""
    page.right("what came last is in sight", page.value(seen))
    page.value("l6.panes.lecture(false)")
    page.browser.resize(1400, 900)


@trial
def the_end_has_a_breakpoint(page: Page) -> None:
    """Behind the last card F9 sets a breakpoint at the DONE that every deck gets, and Next break goes there."""
    page.open()
    page.put(" (A,E,1)\n (B,E,2)\n* END\n")
    page.focus("deck", len(page.box("deck")))
    page.key("F9")
    page.same("at the DONE", page.value("[...l6.editor.breakpoints]"), [2])
    page.do("l6.state(0)")
    page.click("mark-next")
    page.same("Next break goes there", page.text("where"), "AT 2.0 AFTER 6 STEPS")
    page.do("l6.state(3)")
    page.focus("deck", len(page.box("deck")))
    page.click("to-cursor")
    page.same("so does To cursor", page.text("where"), "AT 2.0 AFTER 6 STEPS")


@trial
def each_part_of_the_work_is_kept_alone(page: Page) -> None:
    """An input that is typed when the deck is kept already is kept, too, and so is the place."""
    page.open("#exercise-2")
    page.value("localStorage.clear()")
    page.fill("deck", " (A,IN,1)\n")
    saved(page)
    page.fill("input", "MINE")
    saved(page)
    page.same("the input", page.value("JSON.parse(localStorage.getItem('l6.work')).input"), "MINE")
    page.do("l6.state(1)")
    saved(page)
    page.same("the place", page.value("JSON.parse(localStorage.getItem('l6.work')).number"), 1)
    page.open("", keeps=True)
    page.same("both are there again", [page.box("input"), "Go to state 1" in page.text("empty")], ["MINE", True])
    page.same("the menu says which exercise it is", page.box("example"), "exercise-2")
    page.value("localStorage.clear()")


@trial
def another_deck_begins_anew(page: Page) -> None:
    """Of the deck before, nothing that was chosen or typed beside it stays."""
    page.open("#lost@14")
    page.value("l6.panes.open('tables'), document.getElementById('over-states').click()")
    page.browser.wait("document.querySelectorAll('#history polyline').length === 3")
    page.fill("chain", "AN")
    page.do("l6.viewer.chooseBlock(1026)")
    page.value("l6.viewer.watch({chain: 'A'}), l6.pictures.keep()")
    page.fill("chain", "AN")
    page.becomes("marks are there before", "document.querySelectorAll('.block.chosen, .block.lit').length > 1", True)
    page.do("l6.hideBug('A')")
    page.click("tidy")
    page.same("Tidy is pressed", page.value("document.getElementById('tidy').ariaPressed"), "true")
    left = """['chain', 'place'].filter(it => document.getElementById(it).value)
        .concat(['answer', 'watched', 'hidden-bugs', 'handout', 'led'].filter(it => document.getElementById(it).textContent))
        .concat(document.querySelectorAll('.block.chosen, .block.lit').length ? ['marks'] : [])"""
    page.same("what is there before", page.value(left), ["chain", "place", "answer", "watched", "hidden-bugs", "handout", "led"])
    page.example("list", 30)
    page.same("what stays", page.value(left), [])
    page.same("and Tidy", page.value("[document.getElementById('tidy').ariaPressed, l6.viewer.drawing.isTidy]"), ["false", False])
    page.fill("deck", " (PL)\n")
    page.right("the graph goes with the run", page.value("document.getElementById('history').hidden"))
    page.value("document.getElementById('over-states').click(), l6.library.isChanged = false")


@trial
def tidy_stays(page: Page) -> None:
    """Tidy lasts while links are turned and blocks are drawn otherwise; its button says so."""
    page.open("#tree@137")
    both = "[document.getElementById('tidy').ariaPressed, l6.viewer.drawing.isTidy]"
    page.click("tidy")
    page.value("document.querySelector('#legend .way').click()")
    page.same("after links were turned", page.value(both), ["true", True])
    page.fill("detail", "boxes", "change")
    page.same("and in small blocks", page.value(both), ["true", True])
    page.fill("detail", "auto", "change")
    page.click("tidy")
    page.same("again, it ends", page.value(both), ["false", False])


@trial
def dangling_bugs_are_hidden(page: Page) -> None:
    """A click hides a bug that dangles, too, whether nothing is at its place now or another block."""
    page.open()
    for deck, ghosts in ((" (A,GT,1)(B,E,A)(A,FR)\n", 1), (" (A,GT,1)(B,E,A)(A,FR)(C,GT,1)\n", 0)):
        page.put(deck)
        page.do("l6.run()")
        page.browser.wait(READ)
        page.same(f"the ghosts of {deck.strip()}", [page.count(".ghost"), page.count(".pill.broken")], [ghosts, 1])
        page.browser.click(".pill[data-bug=B]")
        page.browser.wait("!l6.isBusy && document.querySelectorAll('#hidden-bugs button').length === 1")
        page.same("hidden", [page.count(".ghost"), page.value(f"{DRAWN}.includes('B')"), page.text("warnings")], [0, False, ""])
        page.browser.click("#hidden-bugs button")
        page.browser.wait("!l6.isBusy && document.querySelectorAll('#hidden-bugs button').length === 0")
        page.same("and shown again", [page.count(".ghost"), page.value(f"{DRAWN}.includes('B')")], [ghosts, True])


@trial
def keys_stay_in_the_drawing(page: Page) -> None:
    """Where the block with the focus goes away, another one has it, and the keys of the drawing go on."""
    page.open()
    page.put(" (A,GT,1)(B,GT,1)(C,GT,1)(B,FR)\n")
    page.do("l6.state(4)")
    page.value("l6.viewer.drawing.focusBlock()")
    page.browser.key("ArrowRight")
    page.same("the focus", page.value("document.activeElement.dataset.place"), "1025")
    page.do("l6.step()")
    page.right("it is gone", page.count(".block[data-place='1025']") == 0)
    page.right("another block has the focus", page.value("document.activeElement.closest('.block') !== null"))
    scale = "l6.viewer.drawing.camera.aim.scale"
    before = page.value(scale)
    page.browser.key("+")
    page.right("+ comes nearer", page.value(scale) > before)


@trial
def a_pinch_both_ways(page: Page) -> None:
    page.open("#reverse@121")
    scale = "l6.viewer.drawing.camera.aim.scale"
    x, y = page.value("(it => [it.x + it.width / 2, it.y + it.height / 2])"
                      "(document.getElementById('drawing').getBoundingClientRect())")
    begun = page.value(scale)
    page.browser.pinch(x, y, 60, 180)
    near = page.value(scale)
    page.right("apart comes nearer", near > begun * 1.5, f"{begun} {near}")
    page.browser.pinch(x, y, 180, 60)
    page.right("together goes away", page.value(scale) < near / 1.5, f"{near} {page.value(scale)}")


@trial
def the_drawing_keeps_its_frame(page: Page) -> None:
    """In all states of a run, the drawing has one place on the screen, also where a deck saves definitions alone."""
    page.browser.resize(1280, 720)
    page.open()
    for deck in (SAVES_DEFINITIONS, SAVES_DEFINITIONS.replace("FD,N", "FC,A"), "R (A,GT,1)(S,DO) DONE\nS DONE\n"):
        page.put(deck)
        page.do("l6.run()")
        page.browser.wait(READ)
        page.same(f"the places of the drawing of {deck.strip()}", len(page.value(FRAMES)), 1)
    page.browser.resize(1400, 900)


@trial
def calls_that_wait_in_each_state(page: Page) -> None:
    """In the tree as many calls wait as the debugger says, in the state of a return, too."""
    page.open()
    put(page, "tree")
    page.do("l6.state(100)")
    page.click("show-calls")
    page.same("states with other calls", page.value(WAITING % (120, 150)), [])
    page.do("l6.state(137)")
    page.right("there are calls that wait", page.count("#call-tree .waits") > 1)


@trial
def windows_in_the_tables(page: Page) -> None:
    """In the tables a field's window is on its bits, and as wide as they are."""
    page.open()
    page.value("l6.panes.open('tables')")
    page.put(" (0,DA,0,5)(0,DB,6,17)(0,DC,18,35)(X,GT,1)\n")
    page.do("l6.run()")
    page.do("l6.viewer.chooseBlock(1024)")
    want = [[0, 6], [6, 12], [18, 18]]
    page.same("of the fields", page.value(f"{WINDOWS}('fields')"), want)
    page.same("of the words", page.value(f"{WINDOWS}('words')"), want)


@trial
def the_hatched_ground_begins_past_column_72(page: Page) -> None:
    page.open()
    page.put(" " + "X" * 71 + "Y" * 8 + "\n")
    columns = """(() => {
        const deck = document.getElementById('deck');
        const pen = document.createElement('canvas').getContext('2d');
        pen.font = getComputedStyle(deck).font;
        const left = deck.getBoundingClientRect().left + parseFloat(getComputedStyle(deck).paddingLeft) - deck.scrollLeft;
        return (document.querySelector('.under .last').getBoundingClientRect().left - left) / (pen.measureText('0'.repeat(100)).width / 100);
    })()"""
    begins = page.value(columns)
    page.right("after 72 columns", abs(begins - 72) < 0.3, str(begins))


@trial
def small_blocks_have_a_line_each_way(page: Page) -> None:
    """Between the smallest blocks, too, arrows that lead to and fro do not run on one another."""
    page.browser.resize(1280, 720)
    page.open()
    page.put(BOTH_WAYS)
    page.do("l6.run()")
    page.browser.wait(READ)
    page.right("they are the smallest ones", page.count(".block.chip") > 60, str(page.count(".block.chip")))
    page.same("there are arrows", page.count(".arrow") > 120, True)
    page.same("those on one another", page.value(TO_AND_FRO), [])
    page.browser.resize(1400, 900)


@trial
def each_kind_goes_out_with_a_link(page: Page) -> None:
    """A link keeps what the reader chose that a field holds: links, numbers or texts."""
    page.open()
    sign = "document.querySelector(\".legend [id='kind-1.0.35']\").textContent"
    put(page, "powers")
    page.do("l6.end()")
    seen = set()
    for _ in range(3):
        page.browser.click(".legend [id='kind-1.0.35']")
        chosen = page.value(sign)
        seen.add(chosen)
        page.do("l6.library.makeLink()")
        page.open(page.value("location.hash"))
        page.do("l6.end()")
        page.browser.wait(READ)
        page.same(f"a link keeps {chosen}", page.value(sign), chosen)
    page.same("all three", seen, {"⚭", "#", "A"})


@trial
def options_go_out_with_a_link(page: Page) -> None:
    """A link to an example with another option has that option, and one of a deck has all three."""
    page.open("#lost@14")
    page.fill("store", 3, "change")
    page.do("l6.library.makeLink()")
    page.open(page.value("location.hash"))
    page.same("the store", [page.box("store"), page.box("deck")[:6]], ["3", page.value("l6.library.find('lost').deck.slice(0, 6)")])
    page.put(" (PL)\n", store=2, steps=77, output=99)
    page.do("l6.library.makeLink()")
    page.open(page.value("location.hash"))
    page.same("all three", [page.box(it) for it in ("store", "steps", "output")], ["2", "77", "99"])


@trial
def an_exercise_has_its_own_input(page: Page) -> None:
    """To print what is wanted with another input does not solve it; the answer to another task is not judged by it."""
    page.open()
    task = {"task": "Turn it round.", "printout": "BA", "input": "AB\n", "deck": "* X\n", "options": {}}
    page.value(f"l6.library.openTask({json.dumps(task)})")
    page.fill("deck", SOLVES)
    page.fill("input", "BA\n")
    page.click("run")
    want = "Not yet: just this is printed, but with the input of the exercise something else is printed than is wanted."
    page.becomes("with another input", "document.getElementById('verdict').textContent", want)
    page.fill("deck", " (A,IN,1)(B,IN,1)(B,PR,1)(A,PR,1)(PL)\n")
    page.fill("input", "AB\n")
    page.click("run")
    page.becomes("with its own", "document.getElementById('verdict').textContent", "✓ Solved: just this is printed.")
    page.fill("steps", 900, "change")
    page.has("another option takes it back", page.text("verdict"), "Type, and press Run.")
    answer = {"what": "l6 answer", "name": "Ada", "task": "Another one.", "deck": SOLVES, "when": ""}
    page.do(f"l6.answers.read([new File([{json.dumps(json.dumps(answer))}], 'ada.answer')])")
    page.same("an answer to another task", page.value("document.querySelector('#answers tr').cells[2].textContent"),
              "open its task first")
    page.value("l6.library.isChanged = false")


@trial
def a_condition_on_one_block(page: Page) -> None:
    """A task that wants no lost block is not solved where one is lost."""
    page.open()
    task = {"printout": "", "conditions": {"noLost": True}}
    for deck, want in ((" (A,GT,1)\n", ""), (" (A,GT,1)(A,E,0)\n", "a block is lost at the end")):
        page.same(f"the verdict on {deck.strip()}", page.value(f"l6.answers.verdict({json.dumps(task)}, {json.dumps(deck)})"), want)


@trial
def the_same_link_of_the_manual_again(page: Page) -> None:
    """A link of the manual to a deck opens it, also where the address names that deck already."""
    page.open("#list@20")
    page.click("manual")
    page.fill("manual-page", "page", "change")
    link = "#manual-text a[href$='l6.html#list']"
    page.value(f"document.querySelector({json.dumps(link)}).click()")
    page.browser.wait("location.hash === '#list' && !l6.isBusy")
    page.fill("deck", " (PL)\n")
    page.value("l6.library.isChanged = false")
    page.value(f"document.querySelector({json.dumps(link)}).click()")
    page.becomes("it is there again", "l6.library.example?.key ?? ''", "list")
    page.right("as it was", page.value("document.getElementById('deck').value === l6.library.find('list').deck"))


@trial
def small_letters_are_explained(page: Page) -> None:
    """What a deck in small letters does is said as of one in capitals."""
    page.open()
    said = []
    for deck in (DECKS["powers"]["deck"].split("\n")[0], " (a,e,5)(b,gt,4)", " (A,E,5)(B,GT,4)"):
        page.put(deck + "\n")
        page.do("l6.state(1)")
        said.append(page.text("next"))
    page.same("a number", said[1], "Next: (a,e,5) A becomes 5")
    page.same("as of capitals", said[1].partition(") ")[2], said[2].partition(") ")[2])


@trial
def all_of_a_picture_goes_out(page: Page) -> None:
    """The SVG has all of the drawing, also while a part of it is seen."""
    page.open("#reverse@121")
    for _ in range(4):
        page.value("document.querySelector('#camera button:nth-child(2)').click()")
    page.right("a part is seen", not page.value("l6.viewer.drawing.camera.isWhole"))
    page.value(KEPT)
    page.value("l6.pictures.saveSvg()")
    root = ElementTree.fromstring(page.value("kept[0].text()").split("?>", 1)[1])
    width, height = page.value("[l6.viewer.drawing.plan.width, l6.viewer.drawing.plan.height]")
    page.same("its box", root.attrib["viewBox"], f"0 0 {width} {height}")


@trial
def options_pause(page: Page) -> None:
    """What is typed in the options pauses Play, as what is typed elsewhere does."""
    page.open("#list@20")
    page.fill("speed", 1500, "change")
    page.value("l6.play()")
    page.right("it plays", page.value("l6.player.isPlaying"))
    page.fill("steps", 900, "change")
    page.right("an option pauses it", not page.value("l6.player.isPlaying"))
