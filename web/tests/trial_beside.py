"""Trials of what stands beside and above: numbers of cards and statements, the ruler, marks of findings, bugs, arrows, titles."""
from __future__ import annotations

import json
import xml.etree.ElementTree as ElementTree

from page import Page, trial
from trial_class import IN_VIEW
from trial_controls import KEEP
from trial_outside import KEPT
from trial_stays import READ, put

NUMBERED = "* A NOTE\n (A,E,1)\n+(A,E,2)\n\nLOOP (B,A,1)\n IF (B,L,5) THEN LOOP\n (PL)\n"
# Beside each card its number and that of its statement, and how far these are from the card's line.
GUTTER = """(() => {
    const deck = document.getElementById('deck'), style = getComputedStyle(deck), height = parseFloat(style.lineHeight);
    const top = deck.getBoundingClientRect().top + parseFloat(style.paddingTop) - deck.scrollTop;
    const lineOf = it => Math.round((it.getBoundingClientRect().top - top) / height * 10) / 10;
    return [...document.querySelectorAll('#gutter > *')].map(it => [it.tagName, it.textContent, Math.round(lineOf(it)), it.getAttribute('aria-label'),
        it.title, it.getAttribute('aria-pressed'), it.className]);
})()"""
# The columns at which the numbers of the ruler are, counted from 1.
RULER = """(() => {
    const deck = document.getElementById('deck'), pen = document.createElement('canvas').getContext('2d');
    pen.font = getComputedStyle(deck).font;
    const letter = pen.measureText('0'.repeat(100)).width / 100, left = deck.getBoundingClientRect().left + parseFloat(getComputedStyle(deck).paddingLeft);
    return [...document.querySelectorAll('#ruler i')].map(it => {
        const {x, width} = it.getBoundingClientRect();
        return [it.textContent, Math.round((x + width / 2 - left) / letter + 0.5)];
    });
})()"""
# The cards and columns of the marks of what is found.
MARKS = """(() => {
    const deck = document.getElementById('deck'), style = getComputedStyle(deck), pen = document.createElement('canvas').getContext('2d');
    pen.font = style.font;
    const letter = pen.measureText('0'.repeat(100)).width / 100, box = deck.getBoundingClientRect();
    return [...document.querySelectorAll('.spot.bad, .spot.odd')].map(it => {
        const {left, top, width} = it.getBoundingClientRect();
        const column = (left - box.left - parseFloat(style.paddingLeft) + deck.scrollLeft) / letter;
        return [it.className.replace('spot ', ''), Math.round((top - box.top - parseFloat(style.paddingTop) + deck.scrollTop) / parseFloat(style.lineHeight)),
            Math.round(column), Math.round(column + width / letter)];
    });
})()"""
# The signs of bugs that do not stand above their blocks, side by side; and arrows that do not begin in their own fields.
ASIDE = """(() => {
    const {blocks, bugs, isBox} = l6.viewer.drawing.graph, found = [];
    const boxOf = it => it.getBoundingClientRect(), at = new Map([...document.querySelectorAll('#drawing .block')].map(it => [it.dataset.place, it]));
    const pills = [...document.querySelectorAll('#drawing .pill')], scale = l6.viewer.drawing.camera.at.scale;
    for (const pill of pills) {
        const own = boxOf(pill), block = boxOf(at.get(String(bugs.find(it => it.name === pill.dataset.bug).place)).querySelector('.edge'));
        if (Math.abs(own.bottom - block.top) > 4 * scale || own.left < block.left - 2 || own.left > block.right) found.push(`${pill.dataset.bug} is elsewhere`);
        if (pills.some(it => it !== pill && boxOf(it).left < own.right - 1 && boxOf(it).right > own.left + 1 && Math.abs(boxOf(it).top - own.top) < 2))
            found.push(`${pill.dataset.bug} is on another`);
    }
    for (const arrow of document.querySelectorAll('#drawing .arrow:not(.broken)')) {
        const {from, field} = arrow.dataset, path = arrow.querySelector('path'), matrix = path.getScreenCTM();
        for (let along = 0; along < path.getTotalLength(); along += 4) {
            const {x, y} = new DOMPoint(path.getPointAtLength(along).x, path.getPointAtLength(along).y).matrixTransform(matrix);
            const over = pills.find(it => (({left, right, top, bottom}) => x > left + 3 && x < right - 3 && y > top + 3 && y < bottom - 5)(boxOf(it)));
            if (over && !l6.viewer.drawing.graph.blocks.some(it => it.shape.isChip)) found.push(`${field} of ${from} goes over ${over.dataset.bug}`);
        }
        const {x, y} = new DOMPoint(path.getPointAtLength(0).x, path.getPointAtLength(0).y).matrixTransform(matrix);
        const block = at.get(from), isIn = ({left, right, top, bottom}, more) => x >= left - more && x <= right + more && y >= top - more && y <= bottom + more;
        const cell = [...block.querySelectorAll('.cell')].find(it => it.querySelector('title').textContent.startsWith(`${field} `));
        if (!isIn(boxOf(block.querySelector('.edge')), 1)) found.push(`${field} of ${from} begins outside`);
        const dot = arrow.querySelector('circle');
        if (dot && cell && !isIn(boxOf(cell.querySelector('.window')), 1)) found.push(`${field} of ${from} begins in another field`);
        if (!dot && !isBox && cell && y > boxOf(block).top + 24 * scale + 1 && !isIn(boxOf(block), 0)) found.push(`${field} of ${from} has no dot`);
    }
    return [...new Set(found)];
})()"""
LOOKED_AT = "['.pill', '.arrow:not(.broken)'].map(it => document.querySelectorAll(`#drawing ${it}`).length)"
# The elements of the picture as the page shows it: tag, properties, and how far it is moved.
ELEMENTS = """(names => {
    const picture = document.querySelector('#drawing > .picture');
    return [picture, ...picture.querySelectorAll('*')].map(it => {
        const style = getComputedStyle(it);
        return [it.tagName, Object.fromEntries(names.map(name => [name, style.getPropertyValue(name)])), it.style.transform.replaceAll('px', '')];
    });
})(%s)"""
STYLED = ["fill", "stroke", "stroke-width", "stroke-dasharray", "font-size", "font-weight", "text-anchor", "opacity", "marker-end"]
SIZE = "[l6.viewer.drawing.plan.width, l6.viewer.drawing.plan.height, getComputedStyle(document.body).getPropertyValue('--paper').trim()]"


def others(page: Page, text: str) -> list[object]:
    """What of a picture that goes out is another than in the page."""
    root = ElementTree.fromstring(text.split("?>", 1)[1])
    width, height, paper = page.value(SIZE)
    found: list[object] = []
    if [root.get("width"), root.get("height"), root.get("viewBox")] != [str(width), str(height), f"0 0 {width} {height}"]:
        found.append(dict(root.attrib))
    copies = list(root.iter())
    ground = copies.pop(1)
    if [ground.get("width"), ground.get("height"), ground.get("fill")] != [str(width), str(height), paper]:
        found.append(dict(ground.attrib))
    own = page.value(ELEMENTS % json.dumps(STYLED))
    if len(own) != len(copies):
        found.append([len(own), len(copies)])
    for (tag, style, moved), copy in zip(own, copies):
        parts = (it.partition(":") for it in copy.get("style", "").split(";"))
        has = {name.strip(): value.strip() for name, _, value in parts if value}
        for name, value in style.items():
            if has.get(name, "none") != value:
                found.append([tag, name, value, has.get(name)])
        if copy.tag.rpartition("}")[2] != tag or copy.get("transform", "") != moved or {"class", "role", "tabindex", "aria-label"} & set(copy.attrib):
            found.append([tag, moved, dict(copy.attrib)])
    return found


@trial
def numbers_beside_the_deck(page: Page) -> None:
    """Each card has its number, and the first card of a statement that of the statement, at its line; a click sets a breakpoint."""
    page.open()
    page.put(NUMBERED)
    page.do("l6.state(0)")
    statements = {1: 0, 4: 1, 5: 2, 6: 3}

    def want(marked: int, at: int) -> list[list[object]]:
        rows: list[list[object]] = []
        for card in range(7):
            rows.append(["SPAN", str(card + 1), card, None, "", None, "card"])
            if card in statements:
                number = statements[card]
                act = "remove the breakpoint" if number == marked else "set a breakpoint"
                rows.append(["BUTTON", str(number), card, f"Breakpoint at statement {number}", f"Statement {number}: {act} (Shift and click: run to it)",
                             str(number == marked).lower(), "at" if number == at else ""])
        return rows

    page.same("the numbers", page.value(GUTTER), want(-1, 0))
    page.browser.click("#gutter button:nth-of-type(3)")
    page.same("with a breakpoint", page.value(GUTTER), want(2, 0))
    page.do("l6.statement()")
    page.same("where the run is", page.value(GUTTER), want(2, 1))
    page.same("the ruler", page.value(RULER), [[str(it), it] for it in (1, 10, 20, 30, 40, 50, 60, 72)])
    page.value("l6.panes.lecture(true)")
    page.browser.wait("document.querySelectorAll('.cards button').length === 4")
    page.value("document.querySelectorAll('.cards button')[3].click()")
    page.same("a click on a card of the lecture sets one, too", page.value("[...l6.editor.breakpoints].sort()"), [2, 3])
    page.same("its name", page.value("document.querySelectorAll('.cards button')[3].getAttribute('aria-label')"), "Breakpoint at statement 3")
    page.value("document.querySelectorAll('.cards button')[1].dispatchEvent(new MouseEvent('click', {shiftKey: true}))")
    page.browser.wait("!l6.isBusy")
    page.has("with Shift it runs there", page.text("where"), "AT 1.0")
    page.value("l6.panes.lecture(false), l6.library.isChanged = false")


@trial
def marks_of_findings(page: Page) -> None:
    """What is found is marked at its card and columns, errors otherwise than warnings; many are counted."""
    page.open()
    page.put("(A,E,5)\n (A,PRINT)\n IF (A,E,0)\n (A,E,1)".ljust(100) + "\n")
    page.put("* NOTE\n (A,PRINT)(B,E,1)\n IF (A,E,0)\n (A,Q,1)\n (C,E,1) NOWHER\n" + " (A,E,1)".ljust(72) + "(A,PD)\n")
    page.do("l6.checker.check()")
    found = page.value("l6.editor.findings.map(({card, from, to, isError, shown}) => [isError ? 'bad' : 'odd', card, from, to, shown])")
    page.same("where the marks are", page.value(MARKS), [it[:4] for it in found])
    signs = [[it[4].split("\n")[1].index("^"), len(it[4].split("\n")[1])] for it in found if it[4]]
    page.same("as the signs of the program", [it[2:4] for it in found if it[4]], signs)
    kinds = {it[0] for it in found}
    page.same("errors and warnings", kinds, {"bad", "odd"})
    errors, warnings = (sum(it[0] == kind for it in found) for kind in ("bad", "odd"))
    page.right("there are many", len(found) > 3, str(len(found)))
    said = f"{errors} error{'s' if errors > 1 else ''}, {warnings} warning{'s' if warnings > 1 else ''}"
    page.same("their count", page.value("document.querySelector('#fault p:last-child').textContent"), said)
    page.same("that is no note", page.value("document.getElementById('fault').className"), "fault")
    page.put(" (A,E,1)".ljust(72) + "(A,PD)\n")
    page.do("l6.checker.check()")
    page.same("warnings alone are", page.value("document.getElementById('fault').className"), "fault note")
    page.value("document.querySelector('#fault .place').click()")
    page.same("a click goes to its column", page.value("l6.editor.cursor()"), {"card": 0, "column": 72})
    page.same("in the deck", page.value("document.activeElement.id"), "deck")


@trial
def bugs_and_arrows_in_their_places(page: Page) -> None:
    """Bugs stand above the blocks to which they lead, side by side, and arrows begin in the fields that hold them."""
    page.open()
    for name, states in (("reverse", (60, 90, 121)), ("tree", (60, 100, 137)), ("queue", (60, 99)), ("double", (80, 121)), ("graph", (60, 100)), ("twostacks", (60, 120))):
        put(page, name)
        for detail in ("auto", "boxes"):
            page.fill("detail", detail, "change")
            for state in states:
                page.do(f"l6.state({state})")
                page.same(f"{name} in {state}, {detail}", page.value(ASIDE), [])
                page.right("bugs and arrows were looked at", min(page.value(LOOKED_AT)) > 0, str(page.value(LOOKED_AT)))
    page.value("document.querySelector('#drawing .pill').style.transform = 'translate(-500px, 0px)'")
    page.right("a bug that stands elsewhere is seen", bool(page.value(ASIDE)))
    page.fill("detail", "auto", "change")


@trial
def pictures_look_as_in_the_page(page: Page) -> None:
    """What goes out as a picture has each element with its colours, lines, letters and place, without the page's style."""
    page.open()
    page.value(KEPT)
    for name, state in (("dangling", 14), ("tree", 137), ("lost", 14), ("tree31", 400)):
        put(page, name)
        page.do(f"l6.state({state})")
        page.value("kept.length = 0, l6.pictures.saveSvg()")
        page.same(f"what is another in {name}", others(page, page.value("kept[0].text()"))[:4], [])
        page.value("l6.pictures.keep()")
        caption = page.value("document.querySelector('#handout figcaption').textContent")
        page.same(f"what is said below {name}", caption, page.value("`State ${l6.view.state.number}: ${[document.getElementById('where').textContent,"
                  " document.getElementById('changes').textContent].filter(it => it).join('. ')}`"))


@trial
def titles(page: Page) -> None:
    """What a click does is in the title of what is clicked: fields, bugs, ghosts, and what they hold."""
    page.open("#list@60")
    page.browser.wait(READ)
    legend = "[...document.querySelectorAll('#legend button')].map(it => it.title)"
    way, kind = "Links of N lead along a line: click to turn", "N holds links, as the run uses it: click for another kind"
    text = "C holds texts, as the run uses it: click for another kind"
    page.same("fields", page.value(legend), [text, way, kind])
    page.value("document.querySelector('#legend .way').click()")
    page.same("after a turn", page.value(legend)[1], "Links of N lead down: click to turn")
    page.value("document.querySelector('#legend .way').click()")
    for held in ("numbers", "texts", "links"):
        page.value("document.querySelectorAll('#legend .kind')[1].click()")
        page.has(f"after a choice of {held}", page.value(legend)[-1], f"N holds {held}, as you chose: click for another kind")
    page.value("l6.panes.open('tables')")
    bug = page.value("document.querySelector('#bugs button.name').title")
    value = page.value("l6.view.bugs.get('A')")
    page.has("a bug", bug, f"A is {value:012o} in octal. A click chooses it")
    page.has("in the line", page.value("document.querySelector('#bug-strip button').title"), f"Bug A is {value}. A click follows its changes.")
    page.same("a field", page.value("document.querySelector('#fields .bits button').title"), "C: word 0, bits 0 to 5. A click follows it.")
    place = page.value("document.querySelector('#bugs td button').closest('tr').cells[1].textContent")
    page.value("document.querySelector('#bugs td button').click()")
    page.becomes("an arrow in the table chooses the block", "document.getElementById('place').value", place)
    page.fill("chain", "LN")
    page.browser.wait("document.querySelectorAll('#led button').length > 1")
    page.browser.click("#led button")
    page.same("one in the way of a chain, too", [page.box("place"), page.box("chain")], [str(page.value("l6.view.bugs.get('L')")), ""])
    page.example("tree", 137)
    page.browser.wait("document.querySelectorAll('#frames li').length > 1")
    page.same("a call that waits", page.value("document.querySelector('#frames button.to').title"), "(WALK,DO) from statement 13; to state 135, before this call")
    page.same("what is saved", page.value("document.querySelector('#frames .saved').title"), "Saved in state 133")
    page.click("show-calls")
    page.same("a call of the tree", page.value("document.querySelector('#call-tree button.to').title"), "To the state before this call")
    page.click("show-calls")
    put(page, "dangling")
    page.do("l6.state(13)")
    size = "(({width, height}) => [width, height].map(Math.round))(document.querySelector('[data-place=\"1025\"] .edge').getBoundingClientRect())"
    block = page.value(size)
    page.do("l6.state(14)")
    page.same("a ghost is as large as the block was", page.value(size), block)
    page.same("a ghost", page.value("[...document.querySelectorAll('.ghost text, .ghost title')].map(it => it.textContent)"),
              ["1025", "freed", "The block at 1025 was freed: state 14"])
    page.has("the sign of a bug", page.value("document.querySelector('.pill title').textContent"), "Bug A. Is it only a number")
    page.put(" (A,GT,300)\n")
    page.do("l6.end()")
    page.do("l6.viewer.chooseBlock(1024)")
    page.same("of a large block so many words", [page.count("#words .wordline"), page.text("words")[-18:]], [256, "and 256 more words"])


@trial
def far_states(page: Page) -> None:
    """Where the last state is not known the slider goes on as far as one went, and that is said."""
    page.open()
    page.put("L (A,A,1) L\n", steps=3_000_000)
    for number, most in ((14, "1000"), (700, "1400"), (3_000, "6000")):
        page.do(f"l6.state({number})")
        got = page.value("[document.getElementById('of').textContent, document.getElementById('slider').max, document.getElementById('slider').getAttribute('aria-valuetext')]")
        page.same(f"in state {number}", got, ["of ?", most, f"state {number:,}"])
    page.do("l6.end()")
    page.same("the last one", [page.text("of"), page.text("where")], ["of 3,000,000", "== LIMIT AFTER 3000000 STEPS"])
    page.put("L (A,A,1)(A,PD)(PL)\n IF (A,L,60) THEN L\n")
    page.do("l6.run()")
    page.right("the end of a printout is in sight", page.value(f"{IN_VIEW}(document.querySelector('#printed .ending'))"))


@trial
def files_are_chosen_again(page: Page) -> None:
    """A file that was chosen can be chosen again; the manual begins each page at its top."""
    page.open("#first")
    page.value(KEEP)
    page.value("""(async () => {
        const all = new DataTransfer(), file = document.getElementById('file');
        all.items.add(new File([' (PL)\\n'], 'x.deck'));
        file.files = all.files;
        file.dispatchEvent(new Event('change'));
    })()""")
    page.becomes("it is opened", "document.getElementById('deck').value", " (PL)\n")
    page.same("the box is empty", page.value("document.getElementById('file').files.length"), 0)
    page.click("manual")
    page.value("document.getElementById('manual-text').scrollTop = 400")
    page.fill("manual-page", "summary", "change")
    page.same("a page begins at its top", page.value("document.getElementById('manual-text').scrollTop"), 0)
    names = page.value("[...document.querySelectorAll('#manual-page option')].map(it => it.value)")
    page.same("the box of pages says which", page.box("manual-page"), "summary")
    page.same("there are seven", names, json.loads(json.dumps(["tutorial", "summary", "language", "debugger", "allocator", "answers", "page"])))


@trial
def what_is_marked_on_a_phone(page: Page) -> None:
    """The part of a card that comes next is in sight, also where the card is wider than the phone; tables say what is 0."""
    page.browser.resize(375, 667, phone=True)
    page.open("#tree@0")
    seen = """(async () => {
        const wrong = [];
        for (let number = 90; number < 137; number++) {
            await l6.state(number);
            const [card, mark] = ['#card', '#card b'].map(it => document.querySelector(it).getBoundingClientRect());
            if (mark.right > card.right + 1 || mark.left < card.left - 1 && mark.width < card.width) wrong.push(number);
        }
        return wrong;
    })()"""
    page.same("states in which it is cut", page.value(seen), [])
    for width in (375, 1280):
        page.browser.resize(width, 720)
        page.open("#tree@0")
        page.value("l6.panes.open('tables')")
        page.same(f"no bug at {width}", page.value("document.getElementById('bugs').innerText.trim()"), "All bugs are 0.")
    page.browser.resize(1400, 900)
