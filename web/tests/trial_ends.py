"""Trials of where drawings, arrows and bugs begin and end, of the keys of the slider, and of what is marked, kept and read."""
from __future__ import annotations

from page import Page, trial
from trial_stays import READ, put

DOUBLE = " (0,DP,0,17)(0,DN,18,35)\nG (X,GT,1)(XP,E,L)\n IF (L,N,0) THEN (LN,E,X)\n (L,E,X)(C,A,1)\n IF (C,L,400) THEN G\n"
# Where each arrow ends: the fields along it, and how far right of the left edge of its block, in parts of the block's width.
ARROW_ENDS = """[...document.querySelectorAll('#drawing .arrow')].map(it => {
    const path = it.querySelector('path'), end = path.getPointAtLength(path.getTotalLength()), {from, field, to} = it.dataset;
    const block = document.querySelector(`.block[data-place="${to}"]`), {x, width} = block.querySelector('.edge').getBBox();
    return [`${from} ${field} ${to}`, Math.round(100 * (end.x - x - Number(block.style.transform.match(/-?[\\d.]+/g)[0])) / width)];
})"""
# A tree of chips: four bugs lead to its leftmost leaf, and four to its rightmost one.
CHIPS = """ (0,DL,0,17)(0,DR,18,35)(T,GT,1)(TL,GT,1)(TR,GT,1)
 (TLL,GT,1)(TLR,GT,1)(TRL,GT,1)(TRR,GT,1)
 (A,E,TLL)(B,E,A)(C,E,A)(D,E,A)(P,E,TRR)(Q,E,P)(R,E,P)(S,E,P)
"""
# Of a drawing that is exported: how many signs of bugs there are, and where those are that reach past its frame.
OUTSIDE = """(async () => {
    let kept;
    const old = URL.createObjectURL;
    URL.createObjectURL = blob => (kept = blob, old.call(URL, blob));
    document.getElementById('save-svg').click();
    URL.createObjectURL = old;
    const svg = await kept.text(), [, left, width] = svg.match(/viewBox="(\\S+) \\S+ (\\S+)/).map(Number);
    const signs = svg.match(/<g [^>]*data-bug[^>]*>/g).map(it => Number(it.match(/translate\\((-?[\\d.]+)/)[1]));
    return [signs.length, signs.filter(it => it < left || it + 22 > left + width)];
})()"""
PILLS = """[...document.querySelectorAll('#drawing .pill')].map(it => [it.dataset.bug, Number(it.style.transform.match(/-?[\\d.]+/)[0])])"""


@trial
def arrows_end_on_the_near_side(page: Page) -> None:
    """Of blocks with words a link that leads on comes in on the left of its block where that is near, and not on the far side."""
    page.open("#tree@137")
    page.browser.wait(READ)
    page.fill("detail", "cards", "change")
    page.same("a link of a tree", dict(page.value(ARROW_ENDS)).get("1024 L 1026"), 0)
    page.fill("detail", "auto", "change")
    put(page, "sorted")
    page.do("l6.end()")
    page.same("whether links of a list end on the far side", {part == 100 for _, part in page.value(ARROW_ENDS)}, {False})
    page.right("there are links", len(page.value(ARROW_ENDS)) > 3)


@trial
def where_a_large_drawing_begins(page: Page) -> None:
    """Where not all can be read the first block of the run begins in the middle of the frame."""
    page.open()
    page.put(DOUBLE)
    page.browser.wait(READ)
    page.do("l6.state(40)")
    aside = """(frame => {
        const {left, width} = frame.getBoundingClientRect();
        return Math.round(document.querySelector('[data-place="1024"] .edge').getBoundingClientRect().left - left - width / 2);
    })(document.getElementById('drawing'))"""
    page.same("the first of 400 blocks", page.value(aside), 0)


@trial
def one_card_is_marked(page: Page) -> None:
    """In the lecture view just the card that comes next is marked, in step after step."""
    page.open("#list@10;lecture")
    found = []
    for _ in range(4):
        page.do("l6.step()")
        found.append([page.count("#cards .at"), page.count("#cards mark")])
    page.same("cards and marks", found, [[1, 1]] * 4)


@trial
def bugs_beside_a_chip(page: Page) -> None:
    """Bugs of a chip stand from its corner on away from its arrow, and none is outside of the drawing, also where that is exported."""
    page.open()
    page.put(CHIPS)
    page.browser.wait(READ)
    page.value("l6.viewer.drawing.detail = 'chips', l6.viewer.drawing.replan()")
    page.do("l6.end()")
    page.same("chips", page.count("#drawing .block.chip"), 7)
    at = dict(page.value(PILLS))
    page.same("to the left", [round(at[it] - at["A"]) for it in "BCD"], [-26, -52, -78])
    page.same("to the right", [round(at[it] - at["P"]) for it in "QRS"], [26, 52, 78])
    page.same("signs outside of the drawing", page.value(OUTSIDE), [9, []])
    page.value("l6.viewer.drawing.detail = 'auto', l6.viewer.drawing.replan()")


@trial
def letters_step_on_the_slider(page: Page) -> None:
    """Where the slider has the focus letters do what they do elsewhere."""
    page.open("#list@10")
    page.value("document.getElementById('slider').focus()")
    page.key("n")
    page.same("N", page.state(), 11)
    page.key("p")
    page.same("P", page.state(), 10)


@trial
def files_with_a_mark_of_their_letters(page: Page) -> None:
    """The mark of UTF-8 that some editors put before a text is none of its characters."""
    page.open()
    page.do("l6.library.openFile(new File([Uint8Array.of(0xEF, 0xBB, 0xBF), ' (PL)\\n'], 'a.deck'))")
    page.same("the deck", page.box("deck"), " (PL)\n")


@trial
def what_was_asked_last(page: Page) -> None:
    """Of what the page asked the debugger the last two questions and answers are shown."""
    page.open("#list@10")
    page.do("l6.end()")
    page.do("l6.state(4)")
    page.do("l6.papers.open('asked')")
    page.same("questions", [it.count("\n----\n") for it in page.text("paper").split("\n========\n")], [1, 1])
    page.value("l6.papers.dialog.close()")


@trial
def fields_of_another_last_bit(page: Page) -> None:
    """A field that is defined again is marked where just its last bit is another, too."""
    page.open()
    page.put(" (0,DN,0,17)(A,E,1)(0,DN,0,20)(A,E,2)\n")
    found = []
    for number in range(1, 6):
        page.do(f"l6.state({number})")
        found.append(page.count("#fields .changed"))
    page.same("in states 1 to 5", found, [0, 1, 0, 1, 0])


@trial
def the_map_goes_with_its_run(page: Page) -> None:
    """The small map of a drawing is hidden where its run is over."""
    page.open()
    put(page, "tree31")
    page.do("l6.end()")
    page.value("l6.viewer.drawing.camera.zoom(3, undefined, undefined, false)")
    shown = "[document.querySelector('.map').style.display, document.querySelectorAll('.map path').length > 0]"
    page.same("a map", page.value(shown), ["", True])
    page.fill("deck", " (PL)\n")
    page.browser.wait("!l6.isBusy && !l6.engine.isBusy")
    page.same("no map", page.value("document.querySelector('.map').style.display"), "none")
    page.value("l6.viewer.drawing.resized()")
    page.same("nor in another frame", page.value("document.querySelector('.map').style.display"), "none")
    page.value("l6.library.isChanged = false")
