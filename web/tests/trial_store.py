"""Trials of the store: what gets waste, its pieces by size, and its use over a run."""
from __future__ import annotations

from page import Page, trial


@trial
def for_writers_of_allocators(page: Page) -> None:
    pills = "[...document.querySelectorAll('.pill')].map(it => it.dataset.bug).sort().join()"
    page.open()
    page.put(" (C,E,1024)(0,DN,18,35)(D,GT,1)(A,GT,3)(AN,E,D)(D,E,0)(C,PD)\n")
    page.do("l6.state(4)")
    page.do("l6.step()")
    page.has("what a get wastes", page.text("changes"), "got 4 words at 1028 (3 asked for, so 1 wasted; ")
    page.has("the largest free piece", page.text("store-text"), "largest 1,024")
    page.do("l6.run()")
    page.same("a counter leads to no block, though its number is the place of one", page.value(pills), "A")
    page.browser.click(".pill[data-bug=A]")
    page.browser.wait("!l6.isBusy && document.querySelectorAll('.pill').length === 0")
    page.same("a click hides a bug", [page.value(pills), page.text("hidden-bugs")], ["", "A hidden"])
    page.browser.click("#hidden-bugs button")
    page.browser.wait("!l6.isBusy && document.querySelectorAll('.pill').length === 1")
    page.right("and another shows it", True)
    page.value("document.getElementById('by-size').click()")
    page.has(
        "pieces a level", page.text("levels-text"), "of 1: 1 block, 1 free · of 2: 1 free · of 4: 1 block"
    )
    page.open("#join@0")
    page.right(
        "the examples of the store are by size", page.value("document.getElementById('by-size').checked")
    )
    page.example("lost")
    page.right("the next deck is not", not page.value("document.getElementById('by-size').checked"))


@trial
def the_store_over_the_run(page: Page) -> None:
    page.open("#buddy@130")
    page.value("document.getElementById('over-states').click()")
    page.browser.wait("document.querySelectorAll('#history polyline').length === 3")
    page.has(
        "the graph in words",
        page.value("document.querySelector('#history svg').ariaLabel"),
        "Over 177 states, of 8,192 words: words in blocks from 0 to 1,024",
    )
    page.has("and at this state", page.text("history"), "words in blocks: 704")
    points = page.value("document.querySelector('#history .used').getAttribute('points').split(' ').length")
    page.same("its points", points, 60)
    box = page.value(
        "(({left, top, width}) => [left, top, width])"
        "(document.querySelector('#history svg').getBoundingClientRect())"
    )
    page.browser.click_at(box[0] + box[2] / 2, box[1] + 30)
    page.becomes("a click goes to a state", "l6.view.state.number", 88)
