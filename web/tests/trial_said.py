"""Trials of what is said beside a run: the card that comes next, jumps, what was taken and printed, long lists, and what a browser keeps."""
from __future__ import annotations

from page import NOTE, Page, trial
from trial_class import change
from trial_stays import READ

CARDS = "* A NOTE\n (A,E,5)\n+(B,E,6)\n (C,E,7)\n"
LIST = " (0,DN,18,35)\nG (L,GT,1,LN)(C,A,1)\n IF (C,L,70) THEN G\n"
COUNTS = "L (A,A,1)\n IF (A,L,900) THEN L\n"
TAKES = " (A,IN,5)(B,IN,5)(C,IN,5)(D,IN,5)%s\n"
LETTERS = "ABCDEFGHIJKLMNOPQRSTUVWXYZABCDE"
SOLVED = " (N,E,10)\nLOOP (N,PD)(PL)(N,S,1)\n IF (N,G,0) THEN LOOP\n"
REFUSES = "Object.getPrototypeOf(localStorage).setItem = () => { throw new Error(); }"
ONLY_NOW = "This browser keeps it only until the page is closed."


@trial
def the_card_that_comes_next(page: Page) -> None:
    """On a phone, where the deck is out of sight, the card that comes next has its number, and what of it comes next is marked."""
    page.browser.resize(375, 667, phone=True)
    page.open()
    page.put(CARDS)
    page.do("l6.state(1)")
    for number, part in (("2", "(A,E,5)"), ("3", "(B,E,6)"), ("4", "(C,E,7)")):
        page.same(f"card {number}", page.value("['i', 'b'].map(it => document.querySelector(`#card ${it}`).textContent.trim())"), [number, part])
        page.do("l6.step()")
    page.browser.resize(1400, 900)


@trial
def jumps_are_told(page: Page) -> None:
    """From where a jump leads is said with commas, and on a step it is not; what was taken or printed is quoted as far as it is short."""
    page.open()
    page.put(COUNTS)
    page.do("l6.state(1200)")
    page.do("l6.state(1500)")
    page.has("on", page.text("changes"), "Changed since state 1,200: ")
    page.do("l6.state(1100)")
    page.has("back", page.text("changes"), "Undone: up to state 1,500: ")
    page.do("l6.state(1101)")
    page.right("of the next state it is not said", "since" not in page.text("changes"), page.text("changes"))
    for more, want in (("", f"took “{LETTERS[:20]}” from the input"), ("(E,IN,1)", "took 21 characters from the input")):
        page.put(TAKES % more, LETTERS)
        page.do("l6.state(0)")
        page.do("l6.end()")
        page.has(f"what was taken by 20 characters and {more or 'none'}", page.text("changes"), want)
    for length, want in ((30, LETTERS[:30]), (31, f"{LETTERS[:28]}..")):
        page.put(f" ({LETTERS[:length]},PH)\n")
        page.do("l6.state(0)")
        page.do("l6.end()")
        page.has(f"what is printed, of {length} characters", page.text("changes"), f"printed “{want}”")


@trial
def long_lists_are_told_in_part(page: Page) -> None:
    """Of very many links 60 are named to a screen reader, of eight changes six and how many more there are, in the title all."""
    page.open()
    page.put(LIST)
    page.do("l6.end()")
    page.browser.wait(READ)
    said = page.value("l6.viewer.drawing.picture.getAttribute('aria-label')").split("; ")
    page.same("blocks", said[0], "70 blocks")
    page.same("links", sum(" of " in it and " to " in it for it in said), 60)
    page.put(" (A,E,1)(B,E,1)(C,E,1)(D,E,1)(E,E,1)(F,E,1)(G,E,1)(H,E,1)\n")
    page.do("l6.state(0)")
    page.do("l6.end()")
    changes = [f"{name} was 0, is 1" for name in "ABCDEFGH"]
    page.same("changes", page.text("changes").split(": ")[-1].split(" · "), [*changes[:6], "and 2 more changes"])
    page.same("in the title", page.value("document.getElementById('changes').title").split("\n"), changes)


@trial
def what_is_kept_is_said(page: Page) -> None:
    """Where a browser keeps nothing that is said of a solved exercise, and not of a task, which has no place in the menu."""
    page.open("#exercise-1")
    page.value("localStorage.clear()")
    page.open("#exercise-1")
    page.value(REFUSES)
    change(page, SOLVED)
    page.click("run")
    page.has("of an exercise", page.text("verdict"), ONLY_NOW)
    page.value("l6.library.openTask({task: 'Print A.', printout: 'A', deck: '', input: '', options: {}, tests: [], conditions: {}})")
    change(page, " (A,PH)(PL)\n")
    page.click("run")
    page.has("a task is solved", page.text("verdict"), "✓ Solved: just this is printed.")
    page.right("and nothing is said of the browser", ONLY_NOW not in page.text("verdict"), page.text("verdict"))
    page.value("l6.library.isChanged = false")


@trial
def the_last_state_of_all_in_a_link(page: Page) -> None:
    """A link may name each state that a run can have, up to the last one of the longest run, and none of more digits."""
    page.open("#first@1000000001")
    page.becomes("the greatest", NOTE, "There is no state 1,000,000,001: the last one is 6.")
    page.same("the last one is shown", page.state(), 6)
    page.open("#first@10000000010")
    page.becomes("one of eleven digits", NOTE, "The link is damaged: it has characters that no link has, or was cut off.")


@trial
def other_pages_open_beside(page: Page) -> None:
    """What is no page of the manual opens in a tab of its own, which knows nothing of this one."""
    page.open()
    page.click("manual")
    page.value("window.open = (...words) => { window.opened = words; }")
    page.value("document.getElementById('manual-text').innerHTML = '<a href=\"https://example.org/x\">x</a>', document.querySelector('#manual-text a').click()")
    page.same("how", page.value("opened"), ["https://example.org/x", "_blank", "noopener"])
    page.click("manual-close")
