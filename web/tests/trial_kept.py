"""Trials of what the browser keeps: where the page is loaded again, where a link is followed, where there is no room."""
from __future__ import annotations

from page import Page, trial
from trial_outside import typed

LAST = "l6.keeper.decks().map(it => it.deck)"
WORK = "JSON.parse(localStorage.getItem('l6.work'))?.deck ?? ''"
TOLD = "document.getElementById('run-note').textContent"
LEAVE = "l6.library.isChanged = false, l6.library.chooseExample('list')"
LONG = "document.getElementById('deck').value = '* LONG\\n'.repeat(60000), l6.changed()"
# The store takes no text of the last decks that is longer than this.
ROOM = """(most => {
    const own = Storage.prototype.setItem;
    Storage.prototype.setItem = function (name, text) {
        if (name === 'l6.decks' && text.length > most) throw new DOMException('full', 'QuotaExceededError');
        own.call(this, name, text);
    };
})(%d)"""


def is_kept(page: Page, deck: str) -> None:
    """Waits until a deck is kept as what was typed last."""
    page.becomes(f"{deck!r} is kept", WORK, deck)


def first_letters(page: Page) -> str:
    """The first letters of the last decks."""
    return page.value(f"{LAST}.map(it => it[2]).join('')")


@trial
def a_page_that_is_loaded_anew(page: Page) -> None:
    """What was typed is there again, also where the address has a link, and no key writes over it."""
    for address in ("", "#tree", "#tree@60!3;lecture"):
        page.open(address)
        page.value("localStorage.clear()")
        typed(page, f"* AT {address}\n")
        is_kept(page, f"* AT {address}\n")
        page.browser.reload()
        page.becomes(f"what is said at {address!r}", TOLD, "This is what you typed last.")
        found = [page.box("deck"), page.value("l6.panes.isLecture")]
        page.same(f"at {address!r}", found, [f"* AT {address}\n", address.endswith("lecture")])
        typed(page, "* MORE\n")
        is_kept(page, "* MORE\n")
        page.browser.reload()
        page.same("and once more", page.box("deck"), "* MORE\n")
    page.value("localStorage.clear()")
    page.open("#list@20")
    page.browser.reload()
    found = page.value("[l6.library.example?.key ?? '', l6.view?.state.number ?? -1]")
    page.same("where nothing was typed the link is opened again", found, ["list", 20])


@trial
def a_link_beside_what_was_typed(page: Page) -> None:
    """A link opens what it says; what was typed before is among the last decks, and there again without a link."""
    page.open("#tree")
    page.value("localStorage.clear()")
    typed(page, "* MINE\n")
    is_kept(page, "* MINE\n")
    for link, deck in (("#list", "list"), ("#tree", "tree"), ("#tree@x", "first")):
        page.open(link, keeps=True)
        page.same(f"{link} opens its deck", page.value("l6.library.example?.key ?? ''"), deck)
        in_menu = page.count("#example option[value='last:0']")
        page.same("what was typed is in the menu", [page.value(LAST), in_menu], [["* MINE\n"], 1])
    page.open("", keeps=True)
    page.same("and there again without a link", page.box("deck"), "* MINE\n")
    page.open("#list", keeps=True)
    typed(page, "* ANOTHER\n")
    is_kept(page, "* ANOTHER\n")
    page.same("it is in the menu when something else is typed", page.value(LAST), ["* MINE\n"])
    page.open("#list;embed", keeps=True)
    page.same("a frame in another page changes nothing", page.value(f"[{LAST}, {WORK}]"), [["* MINE\n"], "* ANOTHER\n"])
    page.value("localStorage.clear()")


@trial
def a_store_without_room(page: Page) -> None:
    """Where the browser has no room for all the oldest deck goes; what can't be kept stays, and that is said."""
    page.open()
    page.value("localStorage.clear()")
    for name in "ABC":
        typed(page, f"* {name * 1000}\n")
        page.value(LEAVE)
    page.same("three decks", first_letters(page), "CBA")
    page.value(ROOM % 4500)
    typed(page, "* D\n")
    page.value(LEAVE)
    page.same("a fourth has room", first_letters(page), "DCBA")
    typed(page, f"* {'E' * 1000}\n")
    page.value(LEAVE)
    page.same("the fifth takes that of the oldest", first_letters(page), "EDCB")
    page.value(ROOM % 0)
    typed(page, "* F\n")
    page.value(LEAVE)
    page.becomes("that one can't be kept is said", f"{TOLD}.includes('keeps nothing')", True)
    page.same("the others stay, and so does what was typed", [first_letters(page), page.value(WORK)], ["EDCB", "* F\n"])
    page.open("", keeps=True)
    page.same("it is there again", page.box("deck"), "* F\n")
    page.value("localStorage.clear()")


@trial
def a_deck_too_long_to_be_kept(page: Page) -> None:
    """It is not kept, which is said, once; a shorter one is kept again."""
    page.open()
    page.value("localStorage.clear()")
    want = "So long a deck is not kept: save it as a file."
    page.value(LONG)
    page.becomes("it is said", TOLD, want)
    page.same("nothing is kept", page.value("localStorage.getItem('l6.work')"), None)
    page.value("l6.tell('')")
    page.same("what was said is taken away", page.value(TOLD), "")
    page.value(f"{LONG}, l6.keeper.save()")
    page.value("new Promise(it => setTimeout(it, 50))")
    page.same("it is said once", page.value(TOLD), "")
    typed(page, "* SHORT\n")
    is_kept(page, "* SHORT\n")
    page.value(LONG)
    page.becomes("and again where another was kept", TOLD, want)
    page.value("localStorage.clear(), l6.library.isChanged = false")
