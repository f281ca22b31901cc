"""Trials of what is seen of the page beside the manual, in a lecture, beside the calls, and in print."""
from __future__ import annotations

from page import Page, trial
from trial_class import IN_VIEW, LETTERS

RECURSION = """* THREE CALLS DEEP: FACTORIAL OF 3
 (N,E,3)(FACT,DO)(F,PD)(PL) DONE
FACT IF (N,E,0) THEN (F,E,1) DONE
 (S,FC,N)(N,S,1)(FACT,DO)(R,FC,N)(F,M,N) DONE
"""
DEEPEST = 18  # the state in which all of its calls wait
# What of the page is cut off, or lies under the manual: elements with texts or pictures that are seen.
UNDER = """(() => {
    const edge = document.getElementById('manual-pane').getBoundingClientRect().left + 1;
    return [...document.querySelectorAll('header *, .controls *, main *')]
        .filter(it => it.checkVisibility() && !it.closest('svg, .editor, .bug-strip, .frames, .tools, .paper'))
        .filter(it => it.getBoundingClientRect().right > edge).map(it => it.id || it.className);
})()"""
SIZES = "['deck', 'drawing'].map(it => (({width, height}) => [Math.round(width), Math.round(height)])" \
    "(document.getElementById(it).getBoundingClientRect()))"


@trial
def the_manual_beside_at_each_size(page: Page) -> None:
    """Beside the manual are the deck and the drawing, large enough, and nothing of the page is under it."""
    for width, height in ((1920, 1080), (1400, 900), (1280, 720), (1024, 640)):
        page.browser.resize(width, height)
        page.open("#reverse@121")
        page.click("manual")
        page.value("new Promise(it => setTimeout(it, 300))")
        page.same(f"under the manual at {width}x{height}", page.value(UNDER), [])
        page.value("document.getElementById('manual-pane').style.left = '0'")
        page.right("what is under it is seen", bool(page.value(UNDER)))
        page.value("document.getElementById('manual-pane').style.left = ''")
        (deck, deck_height), (drawing, drawing_height) = page.value(SIZES)
        page.right(f"the deck beside it at {width}x{height}", (deck >= 330, deck_height >= 75), f"{deck}x{deck_height}")
        page.right(f"the drawing beside it at {width}x{height}", (drawing >= 480, drawing_height >= 110),
                   f"{drawing}x{drawing_height}")
        page.right("the card is in sight", page.value(f"{IN_VIEW}(document.querySelector('.spot.at'))"))
        page.right("all blocks are seen", page.value("l6.viewer.drawing.camera.isWhole"))
        page.click("manual-close")
    page.browser.resize(1400, 900)


@trial
def a_recursion_is_seen(page: Page) -> None:
    """Three calls deep all calls are seen with what they saved; the tree of all calls hides nothing of the drawing."""
    cards = """[...document.querySelectorAll('#frames li')].map(it => {
        const {right} = it.getBoundingClientRect();
        return [it.innerText.replace(/\\s+/g, ' ').trim(), right <= document.getElementById('frames').getBoundingClientRect().right + 1];
    })"""
    for width, height in ((1280, 720), (1400, 900)):
        page.browser.resize(width, height)
        page.open()
        page.put(RECURSION)
        page.do(f"l6.state({DEEPEST})")
        page.browser.wait("document.querySelectorAll('#frames li').length === 4")
        page.same(f"calls at {width}x{height}", page.value(cards), [
            ["FACT from statement 2 at 17", True], ["FACT 12N = 1", True], ["FACT 7N = 2", True], ["FACT 2N = 3", True]])
    titles = "[...document.querySelectorAll('#frames button.to')].map(it => it.title)"
    page.same("where an older one was called is said", page.value(titles)[-1],
              "(FACT,DO) from statement 0; to state 2, before this call")
    page.browser.resize(1280, 720)
    page.open("#tree@137")
    page.click("show-calls")
    page.value("new Promise(it => setTimeout(it, 300))")
    beside = """(() => {
        const {right} = document.getElementById('call-tree').getBoundingClientRect();
        const edges = [...document.querySelectorAll('#drawing .block .edge')];
        return edges.length > 1 && edges.every(it => it.getBoundingClientRect().left >= right);
    })()"""
    page.right("the tree covers no block", page.value(beside))
    page.right("all blocks are seen", page.value("l6.viewer.drawing.camera.isWhole"))
    page.browser.resize(1400, 900)


@trial
def a_lecture_shows_all(page: Page) -> None:
    """In a lecture nothing that is taught is cut: calls, what comes next, bugs, and the words of an array."""
    cut = "(it => it.scrollWidth > it.clientWidth + 1 || it.scrollHeight > it.clientHeight + 1)(document.getElementById('%s'))"
    size = "parseFloat(getComputedStyle(document.querySelector('%s')).fontSize)"
    for width, height in ((1280, 720), (1024, 640)):
        page.browser.resize(width, height)
        for key, state in (("queue", 99), ("reverse", 121), ("tree", 137), ("squares", 40), ("list", 28)):
            page.open(f"#{key}@{state};lecture")
            page.right(f"what comes next in {key} at {width}x{height}", not page.value(cut % "now"), page.text("now"))
        page.open("#squares@40;lecture")
        page.same("bugs are large cards", page.value(size % ".bug-cards div"), 40)
        page.right("and below, too", page.value(size % "#bug-strip button") >= 22)
        page.put(" (A,GT,8)(B,GT,1)\n")
        page.do("l6.run()")
        frame = "document.getElementById('drawing').getBoundingClientRect()"
        words = f"""[...document.querySelectorAll(".block[data-place='1024'] .cell")].map(it => it.getBoundingClientRect())
            .filter(it => it.left >= {frame}.left && it.right <= {frame}.right && it.bottom <= {frame}.bottom).length"""
        page.same(f"eight words at {width}x{height}", page.value(words), 8)
        page.right("in large letters", min(page.value(f"{LETTERS}('#drawing')")) >= 18)
    page.browser.resize(1280, 720)
    page.put(RECURSION)
    page.do(f"l6.state({DEEPEST})")
    page.browser.wait("document.querySelectorAll('#frames li').length === 4")
    page.right("all calls", not page.value(cut % "frames"), page.text("frames"))
    page.browser.resize(1400, 900)


@trial
def wide_cards_come_into_sight(page: Page) -> None:
    """Where a card is wider than the deck's box, the group that is done next is scrolled into view."""
    page.browser.resize(1024, 640)
    page.open()
    page.put(" " + "".join(f"({it},E,{at})" for at, it in enumerate("ABCDEFGHI")) + "\n" + " (PL)\n" * 3)
    seen = """(() => {
        const [spot, deck] = [document.querySelector('.spot.at'), document.getElementById('deck')]
            .map(it => it.getBoundingClientRect());
        return spot.left >= deck.left && spot.right <= deck.right + 1;
    })()"""
    page.right("the card is wider", page.value("(it => it.scrollWidth > it.clientWidth + 100)(document.getElementById('deck'))"))
    page.do("l6.state(1)")
    for group in "BCDEFGHI":
        page.do("l6.step()")
        page.right(f"the group of {group} is in sight", page.value(seen), page.text("next"))
    page.do("l6.state(1)")
    page.right("and back", page.value(seen))
    page.browser.resize(1400, 900)


@trial
def print_is_whole(page: Page) -> None:
    """A long deck is printed whole; where the manual is open, that is, and all of it."""
    page.open()
    cards = 150
    page.put("* A LONG DECK\n" + " (A,A,1)(A,PD)(PL)\n" * (cards - 1))
    page.do("l6.run()")
    page.browser.printing(True)
    page.value("window.dispatchEvent(new Event('beforeprint'))")
    page.same("all cards", page.value("[...document.querySelectorAll('.cards li')].filter(it => it.offsetHeight).length"), cards)
    whole = "(it => it.scrollHeight <= it.clientHeight + 1 && it.getBoundingClientRect().height > %d)(document.%s)"
    page.right("of a height that none scrolls", page.value(whole % (1500, "querySelector('.cards')")))
    page.right("and all that was printed", page.value(whole % (1500, "getElementById('printed')")))
    page.browser.printing(False)
    page.click("manual")
    page.fill("manual-page", "language", "change")
    page.browser.printing(True)
    page.right("the manual", page.value(whole % (5000, "getElementById('manual-text')")))
    page.same("alone", page.value("['main', 'header', '.controls'].filter(it => document.querySelector(it).offsetHeight)"), [])
    page.browser.printing(False)
    page.click("manual-close")
