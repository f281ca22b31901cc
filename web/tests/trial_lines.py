"""Trials of what no other trial makes the page do: files that are dropped, links of the manual, hints, and motion."""
from __future__ import annotations

from page import TOP, Page, trial

DROP = """(() => {
    const data = new DataTransfer();
    data.items.add(new File([' (A,E,7)(A,PD)\\n'], 'mine.deck'));
    document.dispatchEvent(new DragEvent('dragover', {dataTransfer: data, bubbles: true, cancelable: true}));
    return document.dispatchEvent(new DragEvent('drop', {dataTransfer: data, bubbles: true, cancelable: true}));
})()"""
HOVER = """((id, part) => {
    const canvas = document.getElementById(id), box = canvas.getBoundingClientRect();
    const at = {clientX: box.x + box.width * part, clientY: box.y + box.height / 2, bubbles: true};
    canvas.dispatchEvent(new MouseEvent('mousemove', at));
    return canvas.title;
})"""


@trial
def a_file_that_is_dropped(page: Page) -> None:
    """It is opened as a file that is chosen, and the browser does not leave the page for it."""
    page.open("#first")
    page.same("the browser does nothing with it", page.value(DROP), False)
    page.browser.wait("document.getElementById('deck').value.includes('(A,E,7)')")
    page.same("the deck", page.box("deck"), " (A,E,7)(A,PD)\n")


@trial
def links_beside_the_manual(page: Page) -> None:
    """A link leads to another of its pages, or to a section; what is none of its pages opens beside."""
    page.open("#first")
    page.click("manual")
    page.value("window.opened = [], window.open = (...words) => { window.opened.push(words[0]); }")
    follow = """(href => {
        const link = document.createElement('a');
        link.setAttribute('href', href);
        document.getElementById('manual-text').prepend(link);
        link.click();
        return [document.getElementById('manual-page').value, document.querySelector('#manual-text h1')?.textContent];
    })"""
    title = (TOP / "docs/language.md").read_text("utf-8").split("\n")[0].removeprefix("# ")
    page.same("to another page", page.value(f"{follow}('language.md#limits')"), ["language", title])
    page.value("document.getElementById('manual-text').scrollTop = 0")
    page.same("to a section of the same", page.value(f"{follow}('#limits')"), ["language", title])
    page.right("which is in sight", page.value("document.getElementById('manual-text').scrollTop > 0"))
    page.same("nothing opened for these", page.value("opened"), [])
    page.value(f"{follow}('https://example.org/')")
    page.value(f"{follow}('proof.md')")
    page.right("what is no page of it opens beside", page.value("opened.length === 2 && opened[0] === 'https://example.org/'"))


@trial
def hints_of_the_strip(page: Page) -> None:
    """Where the pointer is on the strip of the store, its title says what is there."""
    page.open()
    page.put(" (A,GT,4)(B,GT,4)(A,FR)\n", store=1)
    page.do("l6.state(3)")
    if page.value("document.getElementById('show-store').getAttribute('aria-pressed') === 'false'"):
        page.click("show-store")
    page.same("a block", page.value(f"{HOVER}('strip', 0.0001)"), "block 1024, 4 words")
    # (32 words are shown, and pieces of 8 and 16 follow the two blocks)
    page.same("a free piece", page.value(f"{HOVER}('strip', 0.9)"), "1052: in a free piece of 16")


@trial
def the_camera_glides(page: Page) -> None:
    """For a reader who likes motion the camera goes there in a moment, and ends where it goes at once for others."""
    page.open("#tree")
    page.do("l6.state(200)")
    there = "l6.viewer.drawing.camera.aim"
    page.browser.moving(True)
    page.value("document.getElementById('drawing').focus()")
    page.browser.value("l6.viewer.drawing.camera.go({...l6.viewer.drawing.camera.at, x: l6.viewer.drawing.camera.at.x + 40}, true)")
    page.right("it is on its way", page.value(f"l6.viewer.drawing.camera.at.x < {there}.x"))
    page.browser.wait(f"l6.viewer.drawing.camera.at.x === {there}.x", 10)
    page.right("it is there", True)
    page.browser.moving(False)


@trial
def a_clipboard_that_refuses(page: Page) -> None:
    """The code of a frame is shown where it can't be copied, and papers are selected."""
    page.open("#first")
    page.value("navigator.clipboard.writeText = () => Promise.reject(new Error('no'))")
    page.value("document.getElementById('share').open = true")
    page.click("frame-code")
    page.browser.wait("document.getElementById('run-note').textContent.includes('iframe')")
    page.has("its code", page.text("run-note"), "#first@0;embed\"")
    page.do("l6.papers.open('listing')")
    page.click("copy")
    page.browser.wait("document.getElementById('paper-note').textContent.includes('did not let')")
    page.same("papers are selected", page.value("getSelection().toString().trim()"), page.text("paper").strip())


@trial
def an_answer_that_comes_late(page: Page) -> None:
    """What was asked of the session before is not kept for the deck that is open now, whenever the answer comes."""
    page.open("#lost@14")
    page.value("l6.panes.open('tables'), document.getElementById('over-states').click()")
    page.browser.wait("l6.viewer.history.samples !== null")
    page.value("""(() => {
        const {history} = l6.viewer, {session} = history;
        window.answers = [];
        session.totals = () => new Promise(settle => answers.push(settle));
        history.samples = null;
        window.drawn = history.draw();
    })()""")
    page.browser.wait("answers.length === 1")
    page.example("queue", 3)
    page.browser.wait("l6.viewer.history.samples !== null")
    before = page.value("JSON.stringify(l6.viewer.history.samples)")
    page.value("answers[0]([{number: 0, used: 1, free: 2, largest: 3}]), drawn")
    page.same("the samples of the deck that is open", page.value("JSON.stringify(l6.viewer.history.samples)"), before)


@trial
def papers_that_are_too_long_to_show(page: Page) -> None:
    """Of what is too long to be shown the begin is, with a word; what is downloaded and what is copied has all."""
    page.open("#first")
    page.value("""window.kept = [], URL.createObjectURL = it => { kept.push(it); return 'about:blank#'; },
        HTMLAnchorElement.prototype.click = () => {},
        navigator.clipboard.writeText = it => { window.copied = it; return Promise.resolve(); }""")
    page.put(" (A,E,1234567)\nL (A,PD)(PL)(N,A,1)\n IF (N,L,60000) THEN L\n")
    page.do("l6.papers.open('printout')")
    page.browser.wait("document.getElementById('paper-note').textContent.includes('exit status')")
    shown = page.text("paper")
    page.same("what is shown", [400_000 <= len(shown) < 410_000, shown.endswith(".. (the download has all)")], [True, True])
    page.click("download")
    page.click("copy")
    whole = page.value("kept[0].text()")
    page.same("what is downloaded", [whole.count("1234567\n"), whole.endswith("STEPS\n")], [60_000, True])
    page.same("what is copied", page.value("copied.length"), len(whole))


@trial
def characters_without_a_byte(page: Page) -> None:
    """A character that is no byte is none that cards have, and is taken for no other one."""
    page.open()
    for wide in ("\u0141", "\u0441", "\uff21"):
        page.put(f" ({wide},E,5)(A,PD)\n")
        page.do("l6.papers.open('printout')")
        page.browser.wait("document.getElementById('paper-note').textContent !== '..'")
        page.has(f"a deck with {wide!r}", page.text("paper-note"), "card 1: no reading")
        page.value("document.getElementById('papers-dialog').close()")
