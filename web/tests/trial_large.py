"""Trials of large things: many blocks, long decks and printouts, long files."""
from __future__ import annotations

from page import Page, trial

MANY = " (0,DN,0,35)\nG (L,GT,1,LN,F)(C,A,1)\n IF (C,L,250000) THEN G\nF DONE\n"
# The states to which the next ten presses of Back lead.
AHEAD = """window.ahead = () => {
    const {reading, trail} = l6.session;
    const isSilent = ({statement, action}) => {
        const at = reading.statements[statement];
        return action === 0 ? !at.condition : action > at.operations.length && !at.exit;
    };
    const found = [];
    for (let at = l6.view.state.number - 1; found.length < 10; at--)
        if (!isSilent(trail.near(at - 1, -1))) found.push(at);
    return found;
}"""
TO_MAIN = """(() => {
    window.most = 0;
    const answer = l6.engine.settle.bind(l6.engine);
    l6.engine.settle = (data) => { most = Math.max(most, data.answer?.output.length ?? 0); answer(data); };
    l6.engine.worker.onmessage = ({data}) => l6.engine.settle(data);
})()"""


@trial
def many_blocks(page: Page) -> None:
    """No more is sent to the page than is shown, and what is left out is said."""
    page.open()
    page.value(TO_MAIN)
    page.put(MANY, store=255, steps=100_000_000)
    page.do("l6.run()")
    page.has("250,000 blocks", page.text("store-text"), "250,000 blocks; 250,000 words used")
    page.right("of the answers little is sent", page.value("most") <= 100_000, str(page.value("most")))
    page.same("300 are drawn", page.count(".block"), 300)
    page.has("what is left out is said", page.text("warnings"), "Not drawn: 249,700 blocks")
    page.right("where one sees it", page.value("document.getElementById('warnings').offsetHeight > 0"))
    page.do("l6.back()")
    page.has("a step back", page.text("where"), "AT 3.0 AFTER 1500002 STEPS")
    page.value("void l6.state(700000)")
    page.same("the page answers meanwhile", page.value("1 + 1"), 2)
    page.browser.wait("!l6.isBusy && !l6.engine.isBusy")
    page.same("any state", page.state(), 700_000)


@trial
def long_decks(page: Page) -> None:
    page.open()
    page.put(" (A,E,1)(B,A,1)\n" * 63_000)
    page.browser.wait("!l6.engine.isBusy")
    page.focus("deck", 4)
    page.value("""document.getElementById('deck').addEventListener(
        'input', it => { window.isLeft = l6.readText !== it.target.value; }, {once: true})""")
    page.browser.type("B")
    page.becomes("a long deck is read after the key", "window.isLeft", True)
    page.browser.wait("l6.readText === document.getElementById('deck').value")
    page.same("once", page.value("l6.editor.deck.statements.length"), 63_000)
    page.do("l6.run()")
    page.has("and run", page.text("empty"), "l6: card 1: no reading")


@trial
def keys_in_a_deck_of_8000_cards(page: Page) -> None:
    page.open()
    page.put("L7 (A,E,1)(B,A,1)\n" + " (A,E,1) L7\n" * 7_999)
    page.browser.wait("!l6.engine.isBusy")
    page.focus("deck", 9)
    took = [page.took(lambda: page.browser.type("0"))[0] for _ in range(5)]
    page.right("a key takes less than 100 ms", sorted(took)[2] < 100, str([round(it) for it in took]))
    page.browser.wait("!l6.engine.isBusy")
    page.do("l6.checker.check()")
    page.has("what is found is shown", page.text("fault"), "no way leads to the statement")


@trial
def long_files(page: Page) -> None:
    page.open()
    page.browser.wait("!l6.engine.isBusy")
    for what, size, part in (
        ("a file longer than a job", 17 * 2**20, "a job has at most 16,777,216"),
        ("a deck that is too long", 2**20 + 9, "its deck has 1,048,585 bytes, and 1,048,576 is the most"),
    ):
        page.do(
            f"l6.library.openFile(new File([' (A,E,1)\\n'.repeat({size} / 9 + 1).slice(0, {size})], 'a'))"
        )
        page.has(what, page.note(), part)
        page.same("and is not read into the editor", page.box("deck"), " (A,E,5)(A,PD)\n")
    page.do("l6.library.openFile(new File([' (A,E,1)\\n'.repeat(116508)], 'a.deck'))")
    page.has("a shorter one is opened", page.note(), "opened a.deck")
    page.value("l6.library.isChanged = false")


@trial
def long_printouts(page: Page) -> None:
    page.open()
    page.put("L (A,A,1)(A,PD)(PL)\n IF (A,L,50000) THEN L\n")
    page.do("l6.run()")
    page.right(
        "the end of a long printout is shown",
        page.text("printed").endswith("\n50000\n== DONE AFTER 350001 STEPS"),
        page.text("printed")[-80:],
    )
    page.has("and what is left out", page.text("printed")[:3], ".. ")
    for way in ("back", "back", "back", "back", "step"):
        page.do(f"l6.{way}()")
    page.same(
        "what came last is marked",
        page.value("document.querySelector('#printed .fresh').textContent"),
        "50000",
    )


@trial
def damaged_links(page: Page) -> None:
    """A link that is damaged says so, and breaks nothing."""
    page.open("#tree@137")
    page.do("l6.library.makeLink()")
    page.put(" (A,E,5)(A,PD)\n")
    page.do("l6.library.makeLink()")
    whole = page.value("location.hash")
    page.has("a whole link", whole, "#job=")
    for damaged in (
        whole[:-9],
        whole[:20],
        whole + "%",
        "#deck=",
        "#nothing",
        "#tree@99999999999",
        "#tree!x",
        "#deck=AAAA@1",
        whole.replace("=", "=A", 1),
        whole[:-1] + ("1" if whole[-1] == "0" else "0"),
    ):
        page.open(damaged)
        page.has(f"the link {damaged[-30:]}", page.note(), "The link is damaged: ")
        page.same("the first deck is there", page.box("deck"), " (A,E,5)(A,PD)\n")
    page.open("#tree@9999")
    page.has(
        "a state that there is not", page.note(), "There is no state 9,999: the last one is 274."
    )
    page.open("#tree@100000")
    page.same("the last one is shown", page.state(), 274)


@trial
def a_job_that_breaks(page: Page) -> None:
    """A job that breaks in the worker is answered, too, and the next one is done."""
    page.open()
    page.value("l6.engine.worker.postMessage({module: 1})")
    page.do("l6.run()")
    page.has("it is said", page.note(), "Error")
    page.value("l6.engine.stop()")
    page.do("l6.run()")
    page.same("and the next is done", page.text("printed"), "5\n== DONE AFTER 6 STEPS")


@trial
def what_waits(page: Page) -> None:
    """What is asked for while a run goes on is done after it; of several, the last."""
    page.open("#list")
    page.value("void Promise.all([l6.run(), l6.state(5), l6.state(7)])")
    page.browser.wait("!l6.isBusy && !l6.waiting && l6.view?.state.number === 7")
    page.right("the last is done", True)
    page.put(" (A,IN,1)(A,PD)\n", "A\n")
    page.click("run")
    page.fill("input", "B")
    page.same("a run of another input is not shown", [page.state(), page.text("printed")], [-1, ""])


@trial
def steps_in_a_large_store(page: Page) -> None:
    """Of 180,000 blocks a step takes less than 0.3 seconds, also where ten follow at once."""
    page.open()
    page.put(" (0,DN,18,35)\nG (L,GT,1,LN)(C,A,1)\n IF (C,L,180000) THEN G\n", store=255, steps=100_000_000)
    page.do("l6.run()")
    page.do("l6.back()")
    page.value(AHEAD)
    took = []
    page.browser.wait("!l6.engine.isBusy && !l6.isForeseeing", 400)  # (ten runs of 1.5 million steps)
    page.same("ten states are asked for ahead", page.value("ahead().map(it => l6.session.has(it))"), [True] * 10)
    page.same("by three workers", page.value("l6.engine.others.length"), 2)
    for _ in range(10):  # (at once)
        page.right("it is there", page.value("l6.session.has(ahead()[0])"))
        took.append(page.took(lambda: page.value(
            "(async () => { await l6.back(); document.body.getBoundingClientRect(); })()"))[0])
    page.right("each step but one", sorted(took)[-2] < 300, str([round(it) for it in took]))
    page.has("what is not drawn is said", page.text("warnings"), "Not drawn: 179,")
    page.has("and up to where the run is read", page.value("document.getElementById('warnings').title"),
             "The run is read up to state ")
    page.has("and what is not known past it", page.value("document.getElementById('warnings').title"),
             "; past it no use after free is reported")
