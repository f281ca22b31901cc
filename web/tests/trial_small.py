"""Trials of small things: a menu that Esc closes, quick steps, a deck that was left twice, options of 0, and the like."""
from __future__ import annotations

from page import Page, trial
from trial_outside import typed

DETAILS = ("options", "share")
# Of states with a map of the drawing: how many blocks it marks as new or changed, and how many have changed alone.
MARKED = """(async () => {
    const found = [];
    l6.viewer.drawing.camera.zoom(3, 0, 0, false);
    for (let number = 100; number < 120; number++) {
        await l6.state(number);
        const marks = document.querySelector('.map .fresh').getAttribute('d').split('M').length - 1;
        const {blocks} = l6.viewer.drawing.graph;
        found.push([marks, blocks.filter(it => it.isNew || it.isChanged).length, blocks.filter(it => it.isChanged && !it.isNew).length]);
    }
    return found;
})()"""
# Of some places to which the deck is scrolled: how far the numbers beside it reach below its box.
BELOW = """[0.05, 0.3, 0.55, 0.8, 0.95].map(part => {
    const {text, row} = l6.editor;
    text.scrollTop = (10 + part) * row;
    l6.editor.draw();
    const last = [...document.querySelectorAll('#gutter .card')].at(-1).getBoundingClientRect();
    return last.bottom - text.getBoundingClientRect().bottom;
})"""
# A finger on the drawing that the browser takes away, as where a system's own gesture begins.
TAKEN_AWAY = """(frame => {
    const event = (name) => frame.dispatchEvent(new PointerEvent(name, {pointerId: 77, bubbles: true, buttons: 1}));
    event('pointerdown');
    const during = l6.viewer.drawing.camera.pointers.size;
    event('pointercancel');
    return [during, l6.viewer.drawing.camera.pointers.size];
})(document.getElementById('drawing'))"""


@trial
def menus_close_by_escape(page: Page) -> None:
    """Esc closes each menu of the header that is open."""
    page.open("#first")
    for name in DETAILS:
        page.value(f"document.getElementById('{name}').open = true")
        page.key("Escape")
        page.same(f"the menu {name}", page.value(f"document.getElementById('{name}').open"), False)


@trial
def quick_steps_do_not_glide(page: Page) -> None:
    """Where steps follow one another quickly nothing glides; where they are slow all does."""
    page.open()
    page.put("L (A,A,1)\n IF (A,L,500) THEN L\n")
    quick = "document.body.classList.contains('quick')"
    page.value("document.getElementById('speed').value = '40'")
    page.click("play")
    page.becomes("quick steps", quick, True)
    page.value("document.getElementById('speed').value = '1500'")
    page.becomes("slow ones", quick, False)
    page.click("stop")


@trial
def a_deck_that_was_left_twice(page: Page) -> None:
    """It is in the menu once, before those that were left earlier."""
    page.open()
    page.value("localStorage.clear()")
    for deck in ("* ONE\n", "* TWO\n", "* ONE\n"):
        typed(page, deck)
        page.value("l6.library.isChanged = false, l6.library.chooseExample('list')")
    page.same("the last decks", page.value("l6.keeper.decks().map(it => it.deck)"), ["* ONE\n", "* TWO\n"])
    page.value("localStorage.clear()")


@trial
def options_of_0(page: Page) -> None:
    """No step and no byte are options, too: a link has them."""
    page.open()
    page.put(" (PL)\n", steps=0, output=0)
    page.do("l6.library.makeLink()")
    page.open(page.value("location.hash"))
    page.same("steps and bytes", [page.box("steps"), page.box("output")], ["0", "0"])


@trial
def the_length_of_a_list(page: Page) -> None:
    """A condition on a list has its length; 0 is one, and a condition that can't be read is refused."""
    page.open("#first")
    refused = "A list is a bug, a field and how many blocks, as L N 5, and not “{}”."
    found = "(() => { try { return l6.tasks.conditions(); } catch (error) { return error.message; } })()"
    for text, want in (
        ("L N 0", {"list": {"bug": "L", "field": "N", "length": 0}}),
        ("l, n, 3", {"list": {"bug": "L", "field": "N", "length": 3}}),
        *((it, refused.format(it)) for it in ("L N", "L", "L N X", "L N 2 3", "5 N 2", "L NN 2")),
    ):
        page.fill("task-list", text)
        page.same(f"the condition {text}", page.value(found), want)
    page.fill("task-list", "")
    page.fill("task-uses", "?")
    page.same("nor is a field that is none", page.value(found), "A field that is used is a letter or a digit, and not “?”.")
    page.fill("task-uses", "")


@trial
def from_where_it_is_told(page: Page) -> None:
    """A step over many states says what changed since the earlier one, or what is undone up to the later one."""
    page.open("#lost@3")
    page.do("l6.end()")
    page.has("on", page.text("changes"), "Changed since state 3: ")
    page.do("l6.state(3)")
    page.has("back", page.text("changes"), "Undone: up to state 21: ")


@trial
def a_finger_that_is_taken_away(page: Page) -> None:
    """It is no finger of a later pinch."""
    page.open("#lost@14")
    page.same("fingers before and after", page.value(TAKEN_AWAY), [1, 0])


@trial
def a_note_comes_back(page: Page) -> None:
    """What was said before something took long is said again after it."""
    page.open("#first")
    page.settle()
    page.browser.wait("!l6.engine.isBusy")
    told = """(note => {
        l6.note('before');
        l6.tellBusy();
        const during = note.textContent;
        l6.showBusy();
        return [during, note.textContent];
    })(document.getElementById('run-note'))"""
    page.same("meanwhile, and then", page.value(told), ["running ..", "before"])


@trial
def a_state_that_is_kept_again(page: Page) -> None:
    """Its picture in the handout is the later one."""
    page.open("#lost@14")
    page.value("l6.pictures.keep()")
    picture = "document.querySelector('#handout svg').outerHTML"
    page.value(f"window.first = {picture}")
    page.fill("detail", "boxes", "change")
    page.value("l6.pictures.keep()")
    page.same("one picture, and another one", [page.count("#handout svg"), page.value(f"first === {picture}")], [1, False])
    page.fill("detail", "auto", "change")


@trial
def the_map_marks_what_has_changed(page: Page) -> None:
    """New blocks and those that have changed are marked on the map of a drawing."""
    page.open("#reverse@100")
    found = page.value(MARKED)
    page.same("marks, and what has changed", [it[0] for it in found], [it[1] for it in found])
    page.right("some have changed, and are not new", any(it[2] for it in found))


@trial
def the_end_of_a_long_printout(page: Page) -> None:
    """The line of the lecture view has the end of what is printed."""
    page.open()
    page.put("L (A,A,1)(A,PD)(PL)\n IF (A,L,200) THEN L\n")
    page.do("l6.end()")
    page.right("it ends with the last line", page.text("printed-strip").endswith("199 ⏎ 200 ⏎ "), page.text("printed-strip")[-40:])


@trial
def what_a_finding_is_called(page: Page) -> None:
    """The button of a finding has its card and its column in words."""
    page.open()
    page.fill("deck", "* A DECK\n (A,ZZ,5)\n")
    page.becomes("as `l6 check` has it, 2:5", "document.querySelector('#fault .place')?.getAttribute('aria-label') ?? ''", "Card 2, column 5")


@trial
def a_text_is_spoken(page: Page) -> None:
    """A field that holds a character is spoken as that, and not as a number."""
    page.open()
    page.put(" (0,DC,0,5)(A,GT,1)(AC,EH,X)(AC,PR,1)\n")
    page.do("l6.end()")
    label = page.value("document.querySelector('.block').getAttribute('aria-label')")
    page.right("the character X", label.endswith("C X"), label)


@trial
def tabs_go_round(page: Page) -> None:
    """Before the first tab comes the last one."""
    page.open("#first")
    page.do("l6.papers.open('printout')")
    page.focus("tab-printout")
    page.key("ArrowLeft")
    page.same("the last tab", page.value("document.activeElement.id"), "tab-asked")
    page.value("document.getElementById('papers-dialog').close()")


@trial
def a_line_that_was_cut_off(page: Page) -> None:
    """Of a run that does not end the last line may be the begin of what is wanted."""
    page.open()
    page.value("l6.library.openTask({task: 'Print.', printout: 'AB', deck: '* X\\n', input: '', options: {steps: 30}})")
    page.fill("deck", " (A,PH)\nL (B,A,1) L\n")
    page.click("run")
    page.has("it is right up to there", page.text("verdict"), "up to there it is right")


@trial
def changes_at_the_edge_of_a_look(page: Page) -> None:
    """The change before is found wherever the states that are looked at at once begin."""
    page.open()
    page.put(" (A,E,5)\nL (B,A,1)\n IF (B,L,90) THEN L\n")
    page.value("l6.viewer.watch({chain: 'A'})")
    for number in (65, 66, 67, 68):
        page.do(f"l6.state({number})")
        page.do("l6.change(false)")
        page.same(f"back from state {number}", page.state(), 2)


@trial
def octal_beside_an_arrow(page: Page) -> None:
    """The table of bugs has octal numbers, also where a bug leads to a block."""
    page.open()
    page.put(" (A,GT,1)(B,E,5)\n")
    page.do("l6.end()")
    texts = page.value("[...document.querySelectorAll('#bugs .octal')].map(it => it.textContent)")
    page.same("both bugs", texts, ["000000002000", "000000000005"])


@trial
def numbers_down_to_the_edge(page: Page) -> None:
    """Wherever the deck is scrolled to, the last card that is seen has its number."""
    page.open()
    page.fill("deck", "* A CARD\n" * 200)
    below = page.value(BELOW)
    page.right("none is missing", min(below) >= 0, str(below))
    page.fill("deck", "")


@trial
def breakpoints_in_a_lecture(page: Page) -> None:
    """A breakpoint that is set is seen on the cards of the lecture view at once, and gone when it is removed."""
    page.open("#list@10;lecture")
    for want in (1, 0):
        page.value("l6.toggle(1)")
        page.same(f"{want} on the cards", page.count(".cards [aria-pressed='true']"), want)
    page.value("l6.panes.lecture(false)")


@trial
def the_store_on_a_phone(page: Page) -> None:
    """In one column the store and the tables are there, since the buttons that show them are not."""
    page.browser.resize(375, 667)
    page.open("#join@3")
    heights = "['store-pane', 'details', 'show-store'].map(it => Math.sign(document.getElementById(it).offsetHeight))"
    page.same("both, and no button", page.value(heights), [1, 1, 0])
    page.browser.resize(1400, 900)


@trial
def what_the_help_says(page: Page) -> None:
    """The help tells of columns and labels as the language has them, and of G and B in their order."""
    page.open("#first")
    page.has("columns", page.text("reference"), "columns 2 to 72 count")
    page.has("labels", page.text("reference"), "a label of up to 6 letters and digits")
    row = "[...document.querySelectorAll('.keys tr')].find(it => it.querySelector('kbd')?.textContent === 'G').cells[1].textContent"
    page.same("G and B", page.value(row).split(), "on to the next breakpoint, back to the one before".split())


@trial
def a_mark_that_goes(page: Page) -> None:
    """A field is marked where it has changed, and no longer after the next step."""
    page.open()
    page.put(" (0,DN,0,35)(A,GT,1)(AN,E,5)(B,E,1)\n")
    for number, want in ((3, 0), (4, 1), (5, 0)):
        page.do(f"l6.state({number})")
        page.same(f"state {number}", page.count(".block .cell.changed"), want)


@trial
def calls_that_are_not_noted(page: Page) -> None:
    """Where as many calls are noted as there may be, it is known up to which state."""
    page.open("#first")
    page.do("l6.end()")
    page.value("l6.session.chronicle.calls = Array.from({length: 5000}, (_, number) => ({number}))")
    page.same("the last one", page.value("l6.session.chronicle.callsUntil"), 4999)
