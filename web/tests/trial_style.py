"""Trials of how things look that mean something: each mark has its colour, its line and its shape, and no other thing has."""
from __future__ import annotations

from page import Page, trial
from trial_stays import READ, put

# What has a colour of the palette: an element in a state of a deck, a property, and the colour.
LOOKS: dict[str, list[tuple[str, str, str]]] = {
    "lost@14": [
        (".block.lost .edge", "stroke", "lost"), (".block:not(.lost) .top", "fill", "block"), (".block .place", "fill", "block-ink"),
        (".pill path", "fill", "ink"), (".pill text", "fill", "paper"), (".under .line.at", "backgroundColor", "now"),
        (".under .spot.at", "backgroundColor", "now-strong"), ("#next code", "backgroundColor", "now-strong"), (".arrow path", "stroke", "f0"), (".arrow .tag, .arrow circle", "fill", "f0"), (".cell.f0 .name", "fill", "f0"),
        (".cell.f1 .name", "fill", "f1"), (".legend .f0", "color", "f0"), (".legend .f1", "color", "f1"), ("#fields .f0", "color", "f0"), ("#run", "backgroundColor", "accent"),
    ],
    "lost@8": [
        (".cell.changed .window", "stroke", "changed"), (".cell.changed .window", "fill", "changed-soft"), (".arrow.changed path", "stroke", "changed"),
        (".block.new .edge", "stroke", "changed"), ("#changes b", "color", "changed"),
    ],
    "lost@3": [("#fields .changed", "backgroundColor", "changed-soft")],
    "lost@6": [("#bugs tr.changed td", "backgroundColor", "changed-soft"), (".pill.changed path", "fill", "changed"), ("#bug-strip .changed", "backgroundColor", "changed-soft")],
    "lost@21": [("#where", "color", "fault"), ("#trap", "color", "fault"), (".block.lit .edge", "stroke", "lit"), (".arrow.lit path", "stroke", "lit")],
    "tree@137": [(".stack li:first-child", "backgroundColor", "accent-soft"), ("#lecture", "backgroundColor", "raised")],
    "list@60": [("#printed .fresh", "color", "ink")],
}
COLOUR = """((selector, property, name) => {
    const probe = document.createElement('i');
    probe.style.color = `var(--${name})`;
    document.body.append(probe);
    const want = getComputedStyle(probe).color;
    probe.remove();
    const found = document.querySelector(selector);
    return found ? [getComputedStyle(found)[property], want] : ['nothing there', want];
})(%r, %r, %r)"""
# Of a deck with a ghost, a pointer that dangles, and a state of it: lines that are broken.
BROKEN = "[...document.querySelectorAll(%r)].map(it => getComputedStyle(it).strokeDasharray !== 'none')"
STYLE = "(it => it ? getComputedStyle(it)[%r] : 'nothing there')(document.querySelector(%r))"
# Whether an element is over another one where both are.
POINTERS = {
    "#drawing": "grab", ".block": "pointer", ".pill": "pointer", ".map": "pointer", "#splitter": "col-resize", "#row-splitter": "row-resize",
    "#run": "pointer", "#back": "default", "#strip": "pointer",
}


@trial
def colours_that_mean_something(page: Page) -> None:
    """What has changed, is lost, comes next or traps has its colour, in light and in dark."""
    for dark in (False, True):
        page.browser.resize(1400, 1000, dark)
        for link, looks in LOOKS.items():
            key, state = link.split("@")
            page.open(f"#{key}@{int(state) - 1}")
            page.value("l6.panes.open('tables')")
            page.do(f"l6.state({state})")
            page.browser.wait("!l6.engine.isBusy")
            for selector, name, colour in looks:
                got, want = page.value(COLOUR % (selector, name, colour))
                page.same(f"{selector} of {link}, dark {dark}", got, want)
    page.browser.resize(1400, 900)


@trial
def lines_that_mean_something(page: Page) -> None:
    """Ghosts and pointers that dangle have broken lines; what has the focus, is chosen or is new has a thick one."""
    page.open()
    put(page, "dangling")
    page.do("l6.state(14)")
    for selector, broken in ((".ghost .edge", [True]), (".arrow.broken > path:first-child", [True]), (".pill.broken path", [True]),
                           (".arrow.broken .break", [False])):
        page.same(f"broken lines of {selector}", page.value(BROKEN % selector), broken)
    for name, colour in (("color", "lost"), ("backgroundColor", "lost-soft")):
        got, want = page.value(COLOUR % ("#warnings", name, colour))
        page.same(f"{name} of what is warned of", got, want)
    page.same("others are whole", page.value("[...document.querySelectorAll('.block:not(.ghost) .edge, .arrow:not(.broken) path')]"
                                             ".some(it => getComputedStyle(it).strokeDasharray !== 'none')"), False)
    page.open("#reverse@60")
    page.browser.wait(READ)
    thick = STYLE % ("strokeWidth", ".block[data-place='1024'] .edge")
    begun = page.value(f"parseFloat({thick})")
    page.do("l6.viewer.chooseBlock(1024)")
    page.right("a block that is chosen", page.value(f"parseFloat({thick})") > 2 * begun)
    page.do("l6.viewer.chooseBlock(1025)")
    page.same("and no longer", page.value(f"parseFloat({thick})"), begun)
    page.key("d")
    page.browser.key("ArrowRight")
    page.right("one that has the focus", page.value("parseFloat(getComputedStyle(document.activeElement.querySelector('.edge')).strokeWidth)") > 2 * begun)
    for _ in range(5):
        page.browser.key("+")
    for selector, want in POINTERS.items():
        if selector in (".block", ".pill"):
            continue
        if selector == "#row-splitter":
            page.value("l6.panes.open('tables'), l6.panes.open('store')")
        if selector == "#back":
            page.do("l6.state(0)")
        page.same(f"the pointer over {selector}", page.value(STYLE % ("cursor", selector)), want)
    for selector, state in ((selector, state) for state in (60, 100) for selector in (".pill", ".block")):
        page.do(f"l6.state({state})")
        page.same(f"the pointer over {selector} in state {state}", page.value(STYLE % ("cursor", selector)), POINTERS[selector])


@trial
def notes_go(page: Page) -> None:
    """A note fades after some seconds, each time from its begin; a note of what goes on stays."""
    page.open("#first")
    page.do("l6.tell('one')")
    animation = "(it => [it.length, it[0]?.animationName ?? '', it[0]?.effect.getTiming().duration ?? 0])(document.getElementById('run-note').getAnimations())"
    page.same("it fades", page.value(animation), [1, "note", 7000])
    begun = "document.getElementById('run-note').getAnimations()[0].currentTime"
    page.value("document.getElementById('run-note').getAnimations()[0].currentTime = 5000")
    page.value("l6.tell('two')")
    page.right("the next one from its begin", page.value(begun) < 2000, str(page.value(begun)))
    page.value("l6.note('running ..')")
    page.same("what goes on does not fade", page.value(animation)[0], 0)
    page.value("l6.tell('')")
    page.same("without a note there is no box", page.value("document.getElementById('run-note').offsetHeight"), 0)


# What is pressed, chosen, marked or wrong: what is done in state 14 of the deck `lost`, an element, a property, and its colour.
STATES = [
    ("l6.panes.open('store')", "#show-store", "backgroundColor", "accent-soft"), ("", "#show-store", "borderTopColor", "accent"),
    ("document.getElementById('tidy').click()", "#tidy", "backgroundColor", "accent-soft"), ("document.getElementById('tidy').click()", "#tidy", "backgroundColor", "raised"),
    ("l6.toggle(2)", "#gutter [aria-pressed=true]", "backgroundColor", "mark"), ("", "#gutter [aria-pressed=true]", "color", "paper"),
    ("", ".ruler .edge", "color", "mark"), ("l6.editor.drawCards()", ".cards [aria-pressed=true]", "backgroundColor", "mark"), ("", ".cards mark", "backgroundColor", "now-strong"),
    ("l6.end()", "#step", "color", "faint"), ("", "#back", "color", "ink"), ("", "#where", "color", "fault"),
    ("document.getElementById('store').value = '0', l6.optionChanged()", "#store", "backgroundColor", "fault-soft"), ("", "#options-note", "color", "fault"),
    ("document.getElementById('store').value = '8', l6.optionChanged()", "#store", "backgroundColor", "raised"),
    ("l6.papers.open('listing')", "#tab-listing", "backgroundColor", "accent-soft"),
    ("document.getElementById('papers-dialog').close(), document.getElementById('chain').value = 'A-', l6.state(14)", "#answer", "color", "fault"),
    ("document.getElementById('chain').value = 'A', l6.viewer.chainTyped()", "#answer", "color", "lit"),
    ("l6.put({deck: ' (A,Q,1)\\n' + ' (A,E,1)'.padEnd(72) + '(A,PD)\\n'}), l6.checker.check()", ".spot.bad", "borderBottomColor", "fault"), ("", ".spot.odd", "borderBottomColor", "mark"),
    ("", ".line.bad", "backgroundColor", "fault-soft"), ("", "#fault", "color", "fault"), ("", "#fault .warning", "color", "soft"),
    ("l6.library.openExample('tree'), l6.state(137).then(() => document.getElementById('show-calls').click())", ".call-tree .waits > details > summary > b", "color", "accent"),
]
RULES = """((selector, name, part) => (it => it ? getComputedStyle(it, part || undefined)[name] : 'nothing there')(document.querySelector(selector)))"""


@trial
def states_that_are_seen(page: Page) -> None:
    """What is pressed, chosen or wrong has its colour; what can't be pressed is pale; a dialog stands before the page."""
    for dark in (False, True):
        page.browser.resize(1400, 1000, dark)
        page.open("#lost@14")
        for act, selector, name, colour in STATES:
            if act:
                page.value(f"(async () => {{ await ({act}); }})()")
                page.browser.wait("!l6.isBusy && !l6.engine.isBusy")
            got, want = page.value(COLOUR % (selector, name, colour))
            page.same(f"{name} of {selector} after {act or 'that'}, dark {dark}", got, want)
        page.value("l6.library.isChanged = false")
    page.browser.resize(1400, 900)
    page.open("#lost@0")
    page.same("a button that does nothing is pale", page.value(f"{RULES}('#back', 'opacity')"), "0.75")
    page.right("the statement where the run is has a ring", page.value(f"{RULES}('#gutter .at', 'boxShadow')").endswith("0px 0px 0px 2px"))
    page.value("document.getElementById('help-dialog').showModal()")
    page.right("what is behind a dialog is darkened", page.value(f"{RULES}('#help-dialog', 'backgroundColor', '::backdrop')").startswith("rgba(0, 0, 0, 0.4"))
    page.value("document.getElementById('help-dialog').close()")
    page.example("lost", 21)
    page.browser.wait("!document.getElementById('trap').hidden && Boolean(document.querySelector('.block.stopped'))")
    page.same("a block at which a chain ends", page.value(f"{RULES}('.block.stopped .edge', 'strokeDasharray')"), "7px, 4px")
    for is_moving, want in ((False, "none"), (True, "transform")):
        page.browser.moving(is_moving)
        page.same(f"whether blocks glide, motion {is_moving}", page.value(f"{RULES}('.block', 'transitionProperty')"), want)
    page.browser.moving(False)
    page.value("l6.pictures.keep(), document.getElementById('manual').click()")
    page.browser.printing(True)
    page.same("the head of the manual is not printed", page.value(f"{RULES}('.manual-head', 'display')"), "none")
    page.browser.printing(False)
    page.click("manual-close")
    page.browser.printing(True)
    page.same("a picture stays on its sheet", page.value(f"{RULES}('#handout figure', 'breakInside')"), "avoid")
    page.same("and leaves room for others, as it has nine centimetres", page.value(f"Math.round(parseFloat({RULES}('#handout svg', 'maxHeight')))"), 340)
    page.browser.printing(False)
