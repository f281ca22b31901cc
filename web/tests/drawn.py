"""What the drawing of a state must have, by the model and by what the fields hold: blocks, cells, arrows, bugs, texts."""
from __future__ import annotations

from expected import count, letter_of, seen_through, shown_places, text_of, windows_of
from modelled import Moment

LEGIBLE = 3  # bits of a field whose value has room; of a word with narrower ones all is shown, too
MOST_WORDS = 8  # of a block without fields that are shown
Windows = list[tuple[str, tuple[int, int, int]]]


def compared(moment: Moment, before: Moment | None) -> Moment | None:
    """The state with which a drawing is compared: none where all its blocks are new, since one comes from far away."""
    return before if before and (before.blocks or len(moment.blocks) == 1) else None


def lanes_of(windows: Windows) -> list[Windows]:
    """Windows on one word in as few lanes as they need so that none covers another."""
    lanes: list[Windows] = []
    for window in sorted(windows, key=lambda it: (it[1][1], -it[1][2])):
        lane = next((it for it in lanes if it[-1][1][2] < window[1][1]), None)
        if lane is None:
            lanes.append([window])
        else:
            lane.append(window)
    return lanes


def links_of(moment: Moment, place: int, kinds: dict[str, str]) -> list[tuple[str, int]]:
    """The links of a block: of each window that holds links, where it leads, if a block is there."""
    words = moment.blocks[place]
    values = [(name, seen_through(words[it[0]], it)) for name, it in windows_of(moment) if it[0] < len(words) and kinds.get(name) == "link"]
    return [(name, value) for name, value in values if value in moment.blocks]


def is_new(moment: Moment, before: Moment | None, place: int) -> bool:
    return before is not None and len(before.blocks.get(place, [])) != len(moment.blocks[place])


def cells_of(moment: Moment, before: Moment | None, place: int) -> list[list[object]]:
    """The cells of a card: the first bit, the width, what is held, and whether it has changed."""
    words = moment.blocks[place]
    old = words if before is None or is_new(moment, before, place) else before.blocks[place]
    found: list[list[object]] = []
    for index, (word, was) in enumerate(zip(words, old)):
        own = [it for it in windows_of(moment) if it[1][0] == index]
        if not own and len(words) > MOST_WORDS:
            continue
        if all(last - first + 1 < LEGIBLE for _, (_, first, last) in own):
            found.append([0, 36, f"word {index} {word}", word != was])
        for name, window in (it for lane in lanes_of(own) for it in lane):
            value = seen_through(word, window)
            found.append([window[1], window[2] - window[1] + 1, f"{name} {value}", value != seen_through(was, window)])
    return found


def leading(moment: Moment, numbers: set[str]) -> list[str]:
    """The bugs that lead to blocks; those that only hold such a number do not."""
    return [name for name, value in moment.bugs.items() if value in moment.blocks and name not in numbers]


def label_of(moment: Moment, place: int, bugs: list[str], kinds: dict[str, str], shown: list[str] | None) -> str:
    """What is spoken of a block; `shown` is what the page says of its cells, of which each may say a number or a text."""
    words = moment.blocks[place]
    own = [it for it in bugs if moment.bugs[it] == place]
    led = f", {' and '.join(own)} {'leads' if len(own) == 1 else 'lead'} here" if own else ""
    lost = "" if place in moment.reached else ", lost"
    links = dict(links_of(moment, place, kinds))
    parts: list[str] = []
    for index, word in enumerate(words):
        for name, window in (it for lane in lanes_of([it for it in windows_of(moment) if it[1][0] == index]) for it in lane):
            if shown is None and name not in links:
                continue
            said = texts_of(name, seen_through(word, window), kinds.get(name, ""), name in links)
            at = len(parts)
            parts.append(shown[at] if shown and at < len(shown) and shown[at] in said else said[0])
    return f"Block {place}, {count(len(words), 'word')}{lost}{led}. {', '.join(parts)}"


def texts_of(name: str, value: int, kind: str, is_link: bool) -> list[str]:
    """What may be said of a cell: as a number, with the text that it may be, or as a text."""
    if is_link:
        return [f"{name} leads to {value}"]
    text = (chr(value + 32) if 0 < value < 64 else text_of(value)) if kind == "text" else ""
    return [f"{name} {value}", f"{name} {value} {letter_of(value)}", *([f"{name} {text}"] if text else [])]


def blocks(moment: Moment, before: Moment | None, bugs: list[str], kinds: dict[str, str], got: list[list]) -> list[list[object]]:
    """All blocks: place, whether it is lost and new, what is spoken of it, and the cells where it is a card."""
    cards = {it[0]: it for it in got}
    found = []
    for place in sorted(moment.blocks):
        *_, label, cells = cards.get(str(place), ["", False, False, "", None])
        shown = label.partition(". ")[2].split(", ") if cells is not None else None
        found.append([str(place), place not in moment.reached, is_new(moment, before, place),
                      label_of(moment, place, bugs, kinds, shown),
                      cells_of(moment, before, place) if cells is not None else None])
    return found


def arrows(moment: Moment, before: Moment | None, kinds: dict[str, str]) -> list[list[object]]:
    """All arrows: from which block, of which field, to which block, and whether that has changed."""
    found = []
    windows = dict(windows_of(moment))
    for place in moment.blocks:
        for name, target in links_of(moment, place, kinds):
            word = windows[name][0]
            old = before.blocks.get(place) if before else None
            changed = old is not None and word < len(old) and seen_through(old[word], windows[name]) != target
            found.append([str(place), name, str(target), is_new(moment, before, place) or changed])
    return sorted(found)


def drawing_label(moment: Moment, bugs: list[str], kinds: dict[str, str]) -> str:
    """What is spoken of the whole drawing."""
    if not moment.blocks:
        return "No blocks"
    lost = len(moment.blocks) - len(moment.reached)
    links = [f"{name} of {place} to {target}" for place in shown_places(moment) if place in moment.reached
             for name, target in links_of(moment, place, kinds)]
    leads = [f"{name} leads to {moment.bugs[name]}" for name in bugs]
    return "; ".join([f"{count(len(moment.reached), 'block')}{f', and {lost:,} lost' if lost else ''}", *leads, *links[:60]])
