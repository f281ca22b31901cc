"""What the page must say of a state of a run, by the model: each text as a reader of docs/ expects it."""
from __future__ import annotations

from modelled import Moment, Part, Run, Saved

WORD_BITS = 36
FULL_STOP = 14
MOST_TOLD = 7  # changes that are listed
LINE = 80  # characters that a line of the input gives


def commas(number: int) -> str:
    return f"{number:,}"


def count(number: int, one: str, many: str = "") -> str:
    return f"{number:,} {one if number == 1 else many or one + 's'}"


def text_of(number: int) -> str:
    """The text that a number is the code of, if that is two letters and more, or ""."""
    text = ""
    while number > 0:
        number, digit = divmod(number, 64)
        text = chr(digit + 32) + text
    text = text.strip()
    letters = set("ABCDEFGHIJKLMNOPQRSTUVWXYZ")
    is_text = len(text) > 1 and text[0] in letters and text[-1] in letters | {"."} and set(text) <= letters | set(" .'-")
    return text if is_text else ""


def letter_of(number: int) -> str:
    """The letter, or the text, that a number may be, or ""."""
    return chr(number + 32) if 33 <= number <= 58 else text_of(number)


def seen_through(word: int, window: tuple[int, int, int]) -> int:
    _, first, last = window
    return word >> (WORD_BITS - 1 - last) & (1 << last - first + 1) - 1


def windows_of(moment: Moment) -> list[tuple[str, tuple[int, int, int]]]:
    """The windows of the fields, each once, with their names: from the first word on, and in each from the left."""
    names: dict[tuple[int, int, int], list[str]] = {}
    for name, window in moment.fields.items():
        names.setdefault(window, []).append(name)
    return [(" ".join(names[it]), it) for it in sorted(names, key=lambda it: (it[0], it[1], -it[2]))]


# ---- Tables

def names_shown(moment: Moment, before: Moment | None) -> list[str]:
    return sorted({*moment.bugs, *(before.bugs if before else {})})


def hint(moment: Moment, value: int) -> str:
    """What is beside a number in a table: an arrow to the block whose place it is, or a text."""
    if value in moment.blocks:
        return "→"
    text = letter_of(value) or ("." if value == FULL_STOP and moment.taken else "")
    return f"“{text}”" if text else ""


def bug_rows(moment: Moment, before: Moment | None) -> list[list[object]]:
    """The table of bugs: name, number, hint, octal digits, and whether it has changed."""
    rows: list[list[object]] = []
    names = names_shown(moment, before)
    has_octal = not any(moment.bugs.get(it, 0) > 9_999_999 and hint(moment, moment.bugs[it]) for it in names)
    for name in names:
        value = moment.bugs.get(name, 0)
        changed = before is not None and before.bugs.get(name, 0) != value
        rows.append([name, str(value), hint(moment, value), f"{value:012o}" if has_octal else "", changed])
    return rows


def bug_cards(moment: Moment, before: Moment | None) -> list[list[object]]:
    """The bugs as cards, where no block is in use."""
    if moment.blocks:
        return []
    return [[name, str(moment.bugs.get(name, 0)), f"“{text}”" if (text := letter_of(moment.bugs.get(name, 0))) else "\u00a0",
             before is not None and before.bugs.get(name, 0) != moment.bugs.get(name, 0)] for name in names_shown(moment, before)]


def amounts(moment: Moment) -> str:
    parts = [
        f"{count(len(moment.contents), 'content')} saved" if moment.contents else "",
        f"{count(len(moment.definitions), 'definition')} saved" if moment.definitions else "",
        count(len(moment.calls), "call waits", "calls wait") if moment.calls else "",
        f"{count(moment.taken, 'character')} taken" if moment.taken else "",
    ]
    said = ", ".join(it for it in parts if it)
    return f"{said}." if said else ""


def field_rows(moment: Moment) -> list[list[str]]:
    """Of each word that has fields, the line above its bits."""
    windows = windows_of(moment)
    words = sorted({window[0] for _, window in windows})
    return [[f"word {word}", "  ".join(f"{name} {first}–{last}".replace(" ", "\u00a0")
                                       for name, (at, first, last) in windows if at == word)] for word in words]


def field_bits(moment: Moment, before: Moment | None) -> list[list[object]]:
    """The bars of the fields: each name, its first bit, its width, and whether its definition has changed."""
    return sorted([name, first, last - first + 1,
                   before is not None and any(before.fields.get(it) != (word, first, last) for it in name.split())]
                  for name, (word, first, last) in windows_of(moment))


# ---- Where the run is

def next_part(run: Run, moment: Moment) -> Part | None:
    """The part that comes next; None where the run has ended otherwise than by a trap."""
    if moment.ending not in ("", "TRAP"):
        return None
    statement, action = (moment.statement, moment.action) if moment.ending else run.next_shown(moment)
    return run.parts[statement][action] if statement < len(run.parts) else Part(-1, 0, 0, "DONE")


def last_number(run: Run) -> str:
    return commas(run.moments[-1].number)


def disabled(moment: Moment) -> list[str]:
    """The controls that do nothing in a state."""
    found = ["end", "out", "over", "statement", "step"] if moment.ending else []
    return sorted([*found, *(["back", "start"] if moment.number == 0 else []), "stop"])


# ---- What has changed

def changes(run: Run, before: Moment, moment: Moment, is_step: bool, isUndone: bool = False) -> list[str]:
    """What has changed from one state to another, in sentences."""
    step = before if is_step else None
    return [*block_changes(before, moment, step), *bug_changes(before, moment), *field_changes(before, moment),
            *word_changes(before, moment, before if isUndone else moment), *amount_changes(run, before, moment)]


def block_changes(before: Moment, moment: Moment, step: Moment | None) -> list[str]:
    found = []
    for place in sorted({*before.blocks, *moment.blocks}):
        was, now = before.blocks.get(place), moment.blocks.get(place)
        is_lost, was_lost = now is not None and place not in moment.reached, was is not None and place not in before.reached
        if now is not None and (was is None or len(was) != len(now)):
            found.append(f"got {count(len(now), 'word')} at {place}{got_how(before, place, len(now)) if step else ''}")
        if is_lost and not was_lost:
            found.append(f"block {place} is lost: nothing leads to it")
        if now is not None and not is_lost and was_lost:
            found.append(f"block {place} is lost no more")
        if was is not None and (now is None or len(was) != len(now)):
            found.append(f"freed {count(len(was), 'word')} at {place}{freed_how(moment, place, len(was)) if step else ''}")
    return found


def got_how(before: Moment, place: int, size: int) -> str:
    """From what a block was taken."""
    _, piece = before.free_piece(place)
    waste = before.wanted is not None and before.wanted < size
    said = f"{commas(before.wanted or 0)} asked for, so {commas(size - (before.wanted or 0))} wasted; " if waste else ""
    if not piece:
        return ""
    times = piece.bit_length() - size.bit_length()
    if times:
        return f" ({said}a free piece of {commas(piece)} was halved {count(times, 'time')})"
    return f" ({said}a free piece of this size was there: none was halved)"


def freed_how(moment: Moment, place: int, size: int) -> str:
    """To what the words of a freed block were joined."""
    at, piece = moment.free_piece(place)
    if not piece:
        return ""
    times = piece.bit_length() - size.bit_length()
    if piece == 1024:
        return f" (it was joined {count(times, 'time')}, to a free piece of 1,024, which is a whole unit)" if times else \
            " (it is a whole unit, which has no buddy)"
    buddy = at + piece if at % (2 * piece) == 0 else at - piece
    why = f"at {buddy} is {'a block' if len(moment.blocks.get(buddy, [])) == piece else 'not free as a whole'}"
    if not times:
        return f" (it was not joined, since its buddy {why})"
    return f" (it was joined {count(times, 'time')}, to a free piece of {commas(piece)}, and no more, since " \
        f"the buddy of that piece {why})"


def bug_changes(before: Moment, moment: Moment) -> list[str]:
    pairs = [(name, before.bugs.get(name, 0), moment.bugs.get(name, 0)) for name in names_shown(moment, before)]
    return [f"{name} was {was}, is {now}" for name, was, now in pairs if was != now]


def field_changes(before: Moment, moment: Moment) -> list[str]:
    def told(name: str) -> str:
        window = moment.fields.get(name)
        if not window:
            return f"field {name} has no definition"
        return f"field {name} is word {window[0]}, bits {window[1]} to {window[2]}"

    names = sorted({*before.fields, *moment.fields})
    return [told(name) for name in names if before.fields.get(name) != moment.fields.get(name)]


def shown_places(moment: Moment) -> list[int]:
    """The blocks in the order in which they are met from the bugs on; then those that are lost."""
    met: list[int] = []
    for place in moment.bugs.values():
        if place in moment.blocks and place not in met:
            met.append(place)
    for place in met:
        met += [it for it in dict.fromkeys(target for _, target in moment.links[place]) if it not in met]
    return [*met, *(it for it in moment.blocks if it not in moment.reached)]


def word_changes(before: Moment, moment: Moment, shown: Moment) -> list[str]:
    found = []
    for place in shown_places(shown):
        was, now = before.blocks.get(place), moment.blocks.get(place)
        if was is None or now is None or len(was) != len(now):
            continue
        for index, (old, new) in enumerate(zip(was, now)):
            own = [(name, seen_through(old, it), seen_through(new, it)) for name, it in windows_of(moment) if it[0] == index]
            told = [f"{name} of {place} was {one}, is {other}" for name, one, other in own if one != other]
            found += told or ([f"word {index} of {place} is another"] if old != new else [])
    return found


def amount_changes(run: Run, before: Moment, moment: Moment) -> list[str]:
    found = []
    for name, was, now in (("content", before.contents, moment.contents), ("definition", before.definitions, moment.definitions)):
        more = len(now) - len(was)
        if more:
            found.append(f"saved {count(more, name)}" if more > 0 else f"restored {count(-more, name)}")
    waits = len(moment.calls)
    if waits > len(before.calls):
        found.append(f"called: {count(waits, 'return waits', 'returns wait')}")
    if waits < len(before.calls):
        found.append("returned")
    if moment.taken > before.taken:
        found.append(f"took {taken(run.text, before.taken, moment.taken)} from the input")
    if moment.output != before.output and len(moment.output) > len(before.output):
        found.append(f"printed {quoted(moment.output[len(before.output):])}")
    return found


def taken(text: str, begin: int, end: int) -> str:
    if end - begin > 20:
        return count(end - begin, "character")
    lines = text.split("\n")
    padded = [line.ljust(LINE)[:LINE] for line in lines]
    return quoted("".join(padded)[begin:end].upper())


def quoted(text: str) -> str:
    line = text.replace("\n", "⏎")
    return f"“{line[:28]}..”" if len(line) > 30 else f"“{line}”"


def shortened(found: list[str]) -> list[str]:
    if len(found) <= MOST_TOLD:
        return found
    return [*found[:MOST_TOLD - 1], f"and {len(found) - MOST_TOLD + 1} more changes"]


# ---- Calls

def frames(run: Run, moment: Moment) -> list[str]:
    """The calls that wait, newest first, each with what was saved in it; last what was saved outside of calls."""
    found = []
    begun = [*reversed(moment.calls), None]
    for call in begun:
        above = [it for it in moment.calls if call and it.number > call.number]
        until = min((it.number for it in above), default=10**12)
        since = call.number if call else -1
        inside = [it for it in reversed(moment.contents) if since < it.number < until and owner(moment, it) is call]
        defined = [it for it in reversed(moment.definitions) if since < it.number and owner(moment, it) is call]
        if call or inside or defined:
            found.append(call_text(run, call) + "".join(map(lambda it: content_text(moment, it), inside)) +
                         "".join(map(definition_text, defined)))
    return found


def calls(run: Run, moment: Moment) -> str | None:
    """What is above the calls: how many wait; None where the deck neither calls nor saves anything."""
    stacks = {"DO", "SFC", "RFC", "SFD", "RFD"}
    if not any(row.name in stacks for statement in run.assembly.program for row in statement.operations):
        return None
    return f"Calls {len(moment.calls)}" if frames(run, moment) else "No call waits, and nothing is saved."


def owner(moment: Moment, saved: Saved) -> Saved | None:
    """The call in which something was saved: the latest one before it that waits."""
    return next((it for it in reversed(moment.calls) if it.number < saved.number), None)


def call_text(run: Run, call: Saved | None) -> str:
    if call is None:
        return "outside of calls"
    label, _, *fail = call.operation.strip("()").replace(" ", "").split(",")
    own = run.assembly.spelled[call.statement].label
    return f"{label} from statement {call.statement}{' ' + own if own else ''}{', FAIL: ' + fail[0] if fail else ''} at {call.number}"


def content_text(moment: Moment, saved: Saved) -> str:
    chain = saved.operation.strip("()").replace(" ", "").split(",")[2]
    assert isinstance(saved.value, int)
    return f"{chain} = {saved.value} {hint(moment, saved.value)}"


def definition_text(saved: Saved) -> str:
    name = saved.operation.strip("()").replace(" ", "").split(",")[2]
    if not isinstance(saved.value, tuple):
        return f"field {name} = no definition"
    word, first, last = saved.value
    return f"field {name} = word {word}, bits {first}–{last}"


# ---- The store

def store_text(moment: Moment, units: int) -> str:
    sizes = [len(words) for words in moment.blocks.values()]
    lost = len(moment.blocks) - len(moment.reached)
    largest = max(moment.free.values(), default=0)
    return f"{count(len(sizes), 'block')}{f', {commas(lost)} lost' if lost else ''}; {count(sum(sizes), 'word')} used, " \
        f"{commas(units * 1024 - sum(sizes))} free{f', largest {commas(largest)}' if largest else ''}"


def strip_text(moment: Moment, unit: int, by_size: bool = False) -> str:
    """The pieces of a unit, up to the least power of two of words, from 32 on, that has all of its blocks."""
    begin = 1024 * (unit + 1)
    ends = [place + len(words) - begin for place, words in moment.blocks.items() if begin <= place < begin + 1024]
    size = 32
    while size < max(ends, default=0):
        size *= 2
    end = begin + (1024 if by_size else size)
    pieces = [(place, f"{place} {'' if place in moment.reached else 'lost '}block of {len(words)}")
              for place, words in moment.blocks.items()]
    pieces += [(place, f"{place} free of {size}") for place, size in moment.free.items()]
    own = [text for place, text in sorted(pieces) if begin <= place < end]
    more = len(own) - 40
    return ", ".join(own[:40]) + (f" and {count(more, 'more piece', 'more pieces')}" if more > 0 else "")


# ---- What is spoken, and warned of

def spoken(moment: Moment, part: Part | None, found: list[str], is_back: bool) -> list[str]:
    """The begin of what is spoken of a state, and its end."""
    begin = moment.line.replace("== ", "") if moment.ending else \
        f"Statement {moment.statement}, after {count(moment.steps, 'step')}. {f'Next: {part.text} ' if part else 'Next: '}"
    what = "Undone" if is_back else "Changed"
    return [begin, f"{what}: {'; '.join(shortened(found))}" if found else ""]
