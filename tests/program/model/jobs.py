"""Jobs: their parts, and what each verb does with them."""
from __future__ import annotations

from dataclasses import dataclass

from .cards import assemble
from .characters import characters_of
from .debugger import Session
from .explanation import explanation_of
from .faults import Fault
from .images import image_of, load
from .listing import listing_of
from .printout import printout_of
from .state import Options, State, characters_of_input

JOB_LIMIT = 16_777_216  # bytes
IMAGE_LIMIT = 8_388_608
PART_LIMIT = 1_048_576  # of a deck, an input and commands

VERBS = ("run", "list", "asm", "load", "renew", "debug")
CHECK = "check"  # a verb of which the model says only whether a deck has an error, and on which card
RUNNING = ("run", "load", "debug")  # those that have options and take the input
LOADING = ("load", "renew")  # those for which an image stands in the deck's place


@dataclass
class Job:
    """The parts of a job."""

    deck: bytes  # or the image
    commands: bytes
    input: bytes


def answer_of_job(verb: str, text: bytes, options: Options) -> tuple[bytes, bytes, int]:
    """What goes to standard output for a job, what is said of a trap if that is asked for, and the exit status."""
    job = job_of(verb, text)
    if verb == CHECK:
        card = card_with_error(job.deck)
        return (b"%d: error\n" % card, b"", 4) if card else (b"", b"", 0)
    if verb == "list":
        return listing_of(assemble(job.deck)), b"", 0
    program = load(job.deck) if verb in LOADING else assemble(job.deck).program
    if verb not in RUNNING:
        return image_of(program), b"", 0
    characters = characters_of_input(job.input)
    if verb == "debug":
        return Session(program, characters, options).transcript(job.commands), b"", 0
    state = State(program, characters, options)
    printout, status = printout_of(state)
    return printout, b"" if verb in LOADING else explanation_of(state, job.deck), status


def card_with_error(deck: bytes) -> int:
    """The card on which a deck has the error at which its assembly stops, or 0."""
    try:
        assemble(deck)
    except Fault as fault:
        return fault.card
    return 0


def job_of(verb: str, text: bytes) -> Job:
    """The parts of a job, none of which may be too long."""
    if len(text) > JOB_LIMIT:
        raise Fault("job too long")
    front, text_of_input = parted(text, "$INPUT")
    deck, commands = parted(front, "$COMMANDS") if verb == "debug" else (front, b"")
    if verb in LOADING:
        limits = [("image", deck, IMAGE_LIMIT)]
    else:
        limits = [("deck", deck, PART_LIMIT)]
    if verb in RUNNING:
        limits += [("input", text_of_input, PART_LIMIT), ("commands", commands, PART_LIMIT)]
    for name, part, limit in limits:
        if len(part) > limit:
            raise Fault(f"{name} too long")
    return Job(deck, commands, text_of_input)


def parted(text: bytes, mark: str) -> tuple[bytes, bytes]:
    """What stands in a text before the first line that is a mark, and what stands behind that line."""
    start = 0
    while start < len(text):
        end = text.find(b"\n", start) + 1 or len(text)
        if is_mark(text[start:end], mark):
            return text[:start], text[end:]
        start = end
    return text, b""


def is_mark(line: bytes, mark: str) -> bool:
    """Whether a line is a mark: it has nothing behind that but blanks and its end."""
    line = line.removesuffix(b"\n").removesuffix(b"\r")
    return line.startswith(b"$") and characters_of(line).rstrip(" ") == mark
