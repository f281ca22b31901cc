"""Words of sentences that a program's behaviour decides: what a sentence tells of is made to happen, and its words compared.

A sentence stands in a table with ___ in the place of each word, and with the words that are right by what is seen.
So a page that says the opposite fails, as does one that no longer has the sentence.
"""
from __future__ import annotations

import functools
import re
from collections.abc import Callable, Iterable, Iterator, Mapping
from typing import NamedTuple

from answers import Answer, answer_of
from page_tables import plain, text_of
from trials import Trial

GAP, END = r"([^.|]{1,60}?)", r"([^\s.,;:|]+)"  # a gap, and one at an end of what stands in the table: a word
SHORT = {r"^== DONE .*$": "", r"^== (\w+(?: \d+)?).* AFTER \d+ STEPS$": r"\1", r"^l6: ": ""}  # what is left of lines
Words = str | tuple[str, ...]  # of one gap, or of more
Look = Callable[[Answer[bytes]], str]


class Told(NamedTuple):
    """A sentence and what shows which words it must have."""

    subject: str
    sentence: str
    words: Mapping[str, Words]  # by what is seen
    jobs: tuple[str, ...]
    command: str
    look: Look


@functools.cache
def answered(program: str, command: str, job: str) -> Answer[bytes]:
    """The answer to a job. Each of its characters is a byte."""
    return answer_of([program, *command.split()], input=job.encode("latin-1"))


def seen(answer: Answer[bytes]) -> str:
    """What is seen of an answer, in one line: what was printed, how it ended if not by DONE, and what is said."""
    text = (answer.stdout + answer.stderr).decode("latin-1")
    for pattern, short in SHORT.items():
        text = re.sub(pattern, short, text, flags=re.MULTILINE)
    return " ".join(text.split())


def streams(answer: Answer[bytes]) -> str:
    """To which of the two outputs something is written, and the exit status."""
    written = {"output": answer.stdout, "error": answer.stderr}
    return " ".join([*(name for name, text in written.items() if text), str(answer.status)])


def told(subject: str, sentence: str, words: Mapping[str, Words], *jobs: str, command: str = "run", look: Look = seen) -> Told:
    """A sentence that what is seen of these jobs decides."""
    return Told(subject, sentence, words, jobs, command, look)


def seen_of(program: str, command: str, *jobs: str, look: Look = seen) -> str:
    """What is seen of jobs, one after another; of one that prints nothing a dash."""
    return " | ".join(look(answered(program, command, job)) or "-" for job in jobs)


def found(page: str, sentence: str) -> list[Words]:
    """The words that stand in the gaps of a sentence, at each place of a page that has it."""
    first, *others = [re.escape(part) for part in sentence.split("___")]
    pattern = first or END
    for number, part in enumerate(others, 1):
        gap = "" if number == 1 and not first else GAP if part else END
        pattern += gap + part
    return re.findall(pattern, plain(text_of(page)))


def held(page: str, subject: str, sentence: str, words: Words | None) -> Trial:
    """The trial that a page has a sentence once, and that it has these words."""
    return f"{page}: {subject}", [words], found(page, sentence)


def retold(rows: Iterable[Told], sentences: Mapping[str, str]) -> Iterator[Told]:
    """Rows of which another page tells, too: its sentences, by the subjects of the rows, each with the first words of its row."""
    told_before = {row.subject: row for row in rows}
    for subject, sentence in sentences.items():
        row, gaps = told_before[subject], sentence.count("___")
        yield row._replace(sentence=sentence, words={what: first_words(words, gaps) for what, words in row.words.items()})


def first_words(words: Words, gaps: int) -> Words:
    """Of the words of a sentence those of its first gaps."""
    return words if isinstance(words, str) else words[0] if gaps == 1 else words[:gaps]


def all_held(program: str, page: str, rows: Iterable[Told]) -> Iterator[Trial]:
    """The trials of a table of sentences."""
    for row in rows:
        yield held(page, row.subject, row.sentence, row.words.get(seen_of(program, row.command, *row.jobs, look=row.look)))
