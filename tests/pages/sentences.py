#!/usr/bin/env python3
"""Compares sentences of the pages with what happens: each module makes what some of them tell of, and has their words from that.

sentences.py PROGRAM prints each difference, and last 'N passed, M failed'. With L6_ONLY=MODULE: the trials of one module are
made alone, as in L6_ONLY=store_sentences:. The modules are made side by side.
"""
from __future__ import annotations

import functools
import sys
from collections.abc import Callable, Iterator, Sequence
from pathlib import Path

sys.path[:0] = [str(Path(__file__).resolve().parents[1] / it) for it in ("harness", "program")]
import adapter_sentences
import architecture_sentences
import card_sentences
import changes_sentences
import check_sentences
import class_sentences
import command_sentences
import debugger_sentences
import decision_sentences
import definition_runs
import definition_sentences
import editor_sentences
import failing_sentences
import fault_sentences
import front_sentences
import gallery_sentences
import gate_sentences
import image_tables
import installing_sentences
import job_sentences
import judged_sentences
import l6db_sentences
import language_sentences
import lesson_sentences
import list_sentences
import listing_sentences
import manual_sentences
import page_sentences
import placed_names
import places_sentences
import promised_sentences
import recipe_sentences
import session_sentences
import sheet_sentences
import spec_sentences
import step_sentences
import store_sentences
import trace_sentences
import twice_freed_sentences
import unit_sentences
import wrapper_sentences
from page_tables import canary, report_of
from trials import Trial, groups_asked_for, side_by_side

Group = Callable[[str], Iterator[Trial]]  # of a program
MODULES = (
    (store_sentences.store_sentences, store_sentences.CANARIES),
    (list_sentences.list_sentences, list_sentences.CANARIES),
    (places_sentences.places_sentences, places_sentences.CANARIES),
    (trace_sentences.trace_sentences, trace_sentences.CANARIES),
    (judged_sentences.judged_sentences, judged_sentences.CANARIES),
    (editor_sentences.editor_sentences, editor_sentences.CANARIES),
    (adapter_sentences.adapter_sentences, adapter_sentences.CANARIES),
    (twice_freed_sentences.twice_freed_sentences, twice_freed_sentences.CANARIES),
    (page_sentences.page_sentences, page_sentences.CANARIES),
    (changes_sentences.changes_sentences, changes_sentences.CANARIES),
    (front_sentences.front_sentences, front_sentences.CANARIES),
    (unit_sentences.unit_sentences, unit_sentences.CANARIES),
    (wrapper_sentences.wrapper_sentences, wrapper_sentences.CANARIES),
    (class_sentences.class_sentences, class_sentences.CANARIES),
    (fault_sentences.fault_sentences, fault_sentences.CANARIES),
)
# Those whose canaries each make a group of trials alone.
BY_GROUPS: tuple[tuple[Group, Sequence[tuple[Group, str, str, str]]], ...] = (
    (card_sentences.card_sentences, card_sentences.TURNED),
    (language_sentences.language_sentences, language_sentences.TURNED),
    (job_sentences.job_sentences, job_sentences.TURNED),
    (check_sentences.check_sentences, check_sentences.TURNED),
    (listing_sentences.listing_sentences, listing_sentences.TURNED),
    (debugger_sentences.debugger_sentences, debugger_sentences.TURNED),
    (session_sentences.session_sentences, session_sentences.TURNED),
    (l6db_sentences.l6db_sentences, l6db_sentences.TURNED),
    (command_sentences.command_sentences, command_sentences.TURNED),
    (sheet_sentences.sheet_sentences, sheet_sentences.TURNED),
    (lesson_sentences.lesson_sentences, lesson_sentences.TURNED),
    (definition_sentences.definition_sentences, definition_sentences.TURNED),
    (definition_runs.definition_runs, definition_runs.TURNED),
    (spec_sentences.spec_sentences, spec_sentences.TURNED),
    (architecture_sentences.architecture_sentences, architecture_sentences.TURNED),
    (gallery_sentences.gallery_sentences, gallery_sentences.TURNED),
    (installing_sentences.installing_sentences, installing_sentences.TURNED),
    (promised_sentences.promised_sentences, promised_sentences.TURNED),
    (recipe_sentences.recipe_sentences, recipe_sentences.TURNED),
    (decision_sentences.decision_sentences, decision_sentences.TURNED),
    (step_sentences.step_sentences, step_sentences.TURNED),
    (manual_sentences.manual_sentences, manual_sentences.TURNED),
    (image_tables.image_tables, image_tables.TURNED),
    (failing_sentences.failing_sentences, failing_sentences.TURNED),
    (placed_names.placed_names, placed_names.TURNED),
    (gate_sentences.gate_sentences, gate_sentences.TURNED),
)


AT_A_TIME = 2  # modules that are made side by side


def trials(program: str) -> Iterator[Trial]:
    """Those of all modules, or of the one that is asked for; and that each has a page that is turned round."""
    groups = {made.__name__: functools.partial(made, program) for made, _ in (*MODULES, *BY_GROUPS)}
    asked = groups_asked_for(groups)
    yield from side_by_side({name: made for name, made in groups.items() if name in asked}, AT_A_TIME)
    yield "modules without a page that is turned round", [], [made.__name__ for made, rows in (*MODULES, *BY_GROUPS) if not rows]


def canaries(program: str) -> Iterator[Trial]:
    """Pages with a sentence each that is turned round."""
    groups = {made.__name__: functools.partial(turned_round, program, made.__name__) for made, _ in (*MODULES, *BY_GROUPS)}
    asked = groups_asked_for(groups)
    yield from side_by_side({name: made for name, made in groups.items() if name in asked}, AT_A_TIME)


def turned_round(program: str, module: str) -> Iterator[Trial]:
    """The pages of a module with a sentence each that is turned round."""
    for made, rows in MODULES:
        if made.__name__ == module:
            yield from (canary(page, old, new, lambda: made(program)) for page, old, new in rows)
    for made, turned in BY_GROUPS:
        if made.__name__ == module:
            yield from (canary(page, old, new, lambda: group(program)) for group, page, old, new in turned)


if __name__ == "__main__":
    sys.exit(report_of(__doc__, trials, canaries))
