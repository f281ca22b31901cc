#!/usr/bin/env python3
"""Tries the edits that the prover must refuse, many in one check.

The edits of a crate are the files NAME.edit in its folder edits/. Many are tried in one check, in a copy
of the crate that begins with what its own check has kept (edit_bench.py).

An edit is refused if a goal of its function is, or any goal of the crate if it changes a constant or a type.
If only a proof breaks that was written by hand, the edit counts as refused, too, but a line names it, and
each crate's line says how many there are: with another proof it might not be refused. An edit that is refused
without either is a bad edit.

What is refused is written to the file verdicts (edit_verdicts.py). An edit is tried again if anything has changed
on which its verdict depends, or with --anew. With --sample, as in the gate, all edits of some crates are, too.

Each edit that is not refused has a line that says why, and each crate one that says what its checks
took. The last line is 'N passed, M failed'. Standard error reports each check as it ends.
"""
from __future__ import annotations

import argparse
import sys
import traceback
from collections.abc import Iterator
from concurrent.futures import ThreadPoolExecutor, as_completed
from pathlib import Path

sys.path[:0] = [str(Path(__file__).resolve().parents[1] / it) for it in ("harness", "../tools")]
from commands import Commands, run_program
from crates import read_crates
from edit_bench import Bench, trials_of
from edit_verdicts import commit, sample
from lanes import Lanes, processors
from prove import prove
from trials import Trial, report

MOST_LINES = 3_500  # of a crate and those below it that are proved again for a sample


def main() -> int:
    """Tries the edits, prints what became of them, and returns the exit status."""
    parser = argparse.ArgumentParser(description=__doc__.split("\n", 1)[0])
    parser.add_argument("crates", nargs="*", metavar="CRATE", help="only the edits of these crates")
    parser.add_argument("--only", default="", metavar="WORD", help="only edits with this in their name")
    parser.add_argument("--texts", action="store_true", help="only see that each old text is there once")
    parser.add_argument("--anew", action="store_true", help="try those that were refused before, too")
    parser.add_argument("--sample", action="store_true", help="try a twentieth of those that were refused before")
    parser.add_argument("--jobs", type=int, default=processors(), help="how many checks at a time")
    options = parser.parse_args()
    known = read_crates()
    chosen = [known[name] for name in options.crates or known]
    lanes, commands = Lanes(options.jobs), Commands()
    benches = [Bench(it, trials_of(it, options.only), lanes, commands) for it in chosen]
    benches = sorted((it for it in benches if it.trials), key=lambda it: -it.crate.lines)
    if options.texts:
        return report(texts(benches))
    again = {it.crate.name for it in benches} if options.anew else set()
    if options.sample:
        costly = {it.crate.name for it in benches if sum(one.lines for one in (*it.crate.below, it.crate)) > MOST_LINES}
        again |= sample({it.crate.name: len(it.trials) for it in benches}, commit(), costly)
        print(f"tried again, whatever is known of them: all edits of {', '.join(sorted(again))}")
    return report(all_tried(benches, options.jobs, commands, again))


def texts(benches: list[Bench]) -> Iterator[Trial]:
    """The trials that each edit can be applied."""
    for bench in benches:
        bench.read_all()
        for trial in bench.trials:
            yield bench.name_of(trial), "can be applied", trial.failure or "can be applied"


def all_tried(benches: list[Bench], jobs: int, commands: Commands, again: set[str]) -> Iterator[Trial]:
    """The trials that each edit is refused, those of a crate once all of them were tried.

    The crates that have edits to be tried are proved first. All edits of those that are named are tried again.
    """
    for bench in benches:
        bench.recall(bench.crate.name not in again)
    if not prove([it.crate for it in benches if it.is_open], jobs, commands):
        yield "the crates without an edit", "proved", "a crate is not proved"
        return
    with ThreadPoolExecutor(max(len(benches), 1)) as pool:
        try:
            runs = {pool.submit(bench.try_all): bench for bench in benches}
            for run in as_completed(runs):
                bench, error = runs[run], run.exception()
                if error:
                    traceback.print_exception(error)
                    yield f"the edits of {bench.crate.name}", "tried", f"not all tried: {error!r}"
                for trial in bench.trials:
                    yield bench.name_of(trial), "refused", "refused" if trial.is_refused else trial.failure
                    if trial.by_proof_alone:
                        print(f"{bench.name_of(trial)}: only a proof that was written by hand refuses it")
                if not error:
                    print(run.result(), flush=True)
        except BaseException:
            commands.stop()
            raise


if __name__ == "__main__":
    run_program(main)
