"""Where the edits of a crate are tried: in copies of their functions, together with others, and alone.

If several edits change one function, each changes a copy of that function (edit_copies.py), and is refused if the
copy is, for goals of its own. An edit that can't be tried that way is tried in place, together with edits of other
functions; then without the edits of the functions that it calls; and then alone. check_report.py says what the
lines of a check mean for an edit.
"""
from __future__ import annotations

import contextlib
import shutil
import sys
import tempfile
import threading
import time
from collections import Counter
from collections.abc import Callable
from concurrent.futures import ThreadPoolExecutor
from dataclasses import dataclass
from pathlib import Path
from typing import TypeVar

from check_report import Report, Said, files_with_errors
from commands import Commands
from crates import Crate
from edit_copies import Copied, copy_functions
from edit_files import BadEdit, Edit, Function
from edit_verdicts import Verdicts
from lanes import ALL_MEMORY, Lanes
from rooms import room_of

Item = TypeVar("Item")
Result = TypeVar("Result")

FOLDER = "edits"
COPIES = 16  # how many edited copies are tried in one check


@dataclass
class EditTrial:
    """An edit, the functions that it changes, and what became of it."""

    edit: Edit
    functions: frozenset[Function | None] = frozenset()
    is_refused: bool = False
    by_proof_alone: bool = False  # whether a proof that was written by hand refuses it, and no goal
    failure: str | None = None  # why it is not refused, once that is known

    @property
    def is_open(self) -> bool:
        """Whether it is still to be tried."""
        return not self.is_refused and self.failure is None

    @property
    def changes_functions(self) -> bool:
        """Whether it changes functions and nothing else, such as a constant or a type."""
        return bool(self.functions) and None not in self.functions

    @property
    def function(self) -> Function | None:
        """The function that it changes, if that is one that may be copied."""
        only = next(iter(self.functions)) if len(self.functions) == 1 else None
        return only if only and not only.is_of_trait else None

    def note(self, said: Said) -> None:
        """Notes what a check says of the edit."""
        self.is_refused = said in (Said.REFUSED, Said.UNPROVED)
        self.by_proof_alone = said is Said.UNPROVED


class Bench:
    """Where the edits of a crate are tried."""

    def __init__(self, crate: Crate, trials: list[EditTrial], lanes: Lanes, commands: Commands) -> None:
        self.crate, self.trials = crate, trials
        self.checks, self.processor_seconds, self.known = 0, 0.0, 0
        self._lanes, self._commands = lanes, commands
        self._lock = threading.Lock()  # of the two counts of checks
        self._verdicts: Verdicts | None = None

    @property
    def is_open(self) -> bool:
        """Whether an edit is still to be tried."""
        return any(trial.is_open for trial in self.trials)

    def recall(self, is_believed: bool) -> None:
        """Finds what each edit changes, and which edits that can be applied were refused before."""
        self.read_all()
        self._verdicts = Verdicts(self.crate, is_believed)
        for trial in self.trials:
            by_proof_alone = self._verdicts.refused(trial.edit) if trial.is_open else None
            if by_proof_alone is not None:
                trial.note(Said.UNPROVED if by_proof_alone else Said.REFUSED)
                self.known += 1

    def try_all(self) -> str:
        """Tries all edits that are open, and writes what is refused; returns a line that says what that took."""
        start = time.monotonic()
        self._try_open()
        if self._verdicts:
            lost = {it.edit.name for it in self.trials if not it.is_refused}
            self._verdicts.write(
                ((it.edit, it.by_proof_alone) for it in self.trials if it.is_refused),
                (file.stem for file in edit_files(self.crate) if file.stem not in lost),
            )
        refused = sum(trial.is_refused for trial in self.trials)
        by_proof_alone = sum(trial.by_proof_alone for trial in self.trials)
        return (
            f"{self.crate.name}: {refused} of {len(self.trials)} edits refused, {by_proof_alone} of them"
            f" only by a proof that was written by hand, {self.known} of them before, and the others in"
            f" {self.checks} checks; {time.monotonic() - start:.0f} s, {self.processor_seconds:.0f} s of"
            " processor time"
        )

    def _try_open(self) -> None:
        """Tries the edits that are open: in copies, together, and alone."""
        opened = [trial for trial in self.trials if trial.is_open]
        changed = Counter(trial.function for trial in opened)
        copies = [trial for trial in opened if trial.function and changed[trial.function] > 1]
        chunks = [copies[n:n + COPIES] for n in range(0, len(copies), COPIES)]
        self._side_by_side(self._try_copies, chunks)
        together = [trial for trial in self.trials if trial.is_open and trial.changes_functions]
        tried: list[EditTrial] = []
        while len(together) != len(tried):  # all, and then those alone that call another edited one
            tried = together
            blocked = self._side_by_side(self._try_together, put_together(tried))
            together = [trial for batch in blocked for trial in batch]
        self._side_by_side(self._try_alone, [trial for trial in self.trials if trial.is_open])

    def read_all(self) -> None:
        """Finds what each edit changes, or why it cannot be applied."""
        for trial in self.trials:
            self._find_functions(trial)

    def name_of(self, trial: EditTrial) -> str:
        """The name of an edit, with its crate's."""
        return f"{self.crate.name}/{trial.edit.name}"

    def _side_by_side(self, call: Callable[[Item], Result], values: list[Item]) -> list[Result]:
        """Calls a method for each value, in threads; the lanes decide how many really run."""
        with ThreadPoolExecutor(max(len(values), 1)) as pool:
            return list(pool.map(call, values))

    def _find_functions(self, trial: EditTrial) -> None:
        """Finds the functions that an edit changes, or why it cannot be applied."""
        with tempfile.TemporaryDirectory(prefix="l6-edit-") as room:
            shutil.copytree(self.crate.folder / "src", Path(room, "src"))
            try:
                trial.functions = trial.edit.apply(Path(room), self.crate.name)
            except BadEdit as why:
                trial.failure = f"BAD EDIT: {why}"

    def _try_copies(self, batch: list[EditTrial]) -> None:
        """Tries edits in copies of their functions, which are put beside them, in one check."""
        copies: dict[Edit, Copied] = {}

        def prepare(folder: Path) -> None:
            found = [(trial.edit, trial.function) for trial in batch if trial.function]
            copies.update(copy_functions(found, folder, self.crate.name))

        check = self._checked_in(self.crate.memory, prepare)
        for trial in batch:
            copy = copies.get(trial.edit)
            if copy and check.judged and check.proves(copy.unedited):
                trial.note(check.says(copy.edited))
        refused = sum(trial.is_refused for trial in batch)
        self._say(f"{refused} of {len(batch)} edits that were tried in copies are refused", check)

    def _try_together(self, batch: list[EditTrial]) -> list[EditTrial]:
        """Tries edits of different functions in one check; returns those that wait for another's."""
        if len(batch) == 1:
            self._try_alone(batch[0])
            return []
        check = self._check(batch)
        if not check.judged:
            bad = [trial for trial in batch if check.cannot_read(filter(None, trial.functions))]
            good = [trial for trial in batch if trial not in bad]
            return self._try_together(good) if bad and good else []
        blocked = []
        for trial in batch:
            said = {check.says(function) for function in trial.functions if function}
            trial.note(next((it for it in (Said.REFUSED, Said.UNPROVED) if it in said), Said.SILENT))
            if Said.BLOCKED in said and not trial.is_refused:
                blocked.append(trial)
        refused = sum(trial.is_refused for trial in batch)
        self._say(f"{refused} of {len(batch)} edits that were tried together are refused", check)
        return blocked

    def _try_alone(self, trial: EditTrial) -> None:
        """Tries an edit by a check of its own."""
        check = self._check([trial])
        if check.proved:
            trial.failure = "NOT REFUSED: the crate is proved with it"
        elif not check.judged:
            trial.failure = f"BAD EDIT: the prover came to no verdict: {check.why()}"
        else:
            trial.note(check.says_alone(trial.functions))
            if not trial.is_refused:
                why = "no goal of its function is refused, change a value"
                trial.failure = f"BAD EDIT: {why}: {check.why()}"
        self._say(f"{trial.edit.name}, tried alone, is {'' if trial.is_refused else 'not '}refused", check)

    def _say(self, what: str, check: Report) -> None:
        """Prints what came of a check, and what it cost."""
        took = f"{check.processor_seconds:.0f} s of processor time"
        print(f"{self.crate.name}: {what}; {took}", file=sys.stderr, flush=True)

    def _check(self, trials: list[EditTrial]) -> Report:
        """Checks the crate with these edits; a check that was killed is made once more, alone."""

        def prepare(folder: Path) -> None:
            for trial in trials:
                # (where the text of one edit hides that of another, that is left to a check of its own)
                with contextlib.suppress(BadEdit):
                    trial.edit.apply(folder, self.crate.name)

        check = self._checked_in(self.crate.memory, prepare)
        if not check.judged and not check.unread:
            check = self._checked_in(ALL_MEMORY, prepare)
        return check

    def _checked_in(self, memory: int, prepare: Callable[[Path], None]) -> Report:
        """Checks a copy of the crate that was prepared; where the copy can't be made, nothing is judged."""
        try:
            with self._lanes.lane(memory, self.crate.lines), room_of(self.crate) as folder:
                prepare(folder)
                ended = self._commands.run(["rt", "check", "--jobs", "1"], folder)
                files = [it for it in files_with_errors(ended.text) if (folder / it).is_file()]
                proofs = {it: (folder / it).read_text("utf-8") for it in files}
        except OSError as why:  # such as a full disk
            return Report(1, f"{why}\n", 0.0)
        with self._lock:
            self.checks += 1
            self.processor_seconds += ended.processor_seconds
        return Report(ended.status, ended.text, ended.processor_seconds, proofs)


def put_together(trials: list[EditTrial]) -> list[list[EditTrial]]:
    """The edits in as few batches as possible; those of a batch change different functions."""
    batches: list[list[EditTrial]] = []
    for trial in trials:
        apart = (it for it in batches if all(trial.functions.isdisjoint(o.functions) for o in it))
        batch: list[EditTrial] = next(apart, [])
        if not batch:
            batches.append(batch)
        batch.append(trial)
    return batches


def trials_of(crate: Crate, word: str) -> list[EditTrial]:
    """The edits of a crate whose names have a word."""
    return [EditTrial(Edit(file)) for file in edit_files(crate) if word in file.stem]


def edit_files(crate: Crate) -> list[Path]:
    """The files of a crate's edits."""
    return sorted((crate.folder / FOLDER).glob("*.edit"))
