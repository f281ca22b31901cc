"""Trials of the scripts ./l6db and ./l6ed, which find their programs as ./l6 does."""
from __future__ import annotations

from collections.abc import Iterator
from pathlib import Path

from answers import Answer
from checkout import Checkout
from trials import Trial


def further_programs(checkout: Checkout) -> Iterator[Trial]:
    """./l6db and ./l6ed give their words and their input on as they are, also by a link from another folder."""
    words, path = ["a b", "", "*", "$HOME", "-x"], {"PATH": str(checkout.folder / "plain"), "STATUS": "3"}
    expected = Answer(checkout.made_of + "".join(f"<{word}>\n" for word in words) + "typed", "", 3)
    for name in ("l6db", "l6ed"):
        (checkout.top / f"dist/{name}").write_text((checkout.top / "dist/l6").read_text().replace("|| exit 64", "|| exit 0"))
        (checkout.top / f"dist/{name}").chmod(0o755)
        (checkout.folder / f"a link to {name}").symlink_to(checkout.top / name)
        noted = f'top=$PWD; . tools/program.sh; provenance_of dist/{name} "toolchain a toolchain" > dist/{name}.provenance'
        checkout.run_words(["sh", "-c", noted], checkout.top, path)
        for command in (checkout.top / name, checkout.folder / f"a link to {name}"):
            actual = checkout.run_words([str(command), *words], Path("/"), path, input="typed")
            yield f"the words of {command.name}", expected, actual
        yield f"{name} with a path for cd", Answer(checkout.made_of, "", 0), by_path_for_cd(checkout, name)


def by_path_for_cd(checkout: Checkout, name: str) -> Answer[str]:
    """The answer of a script by a relative path, where cd would look for that elsewhere first, and say where it went."""
    elsewhere = checkout.folder / "elsewhere"
    (elsewhere / checkout.top.name).mkdir(parents=True, exist_ok=True)
    path = {"PATH": str(checkout.folder / "plain"), "CDPATH": str(elsewhere)}
    return checkout.run_words([f"{checkout.top.name}/{name}"], checkout.top.parent, path)
