"""Code of tests and tools that does nothing, or says the same whatever it is given: what a trial that sees nothing looks like.

Names that nothing uses are found within a file, and functions that nothing calls within all files together.
"""
from __future__ import annotations

import ast
import re
from collections import Counter
from collections.abc import Iterable, Iterator
from pathlib import Path

from trials import Trial

Function = ast.FunctionDef | ast.AsyncFunctionDef
COUNTS = {"len", "sum"}  # what is never below 0
SWALLOWED = {"AssertionError", "BaseException", "Exception"}
# What stands in scripts all the same: a wait that a comparison of the same value follows.
# .. and keys of which those that are needed are picked out.
KNOWN = {
    "web/tests/page.py": ["a failed assertion that is swallowed"],
    "tests/scripts/release.py": ["an actual value that is made of the expected one"],
}
EMPTY = (ast.List, ast.Tuple, ast.Set)


def idle(tree: ast.Module) -> Iterator[tuple[int, str]]:
    """What does nothing in a file: its line, and what it is."""
    heirs = {it for one in ast.walk(tree) if isinstance(one, ast.ClassDef) and one.bases for it in one.body}  # (they have others' parameters)
    for node in ast.walk(tree):
        if isinstance(node, (ast.FunctionDef, ast.AsyncFunctionDef)):
            if node not in heirs:
                yield from idle_names(node)
            if says_one_thing(node):
                yield node.lineno, f"{node.name} always says the same"
        elif isinstance(node, (ast.For, ast.comprehension)) and is_empty(node.iter):
            yield node.iter.lineno, "a loop over nothing"
        elif isinstance(node, (ast.If, ast.IfExp, ast.While)) and isinstance(node.test, ast.Constant) and node.test.value is not True:
            yield node.test.lineno, "a condition that never holds"
        elif isinstance(node, ast.BoolOp) and is_partly_settled(node):
            yield node.lineno, "a condition with a part that always holds, or never"
        elif isinstance(node, ast.Compare) and always_holds(node):
            yield node.lineno, "a comparison that always holds"
        elif isinstance(node, ast.ExceptHandler) and is_swallowed(node):
            yield node.lineno, "a failed assertion that is swallowed"
        elif isinstance(node, ast.Yield) and is_settled(node.value):
            yield node.lineno, "a trial of two constants"
        elif isinstance(node, ast.Yield) and is_made_of_it(node.value):
            yield node.lineno, "an actual value that is made of the expected one"
        elif isinstance(node, (ast.Yield, ast.Return)) and has_a_part_twice(node.value):
            yield node.lineno, "a part that is compared with itself"


def idle_names(function: Function) -> Iterator[tuple[int, str]]:
    """The parameters of a function, and the names that it sets, that it does not use."""
    body = function.body[1:] if ast.get_docstring(function) else function.body
    if all(isinstance(it, (ast.Raise, ast.Pass)) or (isinstance(it, ast.Expr) and isinstance(it.value, ast.Constant)) for it in body):
        return  # (it only says what there is)
    used = {it.id for it in ast.walk(function) if isinstance(it, ast.Name) and isinstance(it.ctx, ast.Load)}
    given = [*function.args.posonlyargs, *function.args.args, *function.args.kwonlyargs]
    outer = {name for it in ast.walk(function) if isinstance(it, (ast.Global, ast.Nonlocal)) for name in it.names}
    for one in given:
        if one.arg not in used and not one.arg.startswith("_") and one.arg not in ("self", "cls"):
            yield one.lineno, f"{function.name} does not look at {one.arg}"
    # (also those of loops, of `with`, and of what is taken apart: where a trial forgets its actual value, that has such a name)
    firsts: dict[str, int] = {}
    for node in ast.walk(function):
        if isinstance(node, ast.Name) and isinstance(node.ctx, ast.Store) and node.id not in used | outer and not node.id.startswith("_"):
            firsts.setdefault(node.id, node.lineno)
    for name, line in firsts.items():
        yield line, f"{function.name} does not use {name}"
    yield from overwritten(function, outer)


Event = tuple[tuple[int, int], str, bool, tuple[int, ...]]  # a place in the text, a name, whether it is set, and the blocks around


def overwritten(function: Function, outer: set[str]) -> Iterator[tuple[int, str]]:
    """What a function sets, and sets once more in the same block or in one around it before anything has looked at it."""
    events: list[Event] = []
    read_events(function.body, (), events)
    hidden = {it.id for one in ast.walk(function) if one is not function and isinstance(one, (ast.FunctionDef, ast.Lambda))
              for it in ast.walk(one) if isinstance(it, ast.Name)} | outer
    events.sort(key=lambda it: (it[0], it[2]))
    for at, (place, name, is_set, blocks) in enumerate(events):
        if not is_set or name in hidden or name.startswith("_"):
            continue
        later = next((it for it in events[at + 1:] if it[1] == name), None)
        if later and later[2] and later[0] != place and later[3] == blocks[:len(later[3])]:
            yield place[0], f"{function.name} sets {name} again, and nothing has looked at it"


def read_events(block: list[ast.stmt], around: tuple[int, ...], events: list[Event]) -> None:
    """Notes where the statements of a block set names and look at them, in the order in which that is done."""
    blocks = (*around, id(block))
    for statement in block:
        inner = [it for it in ast.iter_child_nodes(statement) if isinstance(it, (ast.stmt, ast.ExceptHandler, ast.match_case))]
        parts = [it for it in ast.iter_child_nodes(statement) if it not in inner]
        own = {it for one in parts for it in ast.walk(one)}
        local = {it for one in own if isinstance(one, ast.comprehension) for it in ast.walk(one.target)}
        last = max(((it.end_lineno or 0, it.end_col_offset or 0) for it in parts if isinstance(it, ast.expr)), default=(0, 0))
        for it in own - local:
            if isinstance(it, ast.Name):
                # (a loop may set nothing, so what was set before it counts)
                is_set = isinstance(it.ctx, ast.Store) and not isinstance(statement, (ast.AugAssign, ast.For))
                events.append((last if is_set else (it.lineno, it.col_offset), it.id, is_set, blocks))
        for name in ("body", "orelse", "finalbody"):
            read_events(getattr(statement, name, []), blocks, events)
        for handler in getattr(statement, "handlers", []):
            read_events(handler.body, blocks, events)


def own_returns(function: Function) -> list[ast.Return]:
    """The returns of a function, and not of those in it."""
    inner = {it for one in ast.walk(function) if one is not function and isinstance(one, (ast.FunctionDef, ast.AsyncFunctionDef, ast.Lambda))
             for it in ast.walk(one)}
    return [it for it in ast.walk(function) if isinstance(it, ast.Return) and it not in inner]


def says_one_thing(function: Function) -> bool:
    """Whether a function that answers yes or no has one answer."""
    if not isinstance(function.returns, ast.Name) or function.returns.id != "bool":
        return False
    values = [it.value for it in own_returns(function)]
    return all(isinstance(it, ast.Constant) for it in values) and len({ast.dump(it) for it in values if it}) == 1


def is_partly_settled(node: ast.BoolOp) -> bool:
    """Whether a part of a condition is a constant; the last one may be what counts where there is nothing else, as in `x or ""`."""
    *first, last = (it.value if isinstance(it, ast.Constant) else it for it in node.values)
    return any(not isinstance(it, ast.expr) for it in first) or isinstance(last, bool)


def is_empty(node: ast.expr) -> bool:
    """Whether what is gone through has nothing: no element, or a slice that ends where it begins."""
    if isinstance(node, EMPTY):
        return not node.elts
    if isinstance(node, ast.Dict):
        return not node.keys
    if isinstance(node, ast.Subscript) and isinstance(node.slice, ast.Slice):
        upper, lower = node.slice.upper, node.slice.lower
        return isinstance(upper, ast.Constant) and upper.value == (lower.value if isinstance(lower, ast.Constant) else 0)
    if isinstance(node, ast.Call) and node.args and isinstance(node.func, ast.Name) and node.func.id in ("enumerate", "list", "sorted", "zip"):
        return any(map(is_empty, node.args))
    if not (isinstance(node, ast.Call) and isinstance(node.func, ast.Name) and node.func.id == "range"):
        return False
    bounds = [it.value for it in node.args if isinstance(it, ast.Constant)]
    return len(bounds) == len(node.args) and len(range(*bounds)) == 0


def always_holds(node: ast.Compare) -> bool:
    """Whether a comparison says nothing: a count that is not below 0, or an empty text that is in another one."""
    left, operator, right = node.left, node.ops[0], node.comparators[0]
    if isinstance(operator, (ast.GtE, ast.Gt)) and isinstance(left, ast.Call) and isinstance(left.func, ast.Name) and left.func.id in COUNTS:
        return ast.unparse(right) == ("0" if isinstance(operator, ast.GtE) else "-1")
    if isinstance(operator, ast.In):
        return isinstance(left, ast.Constant) and left.value in ("", b"")
    return isinstance(left, ast.Constant) and isinstance(right, ast.Constant)


def is_swallowed(node: ast.ExceptHandler) -> bool:
    """Whether a handler takes each failure, and does nothing."""
    caught = {it.id for it in ast.walk(node.type) if isinstance(it, ast.Name)} if node.type else {"BaseException"}
    return bool(caught & SWALLOWED) and all(isinstance(it, ast.Pass) for it in node.body)


def is_settled(value: ast.expr | None) -> bool:
    """Whether what is yielded is a trial whose two values are written there, and are the same."""
    if not isinstance(value, ast.Tuple) or len(value.elts) != 3:
        return False
    expected, actual = value.elts[1:]
    return isinstance(expected, ast.Constant) and isinstance(actual, ast.Constant) and expected.value == actual.value


def is_made_of_it(value: ast.expr | None) -> bool:
    """Whether what is yielded is a trial whose actual value has the expected one as a part that is joined, chosen or added.

    (What is only compared with it, called with it, or cut to its length is another value.)
    """
    if not isinstance(value, ast.Tuple) or len(value.elts) != 3:
        return False
    expected, actual = ast.dump(value.elts[1]), value.elts[2]
    if isinstance(value.elts[1], (ast.Constant, ast.List, ast.Tuple, ast.Dict)):
        return False
    for parent in ast.walk(actual):
        if isinstance(parent, (ast.BoolOp, ast.BinOp, ast.IfExp, *EMPTY, ast.Dict)):
            parts = [it.value if isinstance(it, ast.Starred) else it for it in ast.iter_child_nodes(parent)]
            if any(ast.dump(it) == expected for it in parts):
                return True
    return False


def has_a_part_twice(value: ast.expr | None) -> bool:
    """Whether a trial is of two tuples that have the same expression, and no constant, at one place."""
    if not isinstance(value, ast.Tuple) or len(value.elts) != 3:
        return False
    expected, actual = value.elts[1:]
    if not (isinstance(expected, ast.Tuple) and isinstance(actual, ast.Tuple)):
        return False
    return any(ast.dump(one) == ast.dump(other) and not isinstance(one, ast.Constant) for one, other in zip(expected.elts, actual.elts))


def never_called(texts: Iterable[str]) -> list[str]:
    """The functions of scripts whose names stand nowhere else in them. (Those that a decorator keeps are called by what keeps them.)"""
    known = list(texts)
    words = Counter(word for text in known for word in re.findall(r"\w+", text))
    functions = (it for text in known for it in ast.walk(ast.parse(text)) if isinstance(it, (ast.FunctionDef, ast.AsyncFunctionDef)))
    return sorted({it.name for it in functions if words[it.name] == 1 and not it.decorator_list and not it.name.startswith("__")})


def without_canaries(tree: ast.Module) -> set[str]:
    """The groups of trials of a script on pages for which it has no page with a defect; none if it is no such script."""
    functions = {it.name: it for it in tree.body if isinstance(it, ast.FunctionDef)}
    if not {"trials", "canaries"} <= functions.keys():
        return set()
    calls = [it.value for it in ast.walk(functions["trials"]) if isinstance(it, ast.YieldFrom) and isinstance(it.value, ast.Call)]
    groups = {it.func.id for it in calls if isinstance(it.func, ast.Name)}
    return groups - {it.id for it in ast.walk(functions["canaries"]) if isinstance(it, ast.Name)}


# Code of each kind, as a trial that sees nothing has it.
IDLE = (
    "def one() -> bool:\n    return True\n", "def one(it: str) -> bool:\n    if it:\n        return True\n    return True\n",
    "def one(it, other):\n    return it\n", "def one(it):\n    found = it\n    return 1\n", "for it in []:\n    print(it)\n",
    "def one(it):\n    a, found = it\n    return a\n", "def one(it):\n    for a in it:\n        print(1)\n",
    "def one(it):\n    a, b = it\n    print(a)\n    a, b = it\n    print(a, b)\n",
    "for it in rows[:0]:\n    print(it)\n", "print([it for it in ()])\n", "for it in range(0):\n    print(it)\n",
    "for n, it in enumerate(rows[2:2]):\n    print(it)\n", "if False:\n    print(1)\n", "print(a or True)\n", "print(True or a)\n",
    "print(len(a) >= 0)\n", "print(len(a) > -1)\n", "print('' in a)\n", "print(1 == 1)\n",
    "try:\n    print(1)\nexcept AssertionError:\n    pass\n", "try:\n    print(1)\nexcept:\n    pass\n",
    "def one():\n    yield 'a', True, True\n", "def one(a, b):\n    yield 'a', a, b and a\n", "def one(a, b):\n    yield 'a', a, {**b, **a}\n",
    "def one(a, b):\n    yield 'a', (0, a), (b, a)\n", "for it in range(3, 3):\n    print(it)\n",
    "def one(a, b):\n    return 'a', (0, a), (b, a)\n",
    "def one(a, b):\n    yield 'a', a, sorted({*b, *a})\n", "def one(a, b):\n    yield 'a', a, a if b else b\n",
)
BUSY = (
    "def one(it: str) -> bool:\n    return it == ''\n", "def one(_it):\n    return 1\n", "for it in rows[:1]:\n    print(it)\n",
    "print(a or '')\n", "print(len(a) >= 1)\n", "while True:\n    print(1)\n", "def one(it):\n    raise ValueError\n",
    "def one(it):\n    if it:\n        a = 1\n    else:\n        a = 2\n    return a\n",
    "class A(B):\n    def one(self, it):\n        return 1\n", "def one():\n    yield 'a', True, False\n",
    "def one(a, b):\n    yield 'a', (0, a), (a, b)\n", "for it in range(3, 4):\n    print(it)\n",
    "def one(a, b):\n    yield 'a', a, b[:len(a)]\n", "def one(a, b):\n    yield 'a', a, [it for it in b if it in a]\n",
    "try:\n    print(1)\nexcept OSError:\n    pass\n", "def one(it: str) -> bool:\n    if it:\n        return True\n    return False\n",
)


def own_trials() -> Iterator[Trial]:
    """Code of each kind is seen, and no other code."""
    for text in IDLE:
        yield f"idle: {text!r}", 1, len(list(idle(ast.parse(text))))
    for text in BUSY:
        yield f"not idle: {text!r}", [], list(idle(ast.parse(text)))
    script = "def trials():\n    yield from one()\n    yield from two()\n\ndef canaries():\n    yield canary('a', one)\n"
    yield "a group without a canary", {"two"}, without_canaries(ast.parse(script))
    yield "a function that nothing calls", ["other"], never_called(["def one():\n    return 1\n", "def other():\n    return one()\n"])


def trials(top: Path, files: list[Path]) -> Iterator[Trial]:
    """The trials that no script has such code."""
    texts = {str(file.relative_to(top)): file.read_text("utf-8") for file in files}
    for name, text in texts.items():
        found = sorted(idle(ast.parse(text)))
        yield f"what does nothing in {name}", KNOWN.get(name, []), [what if name in KNOWN else f"{line}: {what}" for line, what in found]
        if name.startswith("tests/pages/"):
            yield f"groups without a canary in {name}", set(), without_canaries(ast.parse(text))
    yield "functions that nothing calls", [], never_called(texts.values())
    yield from own_trials()
