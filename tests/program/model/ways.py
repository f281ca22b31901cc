"""Statements that no way leads to, that decide nothing, or that run on into a subroutine."""
from __future__ import annotations

from .cards import Assembly
from .programs import Condition, Exit, Program


def unreached_cards(assembly: Assembly) -> list[int]:
    """The first cards of the statements that no way leads to from the first statement."""
    reached = reached_statements(assembly.program)
    return [one.first_card for number, one in enumerate(assembly.spelled) if number not in reached]


def idle_cards(assembly: Assembly) -> list[int]:
    """The first cards of the statements that have a condition, and neither an operation nor an exit."""
    return [
        one.first_card for statement, one in zip(assembly.program, assembly.spelled)
        if statement.condition != Condition.NONE and not statement.operations and statement.exit == Exit.NONE
    ]


def running_cards(assembly: Assembly) -> list[int]:
    """The first cards of the statements without condition and exit after which comes one that is called, and to which
    nothing goes by an exit or for a failure."""
    program = assembly.program
    called = {operation.called for statement in program for operation in statement.operations}
    left_to = {statement.target for statement in program}
    left_to |= {operation.target for statement in program for operation in statement.operations}
    return [
        one.first_card for number, (statement, one) in enumerate(zip(program, assembly.spelled))
        if statement.condition == Condition.NONE and statement.exit == Exit.NONE
        and number + 1 in called and number + 1 not in left_to
    ]


def reached_statements(program: Program) -> set[int]:
    """The numbers of the statements to which ways lead from the first one."""
    reached: set[int] = set()
    latest = {0}
    while latest:
        reached |= latest
        latest = {after for number in latest for after in statements_after(program, number)} - reached
    return reached


def statements_after(program: Program, number: int) -> set[int]:
    """The statements that may come right after one: those that it names, and perhaps the next one."""
    statement = program[number]
    named = {statement.target}
    for operation in statement.operations:
        named |= {operation.called, operation.target}
    if statement.condition != Condition.NONE or statement.exit == Exit.NONE:
        named.add(number + 1)
    return {one for one in named if one is not None and one < len(program)}
