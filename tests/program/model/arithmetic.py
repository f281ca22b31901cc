"""Tests, arithmetic and logic, on numbers."""
from __future__ import annotations

from .state import Trap


def holds(test: str, c: int, cd: int) -> bool:
    """Whether a test holds, by what its operands read."""
    if test == "E":
        return c == cd
    if test == "N":
        return c != cd
    if test == "G":
        return c > cd
    if test == "L":
        return c < cd
    if test == "O":
        return c & cd == cd
    assert test == "Z"
    return c & cd == 0


def result(operation: str, c: int, cd: int, width: int) -> int:
    """What c becomes, before it is cut to its width."""
    if operation in ("E", "A", "S", "M", "V", "Y"):
        return number_result(operation, c, cd)
    return bits_result(operation, c, cd, width)


def number_result(operation: str, c: int, cd: int) -> int:
    """What c becomes by an operation on numbers."""
    if operation == "E":
        return cd
    if operation == "A":
        return c + cd
    if operation == "S":
        return c - cd
    if operation == "M":
        return c * cd
    if cd == 0:
        raise Trap(5)
    return c // cd if operation == "V" else c % cd


def bits_result(operation: str, c: int, cd: int, width: int) -> int:
    """What c becomes by an operation on bits."""
    if operation == "N":
        return c & cd
    if operation == "O":
        return c | cd
    if operation == "X":
        return c ^ cd
    if operation == "C":
        return ~cd
    if operation == "L":
        return c << cd if cd < width else 0
    assert operation == "R"
    return c >> cd
