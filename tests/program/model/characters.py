"""Names, characters and their codes, and the lines of a text."""
from __future__ import annotations

WORD_LIMIT = 2**36  # the least number that is no word
DIGITS = "0123456789"
LETTERS = "ABCDEFGHIJKLMNOPQRSTUVWXYZ"
NAMES = DIGITS + LETTERS  # each stands at its number
DIGITS_LIMIT = 12  # those of the greatest word in octal; no other number that can be written has more
NO_CODE = "\0"  # stands for a byte without a code, and is no character that has one


def character_of(byte: int) -> str:
    """The character that a byte is read as."""
    character = " " if byte == ord("\t") else chr(byte)
    if "a" <= character <= "z":
        character = character.upper()
    return character if 32 <= ord(character) <= 95 else NO_CODE


READ_AS = "".join(map(character_of, range(256))).encode("ascii")  # what each byte is read as


def characters_of(text: bytes) -> str:
    """The characters that bytes are read as."""
    return text.translate(READ_AS).decode("ascii")


def code_of(character: str) -> int:
    """The code of a character that has one."""
    return ord(character) - 32


def character_with(code: int) -> str:
    """The character that has a code."""
    return chr(code + 32)


def number_of_text(text: str) -> int:
    """The number whose digits to base 64 are the codes of a text."""
    number = 0
    for character in text:
        number = number * 64 + code_of(character)
    return number


def text_of_number(number: int, count: int) -> str:
    """The characters whose codes are the last digits to base 64 of a number, so many of them."""
    text = ""
    for _ in range(count):
        number, digit = divmod(number, 64)
        text = character_with(digit) + text
    return text


def number_of_digits(digits: str, most: int, base: int = 10) -> int | None:
    """The number that digits are to a base; none if they are no digits, or the number is above a limit."""
    if not digits or not all(digit in DIGITS[:base] for digit in digits):
        return None
    digits = digits.lstrip("0") or "0"
    if len(digits) > DIGITS_LIMIT or int(digits, base) > most:
        return None
    return int(digits, base)


def lines_of(text: bytes) -> list[bytes]:
    """The lines of a text, each without its line feed, and without a carriage return at its end."""
    lines = text.split(b"\n")
    if lines[-1] == b"":
        lines.pop()
    return [line[:-1] if line.endswith(b"\r") else line for line in lines]
