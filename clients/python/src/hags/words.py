"""Values as words of lines, as docs/formats.md spells them."""

from __future__ import annotations

from urllib.parse import quote_from_bytes, unquote_to_bytes

TEXT = "!\"#$&'()*+,/:;<=>?@[\\]^`{|}"  # bytes that stand for themselves, besides letters, digits and _.-~


def value_of(word: str) -> bytes:
    """The bytes of a value as a line spells them, behind its `=`."""
    return unquote_to_bytes(word[1:]) if "%" in word else word[1:].encode("ascii")


def value_word(value: bytes) -> str:
    """A value as a word of a line, with its `=`."""
    return "=" + quote_from_bytes(value, safe=TEXT + "~")
