# SPDX-License-Identifier: Apache-2.0
"""What the numbers in _numbers.py are."""

from enum import IntEnum

# The types of a format that shows a number.
_OF_NUMBERS = {*"bcdeEfFgGnoxX%"}


class Evaluated(IntEnum):
    """Numbers whose `repr` evaluates, where their enum has its name."""

    def __repr__(self) -> str:
        return f"{type(self).__name__}.{self.name}"


class Named(Evaluated):
    """Numbers whose `str` is their name in every Python: `format` too, unless it asks for a number, as "d" does."""

    def __str__(self) -> str:
        return self.name

    def __format__(self, form: str) -> str:
        return format(int(self) if form[-1:] in _OF_NUMBERS else self.name, form)


class Documented(Named):
    """Numbers with two texts each: `text` in a few words, and what `help` shows."""

    _value_: int
    text: str

    # (for mypy `Result(0)` calls this, and not the lookup of a member)
    def __new__(cls, number: int, text: str = "", about: str = "") -> "Documented":
        member = int.__new__(cls, number)
        member._value_, member.text = number, text
        member.__doc__ = about
        return member


class Reported(Documented):
    """What is done with what isn't known; its two bits, of which the lower one reports, are those of a type."""

    @property
    def reports(self) -> bool:
        """Whether the chunk or the parameter is reported."""
        return bool(self & 1)

    @property
    def skips(self) -> bool:
        """Whether the next one is processed."""
        return bool(self & 2)


class Numbers(Evaluated):
    """Types and codes, of which others may come. (One without a name is shown as a number too: so are those that have one.)"""

    def __str__(self) -> str:
        return int.__repr__(self)

    def __format__(self, form: str) -> str:
        return int.__format__(self, form)

    @classmethod
    def is_known(cls, number: int) -> bool:
        """Returns whether a member has this number."""
        return number in cls._value2member_map_
