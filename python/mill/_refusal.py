"""Why a call gives no result."""

from typing import Tuple, Type

from . import _header as header


class Refusal(Exception):
    """Why a call gives no result: one numbered refusal of the library.

    `number` is its number in the table, `place` the index of the reading, from 0, for number 3 and else 0, and `sentence` says it
    in plain words.

    >>> try:
    ...     mill.question(recording, "peaks(C)")
    ... except mill.Refusal as refusal:
    ...     print(refusal.number, refusal.place, refusal.sentence)
    6 0 the text can't be read as a question
    >>> print(mill.Refusal(mill.NO_RECORD))
    the recording or the run has no reading (refusal 4)
    >>> str(mill.Refusal(mill.BAD_RECORD, 5))[-38:]
    ' (refusal 3, reading 5 counted from 0)'
    """

    number: int
    place: int

    def __init__(self, number: int, place: int = 0) -> None:
        super().__init__(number, place)
        self.number = number
        self.place = place

    @property
    def sentence(self) -> str:
        """The refusal in plain words, those of `mill_sentence` in the C header.

        >>> mill.Refusal(4).sentence
        'the recording or the run has no reading'
        """
        known = isinstance(self.number, int) and 0 <= self.number < len(header.SENTENCES)
        return header.SENTENCES[self.number] if known else header.UNKNOWN

    def __str__(self) -> str:
        place = f", reading {self.place} counted from 0" if self.number == header.BAD_RECORD else ""
        return f"{self.sentence} (refusal {self.number}{place})"

    def __reduce__(self) -> Tuple[Type["Refusal"], Tuple[int, int]]:
        return type(self), (self.number, self.place)


def result(returned: int) -> int:
    """The result in a call's return value; a refusal is raised."""
    if returned >> 32:
        raise Refusal(returned >> 32, returned & 0xFFFFFFFF)
    return returned
