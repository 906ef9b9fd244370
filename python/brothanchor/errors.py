"""What is refused, and why."""

from __future__ import annotations

from typing import Optional

_MEANINGS = {
    1: "the components are 0 or more than 8",
    2: "the perplexity is not a positive number",
    3: "the learning rate is not a positive number",
    4: "the iterations are 0 or more than 65,535",
    5: "the angle is not from 0 to below 1",
    6: "a Barnes-Hut run has more than 3 components",
    7: "there are no frames or more than 4096, no features or more than 256, or the table has another length",
    8: "a feature is not finite or above 2^20 in magnitude",
    9: "a single frame has no map, and at least two have to be left",
    10: "the perplexity is not below the number of frames, or of those that would be left",
    11: "the start has another length, or a value that is not finite or above 2^20 in magnitude",
    12: "a lent area is too short",
    14: "the next point needs more nodes than the arena has left",
    15: "a value has left, or the step would leave, the range of numbers that a map may have",
    16: "a record of the file is bad",
    17: "the run is inside an iteration, or no iteration has just ended, or the forces give a total of 0, "
    "or a strip's run has not ended, or an exact run has no lists",
    18: "the samples to be taken out do not rise or are not there, "
    "or more links would be left than their lists may have",
    19: "a rule of the partner's list fails at a record",
    20: "the settings are outside the strip profile: "
    "one component, Barnes-Hut, an angle of at most 0.5, at most 1024 frames",
    21: "the settings are bad",
    22: "the counters are bad: the state, the iterations done, the units done in this one and in all do not fit "
    "each other, there is no such state, or there are fewer than fourteen words",
    23: "the offsets are bad",
    24: "a listed index is bad",
    25: "the tree is bad",
    26: "a coordinate is not finite, or rounds past the largest single-precision number",
}

#: What a place is, for the numbers with which one comes.
_PLACES = {
    16: "record {}, counted from 0",
    19: "record {}, counted from 0",
    21: "number {} of the settings",
    23: "frame {}, counted from 0",
    24: "place {}, counted from 0",
    25: "node {}, counted from 0",
    26: "frame {}, counted from 0",
}


def meaning_of(number: int) -> str:
    """What the number of a refusal means."""
    return _MEANINGS.get(number, "no known number")


class Refused(ValueError):
    """The library has refused a call by a number. What it was lent is as it was before.

    Only of a run that was being worked (14, 15) the units before the refused one are done.

    number   from 1 to 12 and from 14 to 26
    place    what comes with it: of 16 and 19 the record, of 21 the number of the settings, of 23 and 26 the frame, of 24 the index,
             of 25 the node, counted from 0; else None
    detail   the arguments that it is about, with their values, where they are known; else None
    meaning  the number in words
    """

    def __init__(self, number: int, place: Optional[int] = None, detail: Optional[str] = None) -> None:
        super().__init__(number, place, detail)
        self.number = number
        self.place = place if number in _PLACES else None
        self.detail = detail

    @property
    def meaning(self) -> str:
        """What the number means."""
        return meaning_of(self.number)

    def __str__(self) -> str:
        told = []
        if self.place is not None:
            told.append(_PLACES[self.number].format(self.place))
        if self.detail is not None:
            told.append(self.detail)
        return f"refused {self.number}: {self.meaning}" + (f" ({'; '.join(told)})" if told else "")
