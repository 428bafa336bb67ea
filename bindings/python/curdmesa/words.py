"""Item types, data categories and discard reasons."""

from __future__ import annotations

import enum
from typing import Type, TypeVar

_Word = TypeVar("_Word", bound="Word")


class Word(enum.IntEnum):
    """A word of JSON, by its number in curdmesa.h."""

    @property
    def word(self) -> str:
        """The word in JSON."""
        return self.name.lower()

    @classmethod
    def of_word(cls: Type[_Word], word: str) -> _Word:
        """Returns the member of a word in JSON. Raises ValueError for another word."""
        for each in cls:
            if each.word == word:
                return each
        raise ValueError(f"{word!r} is no {cls.__name__}")


class ItemKind(Word):
    """An item type."""

    EVENT = 0
    SESSION = 1
    SESSIONS = 2
    TRANSACTION = 3
    ATTACHMENT = 4
    CHECK_IN = 5
    USER_REPORT = 6
    REPLAY_RECORDING = 7
    LOG = 8
    TRACE_METRIC = 9
    CLIENT_REPORT = 10


class Category(Word):
    """A data category of client reports."""

    ERROR = 0
    SESSION = 1
    TRANSACTION = 2
    SPAN = 3
    ATTACHMENT = 4
    MONITOR = 5
    LOG_ITEM = 6
    LOG_BYTE = 7
    TRACE_METRIC = 8
    TRACE_METRIC_BYTE = 9
    FEEDBACK = 10
    REPLAY = 11


class Reason(Word):
    """A discard reason of client reports. SEND_ERROR is 0, and so false where a truth is asked for:
    compare with None where a reason may be absent."""

    SEND_ERROR = 0
    INTERNAL_SDK_ERROR = 1
    NETWORK_ERROR = 2
    RATELIMIT_BACKOFF = 3
    QUEUE_OVERFLOW = 4
    BUFFER_OVERFLOW = 5
    EVENT_PROCESSOR = 6
    BEFORE_SEND = 7
    SAMPLE_RATE = 8


_Member = TypeVar("_Member", bound=enum.IntEnum)


def member(kind: Type[_Member], value: int) -> _Member:
    """Returns the member of an enumeration of this value; a member of another one is refused."""
    if isinstance(value, (enum.Enum, bool)) and not isinstance(value, kind):
        raise TypeError(f"a {kind.__name__} is wanted, not {value!r}")
    return kind(value)
