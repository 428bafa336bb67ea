"""Why an envelope is refused, and the repairs of one."""

from __future__ import annotations

import enum
from dataclasses import dataclass, field
from typing import Callable, List, Optional, Tuple

from ._library import (
    I32, U64, Data, FaultParts, MisfitParts, NoteParts, Place, data_bytes, library, row_buffer,
    text_buffer)
from .envelopes import drawn_by, room_of
from .errors import Error, Status, done, error_of
from .moments import Moment, When
from .words import member

_HEADER_LINE = 2**64 - 1
_SYNTAX, _MISFIT = 1, 2


class Repair(enum.IntEnum):
    """What a repair did."""

    #: A number of seconds became an RFC 3339 string, cut to nanoseconds.
    AS_MOMENT = 0
    #: A value became a string of its own characters.
    AS_TEXT = 1
    #: The type of an attribute became "string", beside a value that became a string.
    AS_STRING_TYPE = 2
    #: An empty array was put where a required array is absent or doesn't fit.
    AS_EMPTY_LIST = 3
    #: A member or an item of an array was taken out.
    TAKEN_OUT = 4
    #: The event id of the envelope header was put.
    HEADER_ID = 5
    #: `length` in the item header became the size of the repaired payload.
    LENGTH = 6
    #: An item that can't be repaired was left out of the envelope.
    LEFT = 7


class Repairs(enum.IntEnum):
    """Which repairs mend may make."""

    #: None: items that don't read are left out.
    STRICT = 0
    #: Those that lose nothing but form: values become strings, an absent or null array becomes an
    #: empty one, null members are taken out.
    FORM = 1
    #: All: what still doesn't fit is taken out, the smallest such part.
    ALL = 2


@dataclass(frozen=True)
class Misfit:
    """A value that doesn't fit."""

    #: Keys and indices that lead to the value, such as "exception.values[0].type".
    path: str
    #: Offset of the value in the envelope; of an absent one, of the bracket that ends its object.
    start: int
    #: Offset behind the value.
    end: int
    #: What reads there, such as "an RFC 3339 string".
    wanted: str
    #: The JSON type of what stands there, such as "decimal", or "absent".
    found: str
    #: The number or boolean that stands there, its first 40 characters; else empty.
    value: str


@dataclass(frozen=True)
class Fault:
    """A fault of an envelope: the check that fails, and where. Prints as a line. Offsets are in the
    bytes of the envelope."""

    #: The first check of the item that fails, as if it stood alone.
    error: Status
    #: Index of the item; None for the header line.
    item: Optional[int]
    #: Item type; empty if it can't be read.
    word: str
    #: Offset of the item, or of the header line.
    start: int
    #: Offset behind it.
    end: int
    #: Offset of what doesn't fit: of the value, of the byte at which JSON breaks, or else `start`.
    offset: int
    #: The value that doesn't fit; None if the framing is at fault, the text isn't JSON, or no single
    #: value was found.
    misfit: Optional[Misfit]
    #: What is expected at `offset` if the text isn't JSON, such as "a comma or the closing bracket".
    expected: Optional[str]
    message: str = field(repr=False)

    @property
    def path(self) -> Optional[str]:
        """The path of the value that doesn't fit, if there is one."""
        return self.misfit.path if self.misfit else None

    @property
    def why(self) -> Optional[str]:
        """What is wanted and what is found, if that is known."""
        if self.expected is not None:
            return f"no JSON: expected {self.expected}"
        if self.misfit is None:
            return None
        return f"wanted {self.misfit.wanted}, found {self.misfit.found} {self.misfit.value}".rstrip()

    def __str__(self) -> str:
        return self.message


def _text(texts: bytes, place: Place) -> str:
    return texts[place.offset : place.offset + place.length].decode(errors="replace")


def _misfit(parts: MisfitParts, texts: bytes) -> Misfit:
    return Misfit(
        _text(texts, parts.path), parts.start, parts.end, _text(texts, parts.wanted),
        _text(texts, parts.found), _text(texts, parts.value),
    )


def _fault(parts: FaultParts, texts: bytes) -> Fault:
    misfit = _misfit(parts.misfit, texts)
    return Fault(
        Status(parts.error),
        None if parts.item == _HEADER_LINE else parts.item,
        _text(texts, parts.word), parts.start, parts.end, misfit.start,
        misfit if parts.cause == _MISFIT else None,
        misfit.wanted if parts.cause == _SYNTAX else None,
        _text(texts, parts.message),
    )


def _told(parts: type, room: int, call: Callable[..., int]) -> Tuple[list, bytes]:
    """Returns all rows that a call tells, and the texts that their places are in. `call` gets the
    rows, their length, where to put the number of all, and the buffer for the texts."""
    rows, out = row_buffer(parts, 16), text_buffer(room)
    count, needed = U64(0), U64(0)
    while True:
        status = call(rows, len(rows), count, out, len(out), needed)
        if status == Status.NO_ROOM:
            out = text_buffer(needed.value)
            continue
        done(status)
        if count.value <= len(rows):
            return rows[: count.value], memoryview(out)[: needed.value].tobytes()
        rows = row_buffer(parts, count.value)


def explain(data: Data, now: Optional[When] = None) -> List[Fault]:
    """Tells why check refuses an envelope: its faults in order, of the header line and then item by
    item; none if check takes it.

    Each item is read alone, so the faults of all items are told, at most 1,000 of each. `now`
    defaults to the system's clock. Raises NoMoment, OutOfMemory, and ValueError for a datetime
    without a time zone.

    >>> for fault in explain(b'{}\\n{"type":"event"}\\n{"timestamp":1.5}'):
    ...     print(fault.path, fault.offset, fault.why)
    timestamp 33 wanted whole seconds or an RFC 3339 string, found decimal 1.5
    """
    data, moment, error = data_bytes(data), Moment.of_or_now(now), I32(0)
    rows, texts = _told(
        FaultParts, 4096,
        lambda rows, length, count, *out: library.curdmesa_envelope_explain(
            data, len(data), *moment, rows, length, count, error, *out
        ),
    )
    return [_fault(row, texts) for row in rows]


@dataclass(frozen=True)
class Note:
    """A change of an envelope: some bytes, and what stands there instead. Prints as a line. Offsets
    are in the bytes that were handed in."""

    #: What was done.
    repair: Repair
    #: Index of the item.
    item: int
    #: Item type; empty if it can't be read.
    word: str
    #: The first check of the item that fails as it stands; Status.OK if only the header's id was put.
    error: Status
    #: Offset of the first byte that is replaced.
    start: int
    #: Offset behind the last one.
    end: int
    #: The bytes that stand there instead.
    instead: bytes
    #: The value that was repaired.
    misfit: Misfit
    message: str = field(repr=False)

    def __str__(self) -> str:
        return self.message


@dataclass(frozen=True)
class Mended:
    """What mend returns."""

    #: The normal form of the envelope of all items that read, as they stand or repaired.
    envelope: bytes
    #: What check would raise; None if it takes the bytes as they stand.
    error: Optional[Error]
    #: The changes, in the order of their bytes.
    notes: List[Note]


def _note(parts: NoteParts, texts: bytes) -> Note:
    instead = parts.instead.offset
    return Note(
        Repair(parts.repair), parts.item, _text(texts, parts.word), Status(parts.error),
        parts.start, parts.end, texts[instead : instead + parts.instead.length],
        _misfit(parts.misfit, texts), _text(texts, parts.message),
    )


def mend(
    data: Data,
    now: Optional[When] = None,
    seed: Optional[int] = None,
    *,
    repairs: Repairs = Repairs.FORM,
    header_event_id: bool = False,
) -> Mended:
    """Parses an envelope item by item: where an item is refused, the least is changed that lets it
    read, and an item that can't be repaired is left out. Each change is a note.

    With `header_event_id` an event or a transaction without an id takes that of the envelope
    header. The other arguments are those of normalize. Raises NoMoment, InvalidHeader if the header
    line is refused, OutOfMemory, and ValueError and TypeError as normalize does.

    >>> mended = mend(b'{}\\n{"type":"event"}\\n{"timestamp":1.5}', seed=42)
    >>> for note in mended.notes:
    ...     print(note)
    item 0 `event`: `timestamp` at bytes 33..36: decimal: as an RFC 3339 string
    """
    data, drawn_from = data_bytes(data), drawn_by(now, seed)
    allowed, error, envelope_len = member(Repairs, repairs), I32(0), U64(0)
    rows, texts = _told(
        NoteParts, 4096 + room_of(data),
        lambda rows, length, count, *out: library.curdmesa_envelope_mend(
            data, len(data), *drawn_from, allowed, header_event_id, rows, length, count, error,
            envelope_len, *out
        ),
    )
    return Mended(
        texts[: envelope_len.value],
        error_of(error.value) if error.value else None,
        [_note(row, texts) for row in rows],
    )
