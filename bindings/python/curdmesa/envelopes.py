"""Normalizing, checking, filtering, showing and framing envelopes."""

from __future__ import annotations

import secrets
from dataclasses import dataclass
from typing import Iterable, Iterator, List, Optional, Tuple

from ._library import LOSSES, U64, Data, FrameParts, data_bytes, library, whole, written
from ._losses import Loss, losses_of, no_sums
from .errors import EnvelopeError, NothingLeft, Status, done
from .moments import Moment, When
from .words import ItemKind, member


def room_of(data: bytes) -> int:
    # The envelope's own length, and room for the defaults and lengths that small items get.
    return len(data) + min(max(2 * len(data), 256), 16384)


def drawn_by(now: Optional[When], seed: Optional[int]) -> Tuple[int, int, int]:
    """Returns the moment in seconds and nanoseconds, and the seed."""
    seed = secrets.randbits(64) if seed is None else whole(seed)
    return (*Moment.of_or_now(now), seed)


def normalize(data: Data, now: Optional[When] = None, seed: Optional[int] = None) -> bytes:
    """Parses an envelope and returns its normal form.

    `now` fills absent timestamps, and defaults to the system's clock. Absent ids are drawn from a
    generator seeded with `seed` alone, which defaults to a random number; with one seed for all, all
    events without an id get the same id. Raises NoMoment, the EnvelopeError of the first check that
    fails, OutOfMemory, ValueError for a datetime without a time zone or a seed outside 0 to 2^64-1,
    and TypeError for a number that isn't whole.

    >>> print(normalize(b'{}\\n{"type":"replay_recording"}\\nabc').decode(), end="")
    {}
    {"length":3,"type":"replay_recording"}
    abc
    """
    data, drawn_from = data_bytes(data), drawn_by(now, seed)
    try:
        return written(
            room_of(data),
            lambda *out: library.curdmesa_envelope_normalize(data, len(data), *drawn_from, *out),
        )
    except EnvelopeError as error:
        error._refused = data, drawn_from[:2]
        raise


def check(data: Data, now: Optional[When] = None) -> None:
    """Parses an envelope, and returns nothing of it. The arguments and errors are those of
    normalize."""
    data, moment = data_bytes(data), Moment.of_or_now(now)
    try:
        done(library.curdmesa_envelope_check(data, len(data), *moment))
    except EnvelopeError as error:
        error._refused = data, moment
        raise


@dataclass(frozen=True)
class Filtered:
    """What a filter leaves and loses."""

    #: What is left of the envelope, in normal form; None if no item is.
    envelope: Optional[bytes]
    #: What is lost with the removed items, above 0: by category; in each the loss without a reason
    #: first, then by reason.
    losses: List[Loss]


def filter(
    data: Data,
    kinds: Iterable[ItemKind],
    now: Optional[When] = None,
    seed: Optional[int] = None,
    *,
    keep: bool = False,
    keep_headers: bool = False,
) -> Filtered:
    """Parses an envelope and removes items by their type.

    The items of these types are removed; with `keep` they are kept, and all others removed. An
    attachment is also removed if no event and no transaction is kept. With `keep_headers` all
    envelope headers but the event id stay; without, none does. The event id becomes that of the
    first event or transaction that is left. The other arguments and the errors are those of
    normalize; ValueError also for a number that is no ItemKind, TypeError for a member of another
    enumeration.
    """
    data, drawn_from = data_bytes(data), drawn_by(now, seed)
    bits = sum(1 << kind for kind in {member(ItemKind, kind) for kind in kinds})
    sums = no_sums()
    try:
        left = written(
            room_of(data),
            lambda *out: library.curdmesa_envelope_filter(
                data, len(data), *drawn_from, bits, keep, keep_headers, *out, sums, LOSSES
            ),
        )
    except NothingLeft:
        left = None
    except EnvelopeError as error:
        error._refused = data, drawn_from[:2]
        raise
    return Filtered(left, losses_of(sums))


def show_json(data: Data) -> str:
    """Returns what is known of an envelope, as a JSON object: whether check accepts it, the type, the
    verdict and the bytes of each item, its faults and its header, what would be lost if all items
    were dropped, and what its events and transactions say.

    A refused envelope is shown up to the first item that can't be split off. Raises OutOfMemory.

    >>> import json
    >>> shown = json.loads(show_json(b'{}\\n{"type":"attachment"}\\nhelloworld'))
    >>> shown["accepted"], shown["losses"]
    (True, {'attachment': 10})
    """
    data = data_bytes(data)
    return written(
        4096, lambda *out: library.curdmesa_envelope_show_json(data, len(data), *out)
    ).decode()


@dataclass(frozen=True)
class Frame:
    """An item of an envelope. Header and payload are copies."""

    #: The item header, from its "{" to its "}".
    header: bytes
    #: The payload, without the line feeds around it. It isn't parsed.
    payload: bytes
    #: The item type.
    kind: ItemKind


def frames(data: Data) -> Iterator[Frame]:
    """Yields the items of an envelope, in order. Neither the envelope's header line nor payloads
    are parsed.

    After the items before it the framing's first fault is raised: UnexpectedEof, MissingNewline,
    InvalidItemHeader or OutOfMemory.
    """
    return _frames(data_bytes(data))


def _frames(data: bytes) -> Iterator[Frame]:
    offset, frame = U64(0), FrameParts()
    while True:
        status = library.curdmesa_frames_next(data, len(data), offset, frame)
        if status == Status.NOTHING_LEFT:
            return
        done(status)
        header_end = frame.header_offset + frame.header_length
        payload_end = frame.payload_offset + frame.payload_length
        yield Frame(
            data[frame.header_offset : header_end],
            data[frame.payload_offset : payload_end],
            ItemKind(frame.kind),
        )
