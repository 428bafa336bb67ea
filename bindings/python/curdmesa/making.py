"""Making envelopes, items and events."""

from __future__ import annotations

import ctypes
import json
from typing import Any, Iterable, List, Mapping, Optional, Tuple, Union

from ._library import Data, PairParts, Text, data_bytes, library, text_bytes, written
from .envelopes import drawn_by
from .moments import When

#: A header as JSON text, or as what becomes a JSON object.
Header = Union[Text, Mapping[str, Any]]


def _header_bytes(header: Header) -> bytes:
    if isinstance(header, (str, bytes, bytearray, memoryview)):
        return text_bytes(header)
    return json.dumps(header, separators=(",", ":")).encode()


def _joined(pairs: List[Tuple[bytes, bytes]]) -> Tuple[bytes, int, ctypes.Array, int]:
    """Returns texts one after another and how long all are; and the lengths of each two, with the
    count of these."""
    texts = b"".join([text for pair in pairs for text in pair])
    buffer = bytearray(max(1, ctypes.sizeof(PairParts) * len(pairs)))
    lengths = (ctypes.c_uint64 * 0).from_buffer(buffer)
    view = memoryview(buffer)[: ctypes.sizeof(PairParts) * len(pairs)].cast("Q")
    for at, (first, second) in enumerate(pairs):
        view[2 * at], view[2 * at + 1] = len(first), len(second)
    return texts, len(texts), ctypes.cast(lengths, ctypes.POINTER(PairParts)), len(pairs)


def make_envelope(header: Header, items: Iterable[Tuple[Header, Data]] = ()) -> bytes:
    """Makes an envelope of a header and items, each of an item header and a payload.

    Header line and payloads are written byte for byte, each with a line feed behind it. So are item
    headers, but one that doesn't state the length of its payload is made to, by a first member
    `length`. A mapping is written as JSON by the module json. Raises InvalidHeader if the header
    isn't one JSON object in one line, InvalidItemHeader if an item header isn't one JSON object with
    a string `type`, without white space around it, or has a `length` that isn't its payload's; and
    OutOfMemory.

    >>> make_envelope({}, [({"type": "log"}, b'{"items":[]}')])
    b'{}\\n{"length":12,"type":"log"}\\n{"items":[]}\\n'
    """
    line = _header_bytes(header)
    pairs = [(_header_bytes(item), data_bytes(payload)) for item, payload in items]
    joined = _joined(pairs)
    return written(
        len(line) + joined[1] + 40 * len(pairs) + 1,
        lambda *out: library.curdmesa_envelope_make(line, len(line), *joined, *out),
    )


def append_item(envelope: Data, header: Header, payload: Data) -> bytes:
    """Appends an item to an envelope: returns the bytes of the envelope, a line feed if they don't
    end with one that ends an item or the header line, and the item as make_envelope writes it.

    A header line alone is an envelope. The payloads of the envelope aren't parsed, and of item
    headers only `type` and `length` are read. Raises the errors of any_frames, InvalidItemHeader as
    make_envelope does, and OutOfMemory.
    """
    data, line, payload = data_bytes(envelope), _header_bytes(header), data_bytes(payload)
    return written(
        len(data) + len(line) + len(payload) + 40,
        lambda *out: library.curdmesa_envelope_append(
            data, len(data), line, len(line), payload, len(payload), *out
        ),
    )


def make_event(
    message: Text = "",
    *,
    level: Text = "",
    release: Text = "",
    environment: Text = "",
    tags: Optional[Mapping[Text, Text]] = None,
    now: Optional[When] = None,
    seed: Optional[int] = None,
) -> bytes:
    """Makes an event, and returns an envelope of the event alone, in normal form.

    `level` is "fatal", "error", "warning", "info" or "debug"; an event without one is an error. An
    empty text is left out. The timestamp is `now`, which defaults to the system's clock. The event
    id is drawn from a generator seeded with `seed` alone, which defaults to a random number. Raises
    InvalidItemPayload if the level is unknown, NotUtf8, NoMoment, OutOfMemory, and ValueError and
    TypeError as normalize does.

    >>> from curdmesa import any_frames
    >>> [item.word for item in any_frames(make_event("Disk full", tags={"disk": "sda"}))]
    ['event']
    """
    texts = [text_bytes(text) for text in (level, message, release, environment)]
    pairs = [(text_bytes(key), text_bytes(value)) for key, value in (tags or {}).items()]
    joined, drawn_from = _joined(pairs), drawn_by(now, seed)
    given = [part for text in texts for part in (text, len(text))]
    return written(
        sum(map(len, texts)) + joined[1] + 512,
        lambda *out: library.curdmesa_event_make(*given, *joined, *drawn_from, *out),
    )
