"""The C library: its structs and functions, and the texts that it writes."""

from __future__ import annotations

import ctypes
import functools
import operator
import os
from pathlib import Path
from typing import Callable, Union

from .errors import Status, done

VERSION = "0.2.0"


class Place(ctypes.Structure):
    _fields_ = [("offset", ctypes.c_uint64), ("length", ctypes.c_uint64)]

    def of(self, text: bytes) -> str:
        return text[self.offset : self.offset + self.length].decode()


class FrameParts(ctypes.Structure):
    _fields_ = [
        ("header_offset", ctypes.c_uint64),
        ("header_length", ctypes.c_uint64),
        ("payload_offset", ctypes.c_uint64),
        ("payload_length", ctypes.c_uint64),
        ("kind", ctypes.c_uint32),
    ]


class AnyFrameParts(ctypes.Structure):
    _fields_ = [
        ("item_offset", ctypes.c_uint64),
        ("item_length", ctypes.c_uint64),
        ("header_offset", ctypes.c_uint64),
        ("header_length", ctypes.c_uint64),
        ("payload_offset", ctypes.c_uint64),
        ("payload_length", ctypes.c_uint64),
        ("kind", ctypes.c_uint32),
    ]


class DsnParts(ctypes.Structure):
    _fields_ = [
        ("public_key", Place),
        ("secret_key", Place),
        ("host", Place),
        ("path", Place),
        ("project_id", Place),
        ("org_id", ctypes.c_uint64),
        ("port", ctypes.c_uint32),
        ("is_https", ctypes.c_uint32),
        ("has_org_id", ctypes.c_uint32),
    ]


class AuthParts(ctypes.Structure):
    _fields_ = [
        ("public_key", Place),
        ("secret_key", Place),
        ("client", Place),
        ("timestamp_secs", ctypes.c_uint64),
        ("timestamp_nanos", ctypes.c_uint32),
        ("version", ctypes.c_uint32),
        ("has_secret_key", ctypes.c_uint32),
        ("has_client", ctypes.c_uint32),
        ("has_timestamp", ctypes.c_uint32),
    ]


class TraceParts(ctypes.Structure):
    _fields_ = [
        ("trace_id", Place),
        ("public_key", Place),
        ("release", Place),
        ("environment", Place),
        ("transaction", Place),
        ("sample_rate", ctypes.c_uint64),
        ("sample_rand", ctypes.c_uint64),
        ("org_id", ctypes.c_uint64),
        ("sampled", ctypes.c_uint32),
        ("has_trace_id", ctypes.c_uint32),
        ("has_public_key", ctypes.c_uint32),
        ("has_release", ctypes.c_uint32),
        ("has_environment", ctypes.c_uint32),
        ("has_transaction", ctypes.c_uint32),
        ("has_sample_rate", ctypes.c_uint32),
        ("has_sample_rand", ctypes.c_uint32),
        ("has_org_id", ctypes.c_uint32),
        ("has_sampled", ctypes.c_uint32),
    ]


class HeaderParts(ctypes.Structure):
    _fields_ = [
        ("event_id", Place),
        ("dsn", Place),
        ("sdk_name", Place),
        ("sdk_version", Place),
        ("trace", TraceParts),
        ("sent_at_secs", ctypes.c_uint64),
        ("sent_at_nanos", ctypes.c_uint32),
        ("has_event_id", ctypes.c_uint32),
        ("has_dsn", ctypes.c_uint32),
        ("has_sdk", ctypes.c_uint32),
        ("has_sent_at", ctypes.c_uint32),
        ("has_trace", ctypes.c_uint32),
    ]


class MisfitParts(ctypes.Structure):
    _fields_ = [
        ("start", ctypes.c_uint64),
        ("end", ctypes.c_uint64),
        ("path", Place),
        ("wanted", Place),
        ("found", Place),
        ("value", Place),
    ]


class FaultParts(ctypes.Structure):
    _fields_ = [
        ("item", ctypes.c_uint64),
        ("start", ctypes.c_uint64),
        ("end", ctypes.c_uint64),
        ("misfit", MisfitParts),
        ("word", Place),
        ("message", Place),
        ("error", ctypes.c_int32),
        ("cause", ctypes.c_uint32),
    ]


class NoteParts(ctypes.Structure):
    _fields_ = [
        ("item", ctypes.c_uint64),
        ("start", ctypes.c_uint64),
        ("end", ctypes.c_uint64),
        ("misfit", MisfitParts),
        ("instead", Place),
        ("word", Place),
        ("message", Place),
        ("error", ctypes.c_int32),
        ("repair", ctypes.c_uint32),
    ]


class PairParts(ctypes.Structure):
    _fields_ = [("first", ctypes.c_uint64), ("second", ctypes.c_uint64)]


LOSSES = 120
SUMS = 108
LIMITS = 13
MEASURES = 12

U32, U64, SIZE, BOOL = ctypes.c_uint32, ctypes.c_uint64, ctypes.c_size_t, ctypes.c_bool
I32 = ctypes.c_int32
U32S, U64S, I32S = ctypes.POINTER(U32), ctypes.POINTER(U64), ctypes.POINTER(I32)
# Bytes that are read, and bytes that are written with the length of the text that was due.
BYTES = [ctypes.c_char_p, SIZE]
OUT = [ctypes.POINTER(ctypes.c_char), SIZE, U64S]
MOMENT = [U64, U32]
PAIRS = [ctypes.POINTER(PairParts), SIZE]

#: The functions of curdmesa.h, all of which return a status, with the types of their parameters.
FUNCTIONS = {
    "curdmesa_status_text": [ctypes.c_int32, *OUT],
    "curdmesa_item_word": [U32, *OUT],
    "curdmesa_item_of_word": [*BYTES, U32S],
    "curdmesa_envelope_normalize": [*BYTES, *MOMENT, U64, *OUT],
    "curdmesa_envelope_check": [*BYTES, *MOMENT],
    "curdmesa_envelope_filter": [
        *BYTES, *MOMENT, U64, U32, BOOL, BOOL, *OUT, U64S, SIZE,
    ],
    "curdmesa_frames_next": [*BYTES, U64S, ctypes.POINTER(FrameParts)],
    "curdmesa_any_frames_next": [*BYTES, U64S, ctypes.POINTER(AnyFrameParts), *OUT],
    "curdmesa_envelope_forward": [*BYTES, *BYTES, BOOL, *OUT, U64S, SIZE],
    "curdmesa_envelope_losses": [*BYTES, U64S, SIZE],
    "curdmesa_frame_losses": [*BYTES, *BYTES, U64S, SIZE],
    "curdmesa_envelope_explain": [
        *BYTES, *MOMENT, ctypes.POINTER(FaultParts), SIZE, U64S, I32S, *OUT,
    ],
    "curdmesa_envelope_show_json": [*BYTES, *OUT],
    "curdmesa_envelope_mend": [
        *BYTES, *MOMENT, U64, U32, BOOL, ctypes.POINTER(NoteParts), SIZE, U64S, I32S, U64S, *OUT,
    ],
    "curdmesa_envelope_make": [*BYTES, *BYTES, *PAIRS, *OUT],
    "curdmesa_envelope_append": [*BYTES, *BYTES, *BYTES, *OUT],
    "curdmesa_event_make": [
        *BYTES, *BYTES, *BYTES, *BYTES, *BYTES, *PAIRS, *MOMENT, U64, *OUT,
    ],
    "curdmesa_json_text": [*BYTES, *OUT],
    "curdmesa_dsn_parse": [*BYTES, *OUT, ctypes.POINTER(DsnParts)],
    "curdmesa_dsn_envelope_url": [*BYTES, *OUT],
    "curdmesa_dsn_auth": [*BYTES, *MOMENT, *BYTES, *OUT],
    "curdmesa_auth_parse": [*BYTES, *OUT, ctypes.POINTER(AuthParts)],
    "curdmesa_auth_from_query": [*BYTES, *OUT, ctypes.POINTER(AuthParts)],
    "curdmesa_envelope_header": [*BYTES, *OUT, ctypes.POINTER(HeaderParts)],
    "curdmesa_rfc3339_parse": [*BYTES, U64S, U32S],
    "curdmesa_rfc3339_format": [*MOMENT, *OUT],
    "curdmesa_crontab_check": [*BYTES],
    "curdmesa_category_word": [U32, *OUT],
    "curdmesa_category_of_word": [*BYTES, U32S],
    "curdmesa_reason_word": [U32, *OUT],
    "curdmesa_reason_of_word": [*BYTES, U32S],
    "curdmesa_ledger_record": [U64S, SIZE, U32, U32, U64],
    "curdmesa_ledger_record_losses": [U64S, SIZE, U64S, SIZE, U32, U64S],
    "curdmesa_ledger_record_envelope": [U64S, SIZE, *BYTES, U32, U64S],
    "curdmesa_ledger_held": [U64S, SIZE, U32, U32, U64S],
    "curdmesa_ledger_flush": [U64S, SIZE, *MOMENT, *OUT],
    "curdmesa_ledger_flush_item": [U64S, SIZE, *MOMENT, *OUT],
    "curdmesa_ledger_write": [U64S, SIZE, *OUT],
    "curdmesa_ledger_read": [*BYTES, U64S, SIZE],
    "curdmesa_limits_update": [U64S, SIZE, *BYTES, *MOMENT],
    "curdmesa_limits_retry_after": [U64S, SIZE, *BYTES, *MOMENT],
    "curdmesa_limits_category_end": [U64S, SIZE, U32, U64S],
    "curdmesa_limits_item_end": [U64S, SIZE, *BYTES, U64S],
    "curdmesa_envelope_measure": [*BYTES, U64S, SIZE, U64S, SIZE, U64S],
}


def _load() -> ctypes.CDLL:
    path = os.environ.get("CURDMESA_SO") or Path(__file__).with_name("libcurdmesa.so")
    path = os.path.abspath(path)
    try:
        loaded = ctypes.CDLL(path)
    except OSError as error:
        raise ImportError(f"can't load {path} ({error}): `make` in bindings/python links it; "
                          "CURDMESA_SO may name another file") from error
    try:
        loaded.curdmesa_version.restype = U32
        number = loaded.curdmesa_version()
        for name, arguments in FUNCTIONS.items():
            function = getattr(loaded, name)
            function.argtypes = arguments
            function.restype = ctypes.c_int32
    except AttributeError as error:
        raise ImportError(f"{path} isn't the library of this package: {error}") from error
    version = f"{number // 1_000_000}.{number // 1000 % 1000}.{number % 1000}"
    if version != VERSION:
        raise ImportError(f"{path} is version {version} of the library, this package {VERSION}")
    return loaded


library = _load()


@functools.lru_cache(maxsize=None)
def _buffer_type(element: type, length: int) -> type:
    return element * length


def row_buffer(element: type, room: int) -> ctypes.Array:
    """Returns an array of at least `room` elements. Its length is a power of two: ctypes makes a
    type for each length of an array, which takes longer than most calls, and keeps it."""
    return _buffer_type(element, 1 << (room - 1).bit_length())()


def text_buffer(room: int) -> ctypes.Array:
    """Returns a buffer of at least `room` bytes, and of 256."""
    return row_buffer(ctypes.c_char, max(256, room))


def written(room: int, call: Callable[..., int]) -> bytes:
    """Returns the text that a call writes: with room for `room` bytes at first, and with as much
    as the text needs if that is too little."""
    needed = U64(0)
    out = text_buffer(room)
    status = call(out, len(out), needed)
    while status == Status.NO_ROOM:
        out = text_buffer(needed.value)
        status = call(out, len(out), needed)
    done(status)
    return memoryview(out)[: needed.value].tobytes()


def status_text(status: int) -> str:
    """Returns the library's text of a status."""
    out, needed = text_buffer(256), U64(0)
    if library.curdmesa_status_text(status, out, len(out), needed) != Status.OK:
        return f"unknown status {status}"
    return memoryview(out)[: needed.value].tobytes().decode()


Data = Union[bytes, bytearray, memoryview]
Text = Union[str, Data]


def data_bytes(data: Data) -> bytes:
    """Returns bytes that nobody changes during a call."""
    return data if isinstance(data, bytes) else memoryview(data).tobytes()


def text_bytes(text: Text) -> bytes:
    """Returns a text's bytes; a lone surrogate becomes bytes that aren't UTF-8."""
    return text.encode("utf-8", "surrogatepass") if isinstance(text, str) else data_bytes(text)


def whole(number: int) -> int:
    """Refuses what isn't a whole number of 64 bits, which C would cut."""
    number = operator.index(number)
    if not 0 <= number < 2**64:
        raise ValueError(f"not a whole number of 64 bits: {number}")
    return number
