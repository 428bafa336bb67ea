"""Statuses of the library as exceptions."""

from __future__ import annotations

import enum
from typing import TYPE_CHECKING, Iterator, List, Optional, Tuple

if TYPE_CHECKING:
    from .faults import Fault


class Status(enum.IntEnum):
    """What every function of curdmesa.h returns."""

    OK = 0
    NO_ROOM = 1
    NO_MOMENT = 2
    NOT_UTF8 = 3
    INVALID_TEXT = 4
    INVALID_ARGUMENT = 5
    NOTHING_LEFT = 6
    LEDGER_FULL = 7
    UNEXPECTED_EOF = 10
    MISSING_HEADER = 11
    MISSING_ITEM_HEADER = 12
    MISSING_NEWLINE = 13
    INVALID_HEADER = 14
    INVALID_ITEM_HEADER = 15
    INVALID_ITEM_PAYLOAD = 16
    OUT_OF_MEMORY = 17
    DSN_INVALID_URL = 20
    DSN_INVALID_SCHEME = 21
    DSN_NO_USERNAME = 22
    DSN_NO_PROJECT_ID = 23
    DSN_INVALID_PROJECT_ID = 24
    AUTH_NON_SENTRY = 30
    AUTH_INVALID_VERSION = 31
    AUTH_MISSING_PUBLIC_KEY = 32


class Error(Exception):
    """A call failed. `status` says why: a Status, or another number if the library is of another
    version. `text` is the library's text of the status."""

    status: int = -1

    def __init__(self, status: Optional[int] = None):
        super().__init__(type(self).status if status is None else status)
        self.status = self.args[0]

    @property
    def text(self) -> str:
        from ._library import status_text  # a module that imports this one

        return status_text(self.status)

    def __str__(self) -> str:
        return self.text


class EnvelopeError(Error):
    """The bytes are no envelope; the subclass names the first check that fails.

    What check, normalize and filter raise says where and why as well: `item`, `offset`, `path` and
    `why` are those of the first of its `faults`, and it prints as that fault's line. The faults are
    looked for when one of these is first asked for, in the bytes of the envelope, which the
    exception keeps.
    """

    _refused: Optional[Tuple[bytes, Tuple[int, int]]] = None
    _faults: Optional[List[Fault]] = None

    @property
    def faults(self) -> List[Fault]:
        """The faults of the envelope, as explain tells them; none if another call raised this."""
        if self._faults is None:
            from .faults import explain

            self._faults = explain(*self._refused) if self._refused else []
        return self._faults

    @property
    def item(self) -> Optional[int]:
        """Index of the item at fault; None for the header line, or if nothing is known."""
        return self.faults[0].item if self.faults else None

    @property
    def offset(self) -> Optional[int]:
        """Offset of what doesn't fit, in the bytes of the envelope; None if nothing is known."""
        return self.faults[0].offset if self.faults else None

    @property
    def path(self) -> Optional[str]:
        """Keys and indices that lead to what doesn't fit, such as "exception.values[0].type"; None
        if no single value is at fault."""
        return self.faults[0].path if self.faults else None

    @property
    def why(self) -> Optional[str]:
        """What is wanted, and what is found; None if no single value is at fault."""
        return self.faults[0].why if self.faults else None

    def __str__(self) -> str:
        try:
            return str(self.faults[0]) if self.faults else super().__str__()
        except MemoryError:
            return super().__str__()


class TextError(Error):
    """A text that a call parses is refused: a DSN, an auth header, a timestamp or a schedule."""


class DsnError(TextError):
    """The text is no DSN; the subclass names the first check that fails."""


class AuthError(TextError):
    """The text is no client authentication; the subclass names the first check that fails."""


class NoRoom(Error):
    """The text is longer than the room for it. This package makes room, so no call raises this."""

    status = Status.NO_ROOM


class NoMoment(Error):
    """No such moment: before 1970, past the year 9999, or 10^9 nanoseconds or more."""

    status = Status.NO_MOMENT


class NotUtf8(DsnError, AuthError):
    """The text isn't UTF-8, and so is no DSN, no client authentication, and no other text."""

    status = Status.NOT_UTF8


class InvalidText(TextError):
    """The text isn't a timestamp, or isn't a crontab schedule; or the bytes aren't a ledger's."""

    status = Status.INVALID_TEXT


class InvalidArgument(Error):
    """A number or the length of a table is out of range."""

    status = Status.INVALID_ARGUMENT


class NothingLeft(Error):
    """No item is left, or the ledger holds no loss. Calls return None instead."""

    status = Status.NOTHING_LEFT


class LedgerFull(Error):
    """The sum would exceed 2^64-1."""

    status = Status.LEDGER_FULL


class UnexpectedEof(EnvelopeError):
    """Only white space is left where an item is expected, or fewer bytes than an item header
    states."""

    status = Status.UNEXPECTED_EOF


class MissingHeader(EnvelopeError):
    """Never raised: an empty header line is InvalidHeader."""

    status = Status.MISSING_HEADER


class MissingItemHeader(EnvelopeError):
    """Never raised: bytes that are no item header are InvalidItemHeader."""

    status = Status.MISSING_ITEM_HEADER


class MissingNewline(EnvelopeError):
    """An item header, or a payload of a stated length, is followed by anything but a line feed or
    the end."""

    status = Status.MISSING_NEWLINE


class InvalidHeader(EnvelopeError):
    """The first line isn't one JSON object without floats that reads as envelope headers."""

    status = Status.INVALID_HEADER


class InvalidItemHeader(EnvelopeError):
    """An item doesn't begin with a JSON object without floats that reads as an item header."""

    status = Status.INVALID_ITEM_HEADER


class InvalidItemPayload(EnvelopeError):
    """A payload isn't one JSON text without floats that reads as its item type."""

    status = Status.INVALID_ITEM_PAYLOAD


class OutOfMemory(Error, MemoryError):
    """An allocation of the library failed."""

    status = Status.OUT_OF_MEMORY


class DsnInvalidUrl(DsnError):
    """No URL, or a URL without a host."""

    status = Status.DSN_INVALID_URL


class DsnInvalidScheme(DsnError):
    """The scheme is neither http nor https."""

    status = Status.DSN_INVALID_SCHEME


class DsnNoUsername(DsnError):
    """No user name, which is the public key."""

    status = Status.DSN_NO_USERNAME


class DsnNoProjectId(DsnError):
    """The path is "/"."""

    status = Status.DSN_NO_PROJECT_ID


class DsnInvalidProjectId(DsnError):
    """The project id is empty."""

    status = Status.DSN_INVALID_PROJECT_ID


class AuthNonSentry(AuthError):
    """The text doesn't begin with the word "sentry", in any ASCII case."""

    status = Status.AUTH_NON_SENTRY


class AuthInvalidVersion(AuthError):
    """A sentry_version, up to its first '.', isn't a whole number of 16 bits."""

    status = Status.AUTH_INVALID_VERSION


class AuthMissingPublicKey(AuthError):
    """The public key (sentry_key) is absent or empty."""

    status = Status.AUTH_MISSING_PUBLIC_KEY


def _subclasses(kind: type) -> Iterator[type]:
    for below in kind.__subclasses__():
        yield below
        yield from _subclasses(below)


_ERRORS = {int(kind.status): kind for kind in _subclasses(Error) if kind.status != -1}


def error_of(status: int) -> Error:
    """Returns the exception of a status other than OK."""
    kind = _ERRORS.get(status)
    return Error(status) if kind is None else kind()


def done(status: int) -> None:
    """Raises the error of a status other than OK."""
    if status != Status.OK:
        raise error_of(status)
