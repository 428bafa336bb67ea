"""Sentry envelopes, DSNs, auth headers and client reports, over the C library of Curdmesa.

The library is proved to meet its contracts. The calls here are not: each hands its arguments to one
function of curdmesa.h, and gives back what that returns. There is no state and no handle but a
Ledger's sums and RateLimits' ends, so calls may be made from several threads at once; they run without the interpreter's
lock.

The shared object is libcurdmesa.so in this package's folder, as a wheel has it, or the file that the
environment variable CURDMESA_SO names.
"""

from ._library import VERSION as __version__
from ._losses import Loss
from .envelopes import Filtered, Frame, check, filter, frames, normalize, show_json
from .errors import (
    AuthError, AuthInvalidVersion, AuthMissingPublicKey, AuthNonSentry, DsnError,
    DsnInvalidProjectId, DsnInvalidScheme, DsnInvalidUrl, DsnNoProjectId, DsnNoUsername,
    EnvelopeError, Error, InvalidArgument, InvalidHeader, InvalidItemHeader, InvalidItemPayload,
    InvalidText, LedgerFull, MissingHeader, MissingItemHeader, MissingNewline, NoMoment, NoRoom,
    NothingLeft, NotUtf8, OutOfMemory, Status, TextError, UnexpectedEof, error_of)
from .faults import Fault, Mended, Misfit, Note, Repair, Repairs, explain, mend
from .forwarding import AnyFrame, Forwarded, any_frames, forward, losses
from .headers import Header, Trace
from .ledger import Ledger
from .making import append_item, make_envelope, make_event
from .limits import Measured, RateLimits, measure
from .moments import Moment, rfc3339_format, rfc3339_parse
from .texts import Auth, Dsn, crontab_check
from .words import Category, ItemKind, Reason

# All names but `filter`, which would hide Python's own where all are imported.
__all__ = [
    "AnyFrame", "Auth", "AuthError", "AuthInvalidVersion", "AuthMissingPublicKey", "AuthNonSentry",
    "Category", "Dsn", "DsnError", "DsnInvalidProjectId", "DsnInvalidScheme", "DsnInvalidUrl",
    "DsnNoProjectId", "DsnNoUsername", "EnvelopeError", "Error", "Fault", "Filtered", "Forwarded",
    "Frame", "Header", "InvalidArgument", "InvalidHeader", "InvalidItemHeader",
    "InvalidItemPayload", "InvalidText", "ItemKind", "Ledger", "LedgerFull", "Loss", "Measured",
    "Mended", "Misfit", "MissingHeader", "MissingItemHeader", "MissingNewline", "Moment",
    "NoMoment", "NoRoom", "NotUtf8", "Note", "NothingLeft", "OutOfMemory", "RateLimits", "Reason",
    "Repair", "Repairs", "Status", "TextError", "Trace", "UnexpectedEof", "__version__",
    "any_frames", "append_item", "check", "crontab_check", "error_of", "explain", "forward",
    "frames", "losses", "make_envelope", "make_event", "measure", "mend", "normalize",
    "rfc3339_format", "rfc3339_parse", "show_json",
]
