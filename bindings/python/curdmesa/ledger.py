"""Losses that aren't reported yet."""

from __future__ import annotations

import threading
from typing import Callable, Iterable, List, Optional

from ._library import LOSSES, SUMS, U64, Data, data_bytes, library, whole, written
from ._losses import Loss, sums_of
from .errors import NothingLeft, done
from .moments import Moment, When
from .words import Category, Reason, member


class Ledger:
    """The quantity of each category that was lost for each reason and isn't reported yet. Threads
    may share a ledger: its calls wait for each other. A finalizer or a handler of signals that runs
    during such a call may record a loss too. In a child that is forked while another thread is in
    such a call the ledger stays locked. Pickling and copying take its losses along.

    >>> ledger = Ledger()
    >>> ledger.record(Category.ERROR, Reason.NETWORK_ERROR, 2)
    >>> ledger.flush((60, 0)).splitlines()[-1].decode()
    '{"discarded_events":[{"category":"error","quantity":2,"reason":"network_error"}],"timestamp":60}'
    >>> ledger.flush() is None
    True
    """

    def __init__(self, sums: Iterable[int] = ()) -> None:
        """A ledger without losses, or with the sums of another one. Raises ValueError for other
        than 108 sums, or a sum outside 0 to 2^64-1."""
        sums = [whole(each) for each in sums] or [0] * SUMS
        if len(sums) != SUMS:
            raise ValueError(f"a ledger has {SUMS} sums, not {len(sums)}")
        self._sums = (U64 * SUMS)(*sums)
        self._lock = threading.RLock()

    def __reduce__(self) -> tuple:
        return type(self), (self.sums,)

    @property
    def sums(self) -> List[int]:
        """What the ledger holds: for each category in turn the sum of each reason."""
        with self._lock:
            return self._sums[:]

    def record(self, category: Category, reason: Reason, quantity: int) -> None:
        """Adds a loss.

        Raises LedgerFull exactly if the sum would exceed 2^64-1, and ValueError for a quantity
        outside 0 to 2^64-1 or a number that is no Category or Reason, TypeError for a member of
        another enumeration, as where the two are exchanged; the ledger is unchanged.
        """
        pair = member(Category, category), member(Reason, reason)
        with self._lock:
            done(library.curdmesa_ledger_record(self._sums, SUMS, *pair, whole(quantity)))

    def record_losses(self, losses: Iterable[Loss], reason: Reason) -> int:
        """Adds losses: those without a reason under `reason`, all others under their own. Returns
        how many sums are refused, and not added, because the ledger's would exceed 2^64-1.

        Raises ValueError and TypeError as `record` does; the ledger is unchanged.
        """
        sums, reason, refused = sums_of(losses), member(Reason, reason), U64(0)
        with self._lock:
            done(library.curdmesa_ledger_record_losses(
                self._sums, SUMS, sums, LOSSES, reason, refused
            ))
        return refused.value

    def record_envelope(self, data: Data, reason: Reason) -> int:
        """Adds what is lost if an envelope isn't sent: its `losses`, as `record_losses` does. So an
        envelope of `flush` that can't be sent is put back. Returns how many sums are refused.

        Raises the errors of `losses`, and ValueError and TypeError as `record` does; the ledger is
        unchanged.
        """
        data, reason, refused = data_bytes(data), member(Reason, reason), U64(0)
        with self._lock:
            done(library.curdmesa_ledger_record_envelope(
                self._sums, SUMS, data, len(data), reason, refused
            ))
        return refused.value

    def held(self, category: Category, reason: Reason) -> int:
        """Returns the quantity of a category and a reason that the ledger holds. Raises ValueError
        for a number that is no Category or Reason, TypeError for a member of another enumeration."""
        quantity = U64(0)
        pair = member(Category, category), member(Reason, reason)
        with self._lock:
            done(library.curdmesa_ledger_held(self._sums, SUMS, *pair, quantity))
        return quantity.value

    def flush(self, now: Optional[When] = None) -> Optional[bytes]:
        """Moves all losses into a client report of the moment `now`, which defaults to the system's
        clock, and returns the envelope of that one item; None if the ledger holds no loss.

        The losses are only in the envelope then: if it can't be sent, `record_envelope` puts them
        back, each under its own reason. Raises NoMoment, OutOfMemory, and ValueError for a datetime
        without a time zone; the ledger is unchanged.
        """
        return self._flush(library.curdmesa_ledger_flush, now)

    def flush_item(self, now: Optional[When] = None) -> Optional[bytes]:
        """Does what `flush` does, but returns the report's item alone: its header and its payload,
        each with a line feed. Behind an envelope that ends with a line feed it is one more item of
        that envelope."""
        return self._flush(library.curdmesa_ledger_flush_item, now)

    def _flush(self, call: Callable[..., int], now: Optional[When]) -> Optional[bytes]:
        secs, nanos = Moment.of_or_now(now)
        with self._lock:
            try:
                return written(1024, lambda *out: call(self._sums, SUMS, secs, nanos, *out))
            except NothingLeft:
                return None

    def to_bytes(self) -> bytes:
        """Returns the ledger as bytes, as a spool keeps it over a restart. Raises OutOfMemory."""
        with self._lock:
            return written(882, lambda *out: library.curdmesa_ledger_write(self._sums, SUMS, *out))

    @classmethod
    def from_bytes(cls, data: Data) -> Ledger:
        """Returns the ledger that `to_bytes` made these bytes of. Raises InvalidText if they aren't
        those of a ledger."""
        data, ledger = data_bytes(data), cls()
        done(library.curdmesa_ledger_read(data, len(data), ledger._sums, SUMS))
        return ledger
