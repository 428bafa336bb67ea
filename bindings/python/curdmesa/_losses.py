"""Losses, as the library's sums and as values."""

from __future__ import annotations

import ctypes
from dataclasses import dataclass
from typing import Iterable, List, Optional

from ._library import LOSSES, U64, whole
from .words import Category, Reason, member


@dataclass(frozen=True)
class Loss:
    """A quantity of a category that is lost for a reason."""

    category: Category
    #: The discard reason, where one is known: that of a client report's item. Compare it with None,
    #: since the first reason is 0.
    reason: Optional[Reason]
    #: The quantity; it stops at 2^64-1.
    quantity: int


#: The category and the reason of each sum.
_PLACES = [(category, reason) for category in Category for reason in (None, *Reason)]


def no_sums() -> ctypes.Array:
    return (U64 * LOSSES)()


def losses_of(sums: ctypes.Array) -> List[Loss]:
    """Returns the losses above 0: by category; in each the one without a reason first, then by
    reason."""
    return [Loss(*_PLACES[at], quantity) for at, quantity in enumerate(sums[:]) if quantity > 0]


def sums_of(losses: Iterable[Loss]) -> ctypes.Array:
    """Returns the sums of losses; a sum stops at 2^64-1. Raises ValueError and TypeError as
    Ledger.record does."""
    sums = no_sums()
    for loss in losses:
        at = 10 * member(Category, loss.category)
        if loss.reason is not None:
            at += 1 + member(Reason, loss.reason)
        sums[at] = min(sums[at] + whole(loss.quantity), 2**64 - 1)
    return sums
