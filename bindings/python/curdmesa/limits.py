"""Rate limits, and the measure of an envelope."""

from __future__ import annotations

import threading
from dataclasses import dataclass
from typing import Dict, Iterable, List, Optional

from ._library import LIMITS, MEASURES, U64, Data, Text, data_bytes, library, text_bytes, whole
from .errors import done
from .moments import Moment, When
from .words import Category, ItemKind, member


class RateLimits:
    """The rate limits that Sentry's answers state: when the limit of each category ends, and that of
    all categories, in whole seconds. Threads may share them: their calls wait for each other.
    Pickling and copying take the ends along.

    The rules: https://develop.sentry.dev/sdk/expected-features/rate-limiting/

    >>> limits = RateLimits()
    >>> limits.update("60:transaction:key, 2700:error;security:organization", (1000, 0))
    >>> limits.until(Category.ERROR)
    Moment(secs=3700, nanos=0)
    >>> limits.is_item_limited("transaction", (1060, 0))
    False
    """

    def __init__(self, ends: Iterable[int] = ()) -> None:
        """Limits of which none holds, or with the ends of other ones. Raises ValueError for other
        than 13 ends, or an end outside 0 to 2^64-1."""
        ends = [whole(each) for each in ends] or [0] * LIMITS
        if len(ends) != LIMITS:
            raise ValueError(f"rate limits have {LIMITS} ends, not {len(ends)}")
        self._ends = (U64 * LIMITS)(*ends)
        self._lock = threading.RLock()

    def __reduce__(self) -> tuple:
        return type(self), (self.ends,)

    @property
    def ends(self) -> List[int]:
        """When the limits end, in seconds since 1970; 0 if there is none: first that of all
        categories, then that of each category."""
        with self._lock:
            return self._ends[:]

    def update(self, header: Text, now: Optional[When] = None) -> None:
        """Holds the limits that the value of an X-Sentry-Rate-Limits header states, which came at
        the moment `now`, which defaults to the system's clock. They are held beside the others: of
        two ends the later one counts.

        A number of seconds that can't be read stands for 60, and an empty list of categories for
        all; categories that Category doesn't have are ignored. Raises NotUtf8, NoMoment, and
        ValueError for a datetime without a time zone; the limits are unchanged.
        """
        data, (secs, nanos) = text_bytes(header), Moment.of_or_now(now)
        with self._lock:
            done(library.curdmesa_limits_update(self._ends, LIMITS, data, len(data), secs, nanos))

    def update_retry_after(self, value: Text, now: Optional[When] = None) -> None:
        """Holds a limit of all categories that the value of a Retry-After header states, beside the
        others: of an answer with status 429 that has no X-Sentry-Rate-Limits.

        The value is a number of seconds or an HTTP date; any other, as the empty text for an absent
        header, stands for 60 seconds. Raises as `update` does.
        """
        data, (secs, nanos) = text_bytes(value), Moment.of_or_now(now)
        with self._lock:
            done(library.curdmesa_limits_retry_after(
                self._ends, LIMITS, data, len(data), secs, nanos
            ))

    def _category_end(self, category: Category) -> int:
        end = U64(0)
        with self._lock:
            done(library.curdmesa_limits_category_end(
                self._ends, LIMITS, member(Category, category), end
            ))
        return end.value

    def _item_end(self, word: Text) -> int:
        end, data = U64(0), text_bytes(word)
        with self._lock:
            done(library.curdmesa_limits_item_end(self._ends, LIMITS, data, len(data), end))
        return end.value

    def until(self, category: Category) -> Optional[Moment]:
        """Returns until when a category is limited, by its own limit or by that of all categories;
        None if no such limit was stated. The moment may be past. Raises ValueError for a number that
        is no Category, TypeError for a member of another enumeration."""
        end = self._category_end(category)
        return Moment(end) if end else None

    def item_until(self, word: Text) -> Optional[Moment]:
        """Returns until when items are limited of the type with this word, as `until` does, by the
        category that is lost with them. Logs and metrics are limited by two categories; a client
        report or an item of an unknown type has none, and is limited by the limit of all categories
        alone. Raises NotUtf8."""
        end = self._item_end(word)
        return Moment(end) if end else None

    def is_limited(self, category: Category, now: Optional[When] = None) -> bool:
        """Returns whether a category is limited at the moment `now`, which defaults to the system's
        clock. Raises as `until` does, NoMoment, and ValueError for a datetime without a time zone."""
        return Moment.of_or_now(now).secs < self._category_end(category)

    def is_item_limited(self, word: Text, now: Optional[When] = None) -> bool:
        """Returns whether items are limited of the type with this word at the moment `now`, as
        `item_until` and `is_limited` tell."""
        return Moment.of_or_now(now).secs < self._item_end(word)


@dataclass(frozen=True)
class Measured:
    """Counts and sizes of the items of an envelope, by their types."""

    #: How many items of each type there are; None stands for unknown types.
    items: Dict[Optional[ItemKind], int]
    #: The size of the payloads of these items in bytes.
    bytes: Dict[Optional[ItemKind], int]
    #: The size of the longest payload in bytes; 0 if there is none.
    longest: int


def measure(data: Data) -> Measured:
    """Counts the items of an envelope, and the bytes of their payloads. Only the header line and
    item headers are read. Raises as `any_frames` does.

    >>> measured = measure(b'{}\\n{"type":"attachment"}\\nhello')
    >>> measured.items[ItemKind.ATTACHMENT], measured.bytes[ItemKind.ATTACHMENT], measured.items[None]
    (1, 5, 0)
    """
    data = data_bytes(data)
    items, sizes, longest = (U64 * MEASURES)(), (U64 * MEASURES)(), U64(0)
    done(library.curdmesa_envelope_measure(
        data, len(data), items, MEASURES, sizes, MEASURES, longest
    ))
    kinds = [*ItemKind, None]
    return Measured(dict(zip(kinds, items)), dict(zip(kinds, sizes)), longest.value)
