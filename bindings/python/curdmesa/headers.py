"""Envelope headers."""

from __future__ import annotations

from dataclasses import dataclass
from typing import Optional

from ._library import Data, HeaderParts, Place, TraceParts, data_bytes, library, written
from .moments import Moment


def _text(texts: bytes, flag: int, place: Place) -> Optional[str]:
    return place.of(texts) if flag else None


@dataclass(frozen=True)
class Trace:
    """The dynamic sampling context of a trace: the data by which the trace is sampled."""

    #: 32 hex digits in lower case.
    trace_id: Optional[str]
    #: The public key of the DSN that the trace is sent to.
    public_key: Optional[str]
    release: Optional[str]
    environment: Optional[str]
    #: The transaction name.
    transaction: Optional[str]
    sample_rate: Optional[float]
    #: The random value that the sample rate is compared with.
    sample_rand: Optional[float]
    #: Whether the trace was sampled.
    sampled: Optional[bool]
    #: The organization id.
    org_id: Optional[int]

    @classmethod
    def _of(cls, parts: TraceParts, texts: bytes) -> Trace:
        return cls(
            trace_id=_text(texts, parts.has_trace_id, parts.trace_id),
            public_key=_text(texts, parts.has_public_key, parts.public_key),
            release=_text(texts, parts.has_release, parts.release),
            environment=_text(texts, parts.has_environment, parts.environment),
            transaction=_text(texts, parts.has_transaction, parts.transaction),
            sample_rate=parts.sample_rate / 10**9 if parts.has_sample_rate else None,
            sample_rand=parts.sample_rand / 10**9 if parts.has_sample_rand else None,
            sampled=parts.sampled != 0 if parts.has_sampled else None,
            org_id=parts.org_id if parts.has_org_id else None,
        )


@dataclass(frozen=True)
class Header:
    """The headers of an envelope: the members of its first line.

    >>> header = Header.parse(b'{"sdk":{"name":"my-sdk","version":"1.0"},"trace":{"sampled":"true"}}\\n')
    >>> header.sdk_name, header.trace.sampled, header.event_id
    ('my-sdk', True, None)
    """

    #: Hyphenated, in lower case.
    event_id: Optional[str]
    #: The printed form of the DSN that the envelope is sent to, which Dsn.parse takes apart.
    dsn: Optional[str]
    #: Name and version of the SDK that sends the envelope.
    sdk_name: Optional[str]
    sdk_version: Optional[str]
    #: The time of sending.
    sent_at: Optional[Moment]
    #: The dynamic sampling context of the trace.
    trace: Optional[Trace]

    @classmethod
    def parse(cls, data: Data) -> Header:
        """Parses the header line of an envelope. Members of other keys are ignored, and what stands
        behind the header line isn't parsed.

        Raises InvalidHeader, OutOfMemory.
        """
        line, _, _ = data_bytes(data).partition(b"\n")
        parts = HeaderParts()
        texts = written(
            len(line) + 64,
            lambda *out: library.curdmesa_envelope_header(line, len(line), *out, parts),
        )
        return cls(
            event_id=_text(texts, parts.has_event_id, parts.event_id),
            dsn=_text(texts, parts.has_dsn, parts.dsn),
            sdk_name=_text(texts, parts.has_sdk, parts.sdk_name),
            sdk_version=_text(texts, parts.has_sdk, parts.sdk_version),
            sent_at=Moment(parts.sent_at_secs, parts.sent_at_nanos) if parts.has_sent_at else None,
            trace=Trace._of(parts.trace, texts) if parts.has_trace else None,
        )
