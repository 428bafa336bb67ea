"""A relay: takes envelopes from Sentry's SDKs, drops items, forwards the rest byte for byte, and
reports what it lost. It needs the package curdmesa, and Python's standard library.

    relay.py DSN [--port PORT] [--drop TYPE]... [--largest BYTES] [--room ENVELOPES]
             [--seconds SECONDS]

It listens on 127.0.0.1, prints its port, and sends on to the server of the DSN. A client's DSN is
that DSN with the relay's host and port. `--drop` names item types that are dropped, known ones or
not, and attachments above `--largest` bytes are dropped too, as are envelopes for which there is no
room while others wait. A report is due every so many seconds. SIGINT or SIGTERM ends the relay once
all that waits is sent.

A client is answered 200 once its envelope waits to be sent. What the relay drops or can't send after
that is in its reports, so in each data category what came in is what went out and what was reported.
Refused, and not counted, are 400 what is no envelope or can't be unpacked, 401 no authentication,
403 another key, 404 another path or project, 411 no length, 413 too many bytes, 415 another
encoding. An event that an older client posts by itself is framed.
"""

import argparse
import contextlib
import http.client
import http.server
import json
import queue
import signal
import threading
import time
import urllib.parse
import zlib

import curdmesa
from curdmesa import Auth, Dsn, ItemKind, Ledger, Reason

#: The longest body, and the longest envelope that it may unpack to, in bytes.
LONGEST_BODY, LONGEST_ENVELOPE = 1 << 20, 8 << 20


class Relay:
    """Drops, queues and sends envelopes, and keeps a ledger of what is lost."""

    def __init__(self, dsn, drop, largest, room, seconds):
        self.dsn, self.drop, self.largest, self.seconds = dsn, drop, largest, seconds
        self.ledger, self.waiting = Ledger(), queue.Queue(room)

    def keep(self, frame):
        """Tells whether an item is forwarded."""
        if frame.kind is ItemKind.ATTACHMENT and len(frame.payload) > self.largest:
            return False
        return frame.word not in self.drop

    def take(self, data):
        """Queues what is left of an envelope. Raises EnvelopeError if its framing is damaged."""
        left = curdmesa.forward(data, self.keep, attachments_follow=True)
        self.ledger.record_losses(left.losses, Reason.EVENT_PROCESSOR)
        if left.envelope is None:
            return
        try:
            self.waiting.put_nowait(left.envelope)
        except queue.Full:
            self.lose(left.envelope, Reason.QUEUE_OVERFLOW)

    def lose(self, envelope, reason):
        """Records all that an envelope holds. What a client report tells keeps its own reasons, so
        an unsent report is put back."""
        self.ledger.record_envelope(envelope, reason)

    def send(self, envelope):
        """Sends an envelope, or records its losses."""
        status = self.post(envelope)
        if status is None:
            self.lose(envelope, Reason.NETWORK_ERROR)
        elif not 200 <= status < 300 and status != 429:  # what is answered 429 the server counts
            self.lose(envelope, Reason.SEND_ERROR)

    def post(self, envelope):
        """Posts an envelope to the server. Returns its status, or None if it doesn't answer."""
        kind = http.client.HTTPSConnection if self.dsn.is_https else http.client.HTTPConnection
        connection = kind(self.dsn.host, self.dsn.port, timeout=10)
        path = urllib.parse.urlsplit(self.dsn.envelope_url()).path
        headers = {
            "X-Sentry-Auth": self.dsn.auth("curdmesa-relay/1.0"),
            "Content-Type": "application/x-sentry-envelope",
        }
        try:
            connection.request("POST", path, envelope, headers)
            return connection.getresponse().status
        except (OSError, http.client.HTTPException):
            return None
        finally:
            connection.close()

    def report(self):
        """Sends what was lost since the last report, if anything was."""
        report = self.ledger.flush()
        if report is not None:
            self.send(report)

    def run(self):
        """Sends what waits, and reports when they are due, up to a None."""
        due = time.monotonic() + self.seconds
        while True:
            if time.monotonic() >= due:
                self.report()
                due = time.monotonic() + self.seconds
            try:
                envelope = self.waiting.get(timeout=max(0, due - time.monotonic()))
            except queue.Empty:
                continue
            if envelope is None:
                return self.report()
            self.send(envelope)


class Refused(Exception):
    """A request is refused: the status, and what is wrong."""


def unpacked(body, encoding):
    """Unpacks a body. Raises Refused if it is damaged or becomes too long."""
    if not encoding:
        return body
    reader = zlib.decompressobj(zlib.MAX_WBITS + 16 * (encoding == "gzip"))
    try:
        data = reader.decompress(body, LONGEST_ENVELOPE + 1)
    except zlib.error as error:
        raise Refused(400, str(error)) from None
    if len(data) > LONGEST_ENVELOPE:
        raise Refused(413, "an envelope that is too long")
    if not reader.eof or reader.unused_data:
        raise Refused(400, "packed data that is cut short, or has something behind it")
    return data


def envelope_of(event):
    """Returns the envelope of an event that an older client posts by itself."""
    try:
        header = json.dumps({"event_id": json.loads(event)["event_id"]}).encode()
    except (ValueError, LookupError, TypeError, RecursionError):
        raise Refused(400, "no event with an id") from None
    return b'%b\n{"type":"event","length":%d}\n%b\n' % (header, len(event), event)


class Handler(http.server.BaseHTTPRequestHandler):
    """Answers the requests of clients, each in a thread of its own."""

    timeout = 10
    relay = None

    def do_POST(self):
        try:
            self.take()
            status, detail = 200, None
        except Refused as refused:
            status, detail = refused.args
        except curdmesa.EnvelopeError as error:
            status, detail = 400, str(error)
        text = json.dumps({"detail": detail} if detail else {}).encode()
        self.send_response(status)
        self.send_header("Content-Type", "application/json")
        self.send_header("Content-Length", str(len(text)))
        self.end_headers()
        self.wfile.write(text)
        if status != 200:
            self.drain()

    def drain(self):
        """Reads what a refused client still sends, so that it comes to read the answer."""
        with contextlib.suppress(OSError):
            for _ in range(LONGEST_ENVELOPE >> 16):
                if not self.connection.recv(1 << 16):
                    break

    def take(self):
        """Takes the envelope of a request. Raises Refused and EnvelopeError."""
        is_event = self.is_event()
        encoding = (self.headers["Content-Encoding"] or "").lower()
        if encoding not in ("", "gzip", "deflate"):
            raise Refused(415, "another encoding than gzip and deflate")
        length = self.headers["Content-Length"] or ""
        if not (length.isascii() and length.isdigit()):
            raise Refused(411, "no length")
        if len(length) > 9 or int(length) > LONGEST_BODY:
            raise Refused(413, "a body that is too long")
        body = self.rfile.read(int(length))
        if len(body) < int(length):
            raise Refused(400, "a body that is cut short")
        data = unpacked(body, encoding)
        self.relay.take(envelope_of(data) if is_event else data)

    def is_event(self):
        """Tells whether a client posts an event by itself, or an envelope. Raises Refused for another
        path, and for a client without the relay's key."""
        url, dsn = urllib.parse.urlsplit(self.path), self.relay.dsn
        paths = [f"/api/{dsn.project_id}/envelope/", f"/api/{dsn.project_id}/store/"]
        if url.path not in paths:
            raise Refused(404, "no such project")
        header = self.headers["X-Sentry-Auth"]
        try:
            # (a header is a text of Latin-1 here, whatever its bytes are)
            auth = Auth.parse(header.encode("latin-1")) if header else Auth.from_query(url.query)
        except curdmesa.AuthError as error:
            raise Refused(401, str(error)) from None
        if auth.public_key != dsn.public_key:
            raise Refused(403, "another key")
        return url.path == paths[1]

    def log_message(self, *_):
        """Writes no log."""


def main():
    parser = argparse.ArgumentParser(description="Forwards envelopes and reports what is lost.")
    parser.add_argument("dsn", help="the server's DSN")
    parser.add_argument("--port", type=int, default=0, help="default: one that is free")
    parser.add_argument("--drop", action="append", default=[], metavar="TYPE")
    parser.add_argument("--largest", type=int, default=LONGEST_ENVELOPE, metavar="BYTES")
    parser.add_argument("--room", type=int, default=100, help="envelopes that may wait")
    parser.add_argument("--seconds", type=float, default=60.0, help="between reports")
    given = parser.parse_args()
    try:
        dsn = Dsn.parse(given.dsn)
    except curdmesa.DsnError as error:
        parser.error(f"{given.dsn}: {error}")
    relay = Handler.relay = Relay(dsn, given.drop, given.largest, given.room, given.seconds)
    server = http.server.ThreadingHTTPServer(("127.0.0.1", given.port), Handler)
    server.daemon_threads = False  # so that each request is answered before the end
    sender = threading.Thread(target=relay.run)
    sender.start()
    for number in signal.SIGINT, signal.SIGTERM:
        signal.signal(number, lambda *_: threading.Thread(target=server.shutdown).start())
    print(server.server_address[1], flush=True)
    server.serve_forever()
    server.server_close()
    relay.waiting.put(None)
    sender.join()


if __name__ == "__main__":
    main()
