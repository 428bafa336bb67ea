"""The relay, between clients and a server here that keeps what it is sent. In each data category what
came in is what went out and what was reported."""

import gzip
import http.client
import http.server
import json
import os
import subprocess
import sys
import threading
import time
import unittest
import zlib
from collections import Counter
from pathlib import Path

HERE = Path(__file__).resolve().parent
KEY, PROJECT = "0123456789abcdef0123456789abcdef", 42
PATH, STORE = f"/api/{PROJECT}/envelope/", f"/api/{PROJECT}/store/"
AUTH = {"X-Sentry-Auth": f"Sentry sentry_key={KEY}, sentry_version=7"}

# A client that loses nothing by itself: 7 events, 2 attachments, 3 transactions of 2 spans each.
SDK = """
import sys, sentry_sdk
sentry_sdk.init(sys.argv[1], traces_sample_rate=1.0, auto_session_tracking=False,
                default_integrations=False)  # or its own requests may become spans
for number in range(5):
    sentry_sdk.capture_message(f"message {number}")
with sentry_sdk.push_scope() as scope:
    scope.add_attachment(bytes=b"x" * 10, filename="small.txt")
    scope.add_attachment(bytes=b"x" * 1000, filename="large.txt")
    sentry_sdk.capture_message("with attachments")
try:
    1 / 0
except ZeroDivisionError:
    sentry_sdk.capture_exception()
for _ in range(3):
    with sentry_sdk.start_transaction(name="t", op="test") as transaction:
        for op in "ab":
            with transaction.start_child(op=op):
                pass
sentry_sdk.flush()
"""


def python_with_sdk():
    """Returns a Python that has sentry_sdk: this one, or the system's; or None."""
    for python in filter(os.path.exists, [sys.executable, "/usr/bin/python3"]):
        ran = subprocess.run([python, "-c", "import sentry_sdk"], stderr=subprocess.DEVNULL)
        if ran.returncode == 0:
            return python
    return None


def read(name):
    return (HERE / "envelopes" / f"{name}.envelope").read_bytes()


def items(envelope):
    """Yields the types and payloads of items. (No header here has a line feed in it.)"""
    at = envelope.index(b"\n") + 1
    while at < len(envelope):
        start = envelope.index(b"\n", at) + 1
        header = json.loads(envelope[at:start])
        end = start + header["length"] if "length" in header else envelope.index(b"\n", start)
        yield header["type"], envelope[start:end]
        at = end + 1


def counts(envelopes):
    """Counts items by data category, without client reports."""
    found = Counter()
    for envelope in envelopes:
        for name, payload in items(envelope):
            if name == "transaction":
                found["transaction"] += 1
                found["span"] += 1 + len(json.loads(payload)["spans"])
            elif name == "attachment":
                found["attachment"] += len(payload)
            elif name in ("event", "session", "log"):
                found[{"event": "error", "log": "log_item"}.get(name, name)] += 1
                found["log_byte"] += 25 * (name == "log")  # of the log of envelopes/
    return +found


class Sink(http.server.ThreadingHTTPServer):
    """A server that keeps each envelope it accepts. It answers the next requests with `answers`,
    where None is no status, and all others with 200."""

    daemon_threads = True

    def __init__(self, port=0):
        super().__init__(("127.0.0.1", port), SinkHandler)
        self.envelopes, self.auths, self.answers = [], [], []
        self.is_open = threading.Event()
        self.is_open.set()
        threading.Thread(target=self.serve_forever, daemon=True).start()

    def wait_for_requests(self):
        """Waits until each of `answers` was given."""
        for _ in range(1200):
            if not self.answers:
                return
            time.sleep(0.05)
        raise TimeoutError(f"not asked for {self.answers}")

    @property
    def reported(self):
        """What client reports say, by category and reason."""
        found = Counter()
        for envelope in self.envelopes:
            for name, payload in items(envelope):
                if name == "client_report":
                    for loss in json.loads(payload)["discarded_events"]:
                        found[loss["category"], loss["reason"]] += loss["quantity"]
        return found

    @property
    def reported_categories(self):
        found = Counter()
        for (category, _), quantity in self.reported.items():
            found[category] += quantity
        return found

    def close(self):
        self.shutdown()
        self.server_close()


class SinkHandler(http.server.BaseHTTPRequestHandler):
    def do_POST(self):
        body = self.rfile.read(int(self.headers["Content-Length"]))
        self.server.is_open.wait()
        status = self.server.answers.pop(0) if self.server.answers else 200
        if status == 200:
            self.server.envelopes.append(body)
            self.server.auths.append((self.path, self.headers["X-Sentry-Auth"]))
        if status is None:
            self.wfile.write(b"nonsense\r\n\r\n")
            return
        self.send_response(status)
        self.send_header("Content-Length", "0")
        self.send_header("Location", self.path)  # which a 302 doesn't have the relay follow
        self.end_headers()

    def log_message(self, *_):
        pass


class Relay(unittest.TestCase):
    def setUp(self):
        self.sink = Sink()
        self.addCleanup(lambda: self.sink.close())
        self.relay = None

    def start(self, *words):
        dsn = f"http://{KEY}@127.0.0.1:{self.sink.server_address[1]}/{PROJECT}"
        self.relay = subprocess.Popen(
            [sys.executable, HERE / "relay.py", dsn, *words], stdout=subprocess.PIPE)
        self.addCleanup(self.relay.stdout.close)
        self.addCleanup(self.relay.wait)
        self.addCleanup(self.relay.kill)
        self.port = int(self.relay.stdout.readline())

    def stop(self):
        """Ends the relay, once all that waits is sent."""
        self.relay.terminate()
        self.assertEqual(self.relay.wait(60), 0)

    def post(self, body, headers=None, path=PATH, auth=AUTH, due=200):
        client = http.client.HTTPConnection("127.0.0.1", self.port, timeout=60)
        client.request("POST", path, body, {**auth, **(headers or {})})
        answer = client.getresponse()
        text = answer.read()
        client.close()
        self.assertEqual(answer.status, due, text)
        self.assertEqual(list(json.loads(text)), [] if due == 200 else ["detail"])

    def test_what_comes_in_goes_out_or_is_reported(self):
        self.start("--drop", "session", "--drop", "profile", "--largest", "9")
        given = [read(it) for it in ("event", "transaction", "session", "log", "attachment")]
        both = read("event") + b"".join(read("attachment").partition(b"\n")[2:])
        profile = read("refused/invalid_item_header")
        small = b'{}\n{"type":"attachment"}\nabcdefghi\n{"type":"never heard of"}\n\x00\xff\n'
        floats = read("refused/invalid_item_payload")
        given += [both, profile, small, floats]
        for at, envelope in enumerate(given):
            packed, encoding = [
                (envelope, ""), (gzip.compress(envelope), "gzip"),
                (zlib.compress(envelope), "deflate")][at % 3]
            self.post(packed, {"Content-Encoding": encoding} if encoding else None)
        alone = read("event").split(b"\n")[2]
        self.post(alone, path=STORE)
        framed = b'{"event_id": "%b"}\n' % json.loads(alone)["event_id"].encode()
        framed += read("event").partition(b"\n")[2].replace(
            b'{"length":299,"type":"event"}', b'{"type":"event","length":299}')
        given.append(framed)
        query = f"{PATH}?sentry_version=7&sentry_key={KEY}"
        self.post(read("event"), path=query, auth={})
        given.append(read("event"))
        self.stop()
        *forwarded, report = self.sink.envelopes
        due = [read("event"), read("transaction"), read("log"), read("event"), small, floats,
               framed, read("event")]
        self.assertEqual(forwarded, due)
        lost = {("session", "event_processor"): 1, ("attachment", "event_processor"): 20}
        self.assertEqual(self.sink.reported, lost)
        balance = counts(self.sink.envelopes) + self.sink.reported_categories
        self.assertEqual(counts(given), balance)
        for path, auth in self.sink.auths:
            self.assertEqual(path, PATH)
            self.assertIn(f"sentry_key={KEY}", auth)
        self.assertTrue(report)

    def test_what_a_server_refuses_is_reported(self):
        self.start()
        self.sink.answers += [503, 429, 400, 302]
        for name in "event", "session", "transaction", "attachment", "log":
            self.post(read(name))
        self.stop()
        # (What is answered with 429 is counted by the server.)
        lost = {("error", "send_error"): 1, ("transaction", "send_error"): 1,
                ("span", "send_error"): 2, ("attachment", "send_error"): 10}
        self.assertEqual(self.sink.reported, lost)
        self.assertIn(read("log"), self.sink.envelopes)

    def test_what_has_no_room_is_reported(self):
        self.start("--room", "2")
        self.sink.is_open.clear()
        # One is on its way at most, and two wait.
        for _ in range(5):
            self.post(read("event"))
        self.sink.is_open.set()
        self.stop()
        sent = counts(self.sink.envelopes)["error"]
        self.assertIn(sent, (2, 3))
        self.assertEqual(self.sink.reported, {("error", "queue_overflow"): 5 - sent})

    def test_a_report_that_is_not_sent_is_put_back(self):
        self.start("--drop", "event", "--seconds", "0.2")
        self.sink.answers += [503] * 3
        self.post(read("event"))
        self.sink.wait_for_requests()
        self.stop()
        self.assertEqual(self.sink.reported, {("error", "event_processor"): 1})

    def test_what_reaches_no_server_is_reported(self):
        self.start("--seconds", "0.2")
        self.sink.answers += [None]
        self.post(read("session"))
        self.sink.wait_for_requests()
        first = self.sink
        first.close()
        self.post(read("event"))
        time.sleep(0.5)
        self.sink = Sink(first.server_address[1])
        self.stop()
        lost = {("error", "network_error"): 1, ("session", "network_error"): 1}
        self.assertEqual(first.reported + self.sink.reported, lost)

    def test_refusals(self):
        self.start()
        event = read("event")
        for name in "invalid_header", "missing_newline", "unexpected_eof":
            self.post(read(f"refused/{name}"), due=400)
        self.post(b"", due=400)
        for auth in {}, {"X-Sentry-Auth": "Basic x"}, {"X-Sentry-Auth": "Sentry sentry_key=\xff"}:
            self.post(event, auth=auth, due=401)
        self.post(event, path=f"{PATH}?sentry_version=7", auth={}, due=401)
        self.post(event, auth={"X-Sentry-Auth": "Sentry sentry_key=abc"}, due=403)
        for path in "/", "/api/43/envelope/", f"/api/{PROJECT}/minidump/":
            self.post(event, path=path, due=404)
        for body in b"", b"[]", b"{}", b"\xff", b"[" * 100_000:
            self.post(body, path=STORE, due=400)
        self.post(iter([event]), {"Transfer-Encoding": "chunked"}, due=411)
        self.post(event, {"Content-Length": "-1"}, due=411)
        self.post(event, {"Content-Length": "9" * 5000}, due=413)
        self.post(event + b" " * (3 << 20), due=413)
        bomb = gzip.compress(b"{}\n" + b" " * 100_000_000)
        self.assertLess(len(bomb), 1 << 20)
        self.post(bomb, {"Content-Encoding": "gzip"}, due=413)
        self.post(event, {"Content-Encoding": "br"}, due=415)
        for packed in event, gzip.compress(event)[:-1], gzip.compress(event) * 2:
            self.post(packed, {"Content-Encoding": "gzip"}, due=400)
        self.stop()
        self.assertEqual(self.sink.envelopes, [])

    def test_the_sdk_for_python(self):
        python = python_with_sdk()
        if python is None:
            self.skipTest("no sentry_sdk")
        self.start("--drop", "transaction", "--largest", "100")
        dsn = f"http://{KEY}@127.0.0.1:{self.port}/{PROJECT}"
        environment = {**os.environ, "NO_PROXY": "127.0.0.1", "no_proxy": "127.0.0.1"}
        subprocess.run([python, "-c", SDK, dsn], check=True, timeout=120,
                       env=environment)
        self.stop()
        given = Counter(error=7, attachment=1010, transaction=3, span=9)
        self.assertEqual(counts(self.sink.envelopes), Counter(error=7, attachment=10))
        balance = counts(self.sink.envelopes) + self.sink.reported_categories
        self.assertEqual(given, balance)


if __name__ == "__main__":
    unittest.main()
