"""The envelopes, and the spool."""

import json
import subprocess
import sys
import tempfile
import unittest
from pathlib import Path

import curdmesa
from curdmesa import Category, ItemKind, Loss, Reason

HERE = Path(__file__).resolve().parent
ENVELOPES = HERE / "envelopes"

#: What is lost with each item, as the documentation of client reports counts it: 1 in the category of
#: the type, a transaction's spans and itself, and of logs and metrics also the bytes of names,
#: bodies, values and attributes, eight for a number.
LOSSES = {
    "event": [(Category.ERROR, None, 1)],
    "session": [(Category.SESSION, None, 1)],
    "sessions": [(Category.SESSION, None, 3)],
    "transaction": [(Category.TRANSACTION, None, 1), (Category.SPAN, None, 2)],
    "attachment": [(Category.ATTACHMENT, None, 10)],
    "check_in": [(Category.MONITOR, None, 1)],
    "user_report": [(Category.FEEDBACK, None, 1)],
    "replay_recording": [(Category.REPLAY, None, 1)],
    "log": [(Category.LOG_ITEM, None, 1), (Category.LOG_BYTE, None, 25)],
    "trace_metric": [(Category.TRACE_METRIC, None, 1), (Category.TRACE_METRIC_BYTE, None, 18)],
    "client_report": [(Category.ERROR, Reason.BEFORE_SEND, 3)],
}


def read(name):
    return (ENVELOPES / f"{name}.envelope").read_bytes()


class Envelopes(unittest.TestCase):
    def test_one_of_each_item_type(self):
        names = {path.stem for path in ENVELOPES.glob("*.envelope")}
        self.assertEqual(names, {kind.word for kind in ItemKind})
        for kind in ItemKind:
            with self.subTest(kind.word):
                data = read(kind.word)
                self.assertEqual(curdmesa.normalize(data), data)
                frame, = curdmesa.any_frames(data)
                self.assertEqual((frame.kind, frame.word), (kind, kind.word))
                due = [Loss(*row) for row in LOSSES[kind.word]]
                self.assertEqual(curdmesa.losses(data), due)

    def test_all_of_them_in_one(self):
        items = [read(kind.word).partition(b"\n") for kind in ItemKind]
        header, = {header for header, _, _ in items}
        data = header + b"\n" + b"".join(item for _, _, item in items)
        self.assertEqual(curdmesa.normalize(data), data)
        for kind in ItemKind:
            kept = curdmesa.forward(data, lambda frame: frame.kind is kind)
            self.assertEqual(kept.envelope, read(kind.word))

    def test_one_of_each_refusal(self):
        names = {path.stem for path in (ENVELOPES / "refused").glob("*")}
        never = {"missing_header", "missing_item_header"}
        due = {kind.status.name.lower() for kind in curdmesa.EnvelopeError.__subclasses__()}
        self.assertEqual(names, due - never)
        # An unknown type and a float are forwarded all the same.
        forwarded = {"invalid_item_header", "invalid_item_payload"}
        for name in names:
            with self.subTest(name):
                data, error = read(f"refused/{name}"), self.error_of(name)
                for call in curdmesa.check, curdmesa.normalize:
                    self.assertRaises(error, call, data)
                if name in forwarded:
                    kept = curdmesa.forward(data, lambda frame: True)
                    self.assertEqual(kept.envelope, data)
                else:
                    self.assertRaises(error, curdmesa.forward, data, lambda frame: True)

    def error_of(self, name):
        return type(curdmesa.error_of(curdmesa.Status[name.upper()]))


class Spool(unittest.TestCase):
    def setUp(self):
        folder = tempfile.TemporaryDirectory()
        self.addCleanup(folder.cleanup)
        self.folder = Path(folder.name) / "spool"

    def runs(self, *words, status=0):
        ran = subprocess.run([sys.executable, HERE / "spool.py", self.folder, *words],
                             cwd=ENVELOPES, stdout=subprocess.PIPE, stderr=subprocess.PIPE)
        self.assertEqual(ran.returncode, status, ran.stderr)
        return ran.stdout

    def test_envelopes_come_back(self):
        self.assertEqual(self.runs("send"), b"")
        self.runs("add", "event.envelope", "log.envelope")
        self.runs("add", "session.envelope")
        due = read("event") + read("log") + read("session")
        self.assertEqual(self.runs("send"), due)
        self.assertEqual(self.runs("send"), b"")

    def test_what_has_no_room_is_reported_after_a_restart(self):
        self.runs("add", *["event.envelope"] * 5)
        self.runs("add", *["event.envelope"] * 2, "transaction.envelope")
        sent = self.runs("send")
        # (2000 bytes have room for five envelopes of 382 bytes, with eight before each)
        self.assertTrue(sent.startswith(read("event") * 5))
        header, item, payload, end = sent[len(read("event")) * 5 :].split(b"\n")
        self.assertEqual((header, end), (b"{}", b""))
        self.assertEqual(json.loads(item)["type"], "client_report")
        lost = {(it["category"], it["reason"]): it["quantity"]
                for it in json.loads(payload)["discarded_events"]}
        due = {("error", "queue_overflow"): 2, ("transaction", "queue_overflow"): 1,
               ("span", "queue_overflow"): 2}
        self.assertEqual(lost, due)
        self.assertEqual(self.runs("send"), b"")

    def test_what_a_crash_cut_short_is_cut_off(self):
        self.runs("add", "event.envelope", "session.envelope")
        file = self.folder / "envelopes"
        whole = file.read_bytes()
        first = 8 + len(read("event"))
        for left in range(first, len(whole), 37):
            file.write_bytes(whole[:left])
            self.runs("add", "log.envelope")
            self.assertEqual(self.runs("send"), read("event") + read("log"))

    def test_no_envelope_is_added(self):
        self.runs("add", "event.envelope", "refused/missing_newline.envelope", status=1)
        self.assertEqual(self.runs("send"), read("event"))


if __name__ == "__main__":
    unittest.main()
