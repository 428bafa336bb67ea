"""Why envelopes are refused, and their repairs."""

import copy
import datetime
import json
import pickle
import unittest

import curdmesa
from curdmesa import (
    Misfit, Repair, Repairs, Status, check, explain, filter, mend, normalize, show_json)

NOW = (1_700_000_000, 0)
EVENT = b'{}\n{"type":"event"}\n'
TYPE = EVENT + b'{"exception":{"values":[{"type":7}]}}'
TYPE_LINE = (
    "item 0 `event` at bytes 3..57: invalid item payload: `exception.values[0].type` at bytes 52..53:"
    " wanted a string, found integer 7")
ID = b'"event_id":"9ec79c33ec9942ab8353589fcb2e04dc"}'
TIMESTAMP = b'{}\n{"type":"event","length":63}\n{"timestamp":1.5,' + ID
TIMESTAMP_MENDED = (
    b'{}\n{"type":"event","length":84}\n{"timestamp":"1970-01-01T00:00:01.5Z",' + ID)


def why(data: bytes):
    """Returns the line of each fault of an envelope."""
    return [str(fault) for fault in curdmesa.explain(data)]


class Explain(unittest.TestCase):
    def test_value(self):
        fault, = explain(TYPE, NOW)
        self.assertEqual(fault.misfit, Misfit(
            "exception.values[0].type", 52, 53, "a string", "integer", "7"))
        self.assertEqual((fault.error, fault.item, fault.word), (16, 0, "event"))
        self.assertIs(fault.error, Status.INVALID_ITEM_PAYLOAD)
        self.assertEqual((fault.start, fault.end, fault.offset), (3, len(TYPE), 52))
        self.assertEqual(fault.why, "wanted a string, found integer 7")
        self.assertEqual(why(TYPE), [TYPE_LINE])

    def test_broken_json(self):
        fault, = explain(EVENT + b'{"message":"a" 1}', NOW)
        self.assertEqual((fault.offset, fault.path, fault.misfit), (35, None, None))
        self.assertEqual(fault.why, "no JSON: expected a comma or the closing bracket")

    def test_framing_and_header_line(self):
        fault, = explain(b'{}\n{"type":"event","length":5}\n{}', NOW)
        self.assertEqual((fault.error, fault.offset), (Status.UNEXPECTED_EOF, 3))
        self.assertEqual((fault.path, fault.why), (None, None))
        line, item = explain(b'{"sent_at":1}\n{"type":"profile"}\n{}', NOW)
        self.assertEqual((line.item, line.path), (None, "sent_at"))
        self.assertEqual((item.item, item.word, item.path), (0, "profile", "type"))

    def test_many(self):
        found = explain(b"{}\n" + b'{"type":"profile"}\n{}\n' * 100, NOW)
        self.assertEqual([fault.item for fault in found], list(range(100)))

    def test_none(self):
        self.assertEqual(explain(b"{}"), [])
        with self.assertRaises(curdmesa.NoMoment):
            explain(b"{", (0, 10**9))
        with self.assertRaises(ValueError):
            explain(b"{", datetime.datetime(2020, 1, 1))


class Exceptions(unittest.TestCase):
    def test_calls_say_where_and_why(self):
        for call in (
            lambda: check(TYPE, NOW), lambda: normalize(TYPE, NOW, 42),
            lambda: filter(TYPE, [], NOW, 42), lambda: normalize(bytearray(TYPE)),
        ):
            with self.assertRaises(curdmesa.InvalidItemPayload) as caught:
                call()
            error = caught.exception
            self.assertEqual(str(error), TYPE_LINE)
            self.assertEqual((error.item, error.offset), (0, 52))
            self.assertEqual(error.path, "exception.values[0].type")
            self.assertEqual(error.why, "wanted a string, found integer 7")
            self.assertEqual(len(error.faults), 1)
            self.assertEqual(str(pickle.loads(pickle.dumps(error))), TYPE_LINE)
            self.assertEqual(str(copy.copy(error)), TYPE_LINE)

    def test_faults_are_looked_for_once_and_late(self):
        with self.assertRaises(curdmesa.InvalidItemPayload) as caught:
            check(TYPE, NOW)
        error = caught.exception
        self.assertIsNone(error._faults)
        self.assertIs(error.faults, error.faults)

    def test_other_calls_know_no_place(self):
        for error in (curdmesa.error_of(Status.INVALID_ITEM_PAYLOAD), self.framing()):
            self.assertEqual(error.faults, [])
            self.assertEqual((error.item, error.offset, error.path, error.why), (None,) * 4)
            self.assertEqual(str(error), error.text)

    def framing(self):
        with self.assertRaises(curdmesa.EnvelopeError) as caught:
            list(curdmesa.frames(b"{}\n1"))
        return caught.exception


#: A log with an attribute of a type that isn't read.
LOG = (b'{}\n{"type":"log"}\n{"items":[{"level":"info","body":"b","timestamp":1,'
       b'"attributes":{"a":{"value":1.5,"type":"double"}}}]}')


class Mend(unittest.TestCase):
    def test_repairs(self):
        mended = mend(TIMESTAMP, NOW, 42)
        self.assertEqual(mended.envelope, normalize(TIMESTAMP_MENDED, NOW, 42))
        self.assertIsInstance(mended.error, curdmesa.InvalidItemPayload)
        length, moment = mended.notes
        self.assertEqual((length.repair, length.instead), (Repair.LENGTH, b"84"))
        self.assertEqual(TIMESTAMP[moment.start : moment.end], b"1.5")
        self.assertEqual(moment.repair, Repair.AS_MOMENT)
        self.assertEqual(moment.instead, b'"1970-01-01T00:00:01.5Z"')
        self.assertEqual((moment.item, moment.word), (0, "event"))
        self.assertEqual((moment.error, moment.misfit.path), (16, "timestamp"))
        self.assertEqual(
            str(moment), "item 0 `event`: `timestamp` at bytes 45..48: decimal: as an RFC 3339 string")

    def test_rules(self):
        level = EVENT + b'{"level":"loud"}'
        rows = [
            (TIMESTAMP, Repairs.STRICT, [Repair.LEFT]), (level, Repairs.FORM, [Repair.LEFT]),
            (level, Repairs.ALL, [Repair.TAKEN_OUT]),
            (EVENT + b'{"tags":{"a":true}}', Repairs.FORM, [Repair.AS_TEXT]),
            (b'{}\n{"type":"transaction"}\n{}', Repairs.FORM, [Repair.AS_EMPTY_LIST]),
            (LOG, Repairs.FORM, [Repair.AS_TEXT, Repair.AS_STRING_TYPE]),
        ]
        for data, repairs, due in rows:
            notes = mend(data, NOW, 42, repairs=repairs).notes
            self.assertEqual([note.repair for note in notes], due, data)

    def test_header_event_id(self):
        data = b'{"event_id":"9ec79c33-ec99-42ab-8353-589fcb2e04dc"}\n{"type":"event"}\n{"message":"a"}'
        self.assertEqual(mend(data, NOW, 42).notes, [])
        mended = mend(data, NOW, 42, header_event_id=True)
        self.assertIsNone(mended.error)
        note, = mended.notes
        self.assertEqual((note.repair, note.item, note.error), (Repair.HEADER_ID, 0, Status.OK))
        self.assertEqual(note.instead, b'"event_id":"9ec79c33ec9942ab8353589fcb2e04dc",')
        self.assertIn(b'{"event_id":"9ec79c33ec9942ab8353589fcb2e04dc"', mended.envelope)

    def test_what_is_left_out(self):
        mended = mend(b'{}\n{"type":"profile"}\n1.5', NOW)
        self.assertEqual(mended.envelope, b"{}\n")
        self.assertIn("one of the known words", str(mended.notes[0]))

    def test_many(self):
        tags = ",".join(f'"{at}":{at}.5' for at in range(100))
        notes = mend(EVENT + f'{{"tags":{{{tags}}}}}'.encode(), NOW, 42).notes
        self.assertEqual([note.instead for note in notes], [b'"%d.5"' % at for at in range(100)])

    def test_none(self):
        self.assertEqual(mend(b"{}"), curdmesa.Mended(b"{}\n", None, []))
        with self.assertRaises(curdmesa.InvalidHeader):
            mend(b"[]")
        with self.assertRaises(ValueError):
            mend(b"{}", repairs=3)
        with self.assertRaises(TypeError):
            mend(b"{}", repairs=Repair.AS_TEXT)


class Show(unittest.TestCase):
    def test_accepted(self):
        shown = json.loads(show_json(bytearray(b'{}\n{"type":"attachment"}\nhelloworld')))
        item = {
            "type": "attachment", "accepted": True, "start": 3, "length": 32, "header_start": 3,
            "header_length": 21, "payload_start": 25, "payload_length": 10,
        }
        self.assertEqual(shown, {
            "bytes": 35, "accepted": True, "items": [item], "unread": None, "error": None,
            "faults": [], "header_length": 3, "header": {}, "losses": {"attachment": 10},
            "events": [], "transactions": [],
        })

    def test_refused(self):
        shown = json.loads(show_json(TYPE))
        self.assertEqual((shown["accepted"], shown["error"]), (False, "invalid item payload"))
        fault, = shown["faults"]
        self.assertEqual((fault["path"], fault["from"], fault["to"], fault["wanted"]),
                         ("exception.values[0].type", 52, 53, "a string"))

    def test_event_and_transaction(self):
        event = b'{"message":"a","exception":{"values":[{"type":"E"}]}}'
        spans = (
            b'{"start_timestamp":"1970-01-01T00:00:01Z","timestamp":"1970-01-01T00:00:04Z","spans":['
            b'{"span_id":"d42cee9fc3e74f5c","trace_id":"335e53d614474acc9f89e632b776cc28",'
            b'"op":"db","start_timestamp":2,"timestamp":"1970-01-01T00:00:02.5Z"}]}')
        shown = json.loads(show_json(
            b'{}\n{"type":"event"}\n' + event + b'\n{"type":"transaction"}\n' + spans))
        self.assertTrue(shown["accepted"], shown["faults"])
        event, = shown["events"]
        self.assertEqual((event["item"], event["level"], event["message"], event["exceptions"]),
                         (0, "error", "a", [{"type": "E"}]))
        transaction, = shown["transactions"]
        self.assertEqual((transaction["item"], transaction["nanos"]), (1, 3 * 10**9))
        self.assertEqual(transaction["spans"], [{
            "span_id": "d42cee9fc3e74f5c", "parent_span_id": None, "op": "db", "description": None,
            "offset": 10**9, "nanos": 5 * 10**8,
        }])


if __name__ == "__main__":
    unittest.main()
