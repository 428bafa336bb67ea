"""Envelopes, items and events that are made."""

import json
import unittest

import curdmesa
from curdmesa import any_frames, append_item, check, make_envelope, make_event, normalize

NOW = (1_700_000_000, 0)


def found(data):
    return [(item.word, item.payload) for item in any_frames(data)]


class Making(unittest.TestCase):
    def test_items_are_framed_as_given(self):
        items = [
            ({"type": "attachment"}, b"two\nlines\n"),
            ('{"type":"attachment","length":2}', bytearray(b"ab")),
            (b'{ "type":"pro\\u0066ile",\n"x":1.5 }', b""),
            ({"type": "attachment", "filename": "}"}, memoryview(b"\xff\0")),
        ]
        made = make_envelope({}, items)
        words = ["attachment", "attachment", "profile", "attachment"]
        self.assertEqual(found(made), list(zip(words, [bytes(payload) for _, payload in items])))
        appended = b"{}"
        for item in items:
            appended = append_item(appended, *item)
        self.assertEqual(appended, made)
        self.assertEqual(make_envelope('{"dsn":null}'), b'{"dsn":null}\n')

    def test_an_item_is_appended_behind_each_end(self):
        rows = [
            (b"{}", []), (b"{}\n", []),
            (b'{}\n{"type":"x"}', [b""]), (b'{}\n{"type":"x"}\n', [b""]),
            (b'{}\n{"type":"x"}\nab', [b"ab"]), (b'{}\n{"type":"x"}\nab\n', [b"ab"]),
            (b'{}\n{"type":"x","length":3}\nab\n', [b"ab\n"]),
        ]
        for data, payloads in rows:
            longer = append_item(data, {"type": "y"}, b"1\n")
            self.assertTrue(longer.startswith(data))
            due = [("x", payload) for payload in payloads] + [("y", b"1\n")]
            self.assertEqual(found(longer), due)

    def test_what_is_no_item_is_refused(self):
        for line in b"", b"[]", b"{}\n", b"{\n}", "{} {}":
            with self.assertRaises(curdmesa.InvalidHeader):
                make_envelope(line, [({"type": "x"}, b"ab")])
        headers = [
            b"", b"[]", {}, b' {"type":"x"}', b'{"type":"x"}\n', {"type": 1},
            {"type": "x", "length": 3}, {"type": "x", "length": None},
            {"type": "x", "length": 2.0},
        ]
        for header in headers:
            with self.assertRaises(curdmesa.InvalidItemHeader):
                make_envelope({}, [({"type": "x"}, b""), (header, b"ab")])
            with self.assertRaises(curdmesa.InvalidItemHeader):
                append_item(b"{}", header, b"ab")
        with self.assertRaises(curdmesa.UnexpectedEof):
            append_item(b'{}\n{"type":"x","length":9}\nab', {"type": "x"}, b"")
        with self.assertRaises(TypeError):
            make_envelope({}, [({"type": "x"}, "text")])

    def test_an_event_has_its_fields(self):
        event = make_event(
            'a "quoted" line\n\0é', level="warning", release="app@1.0", environment="production",
            tags={"disk": "sda", "": ""}, now=NOW, seed=7)
        check(event, NOW)
        self.assertEqual(normalize(event, NOW, 8), event)
        (word, payload), = found(event)
        self.assertEqual(word, "event")
        payload = json.loads(payload)
        self.assertEqual(len(payload.pop("event_id")), 32)
        self.assertEqual(payload, {
            "message": 'a "quoted" line\n\0é', "level": "warning", "release": "app@1.0",
            "environment": "production", "tags": {"disk": "sda", "": ""},
            "timestamp": 1_700_000_000,
        })
        bare = json.loads(found(make_event("only a message"))[0][1])
        self.assertEqual(sorted(bare), ["event_id", "message", "timestamp"])
        self.assertNotEqual(make_event("", now=NOW), make_event("", now=NOW))
        with self.assertRaises(curdmesa.InvalidItemPayload):
            make_event("", level="grave")
        with self.assertRaises(curdmesa.NotUtf8):
            make_event("\udc80")
        with self.assertRaises(curdmesa.NotUtf8):
            make_event("", tags={"a": b"\xff"})
        with self.assertRaises(curdmesa.NoMoment):
            make_event("", now=(2**64 - 1, 0))


if __name__ == "__main__":
    unittest.main()
