"""Items of any type: what is forwarded, what is lost, and the ledger that holds it."""

import copy
import json
import pickle
import unittest

import curdmesa
from curdmesa import Category, ItemKind, Ledger, Loss, Reason, any_frames, forward, losses
from test_curdmesa import EVENT_AND_ATTACHMENT, EVENT_HEADER, EVENT_ITEM

#: A type that no list has, a float and a header of two lines; then an attachment, cut short.
PROFILE_ITEM = b' {"type":"pro\\u0066ile",\n"sample":1.5}\n[0.5]\n'
OTHERS = b'{"x":1.5}\n' + PROFILE_ITEM + EVENT_ITEM + b'{"type":"attachment"}\nab'


class AnyFrames(unittest.TestCase):
    def test_frames_of_any_type(self):
        found = list(any_frames(OTHERS))
        self.assertEqual([item.word for item in found], ["profile", "event", "attachment"])
        kinds = [None, ItemKind.EVENT, ItemKind.ATTACHMENT]
        self.assertEqual([item.kind for item in found], kinds)
        payloads = [item.payload for item in found]
        self.assertEqual(payloads, [b"[0.5]", EVENT_ITEM.split(b"\n")[1], b"ab"])
        for item in found:
            self.assertEqual(
                OTHERS[item.header_start : item.payload_start], item.header + b"\n")
            self.assertTrue(OTHERS[item.payload_start : item.end].startswith(item.payload))
        # Items stand side by side, from the header line to the end.
        self.assertEqual(found[0].start, OTHERS.index(b"\n") + 1)
        self.assertEqual(OTHERS[found[0].start : found[0].end], PROFILE_ITEM)
        self.assertEqual(OTHERS[found[1].start : found[1].end], EVENT_ITEM)
        self.assertEqual(found[1].end, found[2].start)
        self.assertEqual(found[2].end, len(OTHERS))

    def test_words_of_any_length(self):
        for word in "", "a" * 63, "a" * 300, "é\U0001f600" * 100, "Event":
            data = b"{}\n" + json.dumps({"type": word}).encode() + b"\n"
            found, = any_frames(data)
            self.assertEqual((found.word, found.kind, found.payload), (word, None, b""))

    def test_faults(self):
        rows = [
            (b"", curdmesa.InvalidHeader), (b"[]", curdmesa.InvalidHeader),
            (b"{}\n \n", curdmesa.UnexpectedEof),
            (b'{}\n{"type":"x","length":3}\nab', curdmesa.UnexpectedEof),
            (b'{}\n{"type":"x","length":1}\nab', curdmesa.MissingNewline),
            (b'{}\n{"type":1}\n', curdmesa.InvalidItemHeader),
            (b'{}\n{"type":"x","length":-1}\n', curdmesa.InvalidItemHeader),
        ]
        asked = []
        for data, due in rows:
            with self.subTest(data), self.assertRaises(due):
                list(any_frames(data))
            with self.subTest(data), self.assertRaises(due):
                forward(data, asked.append)
            with self.subTest(data), self.assertRaises(due):
                losses(data)
        self.assertEqual(asked, [])
        items = any_frames(b'{}\n{"type":"x"}\na\n{"type":null}\nb')
        self.assertEqual(next(items).payload, b"a")
        with self.assertRaises(curdmesa.InvalidItemHeader):
            next(items)
        self.assertIsNone(next(items, None))

    def test_what_is_kept_stays_byte_for_byte(self):
        everything = forward(OTHERS, lambda item: True)
        self.assertEqual(everything, curdmesa.Forwarded(OTHERS, []))
        nothing = forward(OTHERS, lambda item: False)
        lost = [Loss(Category.ERROR, None, 1), Loss(Category.ATTACHMENT, None, 2)]
        self.assertEqual(nothing, curdmesa.Forwarded(None, lost))
        left = forward(bytearray(OTHERS), lambda item: item.word != "profile")
        self.assertEqual(left, curdmesa.Forwarded(OTHERS.replace(PROFILE_ITEM, b""), []))
        self.assertEqual(forward(b"{}", lambda item: True).envelope, None)

    def test_attachments_follow(self):
        def keep(item):
            return item.kind is not ItemKind.EVENT

        left = forward(EVENT_AND_ATTACHMENT, keep)
        attachment = b'{"type":"attachment","length":12}\nHello World!'
        self.assertEqual(left.envelope, EVENT_HEADER + attachment)
        self.assertEqual(left.losses, [Loss(Category.ERROR, None, 1)])
        left = forward(EVENT_AND_ATTACHMENT, keep, attachments_follow=True)
        lost = [Loss(Category.ERROR, None, 1), Loss(Category.ATTACHMENT, None, 12)]
        self.assertEqual(left, curdmesa.Forwarded(None, lost))

    def test_what_keep_raises_is_handed_on(self):
        with self.assertRaises(ZeroDivisionError):
            forward(OTHERS, lambda item: 1 / 0)

    def test_losses(self):
        lost = [Loss(Category.ERROR, None, 1), Loss(Category.ATTACHMENT, None, 12)]
        self.assertEqual(losses(EVENT_AND_ATTACHMENT), lost)
        each = [item.losses() for item in any_frames(OTHERS)]
        attachment = [Loss(Category.ATTACHMENT, None, 2)]
        self.assertEqual(each, [[], [Loss(Category.ERROR, None, 1)], attachment])
        # Items that can't be read count by their type.
        unread = b'{}\n{"type":"event"}\n{"x":1.5}\n{"type":"session"}\nno JSON\n'
        due = [Loss(Category.ERROR, None, 1), Loss(Category.SESSION, None, 1)]
        self.assertEqual(losses(unread), due)


class Ledgers(unittest.TestCase):
    def test_losses_are_recorded(self):
        ledger = Ledger()
        own = Loss(Category.ERROR, Reason.SAMPLE_RATE, 3)
        lost = [Loss(Category.ERROR, None, 1), own, Loss(Category.ERROR, None, 4)]
        self.assertEqual(ledger.record_losses(lost, Reason.BEFORE_SEND), 0)
        self.assertEqual(ledger.held(Category.ERROR, Reason.BEFORE_SEND), 5)
        self.assertEqual(ledger.held(Category.ERROR, Reason.SAMPLE_RATE), 3)
        most = [Loss(Category.ERROR, None, 2**64 - 1), Loss(Category.REPLAY, None, 7)]
        self.assertEqual(ledger.record_losses(most, Reason.BEFORE_SEND), 1)
        self.assertEqual(ledger.held(Category.ERROR, Reason.BEFORE_SEND), 5)
        self.assertEqual(ledger.held(Category.REPLAY, Reason.BEFORE_SEND), 7)

    def test_a_report_is_put_back(self):
        ledger = Ledger()
        for at, category in enumerate(Category):
            ledger.record(category, Reason(at % len(Reason)), at + 1)
        held = ledger.sums
        report = ledger.flush((1, 0))
        self.assertEqual(ledger.sums, [0] * 108)
        self.assertEqual(ledger.record_envelope(report, Reason.NETWORK_ERROR), 0)
        self.assertEqual(ledger.sums, held)
        with self.assertRaises(curdmesa.InvalidHeader):
            ledger.record_envelope(b"{", Reason.NETWORK_ERROR)
        with self.assertRaises(TypeError):
            ledger.record_envelope(report, Category.ERROR)
        self.assertEqual(ledger.sums, held)

    def test_a_report_is_one_more_item(self):
        ledger = Ledger()
        self.assertIsNone(ledger.flush_item())
        ledger.record(Category.SPAN, Reason.SAMPLE_RATE, 2)
        item = ledger.flush_item((1595256674, 0))
        self.assertEqual(item.decode(), (
            '{"length":101,"type":"client_report"}\n'
            '{"discarded_events":[{"category":"span","quantity":2,"reason":"sample_rate"}],'
            '"timestamp":1595256674}\n'
        ))
        whole = b'{}\n{"type":"feedback"}\n\n' + item
        self.assertEqual([frame.word for frame in any_frames(whole)], ["feedback", "client_report"])
        self.assertEqual(ledger.record_envelope(whole, Reason.SEND_ERROR), 0)
        self.assertEqual(ledger.held(Category.FEEDBACK, Reason.SEND_ERROR), 1)
        self.assertEqual(ledger.held(Category.SPAN, Reason.SAMPLE_RATE), 2)

    def test_a_ledger_is_kept_as_bytes(self):
        ledger = Ledger()
        ledger.record(Category.ERROR, Reason.INTERNAL_SDK_ERROR, 0x0102030405060708)
        data = ledger.to_bytes()
        due = b"curdmesa ledger 1\n" + bytes(8) + bytes(range(8, 0, -1)) + bytes(8 * 106)
        self.assertEqual(data, due)
        self.assertEqual(Ledger.from_bytes(bytearray(data)).sums, ledger.sums)
        for wrong in data[1:], data[:-1], data + b"\0", data.replace(b"1", b"2", 1), b"":
            with self.subTest(wrong[:20]), self.assertRaises(curdmesa.InvalidText):
                Ledger.from_bytes(wrong)

    def test_a_ledger_is_kept_over_a_restart(self):
        ledger = Ledger()
        ledger.record(Category.SESSION, Reason.QUEUE_OVERFLOW, 2**64 - 1)
        self.assertEqual(ledger.sums[9 * 1 + 4], 2**64 - 1)
        self.assertEqual(sum(map(bool, ledger.sums)), 1)
        for other in pickle.loads(pickle.dumps(ledger)), copy.copy(ledger), Ledger(ledger.sums):
            self.assertEqual(other.sums, ledger.sums)
            other.record(Category.ERROR, Reason.SEND_ERROR, 1)
            self.assertEqual(ledger.held(Category.ERROR, Reason.SEND_ERROR), 0)
        for wrong in [1], [0] * 109, [2**64] + [0] * 107, [-1] + [0] * 107:
            with self.assertRaises(ValueError):
                Ledger(wrong)


if __name__ == "__main__":
    unittest.main()
