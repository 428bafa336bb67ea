"""Rate limits, by the rules of Sentry's page on rate limiting, and the measure of an envelope."""

import copy
import pickle
import unittest
from datetime import datetime, timezone

import curdmesa
from curdmesa import Category, ItemKind, Moment, RateLimits, Reason, measure

NOW = 1595256674


def limits(header):
    found = RateLimits()
    found.update(header, (NOW, 0))
    return found


def limited(found):
    """For how many seconds each category is limited, of those that are."""
    ends = {each: found.until(each) for each in Category}
    return {each: end.secs - NOW for each, end in ends.items() if end is not None}


class Headers(unittest.TestCase):
    def test_categories(self):
        example = "60:transaction:key, 2700:default;error;security:organization"
        rows = {
            example: {Category.ERROR: 2700, Category.TRANSACTION: 60},
            "10:error,30:error,20:error": {Category.ERROR: 30},
            "10.2:error": {Category.ERROR: 11},
            " 9 : replay ; unheard_of : key : why : more ,, ": {Category.REPLAY: 9},
            "x:span": {Category.SPAN: 60},
            "2700:metric_bucket:organization:quota_exceeded:custom": {},
            "": {},
        }
        for header, due in rows.items():
            with self.subTest(header):
                self.assertEqual(limited(limits(header)), due)
        for header in "60::organization", b"60", "60: ":
            with self.subTest(header):
                self.assertEqual(limited(limits(header)), dict.fromkeys(Category, 60))

    def test_item_types(self):
        found = limits("7:log_byte, 5:log_item, 3:session")
        self.assertEqual(found.item_until("log"), (NOW + 7, 0))
        self.assertTrue(found.is_item_limited("sessions", (NOW + 2, 999_999_999)))
        self.assertFalse(found.is_item_limited("sessions", (NOW + 3, 0)))
        for word in "client_report", "profile", "":
            self.assertIsNone(found.item_until(word))
            self.assertFalse(found.is_item_limited(word))

    def test_retry_after(self):
        found = RateLimits()
        found.update_retry_after("Fri, 31 Dec 1999 23:59:59 GMT", (NOW, 0))
        due = datetime(1999, 12, 31, 23, 59, 59, tzinfo=timezone.utc)
        self.assertEqual(found.until(Category.SPAN), Moment.of(due))
        found.update_retry_after("120", (NOW, 0))
        found.update_retry_after("", (NOW, 0))
        self.assertEqual(found.item_until("event"), Moment(NOW + 120))
        found.update_retry_after("60")
        self.assertTrue(found.is_limited(Category.ERROR))

    def test_limits_are_kept_over_a_restart(self):
        found = limits("60:error")
        self.assertEqual(found.ends, [0, NOW + 60] + [0] * 11)
        for other in pickle.loads(pickle.dumps(found)), copy.copy(found), RateLimits(found.ends):
            self.assertEqual(other.ends, found.ends)
            other.update("60:span", (NOW, 0))
            self.assertIsNone(found.until(Category.SPAN))
        for wrong in [1], [0] * 14, [2**64] + [0] * 12, [-1] + [0] * 12:
            with self.assertRaises(ValueError):
                RateLimits(wrong)

    def test_refusals(self):
        found = limits("60:error")
        before = found.ends
        with self.assertRaises(curdmesa.NotUtf8):
            found.update(b"90:error\xff", (NOW, 0))
        with self.assertRaises(curdmesa.NotUtf8):
            found.update_retry_after("\ud800", (NOW, 0))
        with self.assertRaises(curdmesa.NoMoment):
            found.update("90:error", (253402300800, 0))
        with self.assertRaises(curdmesa.NoMoment):
            found.update_retry_after("90", (0, 10**9))
        self.assertEqual(found.ends, before)
        with self.assertRaises(ValueError):
            found.until(12)
        with self.assertRaises(curdmesa.NotUtf8):
            found.item_until("\ud800")
        with self.assertRaises(TypeError):
            found.is_limited(Reason.SEND_ERROR)


class Measures(unittest.TestCase):
    def test_measure(self):
        data = (b'{}\n{"type":"event"}\n{}\n{"type":"profile"}\n[1.5]\n'
                b'{"type":"attachment","length":7}\nhello\n!\n{"type":"attachment"}\nab')
        measured = measure(data)
        counts = {kind: (count, measured.bytes[kind]) for kind, count in measured.items.items()}
        due = {kind: (0, 0) for kind in (*ItemKind, None)}
        due.update({ItemKind.EVENT: (1, 2), ItemKind.ATTACHMENT: (2, 9), None: (1, 5)})
        self.assertEqual(counts, due)
        self.assertEqual(measured.longest, 7)
        self.assertEqual(measure(memoryview(b"{}")).longest, 0)
        with self.assertRaises(curdmesa.InvalidHeader):
            measure(b"[]")
        with self.assertRaises(curdmesa.InvalidItemHeader):
            measure(data[:40])


if __name__ == "__main__":
    unittest.main()
