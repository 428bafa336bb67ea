"""Writes the inputs that docs/PERFORMANCE.md counts into a folder, and those of rare forms into its folder `rare`:
python3 bench/inputs.py FOLDER.

`NAME.refused` has an item behind all those of `NAME` whose header is no JSON: all is read, and nothing written.
"""

import json
import os
import sys

ID = "9ec79c33ec9942ab8353589fcb2e04dc"
SPAN = "d4ee6ed2d2a1c8b1"
NOW = "2020-07-20T14:51:14.296Z"

FRAME = {
    "filename": "src/checkout/payment.py", "function": "charge_card", "module": "checkout.payment", "lineno": 214, "colno": 9,
    "abs_path": "/srv/shop/src/checkout/payment.py", "context_line": "    response = gateway.charge(card, amount)", "in_app": True,
    "pre_context": ["def charge_card(card, amount):", "    gateway = connect()"], "post_context": ["    return response.id"],
    "vars": {"amount": 1999, "currency": "EUR", "card": {"brand": "visa", "last": "4242"}},
}
EVENT = {
    "event_id": ID, "level": "error", "timestamp": NOW, "platform": "python", "logger": "checkout", "transaction": "/checkout",
    "server_name": "web-7", "release": "shop@4.1.0", "environment": "production",
    "exception": {"values": [{"type": "PaymentError", "value": "the card was declined", "stacktrace": {"frames": 12 * [FRAME]},
                              "mechanism": {"type": "generic", "handled": False}}]},
    "breadcrumbs": {"values": 20 * [{"timestamp": NOW, "type": "http", "category": "requests", "level": "info",
                                     "message": "GET /prices", "data": {"status_code": 200, "method": "GET"}}]},
    "user": {"id": "4711", "email": "jane@example.com", "ip_address": "203.0.113.7", "username": "jane"},
    "request": {"url": "https://shop.example.com/checkout", "method": "POST", "query_string": "step=3",
                "headers": {"Accept": "text/html", "User-Agent": "Mozilla/5.0"}},
    "contexts": {"os": {"name": "Linux", "version": "6.1"}, "runtime": {"name": "CPython", "version": "3.11.7"},
                 "trace": {"span_id": SPAN, "trace_id": ID, "op": "http.server", "status": "internal_error"}},
    "tags": {"shop": "eu", "plan": "gold"},
    "sdk": {"name": "sentry.python", "version": "2.1.0", "packages": [{"name": "pypi:sentry-sdk", "version": "2.1.0"}]},
}
SPAN_OF_MANY = {"span_id": SPAN, "trace_id": ID, "parent_span_id": "b01b9f6349558cd1", "same_process_as_parent": True, "op": "db.query",
                "description": "SELECT * FROM prices WHERE id = $1", "timestamp": NOW, "start_timestamp": NOW, "status": "ok",
                "tags": {"db": "prices"}, "data": {"rows": 17}}
TRANSACTION = {"event_id": ID, "transaction": "/checkout", "timestamp": NOW, "start_timestamp": NOW, "platform": "python",
               "spans": 1000 * [SPAN_OF_MANY], "contexts": {"trace": {"span_id": SPAN, "trace_id": ID}}}
LOG = {"level": "info", "body": "the card of customer 4711 was charged", "trace_id": ID, "timestamp": 1595256674, "severity_number": 9,
       "attributes": {"server.address": {"value": "web-7", "type": "string"}, "retries": {"value": 2, "type": "integer"}}}
METRIC = {"type": "counter", "name": "orders.completed", "value": 3, "timestamp": 1595256674, "trace_id": ID, "unit": "none",
          "attributes": {"shop": {"value": "eu", "type": "string"}}}


def text(value):
    """Returns a value as a line of JSON."""
    return json.dumps(value, separators=(",", ":")).encode()


def item(ty, payload, **more):
    """Returns an item of this type: its header and its payload, each with a line feed."""
    return text({"type": ty, **more, "length": len(payload)}) + b"\n" + payload + b"\n"


def container(ty, value, many):
    """Returns a container of so many values."""
    content_type = f"application/vnd.sentry.items.{ty.replace('_', '-')}+json"
    return item(ty, text({"items": many * [value]}), content_type=content_type, item_count=many)


def rare():
    """Returns envelopes of rare forms, each of which has one form many times."""
    header = text({"event_id": ID}) + b"\n"
    many = lambda value, times=400: b",".join(times * [value])
    event = lambda members: header + item("event", b'{"timestamp":1595256674,%s}' % members)
    extra = lambda value, times=400: event(b'"extra":{"x":[%s]}' % many(value, times))
    attachments = lambda member: header + 100 * (b'{"type":"attachment",%s"length":10}\nhelloworld\n' % member)
    return {
        "attachment of 10 KiB": header + item("attachment", (10 << 10) * b"x"),
        "attachment of 1 MiB": header + item("attachment", (1 << 20) * b"x"),
        "item header with nested members": attachments(b'"x":{"y":[1,{"z":null}]},'),
        "item header with 200 spaces": attachments(200 * b" "),
        "item header with [ ]": attachments(b'"x":[ ],'),
        "item header with a float that is replaced": attachments(b'"x":0.5,"x":1,'),
        "header line of 400 numbers": b'{"event_id":"%s","x":[%s]}\n' % (ID.encode(), many(b"1")) + item("attachment", b"helloworld"),
        "the same with a float that is replaced": b'{"event_id":"%s","x":0.5,"x":[%s]}\n' % (ID.encode(), many(b"1")) + item("attachment", b"helloworld"),
        "lists [ ]": extra(b"[ ]"),
        "a float that is replaced": event(b'"extra":{%s}' % many(b'"x":0.5,"x":1')),
        "one tag's key repeated": event(b'"tags":{%s}' % many(b'"shop":"eu"')),
        "numbers of 20 digits": extra(b"18446744073709551615"),
        "empty threads": event(b'"threads":{"values":[%s]}' % many(b"{}")),
        "one unknown member repeated": event(many(b'"x":1')),
        "texts of one escape": extra(b'"\\n"'),
        "maps 122 deep": extra(122 * b'{"a":' + b"1" + 122 * b"}", 10),
        "maps of one member": extra(b'{"a":1}'),
        "lists in lists": extra(b"[[[1]]]"),
    }


def write(folder, name, data):
    """Writes a file of the folder."""
    with open(os.path.join(folder, name), "wb") as file:
        file.write(data)


def main():
    """Writes all inputs."""
    folder = sys.argv[1]
    os.makedirs(folder, exist_ok=True)
    header = text({"event_id": ID}) + b"\n"
    small = b'{"type":"attachment","length":10,"filename":"a.txt"}\nhelloworld\n'
    read = {
        "small25000": 25000 * small,
        "small50000": 50000 * small,
        "event100": 100 * item("event", text(EVENT)),
        "event200": 200 * item("event", text(EVENT)),
        "spans1000": item("transaction", text(TRANSACTION)),
        "logs10000": container("log", LOG, 10000),
        "metrics5000": container("trace_metric", METRIC, 5000),
    }
    for name, items in read.items():
        write(folder, name, header + items)
        write(folder, f"{name}.refused", header + items + b"{\n")
    write(folder, "big16", header + item("attachment", (16 << 20) * b"x"))
    for m in (5, 10):
        write(folder, f"braces{m}", header + m * 10**6 * b"{")
        write(folder, f"escapes{m}", header + b'{"type":"attachment","x":"' + m * 500000 * b'\\"' + b'"}\n')
    os.makedirs(os.path.join(folder, "rare"), exist_ok=True)
    for name, data in rare().items():
        write(os.path.join(folder, "rare"), name, data)


main()
