"""The stored cases of `sentry_cases` that the library can be asked: a line each of a name, what is given and the wanted
answer, as JSON with tabs between. CASES names the file."""

import json
import os
import unittest

import curdmesa
from curdmesa import Category, ItemKind, Reason

FILE = os.environ.get("CASES", os.path.join(os.path.dirname(__file__), "../../crates/sentry_cases/stdin"))

#: The moment and the seed of every case: nothing is drawn in them.
NOW = curdmesa.Moment(0, 0)
SEED = 42

MESSAGES = {
    "!unexpected end of file": curdmesa.UnexpectedEof,
    "!missing newline after header or payload": curdmesa.MissingNewline,
    "!invalid envelope header": curdmesa.InvalidHeader,
    "!invalid item header": curdmesa.InvalidItemHeader,
    "!invalid item payload": curdmesa.InvalidItemPayload,
    "!no valid url provided": curdmesa.DsnInvalidUrl,
    "!no valid scheme": curdmesa.DsnInvalidScheme,
    "!username is empty": curdmesa.DsnNoUsername,
    "!empty path": curdmesa.DsnNoProjectId,
    "!invalid project id": curdmesa.DsnInvalidProjectId,
    "!non sentry auth": curdmesa.AuthNonSentry,
    "!invalid value for version": curdmesa.AuthInvalidVersion,
    "!missing public key in auth header": curdmesa.AuthMissingPublicKey,
}


def answer(call, *arguments):
    """Returns what a call returns, or the class of what it raises."""
    try:
        return call(*arguments)
    except curdmesa.Error as error:
        return type(error)


def of_envelope(given):
    return curdmesa.normalize(given.encode(), NOW, SEED).decode()


def of_frames(given):
    told = [given.encode().split(b"\n")[0].decode()]
    try:
        for frame in curdmesa.frames(given.encode()):
            told.append([frame.header.decode(), frame.payload.decode()])
    except curdmesa.Error as error:
        told.append(type(error))
    return told


def of_any_frames(given):
    data = given.encode()
    told = [data.split(b"\n")[0].decode()]
    try:
        for frame in curdmesa.any_frames(data):
            assert data[frame.header_start :].startswith(frame.header), frame
            assert data[frame.payload_start :].startswith(frame.payload), frame
            kind = None if frame.kind is None else frame.kind.word
            offsets = [frame.start, frame.header_start, frame.payload_start]
            told.append([frame.word, kind, frame.header.decode(), frame.payload.decode(), offsets])
    except curdmesa.InvalidHeader:
        return curdmesa.InvalidHeader
    except curdmesa.Error as error:
        told.append(type(error))
    return told


def of_forward(words):
    """Returns the call that forwards: the words are -a, where attachments follow, and answers."""
    answers = "" if words[-1:] in ([], ["-a"]) else words[-1]

    def call(given):
        asked = []

        def keep(frame):
            asked.append(frame.word)
            return answers[len(asked) - 1 : len(asked)] == "y"

        left = curdmesa.forward(given.encode(), keep, attachments_follow=words[:1] == ["-a"])
        return [None if left.envelope is None else left.envelope.decode(), asked]

    return call


def of_frame_losses(given):
    told = []
    try:
        for frame in curdmesa.any_frames(given.encode()):
            told.append(sums(frame.losses()))
    except curdmesa.Error as error:
        told.append(type(error))
    return told


def of_losses(given):
    return sums(curdmesa.losses(given.encode()))


def of_forwarded(words):
    """Returns the call that forwards without some item types, and records what is lost: the words are
    the reason and the types, and steps that come first behind `; `."""
    words, _, before = " ".join(words).partition("; ")
    reason, *dropped = words.split()

    def call(given):
        ledger = curdmesa.Ledger()
        for step in before.split("; ") if before else []:
            of_step(ledger, step.split())
        left = curdmesa.forward(given.encode(), lambda frame: frame.word not in dropped)
        refused = ledger.record_losses(left.losses, word_in(Reason, reason))
        # (where no item is left, the case tells of the header line)
        line = given[: given.find("\n") + 1] or given
        envelope = line if left.envelope is None else left.envelope.decode()
        return [envelope, refused, held_of(ledger)]

    return call


def of_filter(words):
    """Returns the call of a filter: the words are -k, where the header is kept, and item types."""
    kinds = {kind for kind in ItemKind if kind.word in words}

    def call(given):
        filtered = curdmesa.filter(given.encode(), kinds, NOW, SEED, keep_headers=words[:1] == ["-k"])
        left = None if filtered.envelope is None else filtered.envelope.decode()
        return [left, sums(filtered.losses)]

    return call


def sums(losses):
    """Returns losses by category and reason."""
    return {(loss.category, loss.reason): loss.quantity for loss in losses}


def sums_of(losses):
    """Returns the sums above 0 of a list of losses, by category and reason."""
    sums = {}
    for category, quantity, reason in losses:
        place = word_in(Category, category), word_in(Reason, reason)
        sums[place] = min(sums.get(place, 0) + quantity, 2**64 - 1)
    return {place: quantity for place, quantity in sums.items() if quantity}


def word_in(words, word):
    return None if word is None else next(it for it in words if it.word == word)


def of_rfc3339(given):
    moment = curdmesa.rfc3339_parse(given)
    return [*moment, curdmesa.rfc3339_format(moment)]


def of_crontab(given):
    return curdmesa.crontab_check(given) is None


def of_dsn(given):
    dsn = curdmesa.Dsn.parse(given)
    scheme = "https" if dsn.is_https else "http"
    parts = [scheme, dsn.public_key, dsn.secret_key, dsn.host, dsn.port, dsn.path, dsn.project_id, dsn.org_id]
    return [dsn.text, parts]


def of_auth(given):
    return said_auth(curdmesa.Auth.parse(given))


def of_query(given):
    return said_auth(curdmesa.Auth.from_query(given))


def said_auth(auth):
    return [auth.text, auth.client_agent, auth.version, auth.public_key, auth.secret_key]


def report_of(envelope):
    """Returns the report in an envelope of that one item."""
    header, item, payload, end = envelope.split(b"\n")
    assert (header, end) == (b"{}", b""), envelope
    assert json.loads(item) == {"length": len(payload), "type": "client_report"}, envelope
    return json.loads(payload)


def of_step(ledger, words):
    if words[0] == "flush":
        report = ledger.flush(curdmesa.Moment(int(words[1]), 0))
        return "nothing" if report is None else report_of(report)
    # A loss's own reason stands after the given one, and goes before it.
    category, reason = word_in(Category, words[1]), word_in(Reason, words[-1])
    try:
        ledger.record(category, reason, int(words[2]))
        return "accepted"
    except curdmesa.LedgerFull:
        return "refused"


def of_ledger(given):
    ledger = curdmesa.Ledger()
    told = [of_step(ledger, step.split()) for step in given.split("; ") if step]
    return [told, held_of(ledger)]


def held_of(ledger):
    pairs = [(category, reason) for category in Category for reason in Reason]
    held = [[pair[0].word, ledger.held(*pair), pair[1].word] for pair in pairs if ledger.held(*pair)]
    return held or "empty"


def wanted_of(name, wanted):
    """Returns the part of a wanted answer that the library gives."""
    if wanted == "!":
        return curdmesa.InvalidText
    if isinstance(wanted, str) and wanted.startswith("!"):
        return MESSAGES[wanted]
    if name == "frames":
        return [MESSAGES[it] if isinstance(it, str) and it.startswith("!") else it for it in wanted]
    if name == "any_frames":
        line, *frames = wanted
        # (without the length that the header states)
        return [line, *(MESSAGES[it] if isinstance(it, str) else [it[0], *it[2:]] for it in frames)]
    if name.split()[0] == "forward":
        return [wanted[0] if wanted[3] else None, wanted[2]]
    if name == "frame losses":
        return [MESSAGES[it] if isinstance(it, str) else sums_of(it) for it in wanted]
    if name == "losses":
        return sums_of(wanted)
    if name.startswith("filter "):
        return [wanted[0], sums_of(wanted[1])]
    if name == "Moment::from_rfc3339":
        return [wanted[0], wanted[1], wanted[2]]
    if name == "Dsn":
        return wanted[:2]
    if name in ("Auth", "Auth::from_querystring"):
        return [wanted[0], wanted[2], wanted[3], wanted[4], wanted[5]]
    if name == "validate" and wanted is False:
        return curdmesa.InvalidText
    return wanted


CALLS = {
    "envelope": of_envelope,
    "frames": of_frames,
    "any_frames": of_any_frames,
    "frame losses": of_frame_losses,
    "losses": of_losses,
    "Moment::from_rfc3339": of_rfc3339,
    "validate": of_crontab,
    "Dsn": of_dsn,
    "Auth": of_auth,
    "Auth::from_querystring": of_query,
    "ledger": of_ledger,
}


# Calls whose names have words behind them.
WORDED = {"filter": of_filter, "forward": of_forward, "forwarded": of_forwarded}


def is_asked(name, words, wanted):
    """Whether the library can be asked a case."""
    if words[0] == "forwarded":
        # A ledger that refuses losses one by one may hold another part of them than one that
        # refuses their sums.
        return wanted[1] == 0
    # A filter that is handed over (`-v`) and a bound on items (`-m`) are matters of Rust's.
    return name in CALLS or words[0] in WORDED and not {"-v", "-m"} & {*words}


class Cases(unittest.TestCase):
    def test_each(self):
        asked = set()
        with open(FILE, encoding="utf-8") as lines:
            for line in lines:
                name, *rest = line.rstrip("\n").split("\t")
                words = name.split()
                if not rest or name not in CALLS and words[0] not in WORDED:
                    continue
                given, wanted = map(json.loads, rest)
                if is_asked(name, words, wanted):
                    call = CALLS.get(name) or WORDED[words[0]](words[1:])
                    got = answer(call, given)
                    self.assertEqual(got, wanted_of(name, wanted), (name, given))
                    asked.add(name if name in CALLS else words[0])
        self.assertEqual(asked, {*CALLS, *WORDED})


if __name__ == "__main__":
    unittest.main()
