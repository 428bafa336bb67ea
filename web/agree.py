#!/usr/bin/env python3
"""agree.py PAGE LIBRARY [ENVELOPES]: asks the module of the page, in a browser's worker, and the native library (a shared object)
about damaged envelopes (100,000), shared out to the processors: what they show, the normal form, and what is mended. Ends with
status 1 where two answers differ."""
import base64
import ctypes
import hashlib
import os
import random
import sys
from concurrent.futures import ProcessPoolExecutor
from itertools import repeat
from pathlib import Path

import browsers

TOP = Path(__file__).resolve().parent.parent
SEEDS = [it.read_bytes() for where in ("examples/envelopes", "bench/inputs", ".ci", "web") for it in sorted((TOP / where).rglob("*.envelope"))]
WORDS = rb'1.5|null|true|[]|{}|""|-0|18446744073709551616|"|\u0000|0|1e3|"event"|"type"|,|999999999999999999999|:|"profile"'.split(b"|")
WORDS += [b"\n", b"\xff", b"\xed\xa0\x80", b"[" * 200]
ROOM, ROWS, NOTE = 1 << 20, 100, 160
# Says the same of envelopes in a worker: one hash of all that is answered of each.
ASK = """
answers.agree = (cases) => Promise.all(cases.map(async (it) => {
  const bytes = Uint8Array.from(atob(it), (it) => it.charCodeAt(0)), parts = [run((it) => it.show(bytes))];
  const tell = ({ status, bytes }) => parts.push(new Uint8Array([status]), bytes ?? new Uint8Array());
  tell(run((it) => it.normalize(bytes, 1n, 1n)));
  for (const repairs of [0, 1, 2]) {
    const { notes = [], count = 0, ...made } = run((it) => it.mend(bytes, 1n, 1n, repairs));
    tell(made);
    parts.push(new TextEncoder().encode([count, ...notes.flatMap(Object.values)].join(' ')));
  }
  const hash = await crypto.subtle.digest('SHA-256', await new Blob(parts).arrayBuffer());
  return Array.from(new Uint8Array(hash), (it) => it.toString(16).padStart(2, '0')).join('');
}));
"""
START = """window.worker = new Worker(URL.createObjectURL(new Blob([document.getElementById('worker').textContent + given[0]])));
window.ask = (name, given) => new Promise((done) => { worker.onmessage = ({ data }) => done(data); worker.postMessage({ name, given }); });
await ask('start', document.getElementById('module').textContent);"""


class Native:
    """The same by the native library."""

    def __init__(self, path):
        self.library = ctypes.CDLL(path)
        self.out, self.rows = ctypes.create_string_buffer(ROOM), ctypes.create_string_buffer(ROWS * NOTE)

    def call(self, name, *given):
        needed = ctypes.c_uint64()
        status = getattr(self.library, f"curdmesa_envelope_{name}")(*given, self.out, ctypes.c_size_t(ROOM), ctypes.byref(needed))
        return status, self.out.raw[: needed.value] if status == 0 else b""

    def mend(self, told, repairs):
        count, error, length = ctypes.c_uint64(), ctypes.c_int32(), ctypes.c_uint64()
        sums = [ctypes.byref(it) for it in (count, error, length)]
        status, out = self.call("mend", *told, ctypes.c_uint64(1), repairs, False, self.rows, ctypes.c_size_t(ROWS), *sums)
        notes = []
        for row in range(min(count.value, ROWS)):
            number = lambda at, size=8: int.from_bytes(self.rows.raw[row * NOTE + at :][:size], "little")
            text = lambda at: out[number(at) :][: number(at + 8)].decode()
            notes += [number(0), number(8), number(16), text(40), text(104), number(156, 4)]
        return bytes([status]) + out[: length.value] + " ".join(map(str, [count.value, *notes])).encode()

    def answer(self, data):
        told = [data, ctypes.c_size_t(len(data)), ctypes.c_uint64(1), 0]
        status, normal = self.call("normalize", *told, ctypes.c_uint64(1))
        answer = self.call("show_json", *told[:2])[1] + bytes([status]) + normal
        return hashlib.sha256(answer + b"".join(self.mend(told, it) for it in (0, 1, 2))).hexdigest()


def damaged(chance):
    data = bytearray(chance.choice(SEEDS))
    for _ in range(chance.choice([0, 1, 1, 2, 4])):
        at, other = chance.randrange(len(data) + 1), chance.choice(SEEDS)
        begin, word = chance.randrange(len(other)), chance.choice(WORDS)
        changes = [(chance.choice([1, 2, 8, 40]), b""), (1, bytes([chance.randrange(256)])), (chance.choice([0, 1, 4]), word),
                   (chance.choice([0, 1, 4]), word), (0, other[begin : begin + 200])]
        skipped, put = chance.choice(changes)
        data[at : at + skipped] = put
    return bytes(data)


def compare(page, library, seed, count):
    """Asks both about so many envelopes, which are drawn from a seed, and returns the browser's name."""
    library, chance = Native(library), random.Random(seed)
    with browsers.there()[0]() as browser:
        browser.command("Navigate", url=f"file://{page}")
        browser.run(START, ASK)
        for first in range(0, count, 200):
            cases = [damaged(chance) for _ in range(min(200, count - first))]
            answer = browser.run("return ask('agree', given[0])", [base64.b64encode(it).decode() for it in cases])
            for data, seen in zip(cases, answer.get("answer") or sys.exit(f"agree: {answer['error']}")):
                if seen != library.answer(data):
                    sys.exit(f"agree: the answers differ of {data}")
    return type(browser).__name__


def main():
    page, library, count = Path(sys.argv[1]).resolve(), sys.argv[2], int((sys.argv[3:] or ["100000"])[0])
    parts = os.cpu_count() or 1
    with ProcessPoolExecutor(parts) as pool:
        names = pool.map(compare, repeat(page), repeat(library), range(parts), (len(range(it, count, parts)) for it in range(parts)))
        print(f"agree: {count:,} damaged envelopes, the same answers in {[*names][0]} and of the native library")


if __name__ == "__main__":
    main()
