#!/usr/bin/env python3
"""test_page.py PAGE [MEGABYTES] [SHOT]: checks the page in each browser that is there, also with so many megabytes of logs
(10), and writes a screenshot of its example. Ends with status 1 where a check fails."""
import base64
import gzip
import http.server
import sys
import tempfile
import threading
from pathlib import Path

import browsers

EXAMPLES = Path(__file__).resolve().parent.parent / "examples" / "envelopes"
EVENT = b'{}\n{"type":"event"}\n'
# Damaged envelopes, and what docs/FORMAT.md says of the first fault of each: its item, byte, path and reason.
DAMAGED = {
    b"": ["header line", "0", "", ""],
    b"[]\n": ["header line", "0", "", ""],
    b'{"a":1,}\n': ["header line", "7", "", "no JSON"],
    EVENT + b'{"level":"grave"}': ["1 event", "29", "level", "wanted "],
    EVENT + b'{"timestamp":1.5}': ["1 event", "33", "timestamp", "found decimal 1.5"],
    EVENT + b'{"exception":{"values":[{"type":7}]}}': ["1 event", "52", "exception.values[0].type", "wanted a string"],
    EVENT + b'{"message":"\xff"}': ["1 event", "32", "", "no JSON"],
    b'{}\n{"type":"event","length":99}\n{}': ["1", "3", "", "unexpected end of file"],
    b'{}\n{"type":"event","length":2}\n{}{}': ["1", "3", "", "missing newline"],
    b'{}\n{"type":"profile"}\n{}\n{"type":"event"}\n{}': ["1 profile", "11", "type", "wanted "],
}
LOG = b'{"timestamp":1544719860,"trace_id":"5b8efff798038103d269b633813fc60c","level":"info","body":"%s"}'
# Takes most of the 4 GB that a worker's module may have, as a large envelope does.
FULL = """{ const { Instance } = WebAssembly; WebAssembly.Instance = function (...given) { const made = new Instance(...given);
  [3_700_000_000n, 400_000_000n, 100_000_000n].forEach((it) => made.exports.web_allocate(it)); return made; }; }\n"""
# Ways out of a page.
SEND = """for (const go of [() => fetch(url).catch(() => 0), () => new WebSocket(url.replace('http', 'ws')), () => new EventSource(url),
  () => navigator.sendBeacon(url, 'x'), () => { new Image().src = url; }, () => importScripts(url),
  () => { const it = document.createElement('form'); it.action = url; document.body.append(it); it.submit(); },
]) try { go(); } catch {}\n"""
# Texts whose contrast is below that of WCAG's level AA, and parts that a screen reader can't name.
FAINT = """const linear = (it) => (it / 255 > 0.04045 ? ((it / 255 + 0.055) / 1.055) ** 2.4 : it / 255 / 12.92);
const numbers = (text) => text.match(/[\\d.]+/g).map(Number), weights = [0.2126, 0.7152, 0.0722];
const light = (rgb) => 0.05 + weights.reduce((sum, weight, at) => sum + weight * linear(rgb[at]), 0);
const behind = (it) => { const rgb = numbers(getComputedStyle(it).backgroundColor); return rgb[3] === 0 ? behind(it.parentElement) : rgb; };
return [...document.querySelectorAll('body *')].filter((it) => {
  if (!it.offsetParent || it.disabled || ![...it.childNodes].some((child) => child.nodeType === 3 && child.data.trim())) return false;
  const [one, other] = [light(numbers(getComputedStyle(it).color)), light(behind(it))];
  return Math.max(one, other) / Math.min(one, other) < 4.5; }).map((it) => it.outerHTML.slice(0, 80));"""
NAMELESS = """return [...document.querySelectorAll('button, input, select, textarea, [role=img], [role=group]')]
  .filter((it) => !it.textContent.trim() && !it.labels?.length && !it.ariaLabel).map((it) => it.outerHTML.slice(0, 80));"""


class Checks:
    def __init__(self, browser, page):
        self.browser, self.run, self.passed = browser, browser.run, 0
        self.folder = tempfile.TemporaryDirectory(prefix="page-")
        browser.command("Navigate", url=f"file://{page}")
        self.equal("the page starts", self.wait(), "ready")

    def holds(self, what, it, seen=""):
        if not it:
            raise AssertionError(f"{what}: {seen}")
        self.passed += 1

    def equal(self, what, seen, wanted):
        self.holds(what, seen == wanted, f"{seen!r}, not {wanted!r}")

    def wait(self, script="", *given):
        """Runs a script, and waits for what it starts. Returns the page's state."""
        ended = "['shown', 'failed', 'ready', 'unable'].includes(document.body.dataset.state)"
        script = f"document.body.dataset.state = 'asked'; {script}" if script else ""
        return self.run(f"{script} while (!{ended}) await new Promise((go) => setTimeout(go, 5)); return document.body.dataset.state", *given)

    def open(self, data):
        path = Path(self.folder.name, "given")
        path.write_bytes(data)
        self.run("document.body.dataset.state = 'asked'; document.getElementById('file').value = '';")
        self.browser.type("#file", str(path))
        return self.wait()

    def paste(self, text):
        return self.wait("document.getElementById('text').value = given[0]; document.getElementById('show').click();", text)

    def click(self, selector):
        self.run("document.querySelector(given[0]).click(); await new Promise((go) => setTimeout(go, 300));", selector)

    def text(self, selector):
        return self.run("return document.querySelector(given[0])?.textContent ?? ''", selector)

    def rows(self, selector):
        return self.run("return [...document.querySelectorAll(`${given[0]} tbody tr`)].map((it) => [...it.cells].map((cell) => cell.textContent))", selector)

    def examples(self):
        for file in sorted(EXAMPLES.glob("**/*.envelope")):
            data, is_good = file.read_bytes(), file.parent == EXAMPLES
            told = [self.open(data), self.text("#verdict h2"), self.rows("#faults") == []]
            self.equal(f"the verdict on {file.name}", told, ["shown", "Accepted" if is_good else "Refused", is_good])
            if is_good:
                head, header, _ = data.split(b"\n", 2)
                at = len(head) + 1
                places = [f"{at}–{at + len(header)}", f"{at + len(header) + 1}–{len(data) - 1}"]
                self.equal(f"places in {file.name}", self.rows("#items")[0][1:4], [file.stem, *places])
                self.equal(f"the normal form of {file.name}", self.text("#made pre"), data.decode())
                self.holds("it is the same", "the same as what was read" in self.text("#made"))

    def damaged(self):
        for data, (item, byte, path, why) in DAMAGED.items():
            self.equal(f"the verdict on {data}", [self.open(data), self.text("#verdict h2")], ["shown", "Refused"])
            row = self.rows("#faults")[0]
            self.holds(f"the fault of {data}", row[:3] == [item, byte, path] and why in row[3], row)
        self.equal("an item behind one of an unknown type", [it[1] for it in self.rows("#items")], ["profile", "event"])

    def packed(self):
        data = (EXAMPLES / "event.envelope").read_bytes()
        twice = base64.b64encode(gzip.compress(data))
        for given, how in ((gzip.compress(data), "gzip"), (base64.encodebytes(data), "base64"), (twice, "base64, then gzip")):
            told = [self.open(given), self.text("#status"), self.text("#made pre")]
            self.equal(how, told, ["shown", f"Accepted: given, unpacked from {how}.", data.decode()])
        self.equal("pasted", [self.paste(twice.decode()), self.text("#made pre")], ["shown", data.decode()])
        self.equal("gzip that is cut off", self.open(gzip.compress(data)[:-20]), "failed")
        self.wait("""const data = new DataTransfer(); data.items.add(new File([given[0]], 'one'));
            document.getElementById('drop').dispatchEvent(new DragEvent('drop', { bubbles: true, cancelable: true, dataTransfer: data }));""", data.decode())
        self.equal("dropped", self.text("#status"), "Accepted: one.")
        self.paste('{}\n{"type":"attachment","filename":"<img src=x onerror=document.title=1>"}\n<script>document.title=2</script>')
        self.click("[data-item]")
        self.holds("markup stays text", "<script>" in self.text("#item") and self.run("return !document.querySelector('main script, main img')"))
        self.open(b'{}\n{"type":"attachment","length":3}\n\xff\x00\x01')
        self.click("[data-item]")
        self.holds("bytes that are no text", "ff 00 01" in self.text("#item"), self.text("#item"))

    def example(self):
        self.wait("document.getElementById('example').click();")
        self.equal("items", [f"{it[1]} {it[5]}" for it in self.rows("#items")], ["transaction accepted", "event accepted",
                   "attachment accepted", "event refused", "profile refused", "client_report accepted"])
        bars = self.run("return [...document.querySelectorAll('.lane i')].map((it) => [it.style.marginLeft, it.style.width].map(parseFloat))")
        self.equal("a bar for the transaction and each span", [len(bars), bars[0]], [10, [0, 100]])
        self.holds("a span stands in its time", abs(bars[4][0] - 6200 / 431) < 0.01 and abs(bars[4][1] - 24800 / 431) < 0.01, bars[4])
        self.equal("losses", self.rows("#losses"), [["error", "2"], ["transaction", "1"], ["span", "22"], ["attachment", "104"]])
        left = ["5", "", "item left out", ""]
        self.equal("notes", [it[:1] + it[2:] for it in self.rows("#made")], [["4", "length", "length corrected", "468"],
                   ["4", "timestamp", "became an RFC 3339 string", '"2026-11-30T03:00:00.431Z"'], left])
        self.run("const it = document.getElementById('repairs'); it.value = '0'; it.onchange(); await new Promise((go) => setTimeout(go, 300));")
        self.equal("notes without repairs", [it[:1] + it[2:] for it in self.rows("#made")], [["4", *left[1:]], left])

    def serves_all(self):
        for scheme in ("light", "dark"):
            self.browser.emulate(scheme=scheme)
            self.equal(f"faint texts, {scheme}", self.run(FAINT), [])
        self.equal("parts without a name", self.run(NAMELESS), [])
        self.browser.emulate(width=400)
        wide, all_of_it = self.run("return [document.documentElement.scrollWidth, innerWidth]")
        self.holds("nothing is cut off in a narrow window", wide <= all_of_it, wide)
        self.browser.emulate()
        self.run("document.querySelector('[data-item=\"1\"]').focus();")
        self.browser.press("\ue007")
        self.run("await new Promise((go) => setTimeout(go, 300));")
        told = [self.text("#item h3"), self.run("return document.activeElement.ariaPressed")]
        self.equal("an item is chosen by key", told, ["Item 2: event", "true"])

    def large(self, megabytes):
        line = LOG % (b"x" * 900)
        many = megabytes * 1_000_000 // (len(line) + 1)
        data = b'{}\n{"type":"log","item_count":%d,"content_type":"application/vnd.sentry.items.log+json"}\n' % many
        self.run("""window.longest = 0; let last = performance.now(); window.beat = setInterval(() => {
            const now = performance.now(); window.longest = Math.max(window.longest, now - last); last = now; }, 20);""")
        state = self.open(data + b'{"items":[' + b",".join([line] * many) + b"]}")
        longest = self.run("clearInterval(window.beat); return window.longest")
        self.equal("a large envelope", [state, self.text("#verdict h2")], ["shown", "Accepted"])
        self.holds("the page goes on meanwhile", longest < 1000, longest)
        return longest

    def memory(self):
        self.wait("const it = document.getElementById('worker'); it.textContent = given[0] + it.textContent; document.getElementById('stop').click();", FULL)
        told = [self.open(EVENT + b'{"extra":{"a":[' + b"1," * 1_000_000 + b"1]}}"), self.text("#status")[:13]]
        self.equal("want of memory", told, ["failed", "Out of memory"])
        self.equal("the next envelope", self.open((EXAMPLES / "event.envelope").read_bytes()), "shown")

    def nothing_is_sent(self):
        asked = []
        handler = type("Handler", (http.server.BaseHTTPRequestHandler,), dict.fromkeys(["do_GET", "do_POST"], lambda it: asked.append(it.path)))
        server = http.server.HTTPServer(("127.0.0.1", 0), handler)
        threading.Thread(target=server.serve_forever, daemon=True).start()
        code = f"const url = 'http://127.0.0.1:{server.server_port}/'; {SEND}"
        self.run(code + "new Worker(URL.createObjectURL(new Blob([given[0]]))); await new Promise((go) => setTimeout(go, 1000));", code)
        server.shutdown()
        self.equal("requests", asked, [])


def main():
    page, megabytes, shot = [*sys.argv[1:], *["10", ""][len(sys.argv) - 2 :]]
    for kind in browsers.there():
        with kind() as browser:
            it = Checks(browser, Path(page).resolve())
            for part in (it.examples, it.damaged, it.packed, it.example, it.serves_all):
                part()
            if shot and kind is browsers.Chromium:
                browser.emulate(width=1000)
                it.click("#faults button")
                browser.run("document.activeElement.blur(); document.getElementById('verdict').scrollIntoView();")
                browser.shot(shot)
            longest = it.large(int(megabytes))
            it.memory()
            it.nothing_is_sent()
            told = f"{it.passed} checks passed in {kind.__name__} {browser.version}"
            print(f"page: {told}; longest pause with {megabytes} MB of logs: {longest:.0f} ms", flush=True)


if __name__ == "__main__":
    main()
