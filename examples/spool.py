"""A spool: keeps envelopes in a file until they can be sent, and counts what it has no room for.

    spool.py FOLDER add FILE...    # adds envelopes
    spool.py FOLDER send           # prints them, then a report of what was lost; empties the spool

A record is its length and its CRC-32, in four bytes each, and the envelope. What a crash cut short
is cut off when the spool is opened; after one during `send` some may be sent twice. Status 1 if a
file is no envelope: neither that one nor those behind it are added.
"""

import os
import pickle
import struct
import sys
import zlib
from pathlib import Path

import curdmesa
from curdmesa import Ledger, Reason

ROOM = 2000  # how long the file of envelopes may become, in bytes
HEAD = struct.Struct("<II")


def write(path, mode, data):
    """Writes to a file, and waits until the disk has it."""
    with open(path, mode) as file:
        file.write(data)
        file.flush()
        os.fsync(file.fileno())


class Spool:
    def __init__(self, folder):
        folder.mkdir(exist_ok=True)
        self.file, self.ledger_file = folder / "envelopes", folder / "ledger"
        self.file.touch()
        kept = self.ledger_file.exists()
        self.ledger = pickle.loads(self.ledger_file.read_bytes()) if kept else Ledger()
        self.envelopes, whole, data = [], 0, self.file.read_bytes()
        while len(data) - whole >= HEAD.size:
            length, checksum = HEAD.unpack_from(data, whole)
            envelope = data[whole + HEAD.size :][:length]
            if len(envelope) < length or zlib.crc32(envelope) != checksum:
                break
            self.envelopes.append(envelope)
            whole += HEAD.size + length
        os.truncate(self.file, whole)

    def add(self, envelope):
        """Adds an envelope, or records its losses if there is no room. Raises EnvelopeError."""
        lost = curdmesa.losses(envelope)
        if self.file.stat().st_size + HEAD.size + len(envelope) <= ROOM:
            write(self.file, "ab", HEAD.pack(len(envelope), zlib.crc32(envelope)) + envelope)
        else:
            self.ledger.record_losses(lost, Reason.QUEUE_OVERFLOW)
            self.keep_ledger()

    def keep_ledger(self):
        write(self.ledger_file.with_suffix(".new"), "wb", pickle.dumps(self.ledger))
        self.ledger_file.with_suffix(".new").replace(self.ledger_file)

    def send(self, out):
        for envelope in [*self.envelopes, self.ledger.flush() or b""]:
            out.write(envelope)
        out.flush()
        os.truncate(self.file, 0)
        self.keep_ledger()


if __name__ == "__main__":
    spool = Spool(Path(sys.argv[1]))
    for name in sys.argv[3:]:
        try:
            spool.add(Path(name).read_bytes())
        except curdmesa.EnvelopeError as refused:
            sys.exit(f"{name}: {refused}")
    if sys.argv[2] == "send":
        spool.send(sys.stdout.buffer)
