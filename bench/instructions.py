"""Prints a table of the instructions that an envelope takes: python3 instructions.py PROGRAM [--filter] PATH..

PROGRAM is `beside`; a path is a file, or a folder of files. Each work runs 1 and 101 times under callgrind, 1 and 3 times on a
file of more than 100,000 bytes: the count is the difference for each further time. Written is both less read. With `--filter`
a type is taken out that no item has (kept), and the type of the first item (taken).
"""

import json
import os
import re
import subprocess
import sys


def collected(program, *words):
    """Returns the instructions of a run; None if the envelope is refused."""
    command = ["valgrind", "--tool=callgrind", "--callgrind-out-file=/dev/null", program, "speed", "--once", *words]
    run = subprocess.run(command, stderr=subprocess.PIPE, text=True)
    if run.returncode and "the envelope is refused" not in run.stderr:
        sys.exit(run.stderr)
    return None if run.returncode else int(re.search(r"Collected : (\d+)", run.stderr).group(1))


def first_type(file):
    """Returns the type of an envelope's first item; one that no item has if there is none."""
    with open(file, "rb") as lines:
        next(lines)
        return json.loads(next(lines, b"{}")).get("type", "user_report")


def main():
    """Prints a row for each input that both accept."""
    program, *paths = sys.argv[1:]
    if is_filter := paths[0] == "--filter":
        del paths[0]
    files = [[os.path.join(path, name) for name in sorted(os.listdir(path))] if os.path.isdir(path) else [path] for path in paths]
    columns = ["Kept", "Taken"] if is_filter else ["Read", "Both", "Written"]
    print("| Input | Bytes | " + " | ".join(f"{column}, ours | Theirs | Ratio" for column in columns) + " |")
    print((2 + 3 * len(columns)) * "|---" + "|")
    for file in sum(files, []):
        times = 100 if (size := os.path.getsize(file)) <= 100_000 else 2
        parts = ["user_report", first_type(file)] if is_filter else ["read", "both"]
        works = [(side, part) for part in parts for side in ("ours", "theirs")]
        counts = [[collected(program, *work, file, str(count)) for count in (1, 1 + times)] for work in works]
        if None in sum(counts, []):
            print(f"{file}: not accepted by both", file=sys.stderr)
            continue
        costs = [(after - before) // times for before, after in counts]
        pairs = [costs[:2], costs[2:]]
        if not is_filter:
            pairs.append([both - read for read, both in zip(*pairs)])
        cells = " | ".join(f"{ours:,} | {theirs:,} | {ours / theirs:.2f}" for ours, theirs in pairs)
        print(f"| `{os.path.basename(file).partition('.')[0]}` | {size:,} | {cells} |", flush=True)


main()
