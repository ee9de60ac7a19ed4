#!/usr/bin/env python3
"""Verifies the texts of the rows that the companion answers in 1 to 16 lanes: each report and status has to be that of one lane.

    examples/rows_in_lanes.py [VSIL]        VSIL is the program; else $VSIL, or that of the launchers
"""

import os
import subprocess
import sys

HERE = os.path.dirname(os.path.abspath(__file__))
ROWS = f"{HERE}/../crates/vx_rows/stdin"
ONE_LINE = ("check", "print", "graph", "fraction", "s-expression", "parse")
ADDS = {
    "text": lambda rest: rest.encode(),
    "line": lambda rest: rest.encode() + b"\n",
    "times": lambda rest: (rest.split(" ", 1)[1] * int(rest.split(" ", 1)[0])).encode(),
    "lines": lambda rest: ((rest.split(" ", 1)[1] + "\n") * int(rest.split(" ", 1)[0])).encode(),
    "bytes": lambda rest: bytes(int(it) for it in rest.split()),
    "blanks": lambda rest: b" " * int(rest),
}


def rows():
    """The rows of the first table: of each its name and its lines, as words and what stands behind them."""
    name, lines = None, []
    with open(ROWS, encoding="utf-8") as table:
        for line in table:
            word, _, rest = line.rstrip("\n").partition(" ")
            if word == "certificates" and not rest:
                break
            if word in ("", "#"):
                continue
            if word in ("row", "verify", *ONE_LINE):
                if name:
                    yield name, lines
                name, lines = rest, [("words", word), ("text", rest)] if word != "row" else []
            elif name:
                lines.append((word, rest))
    if name:
        yield name, lines


def text_of(lines):
    """The text of a row that is verified by the companion, or None."""
    words = [rest for word, rest in lines if word == "words"]
    if not words or words[0].split()[0] != "verify" or "--solver" in words[0] or "verify f" in words[0]:
        return None
    others = {word for word, _ in lines} - set(ADDS) - {"words"}
    return None if others else b"".join(ADDS[word](rest) for word, rest in lines if word in ADDS)


def main():
    """Compares, and ends with 1 at the first report that differs."""
    where = [f"{HERE}/../release/where", "vsil"]
    given = sys.argv[1] if len(sys.argv) > 1 else os.environ.get("VSIL")
    vsil = given or subprocess.run(where, check=True, capture_output=True, text=True).stdout.strip()
    compared = 0
    for name, lines in rows():
        text = text_of(lines)
        if text is None:
            continue
        reports = [subprocess.run([vsil, "verify", "--jobs", str(jobs)], input=text, capture_output=True, check=False) for jobs in range(1, 17)]
        for jobs, report in enumerate(reports, 1):
            if (report.stdout, report.returncode) != (reports[0].stdout, reports[0].returncode):
                sys.exit(f"{name}: in {jobs} lanes:\n{report.stdout.decode()}status {report.returncode}")
        compared += 1
    print(f"{compared} rows: as in one lane")


if __name__ == "__main__":
    main()
