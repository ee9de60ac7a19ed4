#!/usr/bin/env python3
"""What a command takes by itself, without its children: the median of its processor seconds over five runs, and the peak of its memory.

    bench/own.py INPUT COMMAND..
"""

import os
import statistics
import subprocess
import sys
import time

RUNS = 5


def fields(path):
    """The words of a file of /proc, those behind a name in parentheses where there is one."""
    with open(path, encoding="utf-8") as file:
        return file.read().rpartition(")")[2].split()


def peak(pid):
    """The most memory that the process had so far, in kB; nothing where it is over."""
    with open(f"/proc/{pid}/status", encoding="utf-8") as file:
        return next((int(line.split()[1]) for line in file if line.startswith("VmHWM")), 0)


def run(path, command):
    """The processor seconds and the peak of one run. A process that is over but not waited for still tells its seconds."""
    most = 0
    with open(path, "rb") as given:
        child = subprocess.Popen(command, stdin=given, stdout=subprocess.DEVNULL)
    while fields(f"/proc/{child.pid}/stat")[0] != "Z":
        most = max(most, peak(child.pid))
        time.sleep(0.002)
    seconds = int(fields(f"/proc/{child.pid}/schedstat")[0]) / 1e9
    child.wait()
    return seconds, most


def main():
    path, *command = sys.argv[1:]
    if not command or not os.path.exists(path):
        sys.exit(__doc__)
    seconds, peaks = zip(*(run(path, command) for _ in range(RUNS)))
    print(f"{statistics.median(seconds):.4f} s, {max(peaks)} kB")


main()
