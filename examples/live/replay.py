#!/usr/bin/env python3
"""examples/live/replay.py [--speed X] [--apd APD] CONFIG SCRIPT: feeds a script to `apd live` at the script's own speed.

It writes `tick N` N units of 1024 microseconds after the line before it (divided by X, which is 1 by default), and every other
line at once. The answers are printed as they come. SCRIPT may be `-`, standard input; the status is that of `apd live`.

    ./apd frames examples/voice.pcap | examples/live/replay.py examples/lab.toml -
"""
import argparse
import signal
import subprocess
import sys
import time

UNIT = 1024e-6


def units_of(line):
    """How many units of time pass with a line."""
    words = line.split()
    return int(words[1]) if len(words) == 2 and words[0] == b"tick" and words[1].isdigit() else 0


def feed(lines, pipe, speed):
    """Writes each line when it is due. The times are counted from the start, so that delays don't add up."""
    due = time.monotonic()
    for line in lines:
        due += units_of(line) * UNIT / speed
        time.sleep(max(0, due - time.monotonic()))
        pipe.write(line)


def main():
    asked = argparse.ArgumentParser(description="feeds a script to `apd live` at the script's own speed")
    asked.add_argument("--speed", type=float, default=1, metavar="X", help="how many times as fast")
    asked.add_argument("--apd", default="./apd", help="the access point")
    asked.add_argument("config", metavar="CONFIG")
    asked.add_argument("script", metavar="SCRIPT")
    words = asked.parse_args()
    if words.speed <= 0:
        asked.error("a speed is above 0")
    signal.signal(signal.SIGINT, signal.SIG_DFL)  # Ctrl-C ends both processes at once
    # The answers need not pass through here: `apd live` inherits standard output. What is written isn't kept in a buffer.
    process = subprocess.Popen([words.apd, "live", words.config], stdin=subprocess.PIPE, bufsize=0)
    try:
        with sys.stdin.buffer if words.script == "-" else open(words.script, "rb") as lines:
            feed(lines, process.stdin, words.speed)
    except BrokenPipeError:
        pass  # it has ended: at a line `quit`, or because nobody reads its answers
    process.stdin.close()
    return process.wait()


if __name__ == "__main__":
    sys.exit(main())
