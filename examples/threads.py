#!/usr/bin/env python3
"""Runs scripts whose phases have many jobs in threads, over and over, and has each transcript judged.

    examples/threads.py PROGRAM [--runs N] [--entries N]

Each run of `PROGRAM run` takes a script of 64 jobs, 32 clients and 32 streams round 16 nodes, and `PROGRAM check` has to
say that its transcript is one. Then one script with so many entries in phases is run and judged, with the time it took
beside that of `PROGRAM sim`. What does not hold is written, and the exit status is 1.
"""

import argparse
import subprocess
import sys
import time

NODES = 16


def head():
    lines = [f"node N{n} *" for n in range(NODES)]
    lines += [f"client c{c} N{c % NODES}" for c in range(32)]
    for s in range(32):
        far = 1 if s < NODES else 5
        bodies = " bodies" if s % 2 else ""
        lines.append(f"stream s{s} N{s % NODES} N{(s + far) % NODES} *{bodies}")
    return lines + [f"attach s{s}" for s in range(32)]


def phase(number, writes):
    lines = ["phase"]
    for k in range(writes):
        for c in range(32):
            lines.append(f'write c{c} p{number}/{(c + k) % 7} "{c}"')
    for c in range(32):
        lines.append(f"read c{c} p{number}/{c % 7}")
    lines += [f"flow s{s} 4" for s in range(32)]
    return lines + ["end"]


def told(program, word, text):
    begun = time.time()
    done = subprocess.run([program, word], input=text, capture_output=True, timeout=600)
    return done.returncode, done.stdout, time.time() - begun


def holds(program, word, script):
    status, transcript, took = told(program, word, script)
    if status != 0:
        print(f"{word} ended with status {status}: {transcript[-200:]!r}")
        return None
    judged, line, _ = told(program, "check", transcript)
    if judged != 0:
        print(f"the transcript of {word} is judged {line!r}")
        return None
    return transcript, took


def main():
    parser = argparse.ArgumentParser(description=__doc__)
    parser.add_argument("program")
    parser.add_argument("--runs", type=int, default=200)
    parser.add_argument("--entries", type=int, default=20000)
    args = parser.parse_args()

    script = "\n".join(head() + phase(0, 2) + phase(1, 2) + ["settle", ""]).encode()
    seen = set()
    for run in range(args.runs):
        held = holds(args.program, "run", script)
        if held is None:
            print(f"in run {run + 1}")
            return 1
        seen.add(held[0])
    print(f"{args.runs} runs of 64 jobs: each transcript is one; {len(seen)} of them differ")

    lines = head()
    number = 0
    while number * 32 * 10 < args.entries:
        lines += phase(number, 5)
        number += 1
    script = "\n".join(lines + [""]).encode()
    both = [holds(args.program, word, script) for word in ("run", "sim")]
    if None in both:
        return 1
    for word, (transcript, took) in zip(("run", "sim"), both):
        print(f"{word}: {transcript.count(b'%c' % 10)} lines in {number} phases, {took:.2f} s")
    return 0


if __name__ == "__main__":
    sys.exit(main())
