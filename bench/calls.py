#!/usr/bin/env python3
"""Measures single calls of a node, by the program practi_bench.

    bench/calls.py PROGRAM [--tries N] [--part K] [--limit S] [--instructions] [KIND ..]

Of pair, coded, filtered and bodies a call is a round: pair is a write, a turn, an accept and a read, coded the same over
bytes, filtered one of many writes with two turns behind each ten, and bodies a write and two turns. Of cut it is a write
and a cut. Each kind is run at its number of calls, at twice that, with twice as many names, and, where nodes tell the
names beforehand, with 31 writers in place of one, at its number of calls and at twice that. From each the time of a run
with no calls is taken off, which is what it takes to begin.

It writes for each kind the number of calls, the microseconds of processor time for a call, the least of N tries, and over
that the time for a call of each other run: 1.0 is no growth. In the last column ("31, x2") it is twice as many calls with
31 writers over the calls with 31 writers. With --part K the number of calls is divided by K, and so is that of the names. With
--instructions thousands of instructions stand in place of microseconds: valgrind's callgrind counts them, the same in
every run, and one try is made. No figure is a test; the exit status is 1 where a run ends as it must not.
"""

import argparse
import os
import re
import subprocess
import sys
import tempfile

sys.dont_write_bytecode = True

from measure import best

# The number of calls of each kind, and of names. As many turns send a write as there are names.
ROUNDS = {
    "pair": (20_000, 1_000),
    "coded": (20_000, 1_000),
    "filtered": (50_000, 1_000),
    "bodies": (20_000, 10_000),
}
CALLS = {
    "write": (50_000, 1_000),
    "turn": (20_000, 40_000),
    "idle": (50_000, 1_000),
    "accept": (50_000, 1_000),
    "read": (50_000, 1_000),
    "attach": (50_000, 1_000),
    "checkpoint": (20_000, 1_000),
    "cut": (5_000, 1_000),
    "intervals": (2_000, 100),
}
KINDS = ROUNDS | CALLS
MOST_WRITERS = 31


def seconds(words, args):
    with tempfile.TemporaryFile() as out:
        return best(words, os.devnull, out, 0, args).seconds


def instructions(words, args):
    with tempfile.NamedTemporaryFile() as profile:
        counter = ["valgrind", "--tool=callgrind", f"--callgrind-out-file={profile.name}"]
        try:
            run = subprocess.run(counter + words, capture_output=True, text=True, timeout=args.limit)
        except subprocess.TimeoutExpired:
            raise TimeoutError(f"more than {args.limit} s") from None
    count = re.search(r"refs:\s+([\d,]+)", run.stderr)
    if run.returncode != 0 or count is None:
        raise RuntimeError(f"valgrind ended with {run.returncode}")
    return int(count.group(1).replace(",", ""))


def spent(kind, calls, names, writers, args):
    """What a run costs, in microseconds or in thousands of instructions."""
    words = [os.path.abspath(args.program), kind, str(calls), str(names), str(writers)]
    return instructions(words, args) / 1e3 if args.instructions else seconds(words, args) * 1e6


def each(kind, calls, names, writers, args):
    """What a call costs."""
    cost = spent(kind, calls, names, writers, args) - spent(kind, 0, names, writers, args)
    return max(cost / calls, 0.001)


def measured(kind, args):
    calls, names = KINDS[kind]
    calls, names = max(calls // args.part, 1), max(names // args.part, 1)
    once = each(kind, calls, names, 1, args)
    longer = each(kind, calls * 2, names, 1, args) / once
    named = each(kind, calls, names * 2, 1, args) / once
    row = f"{kind:12} {calls:7} {once:9.2f} {longer:8.2f} {named:8.2f}"
    if kind in CALLS:
        spread = each(kind, calls, names, MOST_WRITERS, args)
        row += f" {spread / once:10.2f} {each(kind, calls * 2, names, MOST_WRITERS, args) / spread:8.2f}"
    print(row, flush=True)


def main():
    parser = argparse.ArgumentParser(description=__doc__, formatter_class=argparse.RawDescriptionHelpFormatter)
    parser.add_argument("program")
    parser.add_argument("--tries", type=int, default=3)
    parser.add_argument("--part", type=int, default=1)
    parser.add_argument("--limit", type=float, default=120)
    parser.add_argument("--instructions", action="store_true")
    parser.add_argument("kinds", nargs="*", metavar="KIND", help=", ".join(KINDS))
    args = parser.parse_intermixed_args()

    status = 0
    unit = "1000 ins." if args.instructions else "us a call"
    print(f"{'kind':12} {'calls':>7} {unit:>9} {'calls x2':>8} {'names x2':>8} {'31 writers':>10} {'31, x2':>8}")
    for kind in args.kinds or KINDS:
        try:
            measured(kind, args)
        except (TimeoutError, RuntimeError) as error:
            print(f"{kind:12} {error}", flush=True)
            status = 1
    return status


if __name__ == "__main__":
    sys.exit(main())
