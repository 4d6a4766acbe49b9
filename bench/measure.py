#!/usr/bin/env python3
"""What runs of a program cost: processor time, memory, and how both grow.

    bench/measure.py PROGRAM [--tries N] [--part K] [--limit SECONDS] [NAME ...]

Each workload is run at its size and at half of it, each the best of N tries (3). A row has the size, processor seconds,
microseconds for one line of output, the greatest resident set in MB with that of the script that measures (some 15 MB)
among it, and the growth: the time for one unit of the size over that for one unit at half of it. 1.0 is linear. With
--part K each size is divided by K. No figure is a test; the exit status is 1 where a run ends as it must not.
"""

import argparse
import os
import subprocess
import sys
import tempfile
import time


def pair(streams):
    return ["node A *", "node B *", "client c A", "client d B"] + streams


def filtered(n):
    """A stream of one name in ten, two turns behind each ten writes."""
    lines = pair(["stream s A B h/*", "attach s"])
    for i in range(n):
        lines.append(f'write c {"h/" if i % 10 == 0 else "m/"}{i % 1000} "x"')
        if i % 10 == 9:
            lines.append("flow s 2")
    return lines


def writers(n):
    """32 nodes write in turn, and a hub hears of all and tells all."""
    lines = [f"node N{k} *" for k in range(32)] + [f"client c{k} N{k}" for k in range(32)]
    lines += [f"stream u{k} N{k} N0 *" for k in range(1, 32)] + [f"stream d{k} N0 N{k} *" for k in range(1, 32)]
    lines += [f"attach {way}{k}" for way in "ud" for k in range(1, 32)]
    for i in range(n):
        lines.append(f'write c{i % 32} n{i % 97} "x"')
        if i % 320 == 319:
            lines += [f"flow u{k} 11" for k in range(1, 32)] + [f"flow d{k} 320" for k in range(1, 32)]
    return lines


def ring(n):
    """Eight nodes in a ring; behind each hundred writes a settle."""
    lines = [f"node N{k} *" for k in range(8)] + [f"client c{k} N{k}" for k in range(8)]
    lines += [f"stream s{k} N{k} N{(k + 1) % 8} * bodies" for k in range(8)] + [f"attach s{k}" for k in range(8)]
    for i in range(n):
        lines.append(f'write c{i % 8} n{i % 50} "x"')
        if i % 100 == 99:
            lines.append("settle")
    return lines


def bodies(n):
    """Bodies of as many names as writes, two turns behind each."""
    lines = pair(["stream s A B * bodies", "attach s"])
    for i in range(n):
        lines += [f'write c n{i * 7919 % n:06} "x"', "flow s 2"]
    return lines


def checkpoints(n):
    """A log that is cut every fifty writes, and a stream that needs a checkpoint each time."""
    lines = pair(["stream s A B a/*"])
    for i in range(n):
        lines.append(f'write c a/{i % 40} "x"')
        if i % 50 == 49:
            lines += ["cut A", "attach s", "checkpoint s", "flow s 3"]
    return lines


def rows(n):
    """Many names, and behind each sixteenth of as many writes a checkpoint of them all."""
    lines = pair(["stream s A B *", "attach s"]) + [f'write c a{i:06} "x"' for i in range(n)]
    part = n // 16
    for i in range(n):
        lines.append(f'write c a{i * 7919 % n:06} "y"')
        if i % part == part - 1:
            lines += ["cut A", "checkpoint s", f"deliver s {i // part + 1}"]
    return lines


def attaches(n):
    """A stream that omits a long log, attached again and again before anything is delivered."""
    lines = pair(["stream s A B a*", "attach s"])
    lines += [f'write c b{i % 200} ""' for i in range(n // 2)]
    return lines + ["attach s", "send s"] * (n // 4)


def conflicts(n):
    """A chain of marks of one name, asked for every ten of them, and a name that two nodes write."""
    lines = pair(["stream s A B *", "stream t B A *", "attach s", "attach t"])
    for i in range(n // 2):
        lines.append('write c chain "x"')
        if i % 10 == 9:
            lines.append("conflicts A chain")
    for i in range(n // 4):
        lines += ['write c pair "x"', 'write d pair "y"']
        if i % 10 == 9:
            lines += [f"flow s {n // 2 + 1}" if i == 9 else "flow s 11", "flow t 11"]
    return lines + ["conflicts A pair"]


def phases(n):
    """Phases of 64 jobs: a client and a flow of each of 32 nodes in a ring."""
    lines = [f"node N{k} *" for k in range(32)] + [f"client c{k} N{k}" for k in range(32)]
    lines += [f"stream s{k} N{k} N{(k + 1) % 32} *" for k in range(32)] + [f"attach s{k}" for k in range(32)]
    for i in range(n // 160):
        lines.append("phase")
        lines += [f'write c{k} n{(i + k + w) % 60} "x"' for w in range(4) for k in range(32)]
        lines += [f"flow s{k} 8" for k in range(32)] + ["end"]
    return lines


def refused(n):
    """As many writes, and one line behind them that is none."""
    return pair([]) + [f'write c a/{i % 90} "0123456789012345678901"' for i in range(n)] + ["writes"]


WORKLOADS = {
    "filtered": (filtered, 50_000, 0),
    "writers": (writers, 6_400, 0),
    "ring": (ring, 6_000, 0),
    "bodies": (bodies, 20_000, 0),
    "checkpoints": (checkpoints, 40_000, 0),
    "rows": (rows, 4_000, 0),
    "attaches": (attaches, 12_000, 0),
    "conflicts": (conflicts, 4_000, 0),
    "phases": (phases, 32_000, 0),
    "refused": (refused, 96_000, 2),
}


# A program is started as ./practi starts the proved one, where the caller sets nothing else.
SETTINGS = "glibc.malloc.hugetlb=1:glibc.malloc.top_pad=8388608:glibc.malloc.mmap_threshold=4194304"
ENVIRONMENT = {"GLIBC_TUNABLES": SETTINGS} | os.environ


class Run:
    """One run: its processor seconds, its greatest resident set in MB, and the lines that it wrote."""

    def __init__(self, words, source, out, status, limit):
        begun = time.monotonic()
        process = subprocess.Popen(words, stdin=source, stdout=out, stderr=subprocess.DEVNULL, env=ENVIRONMENT)
        while True:
            pid, ended, use = os.wait4(process.pid, os.WNOHANG)
            if pid:
                break
            if time.monotonic() > begun + limit:
                process.kill()
                os.wait4(process.pid, 0)
                raise TimeoutError(f"more than {limit} s")
            time.sleep(0.002)
        if os.waitstatus_to_exitcode(ended) != status:
            raise RuntimeError(f"{' '.join(words)} ended with status {os.waitstatus_to_exitcode(ended)}")
        self.seconds = use.ru_utime + use.ru_stime
        self.memory = use.ru_maxrss / 1024
        out.seek(0)
        self.lines = sum(block.count(b"\n") for block in iter(lambda: out.read(1 << 20), b""))


def best(words, path, out, status, args):
    runs = []
    for _ in range(args.tries):
        out.seek(0)
        out.truncate()
        with open(path, "rb") as source:
            runs.append(Run(words, source, out, status, args.limit))
    return min(runs, key=lambda run: run.seconds)


def row(name, size, run, half):
    growth = run.seconds / max(half.seconds, 0.001) / 2
    each = run.seconds / max(run.lines, 1) * 1e6
    print(f"{name:12} {size:7} {run.seconds:8.3f} {each:9.1f} {run.memory:8.1f} {growth:7.2f}", flush=True)


def measured(name, args, folder):
    make, size, status = WORKLOADS[name]
    size //= args.part
    told = {}
    for n in (size // 2, size):
        path = os.path.join(folder, "script")
        with open(path, "w") as file:
            file.write("\n".join(make(n)) + "\n")
        with open(os.path.join(folder, f"transcript{n}"), "w+b") as out:
            told[n] = best([args.program, "sim"], path, out, status, args)
    row(name, size, told[size], told[size // 2])
    if status != 0:
        return
    judged = {}
    for n in (size // 2, size):
        with tempfile.TemporaryFile() as out:
            judged[n] = best([args.program, "check"], os.path.join(folder, f"transcript{n}"), out, 0, args)
            judged[n].lines = told[n].lines
    row("  judged", size, judged[size], judged[size // 2])


def main():
    parser = argparse.ArgumentParser(description=__doc__, formatter_class=argparse.RawDescriptionHelpFormatter)
    parser.add_argument("program")
    parser.add_argument("--tries", type=int, default=3)
    parser.add_argument("--part", type=int, default=1)
    parser.add_argument("--limit", type=float, default=120)
    parser.add_argument("names", nargs="*", metavar="NAME", help=", ".join(WORKLOADS))
    args = parser.parse_intermixed_args()

    status = 0
    print(f"{'workload':12} {'size':>7} {'seconds':>8} {'us a line':>9} {'MB':>8} {'growth':>7}")
    with tempfile.TemporaryDirectory() as folder:
        for name in args.names or WORKLOADS:
            try:
                measured(name, args, folder)
            except (TimeoutError, RuntimeError) as error:
                print(f"{name:12} {error}", flush=True)
                status = 1
    return status


if __name__ == "__main__":
    sys.exit(main())
