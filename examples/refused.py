#!/usr/bin/env python3
"""Each allocation of a run is refused in turn.

    examples/refused.py PROGRAM [--script examples/phase.practi] [--word run]

Runs `PROGRAM WORD` over the script again and again; in run N the program's Nth call of malloc gives no memory, by a small
library that is compiled with cc and loaded before the C library. Each such run has to end by itself: with what a run
writes that is not refused, or with `error no memory` as its last line and status 7; and the lines before that have to
begin a transcript, as `PROGRAM check` says of them with the `ok` line in its place. It goes on until 100 runs in a row found
memory for all. What does not hold is written, and the exit status is 1.
"""

import argparse
import os
import pathlib
import subprocess
import sys
import tempfile

SHIM = r"""
#define _GNU_SOURCE
#include <dlfcn.h>
#include <stdatomic.h>
#include <stdlib.h>

static atomic_long calls;

void *malloc(size_t size)
{
    static void *(*next)(size_t);
    static long refused;
    if (!next) {
        next = (void *(*)(size_t))dlsym(RTLD_NEXT, "malloc");
        const char *nth = getenv("REFUSED");
        refused = nth ? atol(nth) : 0;
    }
    if (atomic_fetch_add(&calls, 1) + 1 == refused)
        return NULL;
    return next(size);
}
"""

WHOLE = (0, 8)
NO_MEMORY = 7
LAST = b"error no memory\n"


def begins_transcript(program, text):
    lines = text.count(b"\n")
    if not text.endswith(b"\n") and text:
        # The last line was cut off.
        text = text[: text.rfind(b"\n") + 1]
        lines = text.count(b"\n")
    judged = subprocess.run([program, "check"], input=text + b"ok %d\n" % lines, capture_output=True, timeout=60)
    return judged.returncode == 0


def main():
    parser = argparse.ArgumentParser(description=__doc__)
    parser.add_argument("program")
    parser.add_argument("--script", default=pathlib.Path(__file__).resolve().parent / "phase.practi")
    parser.add_argument("--word", default="run")
    args = parser.parse_args()
    script = pathlib.Path(args.script).read_bytes()

    with tempfile.TemporaryDirectory() as folder:
        source, shim = f"{folder}/shim.c", f"{folder}/shim.so"
        pathlib.Path(source).write_text(SHIM)
        subprocess.run(["cc", "-shared", "-fPIC", "-O1", "-o", shim, source, "-ldl"], check=True)
        refused, bad, nth, in_a_row = 0, 0, 0, 0
        while in_a_row < 100:
            nth += 1
            in_a_row += 1
            env = dict(os.environ, LD_PRELOAD=shim, REFUSED=str(nth))
            done = subprocess.run([args.program, args.word], input=script, capture_output=True, timeout=60, env=env)
            text = done.stdout
            if done.returncode == NO_MEMORY:
                refused += 1
                in_a_row = 0
                told = text[: -len(LAST)] if text.endswith(LAST) else None
                if told is None or not begins_transcript(args.program, told):
                    print(f"call {nth} refused: {text[-120:]!r}")
                    bad += 1
            elif done.returncode not in WHOLE:
                print(f"call {nth} refused: status {done.returncode}, {done.stderr[-120:]!r}")
                bad += 1
    print(f"{nth} calls refused in turn: {refused} runs ended without memory, {bad} do not hold")
    return 1 if bad else 0


if __name__ == "__main__":
    sys.exit(main())
