#!/usr/bin/env python3
"""Damaged inputs of `serve` and `pull` end by their causes, with nothing served or taken in behind the fault.

    examples/damage.py PROGRAM [--cases 10000] [--seed 1] [--other PROGRAM]

Each case takes asks, or answers to them, of the scripts in examples/exchange, changes or cuts them at random, and runs
PROGRAM over them. A call that ends well took all of its input. One that ends with status 11 wrote just what it writes
over the whole asks, or frames, before the place of the fault, and there that call ends well. With --other a second
program must give the same status and the same bytes in each case. The cases follow from the seed.
"""

import argparse
import pathlib
import random
import subprocess
import sys

SCRIPTS = pathlib.Path(__file__).resolve().parent / "exchange"
SHOP = (SCRIPTS / "a.practi").read_bytes()
KIOSK = (SCRIPTS / "b.practi").read_bytes()

OK, BAD_BYTES = 0, 11

# The ask's mark and its stream, and what follows the names.
ASK_HEAD, ASK_TAIL = 5, 9
FRAME_HEAD = 9


def call(program, word, node, given):
    """The status of a call, and what it wrote."""
    done = subprocess.run([program, word, "--node", node], input=given, capture_output=True, timeout=60)
    return done.returncode, done.stdout


def ask_end(given, at):
    """Where the ask that begins here ends by its counts and lengths, or None where it is not whole."""
    place = at + ASK_HEAD
    if place >= len(given) or given[at] != 81:
        return None
    place += 1 + 9 * given[place]
    count = int.from_bytes(given[place : place + 8], "big")
    place += 8
    for _ in range(2 * count):
        if place >= len(given):
            return None
        place += 1 + given[place]
    return place + ASK_TAIL if place + ASK_TAIL <= len(given) else None


def part_end(given, at):
    """Where the frame, or the byte 0, that begins here ends, or None where it is not whole."""
    if given[at] == 0:
        return at + 1
    head = given[at : at + FRAME_HEAD]
    if len(head) < FRAME_HEAD or head[0] not in (1, 2):
        return None
    end = at + FRAME_HEAD + int.from_bytes(head[1:], "big")
    return end if end <= len(given) else None


def ends(given, end_of):
    """The places where a part that is whole by its counts and lengths ends, from 0 on."""
    places = [0]
    while places[-1] < len(given):
        end = end_of(given, places[-1])
        if end is None:
            break
        places.append(end)
    return places


def damaged(draw, given):
    """The bytes with one to three changes."""
    data = bytearray(given)
    for _ in range(draw.randint(1, 3)):
        if not data:
            break
        at = draw.randrange(len(data))
        change = draw.randrange(6)
        if change == 0:
            del data[at:]
        elif change == 1:
            data[at] ^= 1 << draw.randrange(8)
        elif change == 2:
            data[at] = draw.randrange(256)
        elif change == 3:
            del data[at]
        elif change == 4:
            data.insert(at, draw.randrange(256))
        else:
            end = min(len(data), at + draw.randint(1, 64))
            data[at:at] = data[at:end]
    return bytes(data)


class Case:
    """A call over a script and what stands behind it."""

    def __init__(self, word, node, script, given):
        self.word, self.node, self.script, self.given = word, node, script, given

    def run(self, program, given=None):
        behind = self.given if given is None else given
        return call(program, self.word, self.node, self.script + b"\0" + behind)

    def fault(self, program, answer):
        """What is wrong with this program's answer, or None."""
        judge = self.served if self.word == "serve" else self.pulled
        return judge(program, *answer)

    def served(self, program, status, text):
        places = ends(self.given, ask_end)
        if status == OK:
            return None if places[-1] == len(self.given) else "ok, and not all was taken"
        if status != BAD_BYTES:
            return f"status {status}"
        for place in reversed(places):
            status, before = self.run(program, self.given[:place])
            if status == OK:
                return None if text == before else "other answers than those of the asks before the fault"
        return "no place of a fault"

    def pulled(self, program, status, text):
        lines = text.splitlines(keepends=True)
        script = self.run(program, b"")[1].splitlines(keepends=True)[:-1]
        if lines[: len(script)] != script:
            return "other lines of the script"
        if status == OK:
            frames = sum(self.given[at] != 0 for at in ends(self.given, part_end)[:-1])
            good = lines[-1] == b"ok %d\n" % (len(script) + frames) and len(lines) == len(script) + frames + 1
            return None if good else "ok, and not one line for each frame"
        if status != BAD_BYTES:
            return f"status {status}"
        last = lines[-1].split()
        if last[:2] != [b"error", b"bytes"] or len(last) != 3:
            return "no line of the fault"
        at = int(last[2])
        status, before = self.run(program, self.given[:at])
        if status != OK or at >= len(self.given):
            return "the bytes before the fault are not good"
        if lines[:-1] != before.splitlines(keepends=True)[:-1]:
            return "other lines than those of the frames before the fault"
        return None


def main():
    parser = argparse.ArgumentParser(description=__doc__.splitlines()[0])
    parser.add_argument("program")
    parser.add_argument("--cases", type=int, default=10_000)
    parser.add_argument("--seed", type=int, default=1)
    parser.add_argument("--other")
    given = parser.parse_args()

    asks = call(given.program, "ask", "kiosk", KIOSK)[1]
    frames = call(given.program, "serve", "shop", SHOP + b"\0" + asks)[1]
    up = call(given.program, "serve", "kiosk", KIOSK + b"\0" + call(given.program, "ask", "shop", SHOP)[1])[1]
    whole = [
        Case("serve", "shop", SHOP, asks * 3),
        Case("pull", "kiosk", KIOSK, frames),
        Case("pull", "shop", SHOP, up),
    ]

    draw = random.Random(given.seed)
    counts = {}
    for number in range(given.cases):
        base = draw.choice(whole)
        case = Case(base.word, base.node, base.script, damaged(draw, base.given))
        answer = case.run(given.program)
        why = case.fault(given.program, answer)
        if why is None and given.other and case.run(given.other) != answer:
            why = "the other program answers otherwise"
        if why is not None:
            print(f"case {number}: {case.word} over {case.given.hex()}: {why}")
            return 1
        counts[case.word, answer[0]] = counts.get((case.word, answer[0]), 0) + 1
    for (word, status), count in sorted(counts.items()):
        print(f"{word} status {status}: {count}")
    return 0


if __name__ == "__main__":
    sys.exit(main())
