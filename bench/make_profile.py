#!/usr/bin/env python3
"""How often each branch of practi is taken, for the compiler: makes .ci/practi.profdata anew.

    bench/make_profile.py RUNTIME [--part K]

To be run where the gate has passed, on a processor with AVX2. practi is built by .ci/compile once more, with counters, and
runs the workloads of measure.py, each at a K-th of its size (4), and `gen`; each transcript is judged. RUNTIME
is the profile runtime of the kit's version of LLVM, an archive, as libprofiler_builtins of a Rust whose `rustc --version
--verbose` says the same. The command llvm-profdata, of that version or an older one, makes the profile of the counts.
"""

import argparse
import glob
import hashlib
import os
import struct
import subprocess
import sys
import tempfile
import zlib

sys.dont_write_bytecode = True

import measure

TOP = os.path.dirname(os.path.dirname(os.path.abspath(__file__)))
PROFILE = os.path.join(TOP, ".ci", "practi.profdata")
MAGIC = 0xFF6C70726F667281
# Of LLVM 22: 16 words, of each function 64 bytes, and then the counters and the names.
VERSION, HEADER, FUNCTION = 10, 128, 64
# Each workload counts as much as each other, however long it takes.
ALIKE = 10**9
# Branches are counted, and no values; `.ci/keep` has the compiler want none either.
FLAGS = ["-fprofile-generate", "-mllvm", "-disable-vp=true"]
# The program ends by `_exit`, at which the runtime writes nothing by itself.
EXIT = """\
int __llvm_profile_write_file(void);
_Noreturn void _Exit(int);
_Noreturn void _exit(int status) {
    __llvm_profile_write_file();
    _Exit(status);
}
"""


def number(data, at):
    """A number of seven bits a byte, and where the next thing stands."""
    value = shift = 0
    while True:
        value |= (data[at] & 127) << shift
        shift += 7
        at += 1
        if data[at - 1] < 128:
            return value, at


def names_in(data):
    """Each name by the number that stands for it."""
    names, at = {}, 0
    while at < len(data):
        size, at = number(data, at)
        packed, at = number(data, at)
        text = zlib.decompress(data[at : at + packed]) if packed else data[at : at + size]
        at += packed or size
        for name in text.split(b"\1") if text else []:
            names[hashlib.md5(name).digest()[:8]] = name.decode()
    return names


def counts_in(path):
    """What a run counted: of each function, by its name and the checksum of its branches."""
    with open(path, "rb") as file:
        data = file.read()
    words = struct.unpack_from("<16Q", data)
    if words[0] != MAGIC or words[1] & 0xFFFFFFFF != VERSION:
        sys.exit(f"{path} is no profile of version {VERSION}")
    ids, functions, before, counters, behind, bits, last, size, delta = words[2:11]
    start = HEADER + ids
    base = start + functions * FUNCTION + before
    text = base + counters * 8 + behind + bits + last
    names = names_in(data[text : text + size])
    counts = {}
    for at in range(functions):
        name, checksum, place = struct.unpack_from("<8sQQ", data, start + at * FUNCTION)
        (length,) = struct.unpack_from("<I", data, start + at * FUNCTION + 48)
        place = (place + at * FUNCTION - delta) % (1 << 64)
        counts[names[name], checksum] = struct.unpack_from(f"<{length}Q", data, base + place)
    return counts


def add(total, counts, weight=1.0):
    """Adds so many times these counts, and where one is above 0, at least 1."""
    for function, branches in counts.items():
        sums = total.setdefault(function, [0] * len(branches))
        for at, count in enumerate(branches):
            sums[at] += max(int(count * weight), 1) if count else 0


def added(paths):
    """What the runs of one workload counted, of which the sum is ALIKE, whatever it was."""
    once, total = {}, {}
    for path in paths:
        add(once, counts_in(path))
    add(total, once, ALIKE / sum(map(sum, once.values())))
    return total


def told(total):
    """The profile as llvm-profdata reads it."""
    lines = [":ir"]
    for (name, checksum), counts in total.items():
        lines += [name, str(checksum), str(len(counts)), *map(str, counts), ""]
    return "\n".join(lines) + "\n"


def run(words, source, out):
    with open(source, "rb") as text, open(out, "wb") as written:
        subprocess.run(words, stdin=text, stdout=written, stderr=subprocess.DEVNULL, check=False)


def trained(program, part, folder):
    """What all workloads counted."""
    script, transcript = os.path.join(folder, "script"), os.path.join(folder, "transcript")
    total = {}

    def counted(name, *runs):
        os.environ["LLVM_PROFILE_FILE"] = os.path.join(folder, name + ".%p.profraw")
        for words, source, out in runs:
            run([program, *words], source, out)
        add(total, added(glob.glob(os.path.join(folder, name + ".*.profraw"))))

    for name, (make, size, _) in measure.WORKLOADS.items():
        with open(script, "w") as file:
            file.write("\n".join(make(size // part)) + "\n")
        check = (["check"], transcript, os.devnull)
        counted(name, (["sim"], script, transcript), check, (["run"], script, transcript), check)
    counted("gen", (["gen", "--seed", "1", "--size", str(40_000 // part)], os.devnull, os.devnull))
    return total


def objects(runtime, folder):
    """What the program is linked with: the files of the runtime that are no Rust, and the end of a run."""
    subprocess.run(["ar", "x", runtime], cwd=folder, check=True)
    files = [path for path in glob.glob(os.path.join(folder, "*.o")) if not path.endswith(".rcgu.o")]
    end = os.path.join(folder, "exit.o")
    subprocess.run(["cc", "-O2", "-fPIE", "-c", "-x", "c", "-", "-o", end], input=EXIT, text=True, check=True)
    return files + [end]


def main():
    parser = argparse.ArgumentParser(description=__doc__, formatter_class=argparse.RawDescriptionHelpFormatter)
    parser.add_argument("runtime")
    parser.add_argument("--part", type=int, default=4)
    args = parser.parse_args()

    with tempfile.TemporaryDirectory() as folder:
        program = os.path.join(folder, "practi")
        files = objects(os.path.abspath(args.runtime), folder)
        subprocess.run([os.path.join(TOP, ".ci", "compile"), program, *files, "--", *FLAGS], check=True)
        total = trained(program, args.part, folder)
        counts = os.path.join(folder, "counts")
        with open(counts, "w") as file:
            file.write(told(total))
        subprocess.run(["llvm-profdata", "merge", counts, "-o", PROFILE], check=True)
    print(f"{len(total)} functions, {sum(map(any, total.values()))} of them run, {os.path.getsize(PROFILE)} bytes")


if __name__ == "__main__":
    main()
