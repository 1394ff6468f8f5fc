#!/usr/bin/env python3
"""run.py PROGRAM [TIMES]

Runs each module of this folder by PROGRAM and by wabt's `wasm-interp`, in turn, TIMES times (12 if left out), and prints the
least processor time of each in seconds. Both execute the same function `run`, and must give the same result.
"""

import os
import resource
import subprocess
import sys

HERE = os.path.dirname(os.path.abspath(__file__))


def timed(words, source):
    """The processor time of a command, and what it writes."""
    before = resource.getrusage(resource.RUSAGE_CHILDREN).ru_utime
    with open(source, "rb") as file:
        done = subprocess.run(words, stdin=file, capture_output=True, check=True)
    return resource.getrusage(resource.RUSAGE_CHILDREN).ru_utime - before, done.stdout.decode()


def main():
    if len(sys.argv) < 2:
        sys.exit("usage: run.py PROGRAM [TIMES]")
    program = os.path.abspath(sys.argv[1])
    times = int(sys.argv[2]) if len(sys.argv) > 2 else 12
    for name in sorted(name for name in os.listdir(HERE) if name.endswith(".wasm")):
        source = os.path.join(HERE, name)
        ours, theirs = [], []
        for _ in range(times):
            time, wrote = timed([program, "run", "run", "--steps", "10000000"], source)
            ours.append(time)
            time, said = timed(["wasm-interp", source, "--run-all-exports"], source)
            theirs.append(time)
            result = said.split("=>")[1].strip()
            if "outcome returns %s\n" % result not in wrote:
                sys.exit("%s: %r, but wasm-interp gives %s" % (name, wrote, result))
        print("%-12s owi %.3f  wasm-interp %.3f" % (name, min(ours), min(theirs)), flush=True)


if __name__ == "__main__":
    main()
