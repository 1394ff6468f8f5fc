#!/usr/bin/env python3
"""run.py PROGRAM

Runs PROGRAM on each example: a folder with the module (`module.wasm`, and beside it, for readers, its text, `module.wat`), the
words of the command, one a line (`words`), and what it writes (`report`). Prints a line for each example that differs, and
`N passed, M failed`.
"""

import os
import subprocess
import sys

HERE = os.path.dirname(os.path.abspath(__file__))


def main():
    if len(sys.argv) != 2:
        sys.exit("usage: run.py PROGRAM")
    program = os.path.abspath(sys.argv[1])
    names = sorted(name for name in os.listdir(HERE) if os.path.isdir(os.path.join(HERE, name)))
    failed = 0
    for name in names:
        folder = os.path.join(HERE, name)
        with open(os.path.join(folder, "words"), encoding="utf-8") as file:
            words = file.read().splitlines()
        with open(os.path.join(folder, "module.wasm"), "rb") as source:
            done = subprocess.run([program, *words], stdin=source, capture_output=True, timeout=60)
        with open(os.path.join(folder, "report"), "rb") as file:
            if done.stdout != file.read():
                failed += 1
                print("%s: wrote %r" % (name, done.stdout), flush=True)
    print("%d passed, %d failed" % (len(names) - failed, failed))
    return 1 if failed else 0


if __name__ == "__main__":
    sys.exit(main())
