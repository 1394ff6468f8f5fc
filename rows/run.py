#!/usr/bin/env python3
"""run.py PROGRAM

Runs PROGRAM on each row of rows.json, with the row's words and with its source on standard input. Compares the status and
standard output, and asks that standard error is empty. Prints a line for each row that differs, and `N passed, M failed`.
"""

import json
import os
import subprocess
import sys

HERE = os.path.dirname(os.path.abspath(__file__))
SECONDS = 60


def source_of(row):
    source = row["source"]
    if "parts" in source:
        return b"".join(bytes.fromhex(part["hex"]) * part.get("times", 1) for part in source["parts"])
    return bytes.fromhex(source["hex"]) if "hex" in source else source["text"].encode()


def differences(program, row):
    """What is wrong with the program's answer, a text for each."""
    try:
        done = subprocess.run([program, *row["words"]], input=source_of(row), capture_output=True, timeout=SECONDS)
    except subprocess.TimeoutExpired:
        return ["no end within %d seconds" % SECONDS]
    wrong = []
    if done.returncode != row["status"]:
        wrong.append("status: wanted %d, got %d" % (row["status"], done.returncode))
    wanted = bytes.fromhex(row["stdout_hex"]) if "stdout_hex" in row else row["stdout"].encode()
    if done.stdout != wanted:
        wrong.append("output: wanted %r, got %r" % (wanted, done.stdout))
    if done.stderr:
        wrong.append("standard error: %r" % done.stderr)
    return wrong


def main():
    if len(sys.argv) != 2:
        sys.exit("usage: run.py PROGRAM")
    program = os.path.abspath(sys.argv[1])
    with open(os.path.join(HERE, "rows.json"), encoding="utf-8") as file:
        rows = json.load(file)
    failed = 0
    for row in rows:
        wrong = differences(program, row)
        failed += bool(wrong)
        for text in wrong:
            print("%s: %s" % (row["name"], text), flush=True)
    print("%d passed, %d failed" % (len(rows) - failed, failed))
    return 1 if failed else 0


if __name__ == "__main__":
    sys.exit(main())
