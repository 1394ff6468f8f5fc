#!/usr/bin/env python3
"""solver.py PROGRAM [TIMES [BOUND ..]]

Asks five questions of PROGRAM, which is the built `term_rows`, each with so many conflicts at most (100, 1,000, 4,000 and 20,000 if left
out, and 100,000 on the third), and of Debian's `minisat` with the same formulas as DIMACS, if it is there. It does so in turn, TIMES times
(3 if left out), and prints the least user and system time for each conflict, and the most memory.
"""

import os
import re
import shutil
import subprocess
import sys
import tempfile

HERE = os.path.dirname(os.path.abspath(__file__))
sys.path.insert(0, os.path.join(HERE, "..", "crates", "term_rows", "reference"))

from circuits import formula  # noqa: E402
from session import Rows  # noqa: E402


def rest():
    rows = Rows()
    x, y, n = rows.draw(64), rows.draw(64), rows.const(64, 123456789123)
    return rows, [64, 64], [rows.bin(0x51, rows.bin(0x82, x, y), n), y], []


def factors():
    rows = Rows()
    x, y, n = rows.draw(32), rows.draw(32), rows.const(64, 1000000016000000063)
    return rows, [32, 32], [rows.bin(0x51, rows.bin(0x7E, rows.un(0xAD, x), rows.un(0xAD, y)), n)], []


def squares():
    rows = Rows()
    x, _, one = rows.draw(32), rows.draw(32), rows.const(32, 1)
    product = rows.bin(0x6C, rows.bin(0x6A, x, one), rows.bin(0x6B, x, one))
    return rows, [32, 32], [rows.bin(0x47, product, rows.bin(0x6B, rows.bin(0x6C, x, x), one))], []


def division():
    rows = Rows()
    x, _, ten = rows.draw(32), rows.draw(32), rows.const(32, 10)
    whole = rows.bin(0x6C, rows.bin(0x6E, x, ten), ten)
    return rows, [32, 32], [rows.bin(0x47, rows.bin(0x6A, whole, rows.bin(0x70, x, ten)), x)], []


def thirds():
    rows = Rows()
    x, _, three, most = rows.draw(32), rows.draw(32), rows.const(32, 3), rows.const(32, 1 << 20)
    third = rows.bin(0x6E, rows.bin(0x6C, x, three), three)
    return rows, [32, 32], [rows.bin(0x47, third, x), rows.bin(0x49, x, most)], []


QUESTIONS = [
    ("x % y == 123456789123, 64 bits", rest),
    ("x * y == 1000000016000000063", factors),
    ("(x+1)*(x-1) != x*x-1", squares),
    ("x/10*10 + x%10 != x", division),
    ("x*3/3 != x, x < 2^20", thirds),
]


def timed(words, source):
    """User and system time of a command, its memory in MB, and what it writes."""
    with tempfile.TemporaryFile() as out:
        child = subprocess.Popen(words, stdin=source, stdout=out, stderr=subprocess.DEVNULL)
        _, _, usage = os.wait4(child.pid, 0)
        child.returncode = 0
        out.seek(0)
        return usage.ru_utime + usage.ru_stime, usage.ru_maxrss / 1024, out.read().decode()


def ours(program, rows, draws, nonzero, zero, bound):
    """Time, memory, conflicts and what was found."""
    said = rows.written(draws, nonzero, zero)
    with tempfile.TemporaryFile("w+") as source:
        source.write("\n".join([*rows.lines, f"ask {bound} : {said}", ""]))
        source.seek(0)
        time, memory, wrote = timed([program], source)
    return time, memory, wrote.splitlines()[-1].split(":")[0]


def dimacs(rows, draws, nonzero, zero, path):
    variables, clauses, _ = formula(rows.conditions(nonzero, zero), [bits == 64 for bits in draws])
    with open(path, "w") as file:
        file.write(f"p cnf {variables} {len(clauses)}\n")
        for clause in clauses:
            file.write(" ".join(str(-(literal // 2) if literal % 2 else literal // 2) for literal in clause) + " 0\n")


def minisat(path, most):
    time, memory, wrote = timed(["minisat", f"-cpu-lim={most}", path], subprocess.DEVNULL)
    conflicts = re.search(r"^conflicts +: (\d+)", wrote, re.MULTILINE)
    return time, memory, int(conflicts.group(1)) if conflicts else 0


def main():
    if len(sys.argv) < 2:
        sys.exit("usage: solver.py PROGRAM [TIMES [BOUND ..]]")
    program = os.path.abspath(sys.argv[1])
    times = int(sys.argv[2]) if len(sys.argv) > 2 else 3
    bounds = [int(word) for word in sys.argv[3:]]
    for number, (name, question) in enumerate(QUESTIONS):
        rows, draws, nonzero, zero = question()
        print(name, flush=True)
        for bound in bounds or [100, 1000, 4000, 20000] + [100000] * (number == 2):
            runs = [ours(program, rows, draws, nonzero, zero, bound) for _ in range(times if bound < 20000 else 1)]
            time, memory = min(run[0] for run in runs), max(run[1] for run in runs)
            said = f"{1000 * time / bound:.3f} ms a conflict" if runs[0][2] == "undecided" else runs[0][2]
            print(f"  {bound:6}: {time:.2f} s, {memory:.0f} MB, {said}", flush=True)
        if shutil.which("minisat"):
            with tempfile.TemporaryDirectory() as folder:
                path = os.path.join(folder, "question.cnf")
                dimacs(rows, draws, nonzero, zero, path)
                time, memory, conflicts = minisat(path, 10)
                each = f"{1000 * time / conflicts:.3f} ms each" if conflicts else "none"
                print(f"  minisat: {time:.2f} s, {memory:.0f} MB, {conflicts} conflicts, {each}", flush=True)


if __name__ == "__main__":
    main()
