"""The lines of rows with their answers: terms that are made, their formulas, and questions whose answers are found by trying inputs."""

from itertools import product

from circuits import formula
from machine import solve
from rules import made
from values import value

MOST = (1 << 64) - 1


def mixed(print_, n):
    low = (print_ ^ n) * 0x9E3779B97F4A7C15 & MOST
    return low ^ low >> 29


def fingerprint(clauses, order):
    """The number by which the program tells formulas apart."""
    total = 0
    for numbers in clauses:
        for n in numbers:
            total = mixed(total, n)
        total = mixed(total, 0)
    for n in order:
        total = mixed(total, n)
    return mixed(total, 0)


class Rows:
    def __init__(self):
        self.lines, self.answers = [], []
        self.forget()

    def forget(self):
        self.words, self.numbers, self.draws = [], {}, []

    def comment(self, text):
        self.lines.append("# ---- " + text)
        self.answers.append("# ---- " + text)

    def reset(self):
        self.lines.append("reset")
        self.answers.append("reset")
        self.forget()

    def say(self, line, answer):
        self.lines.append(line)
        self.answers.append(f"{answer}: {line}")

    # ---- words; the places of words are returned

    def add(self, line, plain):
        term = made(plain)
        if term[0] == "num":
            answer = f"number {term[1]}"
        else:
            answer = f"term {self.numbers.setdefault(term, 256 + len(self.numbers))}"
        self.say(line, answer)
        self.words.append(term)
        return len(self.words) - 1

    def draw(self, bits):
        self.draws.append(bits == 64)
        return self.add(f"draw{bits}", ("sym", len(self.draws) - 1, bits == 64))

    def const(self, bits, n):
        return self.add(f"const{bits} {n}", ("num", n))

    def un(self, op, a):
        return self.add(f"un 0x{op:x} {a}", ("un", op, self.words[a]))

    def bin(self, op, a, b):
        return self.add(f"bin 0x{op:x} {a} {b}", ("bin", op, self.words[a], self.words[b]))

    def choose(self, bits, c, a, b):
        return self.add(f"choose{bits} {c} {a} {b}", ("choose", bits == 64, self.words[c], self.words[a], self.words[b]))

    def byte(self, a, i):
        return self.add(f"byte {a} {i}", ("byte", self.words[a], i))

    def join(self, bits, places):
        return self.add(f"join{bits} " + " ".join(map(str, places)), ("join", bits == 64, tuple(self.words[a] for a in places)))

    # ---- conditions: the terms at the first places aren't 0, and those at the second are

    def conditions(self, nonzero, zero):
        return [(self.words[a], 1) for a in nonzero] + [(self.words[a], 0) for a in zero]

    def written(self, draws, nonzero, zero):
        parts = [draws, nonzero, zero]
        return " : ".join(" ".join(map(str, part)) for part in parts).replace("  ", " ").strip()

    def formula(self, draws, nonzero, zero, first=None):
        least = None if first is None else self.words[first]
        variables, clauses, order = formula(self.conditions(nonzero, zero), [bits == 64 for bits in draws], least)
        line = f"formula {self.written(draws, nonzero, zero)} :" + ("" if first is None else f" {first}")
        self.say(line, f"vars {variables} clauses {len(clauses)} print {fingerprint(clauses, order)}")
        return variables, len(clauses)

    # ---- questions: inputs are the numbers that are to be tried for each symbol, all that can meet the conditions

    def met(self, nonzero, zero, inputs):
        """The inputs that meet the conditions, the least first."""
        conditions = self.conditions(nonzero, zero)
        return [it for it in product(*map(sorted, inputs)) if all((value(t, it) != 0) == bool(answer) for t, answer in conditions)]

    def ask(self, conflicts, draws, nonzero, zero, inputs):
        found = self.met(nonzero, zero, inputs)
        line = f"ask {conflicts} : {self.written(draws, nonzero, zero)}"
        self.say(line, " ".join(["least", *map(str, found[0])]) if found else "dropped")
        return found[0] if found else None

    def pick(self, conflicts, draws, nonzero, zero, inputs, at):
        term, found = self.words[at], self.met(nonzero, zero, inputs)
        line = f"pick {conflicts} : {self.written(draws, nonzero, zero)} : {at}"
        least = min(((value(term, it), it) for it in found), default=None)
        self.say(line, " ".join(["value", str(least[0]), "at", *map(str, least[1])]) if least else "none")

    def refute(self, draws, nonzero, zero, most=100000):
        """Conditions that no input meets: undecided with as many conflicts as the machine counts, dropped with one more, and the log."""
        variables, clauses, order = formula(self.conditions(nonzero, zero), [bits == 64 for bits in draws])
        answer, log, conflicts = solve(variables, clauses, order, most)
        assert answer == "refuted"
        said = self.written(draws, nonzero, zero)
        if conflicts:
            self.say(f"ask {conflicts} : {said}", "undecided")
            self.say(f"log {conflicts} : {said}", "no log")
        self.say(f"ask {conflicts + 1} : {said}", "dropped")
        self.say(f"log {conflicts + 1} : {said}", f"chains {len(log)} steps {sum(len(steps) for _, steps in log)}")
        return variables, len(clauses), conflicts
