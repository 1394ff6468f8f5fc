"""Answers the lines of rows that make terms and ask for them, by the making rules: python3 terms.py, in this folder.

It writes the answers of ../stdin up to the formulas, which make.py writes, into ../stdout.
"""

from operators import BINARY, UNARY
from rules import made
from values import value

BEGINS = "# ---- formulas: each operator on symbols"
JOINED = {32: (1, 2, 4), 64: (1, 2, 4, 8)}


class Refused(Exception):
    pass


class Graph:
    """Terms by their numbers, and words with their widths."""

    def __init__(self):
        self.numbers, self.terms, self.words, self.drawn = {}, [], [], 0

    def twin(self):
        other = Graph()
        other.numbers, other.terms, other.words, other.drawn = dict(self.numbers), list(self.terms), list(self.words), self.drawn
        return other

    def at(self, place, *widths):
        if place >= len(self.words) or self.words[place][1] not in widths:
            raise Refused
        return self.words[place][0]

    def any(self, place):
        return self.at(place, 8, 32, 64)

    def name(self, term):
        return f"number {term[1]}" if term[0] == "num" else f"term {self.numbers[term]}"

    def make(self, plain, bits):
        term = made(plain)
        if term[0] != "num" and term not in self.numbers:
            self.numbers[term] = 256 + len(self.terms)
            self.terms.append(term)
        self.words.append((term, bits))
        return self.name(term)

    def constant(self, bits, n):
        if n >> bits:
            raise Refused
        return self.make(("num", n), bits)

    def draw(self, bits):
        self.drawn += 1
        return self.make(("sym", self.drawn - 1, bits == 64), bits)

    def un(self, op, a):
        if op not in UNARY:
            raise Refused
        _, operand, result = UNARY[op]
        return self.make(("un", op, self.at(a, operand)), result)

    def bin(self, op, a, b):
        if op not in BINARY:
            raise Refused
        _, operand, result = BINARY[op]
        return self.make(("bin", op, self.at(a, operand), self.at(b, operand)), result)

    def choose(self, bits, c, a, b):
        return self.make(("choose", bits == 64, self.any(c), self.at(a, bits), self.at(b, bits)), bits)

    def byte(self, a, i):
        if i >= 8:
            raise Refused
        return self.make(("byte", self.any(a), i), 8)

    def join(self, bits, places):
        bytes_ = tuple(self.at(place, 8) for place in places)
        if len(bytes_) not in JOINED[bits]:
            raise Refused
        return self.make(("join", bits == 64, bytes_), bits)

    def form(self, place):
        term = self.any(place)
        kind = term[0]
        if kind == "num":
            raise Refused
        if kind == "sym":
            return f"symbol{64 if term[2] else 32} {term[1]}"
        if kind in ("un", "bin"):
            head, operands = f"{kind} 0x{term[1]:x}", term[2:]
        elif kind == "byte":
            head, operands = f"byte {term[2]}", term[1:2]
        else:
            head, operands = f"{kind}{64 if term[1] else 32}", term[2] if kind == "join" else term[2:]
        return " ".join([head, *map(self.name, operands)])

    def number(self, place):
        if place >= len(self.words) or self.words[place][0][0] != "num":
            return "is no number"
        return f"is {self.words[place][0][1]}"


def opcode(word):
    if not word.startswith("0x"):
        raise Refused
    return int(word, 16)


def answer(graph, line):
    verb, *rest = line.split()
    try:
        if verb in ("const32", "const64"):
            return graph.constant(int(verb[5:]), int(rest[0]))
        if verb in ("draw32", "draw64"):
            return graph.draw(int(verb[4:]))
        if verb in ("symbol32", "symbol64"):
            return graph.make(("sym", int(rest[0]), verb == "symbol64"), int(verb[6:]))
        if verb == "un":
            return graph.un(opcode(rest[0]), int(rest[1]))
        if verb == "bin":
            return graph.bin(opcode(rest[0]), int(rest[1]), int(rest[2]))
        if verb in ("choose32", "choose64"):
            return graph.choose(int(verb[6:]), *map(int, rest))
        if verb == "byte":
            return graph.byte(*map(int, rest))
        if verb in ("join32", "join64"):
            return graph.join(int(verb[4:]), [int(place) for place in rest])
        if verb == "form":
            return graph.form(int(rest[0]))
        if verb == "number":
            return graph.number(int(rest[0]))
        if verb == "count":
            return f"terms {len(graph.terms)}"
        if verb == "value":
            return f"value {value(graph.any(int(rest[0])), [int(n) for n in rest[2:]])}"
    except (IndexError, ValueError):
        pass
    raise Refused


def main():
    with open("../stdin", encoding="utf-8") as file:
        lines = file.read().split(BEGINS)[0].splitlines()
    session, first, answers = Graph(), Graph(), []
    for line in lines:
        if line == "reset":
            session = Graph()
        elif line == "freeze":
            first, session = session, session.twin()
        elif line == "first":
            session, first = first, session
        elif line and not line.startswith("#"):
            try:
                answers.append(f"{answer(session, line)}: {line}")
            except Refused:
                answers.append(f"refused: {line}")
            continue
        answers.append(line)
    with open("../stdout", encoding="utf-8") as file:
        after = file.read().split(BEGINS)[1]
    with open("../stdout", "w", encoding="utf-8") as file:
        file.write("\n".join(answers) + "\n" + BEGINS + after)


if __name__ == "__main__":
    main()
