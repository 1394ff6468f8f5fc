"""The formula of conditions on terms, by tables of gates and blocks; no word of it is taken from the proved program.

A wire is a literal: 2 v for the variable v, and 2 v + 1 for its negation; variable 1 is true. The wires of an integer are
listed from the lowest bit on. A term is a tuple: ("num", n), ("sym", k, wide), ("un", op, a), ("bin", op, a, b),
("choose", wide, c, a, b), ("byte", a, i) or ("join", wide, (bytes ..)).
"""

from operators import BINARY, UNARY

T, F = 2, 3


def neg(wire):
    return wire ^ 1


def once(literals):
    """The literals, of equal ones the first."""
    return list(dict.fromkeys(literals))


# ---- gates


def said(kind, z, wires):
    """The clauses of a gate with the positive literal z."""
    n = neg
    if kind == "and":
        a, b = wires
        return [[n(z), a], [n(z), b], [z, n(a), n(b)]]
    if kind == "xor":
        a, b = wires
        return [[n(z), a, b], [n(z), n(a), n(b)], [z, n(a), b], [z, a, n(b)]]
    if kind == "mux":
        s, a, b = wires
        return [[n(s), n(a), z], [n(s), a, n(z)], [s, n(b), z], [s, b, n(z)]]
    if kind == "maj":
        a, b, c = wires
        return [[n(a), n(b), z], [n(a), n(c), z], [n(b), n(c), z], [a, b, n(z)], [a, c, n(z)], [b, c, n(z)]]
    (a,) = wires
    return [[n(z), a], [z, n(a)]]


class Circuit:
    def __init__(self, draws):
        """Of symbols with these widths: their bits come after variable 1, each from the highest down."""
        self.symbols, self.next, self.clauses = [], 2, [[T]]
        for wide in draws:
            bits = 64 if wide else 32
            self.symbols.append([2 * (self.next + bits - 1 - i) for i in range(bits)])
            self.next += bits
        self.first = self.next

    def put(self, kind, *wires):
        z = 2 * self.next
        self.next += 1
        self.clauses += [once(clause) for clause in said(kind, z, wires)]
        return z

    # ---- blocks

    def add(self, a, b, carry):
        sums = []
        for x, y in zip(a, b):
            t = self.put("xor", x, y)
            sums.append(self.put("xor", t, carry))
            carry = self.put("maj", x, y, carry)
        return sums, carry

    def less(self, a, b):
        lower = F
        for x, y in zip(a, b):
            lower = self.put("maj", neg(x), y, lower)
        return lower

    def zeros(self, wires):
        """For each wire, whether it and those before it are false."""
        found = [neg(wires[0])]
        for wire in wires[1:]:
            found.append(self.put("and", found[-1], neg(wire)))
        return found

    def none(self, wires):
        return self.zeros(wires)[-1]

    def negate_if(self, sign, a):
        turned = [self.put("xor", x, sign) for x in a]
        return self.add(turned, [F] * len(a), sign)[0]

    def count(self, wires):
        bits = [F] * 7
        for wire in wires:
            bits = self.add(bits, [wire] + [F] * 6, F)[0]
        return bits

    def divide(self, a, b):
        rest, quotient = [F] * (len(a) + 1), []
        for x in reversed(a):
            longer = [x] + rest[: len(a)]
            less, carry = self.add(longer, [neg(y) for y in b] + [T], T)
            quotient.insert(0, carry)
            rest = [self.put("mux", carry, d, r) for d, r in zip(less, longer)]
        return quotient, rest[: len(a)]

    def multiply(self, a, b):
        total = [self.put("and", x, b[0]) for x in a]
        for i in range(1, len(a)):
            row = [self.put("and", x, b[i]) for x in a[: len(a) - i]]
            total[i:] = self.add(total[i:], row, F)[0]
        return total

    def shift(self, name, a, b):
        size = len(a)
        for stage in range(5 if size == 32 else 6):
            k = 1 << stage
            moved = {
                "shl": [F] * k + a[: size - k], "shr_u": a[k:] + [F] * k, "shr_s": a[k:] + [a[-1]] * k,
                "rotl": a[size - k :] + a[: size - k], "rotr": a[k:] + a[:k],
            }[name]
            a = [self.put("mux", b[stage], x, y) for x, y in zip(moved, a)]
        return a

    # ---- terms

    def unary(self, op, a):
        name, _, bits = UNARY[op]
        if name == "eqz":
            return fitted([self.none(a)], bits)
        if name == "popcnt":
            return fitted(self.count(a), bits)
        if name == "ctz":
            return fitted(self.count(self.zeros(a)), bits)
        if name == "clz":
            return fitted(self.count(self.zeros(a[::-1])), bits)
        if name in ("wrap", "extend_u"):
            return fitted(a, bits)
        low = int(name[len("extend") :])
        return a[:low] + [a[low - 1]] * (bits - low)

    def compared(self, name, a, b):
        if name in ("eq", "ne"):
            wire = self.none([self.put("xor", x, y) for x, y in zip(a, b)])
            return wire if name == "eq" else neg(wire)
        if name.endswith("_s"):
            a, b = a[:-1] + [neg(a[-1])], b[:-1] + [neg(b[-1])]
        if name[:2] in ("lt", "ge"):
            wire = self.less(a, b)
        else:
            wire = self.less(b, a)
        return wire if name[:2] in ("lt", "gt") else neg(wire)

    def divided(self, name, a, b):
        if name.endswith("_u"):
            quotient, rest = self.divide(a, b)
            return quotient if name == "div_u" else rest
        dividend = self.negate_if(a[-1], a)
        divisor = self.negate_if(b[-1], b)
        quotient, rest = self.divide(dividend, divisor)
        if name == "div_s":
            return self.negate_if(self.put("xor", a[-1], b[-1]), quotient)
        return self.negate_if(a[-1], rest)

    def binary(self, op, a, b):
        name, _, bits = BINARY[op]
        if name in ("add", "sub"):
            return self.add(a, b, F)[0] if name == "add" else self.add(a, [neg(y) for y in b], T)[0]
        if name == "mul":
            return self.multiply(a, b)
        if name[:3] in ("div", "rem"):
            return self.divided(name, a, b)
        if name in ("and", "xor"):
            return [self.put(name, x, y) for x, y in zip(a, b)]
        if name == "or":
            return [neg(self.put("and", neg(x), neg(y))) for x, y in zip(a, b)]
        if name[:3] in ("shl", "shr", "rot"):
            return self.shift(name, a, b)
        return fitted([self.compared(name, a, b)], bits)

    def choose(self, c, a, b):
        zero = self.none(c)
        return [self.put("mux", neg(zero), x, y) for x, y in zip(a, b)]


def fitted(wires, bits):
    """Cut to so many wires, or filled up with false ones."""
    return (wires + [F] * bits)[:bits]


def operands(term):
    return {"num": (), "sym": (), "un": term[2:3], "bin": term[2:4], "choose": term[2:5], "byte": term[1:2]}.get(term[0]) if term[0] != "join" else term[2]


def wires_of(circuit, made, term):
    """The wires of a term from those of its operands; a number has the bits that are wanted, 64 as a condition and under a byte."""
    kind = term[0]

    def of(operand, bits):
        return [T if operand[1] >> i & 1 else F for i in range(bits)] if operand[0] == "num" else made[operand]

    if kind == "sym":
        return circuit.symbols[term[1]]
    if kind == "un":
        return circuit.unary(term[1], of(term[2], UNARY[term[1]][1]))
    if kind == "bin":
        bits = BINARY[term[1]][1]
        return circuit.binary(term[1], of(term[2], bits), of(term[3], bits))
    if kind == "choose":
        bits = 64 if term[1] else 32
        return circuit.choose(of(term[2], 64), of(term[3], bits), of(term[4], bits))
    if kind == "byte":
        return fitted(of(term[1], 64)[8 * term[2] :], 8)
    return fitted([wire for byte in term[2] for wire in of(byte, 8)], 64 if term[1] else 32)


def formula(conditions, draws, first=None):
    """Variables, clauses and decision order of conditions, which are terms with answers 0 and 1; first is to be least."""
    circuit, made = Circuit(draws), {}

    def visit(term):
        """Each term once, after its operands, which go from left to right."""
        if term[0] != "num" and term not in made:
            for operand in operands(term):
                visit(operand)
            made[term] = wires_of(circuit, made, term)

    for term, _ in conditions:
        visit(term)
    least = []
    if first is not None:
        visit(first)
        least = [circuit.put("same", wire) // 2 for wire in reversed(made[first])]
    for term, answer in conditions:
        circuit.clauses += [once(made[term])] if answer else [[neg(wire)] for wire in made[term]]
    symbols = list(range(2, circuit.first))
    others = [v for v in range(circuit.first, circuit.next) if v not in set(least)]
    return circuit.next - 1, circuit.clauses, least + symbols + [1] + others
