"""Writes the rows of formulas and questions, and their answers, after the rows of terms: python3 make.py, in this folder."""

from session import Rows, fingerprint
from operators import ARITHMETIC, BINARY, COMPARISONS, UNARY, binary, unary

BEGINS = "# ---- formulas: each operator on symbols"
rows = Rows()

# ---------------------------------------------------------------- formulas


def operators_on_symbols():
    rows.comment("formulas: each operator on symbols")
    rows.reset()
    draws = [32, 32, 64, 64]
    a, b, c, d = (rows.draw(bits) for bits in draws)
    counts = {}
    for op in sorted([*UNARY, *BINARY]):
        bits = (UNARY if op in UNARY else BINARY)[op][1]
        x, y = (a, b) if bits == 32 else (c, d)
        term = rows.un(op, x) if op in UNARY else rows.bin(op, x, y)
        counts[op] = rows.formula(draws, [term], [])
    # Counted from the tables by hand: one clause says that variable 1 is true, one is the condition's.
    for name, op, variables, clauses in [
        ("eqz", 0x45, 31, 31 * 3),
        ("eq", 0x46, 32 + 31, 32 * 4 + 31 * 3),
        ("lt_u", 0x49, 32, 32 * 6),
        ("popcnt", 0x69, 32 * 7 * 3, 32 * 7 * (4 + 4 + 6)),
        ("ctz", 0x68, 31 + 32 * 21, 31 * 3 + 32 * 7 * 14),
        ("add", 0x6A, 32 * 3, 32 * (4 + 4 + 6)),
        ("mul", 0x6C, 32 + 496 * (1 + 3), 32 * 3 + 496 * (3 + 14)),
        ("div_u", 0x6E, 32 * 33 * (3 + 1), 32 * 33 * (14 + 4)),
        ("div_s", 0x6D, 32 * 33 * 4 + 3 * (32 + 96) + 1, 32 * 33 * 18 + 3 * (32 * 4 + 32 * 14) + 4),
        ("rem_s", 0x6F, 32 * 33 * 4 + 3 * (32 + 96), 32 * 33 * 18 + 3 * (32 * 4 + 32 * 14)),
        ("and", 0x71, 32, 32 * 3),
        ("xor", 0x73, 32, 32 * 4),
        ("shl", 0x74, 5 * 32, 5 * 32 * 4),
        ("rotr at 64", 0x8A, 6 * 64, 6 * 64 * 4),
        ("mul at 64", 0x7E, 64 + 2016 * 4, 64 * 3 + 2016 * 17),
        ("div_u at 64", 0x80, 64 * 65 * 4, 64 * 65 * 18),
        ("wrap", 0xA7, 0, 0),
    ]:
        assert counts[op] == (1 + sum(draws) + variables, 2 + clauses), name


def formulas_of_several():
    rows.comment("formulas: numbers, shared terms, choices, bytes, several conditions, what is to be least")
    rows.reset()
    x, y, z = rows.draw(32), rows.draw(64), rows.draw(32)
    five, three, sign = rows.const(32, 5), rows.const(32, 3), rows.const(64, 1 << 63)
    zero = rows.un(0x45, x)
    assert rows.formula([32], [zero], []) == (64, 95)
    assert rows.formula([32], [], [zero]) == (64, 126)
    rows.formula([32], [zero], [], x)
    rows.formula([32, 64, 32], [zero], [], z)
    square = rows.bin(0x6C, x, x)
    is_three = rows.bin(0x46, square, three)
    assert rows.formula([32], [is_three], []) == (2112, 8751)
    rows.formula([32], [], [is_three])
    s, u = rows.bin(0x6A, x, five), rows.bin(0x7E, y, sign)
    t, v = rows.bin(0x6B, three, s), rows.un(0xA7, u)
    one, two = rows.choose(32, y, s, t), rows.choose(64, zero, y, u)
    three_ways = rows.choose(32, one, x, three)
    rows.formula([32, 64], [one, s], [t])
    rows.formula([32, 64], [three_ways], [two], square)
    rows.formula([32, 64], [v], [])
    high = [rows.byte(y, i) for i in (7, 0, 3, 5)]
    past, low, of_square = rows.byte(x, 6), [rows.byte(x, i) for i in range(3)], rows.byte(square, 2)
    joined, longer = rows.join(32, high), rows.join(64, [low[0], low[2]])
    choice = rows.choose(64, past, y, longer)
    rows.formula([32, 64], [joined, of_square], [longer])
    rows.formula([32, 64], [past], [low[1]])
    rows.formula([32, 64], [choice], [], joined)
    rows.formula([32, 64, 32], [], [])
    rows.formula([32, 64, 32], [], [], z)
    shifted, turned = rows.bin(0x76, x, five), rows.bin(0x89, sign, y)
    quotient, rest = rows.bin(0x6D, five, x), rows.bin(0x82, y, sign)
    rows.formula([32, 64], [shifted, turned], [quotient, rest])
    rows.formula([32, 64], [shifted, shifted], [shifted], shifted)
    rows.comment("formulas: far down")
    count, last = 100000, len(rows.words) + 100000 - 1
    rows.say(f"again {count} 0xc0 {x}", f"term {256 + len(rows.numbers) + count - 1}")
    # the lowest 8 wires of the symbol, whose highest bit has variable 2, and above them the highest of these: no gate
    wires = [2 * (2 + 31 - i) for i in range(8)]
    rows.say(f"formula 32 : {last} : :", f"vars 33 clauses 2 print {fingerprint([[2], wires], [*range(2, 34), 1])}")
    rows.comment("formulas: words that are no terms, symbols of another width, what is to be least of another width")
    rows.say(f"formula 32 : {five} : :", "refused")
    rows.say("formula 32 : : 999999999 :", "refused")
    rows.say(f"formula 64 : {zero} : :", "refused")
    rows.say(f"formula 32 : {v} : :", "refused")
    rows.say(f"formula 32 64 : {v} : : {y}", "refused")


def values_far_down():
    rows.comment("values: a symbol added a million times to itself")
    rows.reset()
    rows.draw(64)
    rows.say("chain 1000000 0x7c 0", f"term {256 + 1000000}")
    rows.say("count", "terms 1000001")
    rows.say("value 1000000 : 3", "value 3000003")
    rows.say("value 1000000 :", "value 0")


# ---------------------------------------------------------------- questions


def first_questions():
    rows.comment("questions: the least above 10, none that is 0 besides, and the other side")
    rows.reset()
    x = rows.draw(32)
    ten, twenty = rows.const(32, 10), rows.const(32, 20)
    above, zero, rest = rows.bin(0x4B, x, ten), rows.un(0x45, x), rows.bin(0x6B, twenty, x)
    near = range(40)
    assert rows.ask(1000, [32], [above], [], [near]) == (11,)
    assert rows.refute([32], [above, zero], [])[:2] == (96, 288)
    assert rows.ask(1000, [32], [], [above], [near]) == (0,)
    assert rows.ask(1000, [32], [above], [zero], [near]) == (11,)
    rows.refute([32], [zero], [zero])
    rows.pick(1000, [32], [above], [], [near], rest)
    rows.pick(1000, [32], [above], [], [near], x)
    rows.pick(1000, [32], [], [above], [near], rest)
    rows.say(f"pick 1000 : 32 : {above} {zero} : : {rest}", "none")
    rows.say("ask 0 : 32 : 3 :", "refused")
    rows.comment("questions: a square that is 3, which one counted conflict refutes")
    three, square = rows.const(32, 3), rows.bin(0x6C, x, x)
    is_three = rows.bin(0x46, square, three)
    assert rows.refute([32], [is_three], []) == (2112, 8751, 1)
    rows.comment("questions: no condition, no symbol, symbols of both widths")
    rows.say("ask 1 : : :", "least")
    rows.say("ask 1 : 32 : :", "least 0")
    rows.say("ask 1 : 64 32 64 : :", "least 0 0 0")
    rows.reset()
    a, b, c = rows.draw(64), rows.draw(32), rows.draw(64)
    low, five, most = rows.un(0xA7, a), rows.const(32, 5), rows.const(64, MOST64)
    total = rows.bin(0x6A, low, b)
    is_five, is_most = rows.bin(0x46, total, five), rows.bin(0x51, c, most)
    after = rows.bin(0x56, a, rows.bin(0x7C, c, rows.const(64, 4)))
    draws, inputs = [64, 32, 64], [range(8), range(8), [0, 1, MOST64 - 1, MOST64]]
    assert rows.ask(1000, draws, [is_five], [], inputs) == (0, 5, 0)
    assert rows.ask(1000, draws, [is_five, is_most], [], inputs) == (0, 5, MOST64)
    assert rows.ask(1000, draws, [is_five, is_most, after], [], inputs) == (4, 1, MOST64)
    assert rows.ask(1000, draws, [is_most, after], [is_five], inputs) == (4, 0, MOST64)
    rows.pick(1000, draws, [is_five, is_most, after], [], inputs, b)


MOST64 = (1 << 64) - 1


def edges(bits):
    most = (1 << bits) - 1
    return [0, 1, most >> 1, (most >> 1) + 1, most]


def one_of(symbol, bits, numbers):
    """The term that says that a symbol is one of these numbers."""
    equals = [rows.bin(0x46 if bits == 32 else 0x51, symbol, rows.const(bits, n)) for n in numbers]
    term = equals[0]
    for other in equals[1:]:
        term = rows.bin(0x72, term, other)
    return term


def spread(values):
    """The least, the greatest, and up to two of the rest."""
    values = sorted(set(values))
    inner = values[1:-1]
    return list(dict.fromkeys([values[0], *inner[: 1], *inner[-1:], values[-1]]))


def operators_at_edges(bits):
    rows.comment(f"questions: each operator on {bits} bits at edges; the numbers to be tried are those that the symbols can be")
    rows.reset()
    x, y = rows.draw(bits), rows.draw(bits)
    ends = edges(bits)
    counts = [0, 1, bits - 1, bits, bits + 1, ends[-1]]
    divisors = [0, 1, 7, ends[3], ends[4]]
    is_end = one_of(x, bits, [*ends, 100])
    others = {"ends": (one_of(y, bits, ends), ends), "counts": (one_of(y, bits, counts), counts), "divisors": (one_of(y, bits, divisors), divisors)}
    draws, xs = [bits, bits], [*ends, 100]
    for op, (name, operand, result) in sorted(BINARY.items()):
        if operand != bits:
            continue
        kind = "counts" if name[:3] in ("shl", "shr", "rot") else "divisors" if name[:3] in ("div", "rem") else "ends"
        is_other, ys = others[kind]
        term = rows.bin(op, x, y)
        results = [binary(op, a, b) for a in xs for b in ys]
        for wanted in spread(results):
            same = rows.bin(0x46 if result == 32 else 0x51, term, rows.const(result, wanted))
            assert rows.ask(100000, draws, [is_end, is_other, same], [], [xs, ys])
        missing = next(n for n in range(2, 1 << 20) if n not in results)
        same = rows.bin(0x46 if result == 32 else 0x51, term, rows.const(result, missing))
        rows.ask(100000, draws, [is_end, is_other, same], [], [xs, ys])
        if result == 32:
            rows.pick(100000, draws, [is_end, is_other], [], [xs, ys], term)
    for op, (name, operand, result) in sorted(UNARY.items()):
        if operand != bits:
            continue
        term = rows.un(op, x)
        for wanted in spread([unary(op, a) for a in xs]):
            same = rows.bin(0x46 if result == 32 else 0x51, term, rows.const(result, wanted))
            rows.ask(100000, [bits], [is_end, same], [], [xs])
        if result == 32:
            rows.pick(100000, [bits], [is_end], [], [xs], term)


def main():
    operators_on_symbols()
    formulas_of_several()
    values_far_down()
    first_questions()
    operators_at_edges(32)
    operators_at_edges(64)
    for name, lines in [("../stdin", rows.lines), ("../stdout", rows.answers)]:
        with open(name, encoding="utf-8") as file:
            before = file.read().split(BEGINS)[0]
        with open(name, "w", encoding="utf-8") as file:
            file.write(before + "\n".join(lines) + "\n")


if __name__ == "__main__":
    main()
