"""How terms are made: the making rules, tried in their order.

A term is ("num", n), ("sym", k, wide), ("un", opcode, a), ("bin", opcode, a, b), ("choose", wide, c, a, b), ("byte", a, i) or
("join", wide, bytes).
"""

from operators import BINARY, UNARY, binary, unary

I32_EQZ, I32_NE = 0x45, 0x47


def width(term):
    """The width of a term that is no number."""
    kind = term[0]
    if kind == "un":
        return UNARY[term[1]][2]
    if kind == "bin":
        return BINARY[term[1]][2]
    return 8 if kind == "byte" else 64 if term[2 if kind == "sym" else 1] else 32


def is_comparison(term):
    return term[0] in ("un", "bin") and 0x45 <= term[1] <= 0x5A


def of_numbers(term):
    kind = term[0]
    if kind == "un" and term[2][0] == "num":
        return ("num", unary(term[1], term[2][1]))
    if kind == "bin" and term[2][0] == term[3][0] == "num":
        return ("num", binary(term[1], term[2][1], term[3][1]))
    if kind == "choose" and term[2][0] == term[3][0] == term[4][0] == "num":
        return term[3] if term[2][1] else term[4]
    if kind == "byte" and term[1][0] == "num":
        return ("num", term[1][1] >> 8 * term[2] & 255)
    if kind == "join" and all(byte[0] == "num" for byte in term[2]):
        return ("num", sum(byte[1] << 8 * place for place, byte in enumerate(term[2])))


def of_choice(term):
    if term[0] == "choose":
        if term[2][0] == "num":
            return term[3] if term[2][1] else term[4]
        if term[3] == term[4]:
            return term[3]


def byte_of_join(term):
    if term[0] == "byte" and term[1][0] == "join":
        bytes_ = term[1][2]
        return bytes_[term[2]] if term[2] < len(bytes_) else ("num", 0)


def join_of_bytes(term):
    if term[0] == "join" and term[2][0][0] == "byte":
        whole, bits = term[2][0][1], 64 if term[1] else 32
        if whole[0] != "num" and width(whole) == bits and term[2] == tuple(("byte", whole, i) for i in range(bits // 8)):
            return whole


def on_two(term):
    """The name of the operation, all ones of its width, both sides, and which numbers they are."""
    name, bits, _ = BINARY[term[1]]
    numbers = [side[1] if side[0] == "num" else None for side in term[2:4]]
    return name, (1 << bits) - 1, term[2], term[3], numbers[0], numbers[1]


def zero_changes_nothing(term):
    if term[0] == "bin":
        name, _, a, b, left, right = on_two(term)
        if name in ("add", "or", "xor") and left == 0:
            return b
        if name in ("add", "or", "xor", "sub", "shl", "shr_s", "shr_u", "rotl", "rotr") and right == 0:
            return a


def one_changes_nothing(term):
    if term[0] == "bin":
        name, ones, a, b, left, right = on_two(term)
        if (name, left) in (("mul", 1), ("and", ones)):
            return b
        if (name, right) in (("mul", 1), ("and", ones), ("div_s", 1), ("div_u", 1)):
            return a


def nothing_is_left(term):
    if term[0] == "bin":
        name, _, _, _, left, right = on_two(term)
        if name in ("mul", "and") and 0 in (left, right) or name in ("rem_s", "rem_u") and right == 1:
            return ("num", 0)


def of_comparison(term):
    if term[0] == "un" and term[1] == I32_EQZ and term[2][:2] == ("un", I32_EQZ) and is_comparison(term[2][2]):
        return term[2][2]
    if term[0] == "bin" and term[1] == I32_NE and is_comparison(term[2]) and term[3] == ("num", 0):
        return term[2]


def of_one_twice(term):
    if term[0] == "bin" and term[2] == term[3]:
        name = BINARY[term[1]][0]
        if name in ("and", "or"):
            return term[2]
        if name in ("xor", "sub", "ne", "lt_s", "lt_u", "gt_s", "gt_u"):
            return ("num", 0)
        if name in ("eq", "le_s", "le_u", "ge_s", "ge_u"):
            return ("num", 1)


RULES = [
    of_numbers,
    of_choice,
    byte_of_join,
    join_of_bytes,
    zero_changes_nothing,
    one_changes_nothing,
    nothing_is_left,
    of_comparison,
    of_one_twice,
]


def made(term, rules=None):
    """What is made of a plain term."""
    for rule in RULES if rules is None else rules:
        result = rule(term)
        if result is not None:
            return result
    return term
