"""The integer operators by their opcodes, on plain numbers (WebAssembly, Execution, Numerics).

Division is total: the unsigned quotient by 0 is all ones and the remainder the dividend, which for signed integers gives
-1 or 1 by the dividend's sign, and the dividend; the least integer by -1 is the least, with remainder 0.
"""

COMPARISONS = ["eq", "ne", "lt_s", "lt_u", "gt_s", "gt_u", "le_s", "le_u", "ge_s", "ge_u"]
ARITHMETIC = ["add", "sub", "mul", "div_s", "div_u", "rem_s", "rem_u", "and", "or", "xor", "shl", "shr_s", "shr_u", "rotl", "rotr"]

# opcode: name, bits of the operands, bits of the result
UNARY = {
    0x45: ("eqz", 32, 32), 0x50: ("eqz", 64, 32),
    0x67: ("clz", 32, 32), 0x68: ("ctz", 32, 32), 0x69: ("popcnt", 32, 32),
    0x79: ("clz", 64, 64), 0x7A: ("ctz", 64, 64), 0x7B: ("popcnt", 64, 64),
    0xA7: ("wrap", 64, 32), 0xAC: ("extend32", 32, 64), 0xAD: ("extend_u", 32, 64),
    0xC0: ("extend8", 32, 32), 0xC1: ("extend16", 32, 32),
    0xC2: ("extend8", 64, 64), 0xC3: ("extend16", 64, 64), 0xC4: ("extend32", 64, 64),
}
BINARY = {}
for place, name in enumerate(COMPARISONS):
    BINARY[0x46 + place] = (name, 32, 32)
    BINARY[0x51 + place] = (name, 64, 32)
for place, name in enumerate(ARITHMETIC):
    BINARY[0x6A + place] = (name, 32, 32)
    BINARY[0x7C + place] = (name, 64, 64)


def signed(bits, x):
    """The signed integer that a number below 2^bits is."""
    return x - (1 << bits) if x >> (bits - 1) else x


def unary(op, x):
    name, bits, result = UNARY[op]
    if name == "eqz":
        return int(x == 0)
    if name == "clz":
        return bits - x.bit_length()
    if name == "ctz":
        return bits if x == 0 else (x & -x).bit_length() - 1
    if name == "popcnt":
        return bin(x).count("1")
    if name in ("wrap", "extend_u"):
        return x % (1 << result)
    low = int(name[len("extend"):])
    return signed(low, x % (1 << low)) % (1 << result)


def compared(name, bits, x, y):
    if name.endswith("_s"):
        x, y = signed(bits, x), signed(bits, y)
    return int({"eq": x == y, "ne": x != y, "lt": x < y, "gt": x > y, "le": x <= y, "ge": x >= y}[name[:2]])


def divided(name, bits, x, y):
    """Quotient or remainder, rounded towards 0."""
    most = (1 << bits) - 1
    if name.endswith("_u"):
        quotient, remainder = (most, x) if y == 0 else divmod(x, y)
    elif y == 0:
        quotient, remainder = (-1 if signed(bits, x) >= 0 else 1), x
    else:
        a, b = signed(bits, x), signed(bits, y)
        quotient = abs(a) // abs(b) * (1 if (a < 0) == (b < 0) else -1)
        remainder = a - b * quotient
    return (quotient if name.startswith("div") else remainder) & most


def binary(op, x, y):
    name, bits, _ = BINARY[op]
    if name in COMPARISONS:
        return compared(name, bits, x, y)
    if name[:3] in ("div", "rem"):
        return divided(name, bits, x, y)
    most, k = (1 << bits) - 1, y % bits
    if name == "shr_s":
        return (signed(bits, x) >> k) & most
    return {
        "add": x + y, "sub": x - y, "mul": x * y, "and": x & y, "or": x | y, "xor": x ^ y, "shl": x << k, "shr_u": x >> k,
        "rotl": x << k | x >> (bits - k), "rotr": x >> k | x << (bits - k),
    }[name] & most
