#!/usr/bin/env python3
"""validate.py PROGRAM [TIMES]

Makes large modules, validates each by PROGRAM and by wabt's `wasm-validate`, in turn, TIMES times (3 if left out), and prints
the least processor time of each in seconds, of user and system together, and the most memory in MB. A time of `wasm-validate`
above a minute is cut off.
"""

import os
import random
import subprocess
import sys
import tempfile

I32, I64 = 0x7F, 0x7E

# The seconds after which a command is cut off.
CUT = 60.0


def number(n):
    """An unsigned LEB128."""
    out = bytearray()
    while True:
        out.append(n & 0x7F | (0x80 if n > 0x7F else 0))
        n >>= 7
        if not n:
            return bytes(out)


def signed(n):
    """A signed LEB128 of a number that isn't negative, as block types are written."""
    out = bytearray()
    while n > 0x3F:
        out.append(n & 0x7F | 0x80)
        n >>= 7
    out.append(n)
    return bytes(out)


def vector(items):
    return number(len(items)) + b"".join(items)


def sized(content):
    return number(len(content)) + content


def function_type(params, results):
    return b"\x60" + vector([bytes([t]) for t in params]) + vector([bytes([t]) for t in results])


def sections(*parts):
    """A module of these sections, each its number and its content."""
    return b"\0asm\x01\0\0\0" + b"".join(bytes([at]) + sized(content) for at, content in parts)


def module(types, functions, bodies, memory=True):
    """A module of these types, functions by the numbers of their types, and bodies with their locals."""
    memories = [(5, vector([b"\x00\x01"]))] if memory else []
    return sections((1, vector(types)), (3, vector([number(t) for t in functions])), *memories, (10, vector([sized(body) for body in bodies])))


def straight(rng, count):
    """Code as compilers write it: locals, constants, operators, loads, stores, blocks, branches, calls. It leaves no operand."""
    out = bytearray()
    for _ in range(count):
        local = number(rng.randrange(6))
        kind = rng.randrange(8)
        if kind < 3:
            out += b"\x20" + local + b"\x41" + number(rng.randrange(64)) + bytes([rng.choice([0x6A, 0x6B, 0x71, 0x73])]) + b"\x21" + local
        elif kind == 3:
            out += b"\x20" + local + b"\x28\x02" + number(rng.randrange(1000)) + b"\x21" + local
        elif kind == 4:
            out += b"\x20" + local + b"\x20\x00\x36\x02" + number(rng.randrange(1000))
        elif kind == 5:
            out += b"\x02\x40\x20" + local + b"\x0d\x00\x20" + local + b"\x21\x01\x0b"
        elif kind == 6:
            out += b"\x03\x40\x20" + local + b"\x41\x01\x6b\x22" + local + b"\x0d\x00\x0b"
        else:
            out += b"\x20" + local + b"\x20\x01\x10" + number(rng.randrange(1000)) + b"\x21" + local
    return bytes(out)


def code(size):
    """Functions of real code shape, of about so many bytes together."""
    rng = random.Random(1)
    types = [function_type([I32, I32], [I32])]
    bodies, total = [], 0
    while total < size or len(bodies) < 1000:
        body = vector([b"\x04\x7f"]) + straight(rng, rng.randrange(20, 200)) + b"\x20\x00\x0b"
        bodies.append(body)
        total += len(body)
    return module(types, [0] * len(bodies), bodies)


def one(types, body, own=0):
    return module(types, [own], [vector([]) + body + b"\x0b"], memory=False)


def pushes(n):
    return b"\x41\x00" * n


NOTHING = function_type([], [])


def nested(depth):
    return one([NOTHING], b"\x02\x40" * depth + b"\x0b" * depth)


def labels(count, width):
    """A `br_table` of so many labels that carry so many values each."""
    types = [NOTHING, function_type([], [I32] * width)]
    table = b"\x0e" + vector([number(k % 2) for k in range(count)]) + number(0)
    return one(types, b"\x02\x01\x02\x01" + pushes(width) + b"\x41\x00" + table + b"\x0b\x0b" + b"\x1a" * width)


def blocks(count, width):
    """Blocks one after another that take and give so many values."""
    types = [NOTHING, function_type([I32] * width, [I32] * width)]
    return one(types, pushes(width) + b"\x02\x01\x0b" * count + b"\x1a" * width)


def overlaps(count, pattern):
    """Blocks one after another, of 1,000 types whose lists begin alike and end in one another."""
    lists = [(pattern * 2_000)[: 2 * n] for n in range(500, 1_500)]
    rng = random.Random(1)
    types = [NOTHING] + [function_type(types, types) for types in lists]
    values = b"".join(b"\x41\x00" if t == I32 else b"\x42\x00" for t in lists[-1])
    body = b"".join(b"\x02" + signed(rng.randrange(1_000) + 1) + b"\x0b" for _ in range(count))
    return one(types, values + body + b"\x1a" * len(lists[-1]))


def unreached(n, lowest=b""):
    """`br_table`s in code that isn't reached: n / 2 of them, each of n labels of different lists, above n known operands.
    What the code begins with may leave another one, whose type isn't known, below them."""
    lists = [[I64 if k >> bit & 1 else I32 for bit in range(12)] + [I32] * n for k in range(n)]
    types = [NOTHING] + [function_type([], results) for results in lists]
    opens = b"".join(b"\x02" + signed(k + 1) for k in range(n))
    table = b"\x0e" + vector([number(k) for k in range(n)]) + number(0)
    return one(types, opens + (b"\x00" + lowest + pushes(n) + b"\x41\x00" + table) * (n // 2) + b"\x0b\x00" * n)


def lists(count, width):
    """So many function types that take so many values of random types, and no function."""
    rng = random.Random(1)
    types = [function_type([rng.choice([I32, I64, 0x70, 0x6F]) for _ in range(width)], []) for _ in range(count)]
    return module(types, [], [], memory=False)


def carried(count, width, branches):
    """Blocks inside one another, each with so many results of random types, and so many branches to each."""
    rng = random.Random(1)
    types = [NOTHING] + [function_type([], [rng.choice([I32, I64, 0x70, 0x6F]) for _ in range(width)]) for _ in range(count)]
    opens = b"".join(b"\x02" + signed(k + 1) for k in range(count))
    branching = b"".join((b"\x0c" + number(k)) * branches for k in range(count))
    return one(types, opens + b"\x00" + branching + b"\x0b\x00" * count)


# What follows makes modules of about 16 MB that have hardly more than one kind of part, or of instruction.
SIZE = 16_000_000


def many(at, entry, *before):
    """A section of the same entry again and again, behind these."""
    count = SIZE // len(entry)
    return sections(*before, (at, number(count) + entry * count))


FUNCTION = [(1, vector([NOTHING])), (3, b"\x01\x00")]
BODY = (10, vector([sized(b"\x00\x0b")]))
IMPORTED = (2, vector([b"\x01m\x01g\x03\x7f\x00"]))


def functions():
    count = SIZE // 4
    return sections((1, vector([NOTHING])), (3, number(count) + bytes(count)), (10, number(count) + b"\x02\x00\x0b" * count))


def exports():
    letters = "abcdefghijklmnopqrstuvwxyzABCDEFGHIJKLMNOPQRSTUVWXYZ"
    names = ((a + b + c + d).encode() for a in letters for b in letters for c in letters for d in letters)
    count = SIZE // 7
    return sections(*FUNCTION, (7, number(count) + b"".join(b"\x04" + next(names) + b"\x00\x00" for _ in range(count))), BODY)


def elements(kind, entry):
    """One element segment."""
    count = SIZE // len(entry)
    return sections(*FUNCTION, (9, b"\x01" + kind + number(count) + entry * count), BODY)


def data():
    return sections((5, b"\x01\x00\x01"), (11, b"\x01\x01" + sized(bytes(SIZE))))


def groups():
    """Functions of a thousand groups of locals."""
    body = sized(number(1_000) + b"\x01\x7f\x01\x7e" * 500 + b"\x0b")
    count = SIZE // len(body)
    return sections((1, vector([NOTHING])), (3, number(count) + bytes(count)), (10, number(count) + body * count))


def repeated(code, begin=b"", end=b""):
    """One function of the same code again and again. There are two functions, a table, a memory, two globals, an element
    segment, a data segment, and the locals 0 of i32, 1 of i64 and 2 of funcref."""
    types = [NOTHING, function_type([I32, I64], [I64])]
    body = b"\x03\x01\x7f\x01\x7e\x01\x70" + begin + code * (SIZE // len(code)) + end + b"\x0b"
    return sections(
        (1, vector(types)),
        (3, b"\x02\x00\x01"),
        (4, b"\x01\x70\x00\x01"),
        (5, b"\x01\x00\x01"),
        (6, b"\x02\x7f\x01\x41\x00\x0b\x7e\x01\x42\x00\x0b"),
        (9, b"\x01\x03\x00\x01\x00"),
        (12, b"\x01"),
        (10, vector([sized(body), sized(b"\x00\x20\x01\x0b")])),
        (11, b"\x01\x01\x00"),
    )


MODULES = [
    ("16 MB of code", lambda: code(16_000_000)),
    ("100,000 nested blocks", lambda: nested(100_000)),
    ("a million labels", lambda: labels(1_000_000, 1)),
    ("a million labels of 1,000 values", lambda: labels(1_000_000, 1_000)),
    ("200,000 blocks of 1,000 values", lambda: blocks(200_000, 1_000)),
    ("100,000 blocks of lists of one type", lambda: overlaps(100_000, [I32, I32])),
    ("100,000 blocks of lists of two types", lambda: overlaps(100_000, [I32, I64])),
    ("250 br_tables that aren't reached", lambda: unreached(500)),
    ("500 br_tables that aren't reached", lambda: unreached(1_000)),
    ("1,000 br_tables that aren't reached", lambda: unreached(2_000)),
    ("1,000 br_tables above a select", lambda: unreached(2_000, b"\x1b")),
    ("4,000 lists of 4,000 random types", lambda: lists(4_000, 4_000)),
    ("16,000 lists of 1,000 random types", lambda: lists(16_000, 1_000)),
    ("150,000 lists of 100 random types", lambda: lists(150_000, 100)),
    ("3,800 lists of 4,000, a branch for each", lambda: carried(3_800, 4_000, 1)),
    ("3,800 lists of 4,000, 100 branches for each", lambda: carried(3_800, 4_000, 100)),
    ("24,000 lists of 300, 100 branches for each", lambda: carried(24_000, 300, 100)),
    ("types", lambda: many(1, b"\x60\x01\x7f\x00")),
    ("imports", lambda: many(2, b"\x01a\x01b\x00\x00", (1, vector([NOTHING])))),
    ("functions", functions),
    ("tables", lambda: many(4, b"\x70\x00\x00")),
    ("globals", lambda: many(6, b"\x7f\x00\x41\x00\x0b")),
    ("globals that begin as an import", lambda: many(6, b"\x7f\x00\x23\x00\x0b", IMPORTED)),
    ("exports", exports),
    ("element segments", lambda: many(9, b"\x01\x00\x00")),
    ("one segment of functions", lambda: elements(b"\x01\x00", b"\x00")),
    ("one segment of expressions", lambda: elements(b"\x05\x70", b"\xd2\x00\x0b")),
    ("data segments", lambda: many(11, b"\x01\x00")),
    ("active data segments", lambda: many(11, b"\x00\x41\x00\x0b\x00", (5, b"\x01\x00\x01"))),
    ("one data segment", data),
    ("custom sections", lambda: sections() + b"\0\x02\x01a" * (SIZE // 4)),
    ("one custom section", lambda: sections((0, b"\x01a" + bytes(SIZE)))),
    ("custom sections with names of 100 bytes", lambda: sections() + (b"\0" + sized(sized("é".encode() * 50))) * (SIZE // 103)),
    ("one custom section that is a name", lambda: sections((0, sized("é".encode() * (SIZE // 2))))),
    ("groups of locals", groups),
    ("nop", lambda: repeated(b"\x01")),
    ("unreachable", lambda: repeated(b"\x00")),
    ("constants and drop", lambda: repeated(b"\x41\x00\x1a")),
    ("local.get, local.set", lambda: repeated(b"\x20\x00\x21\x00")),
    ("local.get, again and again, then return", lambda: repeated(b"\x20\x01", end=b"\x0f")),
    ("local.tee", lambda: repeated(b"\x22\x00", b"\x41\x00", b"\x1a")),
    ("i32.eqz", lambda: repeated(b"\x45", b"\x41\x00", b"\x1a")),
    ("i64.add", lambda: repeated(b"\x42\x00\x7c", b"\x42\x00", b"\x1a")),
    ("loads", lambda: repeated(b"\x28\x02\x00", b"\x41\x00", b"\x1a")),
    ("stores", lambda: repeated(b"\x20\x00\x20\x01\x37\x03\x00")),
    ("select", lambda: repeated(b"\x41\x00\x41\x00\x1b", b"\x41\x00", b"\x1a")),
    ("empty blocks", lambda: repeated(b"\x02\x40\x0b")),
    ("if and else", lambda: repeated(b"\x04\x7f\x20\x00\x05\x20\x00\x0b", b"\x41\x00", b"\x1a")),
    ("br_if", lambda: repeated(b"\x20\x00\x0d\x00")),
    ("br_table, of one label each", lambda: repeated(b"\x0e\x01\x00\x00", b"\x00")),
    ("call", lambda: repeated(b"\x10\x00")),
    ("call_indirect", lambda: repeated(b"\x20\x00\x20\x01\x20\x00\x11\x01\x00\x21\x01")),
    ("global.get, global.set", lambda: repeated(b"\x23\x01\x24\x01")),
    ("ref.func, ref.is_null", lambda: repeated(b"\xd2\x00\xd1\x1a")),
    ("table.get, table.set", lambda: repeated(b"\x20\x00\x20\x00\x25\x00\x26\x00")),
    ("memory.fill", lambda: repeated(b"\x20\x00\x20\x00\x20\x00\xfc\x0b\x00")),
    ("memory.init, data.drop", lambda: repeated(b"\x20\x00\x20\x00\x20\x00\xfc\x08\x00\x00\xfc\x09\x00")),
]


def timed(words, source):
    """The processor time and the memory of a command, and whether it ended well."""
    with open(source, "rb") as file:
        try:
            done = subprocess.run(["/usr/bin/time", "-f", "%U %S %M", *words], stdin=file, stdout=subprocess.DEVNULL, stderr=subprocess.PIPE, timeout=CUT)
        except subprocess.TimeoutExpired:
            return CUT, 0.0, True
        user, system, memory = done.stderr.split()[-3:]
        return float(user) + float(system), int(memory) * 1024 / 1e6, done.returncode == 0


def main():
    if len(sys.argv) < 2:
        sys.exit("usage: validate.py PROGRAM [TIMES]")
    program = os.path.abspath(sys.argv[1])
    times = int(sys.argv[2]) if len(sys.argv) > 2 else 3
    with tempfile.TemporaryDirectory() as folder:
        source = os.path.join(folder, "module.wasm")
        for name, make in MODULES:
            with open(source, "wb") as file:
                file.write(make())
            ours, theirs = [], []
            for _ in range(times):
                ours.append(timed([program, "validate"], source))
                if not theirs or theirs[0][0] < CUT:
                    theirs.append(timed(["wasm-validate", source], source))
            if not all(well for _, _, well in ours + theirs):
                sys.exit("%s: refused" % name)
            print(
                "%-44s %5.1f MB: owi %.2f s, %d MB; wasm-validate %.2f s, %d MB"
                % (name, os.path.getsize(source) / 1e6, min(ours)[0], min(ours)[1], min(theirs)[0], min(theirs)[1]),
                flush=True,
            )


if __name__ == "__main__":
    main()
