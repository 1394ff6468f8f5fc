"""The value of a term at an input, which is a list of numbers: 0 past its end, and modulo 2^32 for a symbol of 32 bits."""

from operators import binary, unary


def value(term, numbers):
    """The value of a term at an input."""
    kind = term[0]
    if kind == "num":
        return term[1]
    if kind == "sym":
        number = numbers[term[1]] if term[1] < len(numbers) else 0
        return number if term[2] else number % (1 << 32)
    if kind == "un":
        return unary(term[1], value(term[2], numbers))
    if kind == "bin":
        return binary(term[1], value(term[2], numbers), value(term[3], numbers))
    if kind == "choose":
        return value(term[3] if value(term[2], numbers) else term[4], numbers)
    if kind == "byte":
        return value(term[1], numbers) >> 8 * term[2] & 255
    return sum(value(byte, numbers) << 8 * place for place, byte in enumerate(term[2]))
