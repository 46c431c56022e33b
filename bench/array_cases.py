"""Cases for the elementwise operators, by exact arithmetic on Python's whole numbers and fractions.

Writes the table CASES in crates/array_tests/src/array.rt, a case a line: the operator's place in Op2, the two numbers,
the number that the clamping mode answers, and 0, or 1 where the strict mode refuses it as Overflow, or 2 where
both modes refuse it as a negative power.

    python3 bench/array_cases.py > rows.txt
"""

from fractions import Fraction

LEAST = -(2**63)
GREATEST = 2**63 - 1

OPERATORS = "Add Sub Mul Div Pow Mod Rem Min Max Lt Le Gt Ge Eq Ne And Or Xor".split()

CORNERS = [
    (LEAST, LEAST), (LEAST, -1), (LEAST, 0), (LEAST, 1), (LEAST, GREATEST), (LEAST + 1, -1),
    (-1, LEAST), (-1, 0), (-1, 1), (0, LEAST), (0, 0), (0, GREATEST), (1, LEAST), (1, 0), (1, -1),
    (GREATEST - 1, 1), (GREATEST, 1), (GREATEST, -1), (GREATEST, GREATEST), (GREATEST, 0),
]
HALVES = [
    (1, 2), (-1, 2), (3, 2), (-3, 2), (5, 2), (5, -2), (-5, -2), (7, 3), (8, 3), (-7, 3), (1, 3), (2, 3), (2, 4),
    (GREATEST, 2), (LEAST, 2), (LEAST, -2), (LEAST, 3), (GREATEST, GREATEST - 1),
]
REMAINDERS = [(7, 3), (-7, 3), (7, -3), (-7, -3), (6, -3), (LEAST, 3), (LEAST, -3), (GREATEST, LEAST)]
POWERS = [
    (0, 0), (0, 1), (2, 62), (2, 63), (2, 64), (-2, 62), (-2, 63), (-2, 64), (-2, 65), (3, 39), (3, 40), (-3, 39),
    (-3, 40), (1, GREATEST), (-1, GREATEST), (-1, GREATEST - 1), (0, GREATEST), (2, GREATEST), (-2, GREATEST),
    (GREATEST, 1), (GREATEST, 2), (LEAST, 1), (LEAST, 2), (LEAST, 3), (LEAST, 0), (2, -1), (1, -1), (0, LEAST),
    (10, 18), (10, 19), (-10, 19), (3037000499, 2), (3037000500, 2), (2097151, 3), (2097152, 3), (-2097152, 3),
]
ORDERS = [(LEAST, GREATEST), (GREATEST, LEAST), (0, 0), (0, -1), (5, 5)]


def rounded(x, y):
    """x / y to the nearest whole number, a tie away from zero."""
    size = abs(Fraction(x, y))
    whole = int(size)
    whole += 1 if size - whole >= Fraction(1, 2) else 0
    return whole if (x < 0) == (y < 0) else -whole


def power(x, n):
    """x ** n, where a number past all limits stands for a larger one of its sign."""
    if abs(x) >= 2 and n > 200:
        n = 200 + n % 2
    return x**n


def exact(op, x, y):
    if op == "Add":
        return x + y
    if op == "Sub":
        return x - y
    if op == "Mul":
        return x * y
    if op == "Div":
        if y == 0:
            return GREATEST if x > 0 else LEAST if x < 0 else 0
        return rounded(x, y)
    if op == "Pow":
        return power(x, y)
    if op == "Mod":
        return x if y == 0 else x % y
    if op == "Rem":
        return 0 if y == 0 else x - y * (abs(x) // abs(y)) * (1 if (x < 0) == (y < 0) else -1)
    truths = {
        "Lt": x < y, "Le": x <= y, "Gt": x > y, "Ge": x >= y, "Eq": x == y, "Ne": x != y,
        "And": x != 0 and y != 0, "Or": x != 0 or y != 0, "Xor": (x != 0) != (y != 0),
    }
    if op in truths:
        return int(truths[op])
    return min(x, y) if op == "Min" else max(x, y)


def row(op, x, y):
    number, answer = 0, 2
    if op != "Pow" or y >= 0:
        z = exact(op, x, y)
        number = max(LEAST, min(GREATEST, z))
        answer = int(number != z or (op == "Div" and y == 0))
    return f"{OPERATORS.index(op)}, {x}, {y}, {number}, {answer},"


def main():
    rows = [row(op, x, y) for op in ("Add", "Sub", "Mul", "Div", "Mod", "Rem") for x, y in CORNERS]
    rows += [row("Div", x, y) for x, y in HALVES]
    rows += [row(op, x, y) for op in ("Mod", "Rem") for x, y in REMAINDERS]
    rows += [row("Pow", x, y) for x, y in POWERS]
    rows += [row(op, x, y) for op in ("Min", "Max") for x, y in ORDERS]
    rows += [row(op, x, y) for op in ("Lt", "Le", "Gt", "Ge", "Eq", "Ne", "And", "Or", "Xor") for x, y in ORDERS]
    print("\n".join(rows))


if __name__ == "__main__":
    main()
