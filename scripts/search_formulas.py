"""Formulas in DIMACS form for the scripts that try the search: random clauses of three literals around the
threshold, parity chains, miters of small multipliers, and pigeons. The same numbers give the same formulas."""

import random


class Formula:
    """A number of variables and a list of clauses of signed numbers."""

    def __init__(self):
        self.variables = 0
        self.clauses = []

    def fresh(self):
        self.variables += 1
        return self.variables

    def add(self, *literals):
        self.clauses.append(literals)

    def text(self):
        head = f"p cnf {self.variables} {len(self.clauses)}\n"
        return head + "".join(" ".join(map(str, c)) + " 0\n" for c in self.clauses)

    def both(self, a, b):
        out = self.fresh()
        self.add(-out, a)
        self.add(-out, b)
        self.add(out, -a, -b)
        return out

    def differ(self, a, b):
        out = self.fresh()
        self.add(-out, a, b)
        self.add(-out, -a, -b)
        self.add(out, -a, b)
        self.add(out, a, -b)
        return out

    def either(self, a, b):
        return -self.both(-a, -b)


def random_three(variables, clauses, seed):
    """Random clauses of three different variables."""
    draw = random.Random(seed)
    formula = Formula()
    for _ in range(variables):
        formula.fresh()
    for _ in range(clauses):
        chosen = draw.sample(range(1, variables + 1), 3)
        formula.add(*(v if draw.random() < 0.5 else -v for v in chosen))
    return formula


def parity_chain(length, seed, equal):
    """The parity of the same variables in two orders, said to differ, or, with one turned, to be equal."""
    draw = random.Random(seed)
    formula = Formula()
    inputs = [formula.fresh() for _ in range(length)]
    other = inputs[:]
    draw.shuffle(other)

    def parity(words):
        total = words[0]
        for word in words[1:]:
            total = formula.differ(total, word)
        return total

    differ = formula.differ(parity(inputs), parity(other))
    formula.add(-differ if equal else differ)
    return formula


def product(formula, xs, ys):
    """The bits of a product, by rows of full adders."""
    width = len(xs) + len(ys)
    zero = formula.fresh()
    formula.add(-zero)
    total = [zero] * width
    for shift, y in enumerate(ys):
        carry = zero
        for place in range(width):
            bit = formula.both(xs[place - shift], y) if shift <= place < shift + len(xs) else zero
            half = formula.differ(total[place], bit)
            carried = formula.either(formula.both(total[place], bit), formula.both(half, carry))
            total[place] = formula.differ(half, carry)
            carry = carried
    return total


def multiplier_miter(width, wrong):
    """x * y and y * x, said to differ in some bit, or, where one product is made wrongly, likewise."""
    formula = Formula()
    xs = [formula.fresh() for _ in range(width)]
    ys = [formula.fresh() for _ in range(width)]
    first = product(formula, xs, ys)
    second = product(formula, ys, xs)
    if wrong:
        second[width] = -second[width]
    formula.add(*(formula.differ(a, b) for a, b in zip(first, second)))
    return formula


def pigeons(count):
    """Pigeons in a hole less."""
    formula = Formula()
    place = [[formula.fresh() for _ in range(count - 1)] for _ in range(count)]
    for i in range(count):
        formula.add(*place[i])
        for j in range(i):
            for hole in range(count - 1):
                formula.add(-place[i][hole], -place[j][hole])
    return formula


def small_set():
    """Many small formulas, whose answers are compared."""
    for variables in (5, 8, 12, 20, 40, 60):
        for seed in range(12):
            for ratio in (3.0, 4.26, 5.5):
                name = f"random {variables} x {ratio} ({seed})"
                yield name, random_three(variables, int(variables * ratio), seed)
    for length in (2, 3, 5, 8, 12):
        for seed in range(3):
            for equal in (False, True):
                yield f"parity {length} {equal} ({seed})", parity_chain(length, seed, equal)
    for width in (1, 2, 3):
        for wrong in (False, True):
            yield f"multiplier {width} {wrong}", multiplier_miter(width, wrong)
    for count in range(2, 7):
        yield f"pigeons {count}", pigeons(count)


def large_set():
    """Formulas whose times are taken."""
    for variables in (100, 150, 200):
        yield f"random {variables}", random_three(variables, int(variables * 4.26), variables)
    for length in (12, 16, 20):
        yield f"parity {length}", parity_chain(length, length, False)
    for width in (4, 5, 6):
        yield f"multiplier {width}", multiplier_miter(width, False)
    for count in (7, 8, 9):
        yield f"pigeons {count}", pigeons(count)
