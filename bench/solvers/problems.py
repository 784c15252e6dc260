#!/usr/bin/env python3
"""Writes problems whose answer is `unsat` into a folder: `problems.py FOLDER [SCALE]`.

Each family is a function that yields pairs of a name and a text. What is random has a fixed seed, so
that the same call writes the same files. SCALE is 1 (some sixty problems) up to 4 (hundreds)."""
import itertools
import os
import random
import sys


def script(logic, declarations, assertions):
    lines = ["(set-logic %s)" % logic] + declarations
    lines += ["(assert %s)" % formula for formula in assertions]
    return "\n".join(lines + ["(check-sat)", "(exit)", ""])


def booleans(names):
    return ["(declare-const %s Bool)" % name for name in names]


def pigeonholes(scale):
    """N + 1 pigeons do not fit into N holes."""
    for holes in range(2, 4 + scale):
        at = lambda pigeon, hole: "p%d_%d" % (pigeon, hole)
        pigeons = range(holes + 1)
        names = [at(p, h) for p in pigeons for h in range(holes)]
        formulas = ["(or %s)" % " ".join(at(p, h) for h in range(holes)) for p in pigeons]
        for h in range(holes):
            for p, q in itertools.combinations(pigeons, 2):
                formulas.append("(or (not %s) (not %s))" % (at(p, h), at(q, h)))
        yield "pigeonhole%d" % holes, script("QF_UF", booleans(names), formulas)
        formulas = ["(or %s)" % " ".join(at(p, h) for h in range(holes)) for p in pigeons]
        for h in range(holes):
            for p, q in itertools.combinations(pigeons, 2):
                formulas.append("(not (and %s %s))" % (at(p, h), at(q, h)))
        yield "pigeonhole_and%d" % holes, script("QF_UF", booleans(names), formulas)


def parity(scale):
    """A sum modulo two, added up from the left and from the right, is not odd."""
    for size in range(3, 6 + 3 * scale):
        names = ["x%d" % i for i in range(size)]
        left = names[0]
        for name in names[1:]:
            left = "(xor %s %s)" % (left, name)
        right = names[-1]
        for name in names[-2::-1]:
            right = "(xor %s %s)" % (name, right)
        yield "parity%d" % size, script("QF_UF", booleans(names), ["(xor %s %s)" % (left, right)])
        equal = names[-1]
        for name in names[-2::-1]:
            equal = "(= %s %s)" % (name, equal)
        other = right if size % 2 else "(not %s)" % right
        yield "parity_equal%d" % size, script(
            "QF_UF", booleans(names), ["(not (= %s %s))" % (equal, other)])


def adders(scale):
    """Two numbers of bits, added in either order, have the same sum."""
    def add(xs, ys, carry, bits):
        definitions = []
        out = carry + "s"
        last = "false"
        for i, (x, y) in enumerate(zip(xs, ys)):
            total, over = "%s%d" % (out, i), "%s%d" % (carry, i)
            definitions.append("(= %s (xor (xor %s %s) %s))" % (total, x, y, last))
            definitions.append("(= %s (or (and %s %s) (and %s (or %s %s))))" % (over, x, y, last, x, y))
            bits += [total, over]
            last = over
        return definitions, [out + str(i) for i in range(len(xs))]

    def add_ite(xs, ys, carry, bits):
        definitions = []
        out = carry + "s"
        last = "false"
        for i, (x, y) in enumerate(zip(xs, ys)):
            total, over = "%s%d" % (out, i), "%s%d" % (carry, i)
            definitions.append("(= %s (ite %s (= %s %s) (xor %s %s)))" % (total, last, x, y, x, y))
            definitions.append("(= %s (ite (= %s %s) %s %s))" % (over, x, y, x, last))
            bits += [total, over]
            last = over
        return definitions, [out + str(i) for i in range(len(xs))]

    for size in range(2, 4 + 2 * scale):
        xs = ["x%d" % i for i in range(size)]
        ys = ["y%d" % i for i in range(size)]
        for kind, other in (("plain", add), ("ite", add_ite)):
            bits = []
            first, one = add(xs, ys, "c", bits)
            second, two = other(ys, xs, "d", bits)
            differ = "(or %s)" % " ".join("(not (= %s %s))" % pair for pair in zip(one, two))
            yield "adder_%s%d" % (kind, size), script(
                "QF_UF", booleans(xs + ys + bits), first + second + [differ])


def equalities(scale):
    """Chains and diamonds of equal values of one sort, and functions of them."""
    sort = ["(declare-sort U 0)", "(declare-fun f (U) U)", "(declare-fun g (U U) U)"]
    constants = lambda names: ["(declare-const %s U)" % name for name in names]
    for size in [3, 5, 8, 12, 20, 40, 80][: 3 + scale]:
        names = ["a%d" % i for i in range(size)]
        links = ["(= %s %s)" % pair for pair in zip(names, names[1:])]
        yield "chain%d" % size, script(
            "QF_UF", sort + constants(names), links + ["(not (= %s %s))" % (names[0], names[-1])])
        links = ["(= (f %s) %s)" % pair for pair in zip(names, names[1:])]
        loop = ["(= %s %s)" % (names[-1], names[0]), "(= (f %s) %s)" % (names[0], names[0])]
        yield "chain_function%d" % size, script(
            "QF_UF", sort + constants(names), links + loop + ["(distinct %s %s)" % (names[1], names[-1])])
    for size in range(2, 5 + 2 * scale):
        tops = ["a%d" % i for i in range(size + 1)]
        sides = ["b%d" % i for i in range(size)] + ["c%d" % i for i in range(size)]
        formulas = []
        for i in range(size):
            formulas.append("(or (and (= a%d b%d) (= b%d a%d)) (and (= a%d c%d) (= c%d a%d)))"
                            % (i, i, i, i + 1, i, i, i, i + 1))
        yield "diamond%d" % size, script(
            "QF_UF", sort + constants(tops + sides), formulas + ["(not (= a0 a%d))" % size])
        formulas.append("(not (= (g a0 (f a0)) (g a%d (f a%d))))" % (size, size))
        yield "diamond_function%d" % size, script("QF_UF", sort + constants(tops + sides), formulas)


def clauses(scale):
    """Random clauses of three literals, more than can all be true. Whether all can is not known."""
    for number in range(6 * scale):
        generator = random.Random(number)
        size = 8 + 4 * (number % (5 + scale))
        names = ["v%d" % i for i in range(size)]
        formulas = []
        for _ in range(6 * size):
            literals = []
            for name in generator.sample(names, 3):
                literals.append(name if generator.random() < 0.5 else "(not %s)" % name)
            formulas.append("(or %s)" % " ".join(literals))
        yield "random%d_%d" % (size, number), script("QF_UF", booleans(names), formulas)


def schedules(scale):
    """Jobs on one machine, and chains of jobs, whose time does not suffice."""
    integers = lambda names: ["(declare-const %s Int)" % name for name in names]
    for size in range(2, 4 + scale):
        names = ["t%d" % i for i in range(size)]
        length = [2 + i % 3 for i in range(size)]
        formulas = []
        for i, j in itertools.combinations(range(size), 2):
            formulas.append("(or (<= (+ t%d %d) t%d) (<= (+ t%d %d) t%d))" % (i, length[i], j, j, length[j], i))
        total = sum(length)
        for i in range(size):
            formulas.append("(>= t%d 0)" % i)
            formulas.append("(<= (+ t%d %d) %d)" % (i, length[i], total - 1))
        yield "machine%d" % size, script("QF_LIA", integers(names), formulas)
    for size in [2, 3, 5, 8, 13, 21, 34][: 3 + scale]:
        names = ["t%d" % i for i in range(size)]
        formulas = ["(<= (+ t%d %d) t%d)" % (i, 1 + i % 5, i + 1) for i in range(size - 1)]
        bound = sum(1 + i % 5 for i in range(size - 1))
        formulas.append("(< t%d (+ t0 %d))" % (size - 1, bound))
        yield "differences%d" % size, script("QF_LIA", integers(names), formulas)
        formulas = ["(>= (+ t%d (* 2 t%d)) %d)" % (i, i + 1, i) for i in range(size - 1)]
        formulas += ["(< t%d 0)" % i for i in range(size)]
        yield "sums%d" % size, script("QF_LIA", integers(names), formulas)
    for bound in range(1, 3 + 2 * scale):
        formulas = ["(> (* 2 x) %d)" % (2 * bound), "(< (* 2 x) %d)" % (2 * bound + 2)]
        yield "between%d" % bound, script("QF_LIA", integers(["x"]), formulas)
        formulas = ["(> x y)", "(> y z)", "(> z (- x %d))" % bound] if bound < 3 else [
            "(>= x %d)" % bound, "(=> (>= x %d) (>= y x))" % bound, "(or (< y 0) (< (+ x y) %d))" % bound]
        yield "bounds%d" % bound, script("QF_LIA", integers(["x", "y", "z"]), formulas)


def remainders(scale):
    """Equations, remainders and distances that no integers have."""
    integers = lambda names: ["(declare-const %s Int)" % name for name in names]
    for one, other in [(2, 3), (3, 5), (4, 7), (5, 7), (5, 8), (7, 9)][: 2 + scale]:
        formulas = ["(>= x 0)", "(>= y 0)", "(= (+ (* %d x) (* %d y)) %d)" % (one, other, one * other - one - other)]
        yield "coins%d_%d" % (one, other), script("QF_LIA", integers("xy"), formulas)
    for number in range(2, 4 + 2 * scale):
        formulas = ["(= (mod x %d) %d)" % (2 * number, 2 * number - 1), "(= (mod x 2) 0)"]
        yield "remainder%d" % number, script("QF_LIA", integers("x"), formulas)
        formulas = ["(= (div x %d) (div y %d))" % (number, number), "(= (mod x %d) (mod y %d))" % (number, number),
                    "(distinct x y)"]
        yield "quotient%d" % number, script("QF_LIA", integers("xy"), formulas)
    for size in range(2, 4 + scale):
        names = ["x%d" % i for i in range(size)]
        formulas = ["(<= (abs (- %s %s)) 2)" % pair for pair in zip(names, names[1:])]
        formulas.append("(> (abs (- %s %s)) %d)" % (names[0], names[-1], 2 * (size - 1)))
        yield "distance%d" % size, script("QF_LIA", integers(names), formulas)


def arrays(scale):
    """Values that are written and read again; swaps that undo each other."""
    sort = ["(declare-sort I 0)", "(declare-sort E 0)", "(declare-const a (Array I E))",
            "(declare-const b (Array I E))"]
    for size in range(2, 4 + 2 * scale):
        names = ["i%d" % k for k in range(size)]
        constants = ["(declare-const %s I)" % name for name in names]
        constants += ["(declare-const e%d E)" % k for k in range(size)]
        written = "a"
        for k in range(size):
            written = "(store %s i%d e%d)" % (written, k, k)
        apart = ["(not (= %s %s))" % pair for pair in itertools.combinations(names, 2)]
        yield "written%d" % size, script(
            "QF_AX", sort + constants, apart + ["(not (= (select %s i0) e0))" % written])
    swap = lambda array, i, j: "(store (store %s %s (select %s %s)) %s (select %s %s))" % (
        array, i, array, j, j, array, i)
    for size in range(1, min(2 + scale, 5)):  # cvc5 takes minutes and gigabytes for five
        names = ["i%d" % k for k in range(2 * size)]
        constants = ["(declare-const %s I)" % name for name in names + ["k"]]
        swapped = "a"
        for k in range(size):
            swapped = swap(swapped, "i%d" % (2 * k), "i%d" % (2 * k + 1))
        for k in reversed(range(size)):
            swapped = swap(swapped, "i%d" % (2 * k), "i%d" % (2 * k + 1))
        yield "swap_read%d" % size, script(
            "QF_AX", sort + constants, ["(not (= (select %s k) (select a k)))" % swapped])
        yield "swap_equal%d" % size, script("QF_AX", sort + constants, ["(not (= %s a))" % swapped])
    yield "swap_sides", script(
        "QF_AX", sort + ["(declare-const i I)", "(declare-const j I)"],
        ["(not (= %s %s))" % (swap("a", "i", "j"), swap("a", "j", "i"))])
    numbers = ["(declare-const a (Array Int Int))"] + ["(declare-const %s Int)" % n for n in "ijk"]
    yield "array_of_numbers", script(
        "QF_ALIA", numbers,
        ["(= i (+ j 1))", "(not (= (select (store a i 5) j) (select a j)))"])
    yield "array_bounds", script(
        "QF_ALIA", numbers,
        ["(< i j)", "(= (select a i) k)", "(not (= (select (store a j 7) i) k))"])


def dimacs(scale):
    """Random clauses and pigeonholes for a SAT solver, in DIMACS."""
    text = lambda count, rows: "p cnf %d %d\n%s" % (
        count, len(rows), "".join("%s 0\n" % " ".join(map(str, row)) for row in rows))
    for number in range(4 * scale):
        generator = random.Random(number)
        size = 20 + 10 * number
        rows = [[x if generator.random() < 0.5 else -x for x in generator.sample(range(1, size + 1), 3)]
                for _ in range(int(5.5 * size))]
        yield "sat%d" % size, text(size, rows)
    for holes in range(2, 5 + scale):
        at = lambda pigeon, hole: pigeon * holes + hole + 1
        rows = [[at(pigeon, hole) for hole in range(holes)] for pigeon in range(holes + 1)]
        for hole in range(holes):
            for one, other in itertools.combinations(range(holes + 1), 2):
                rows.append([-at(one, hole), -at(other, hole)])
        yield "holes%d" % holes, text(holes * (holes + 1), rows)


def large():
    """Random clauses whose proof has 120 MB."""
    generator = random.Random(LARGE[1])
    names = ["v%d" % i for i in range(LARGE[0])]
    formulas = []
    for _ in range(int(LARGE[2] * LARGE[0])):
        literals = [name if generator.random() < 0.5 else "(not %s)" % name
                    for name in generator.sample(names, 3)]
        formulas.append("(or %s)" % " ".join(literals))
    yield "large", script("QF_UF", booleans(names), formulas)


LARGE = (290, 8, 5.2)  # variables, the seed, clauses for each variable
FAMILIES = [pigeonholes, parity, adders, equalities, clauses, schedules, remainders, arrays]


def main():
    folder = sys.argv[1]
    scale = int(sys.argv[2]) if len(sys.argv) > 2 else 1
    os.makedirs(folder, exist_ok=True)
    for family in FAMILIES:
        for name, text in family(scale):
            with open(os.path.join(folder, name + ".smt2"), "w") as out:
                out.write(text)


if __name__ == "__main__":
    main()
