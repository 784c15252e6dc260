"""Normal forms of linear arithmetic over integers, which say what the signature's rules will accept."""
from fractions import Fraction
from functools import reduce
from math import gcd

RELATIONS = {"<", "<=", ">", ">=", "="}


class Arithmetic:
    def __init__(self, terms):
        self.terms = terms

    def number(self, term):
        """The value of a numeral or of a quotient of numerals, else None."""
        node = self.terms.nodes[term]
        if isinstance(node, str):
            body = node[1:] if node.startswith("-") else node
            return Fraction(node) if body.isdigit() else None
        if self.terms.head(term) in ("/", "-"):
            values = [self.number(part) for part in node[1:]]
            if None not in values:
                if node and self.terms.head(term) == "/" and len(values) == 2 and values[1]:
                    return values[0] / values[1]
                if self.terms.head(term) == "-" and len(values) == 1:
                    return -values[0]
        return None

    def value(self, term):
        """The value of a quotient, a remainder or an absolute value of numerals, else None."""
        head, values = self.terms.head(term), [self.number(part) for part in self.terms.arguments(term)]
        if head not in ("div", "mod", "abs") or None in values or any(one.denominator != 1 for one in values):
            return None
        if head == "abs":
            return abs(int(values[0]))
        if len(values) != 2 or values[1] <= 0:
            return None
        quotient, remainder = divmod(int(values[0]), int(values[1]))
        return quotient if head == "div" else remainder

    def polynomial(self, term):
        """The monomials of a term and their coefficients: a dictionary from sorted tuples of terms."""
        value = self.number(term)
        if value is not None:
            return {(): value} if value else {}
        head, parts = self.terms.head(term), self.terms.arguments(term)
        if head == "+":
            return reduce(add, map(self.polynomial, parts), {})
        if head == "-" and parts:
            first = self.polynomial(parts[0])
            if len(parts) == 1:
                return scale(first, -1)
            return reduce(lambda p, q: add(p, scale(q, -1)), map(self.polynomial, parts[1:]), first)
        if head == "*":
            return reduce(multiply, map(self.polynomial, parts), {(): Fraction(1)})
        return {(term,): Fraction(1)}

    def sum(self, polynomial):
        """The term of a polynomial."""
        app, items = self.terms.app, []
        for monomial, value in sorted(polynomial.items()):
            numeral = self.terms.atom(str(int(value)))
            items.append(app("*", numeral, *monomial) if monomial else numeral)
        return items[0] if len(items) == 1 else app("+", *items) if items else self.terms.atom("0")

    def same_polynomial(self, left, right):
        return self.polynomial(left) == self.polynomial(right)

    def relation(self, term):
        """The normal form of a comparison or of its negation, else None.

        It is true, false, or a kind with a polynomial: `>=` that it is at least 0, `=` that it is 0."""
        text = self.terms.nodes[term]
        if text == "true" or text == "false":
            return text == "true"
        head, parts = self.terms.head(term), self.terms.arguments(term)
        if head == "not" and len(parts) == 1:
            inner = self.relation(parts[0])
            if inner is None or isinstance(inner, bool):
                return None if inner is None else not inner
            kind, items = inner
            if kind == ">=":
                return tight(">=", add(scale(dict(items), -1), {(): Fraction(-1)}))
            return ("not", inner) if kind == "=" else inner[1]
        if head not in RELATIONS or len(parts) != 2:
            return None
        left, right = self.polynomial(parts[0]), self.polynomial(parts[1])
        if head in ("<", "<="):
            left, right = right, left
        difference = add(left, scale(right, -1))
        if head in ("<", ">"):
            difference = add(difference, {(): Fraction(-1)})
        return tight("=" if head == "=" else ">=", difference)


def tight(kind, polynomial):
    """Divides by the common factor of the coefficients and rounds the constant down."""
    if any(value.denominator != 1 for value in polynomial.values()):
        return None
    constant = polynomial.get((), Fraction(0))
    factors = [int(value) for monomial, value in polynomial.items() if monomial]
    if not factors:
        return constant == 0 if kind == "=" else constant >= 0
    factor = reduce(gcd, factors, 0)
    rest = {monomial: value / factor for monomial, value in polynomial.items() if monomial}
    if kind == "=":
        if constant % factor:
            return False
        constant = constant / factor
        first = min(rest)
        if rest[first] < 0:
            rest, constant = scale(rest, -1), -constant
    else:
        constant = Fraction(constant // factor)
    if constant:
        rest[()] = constant
    return kind, tuple(sorted(rest.items()))


def add(left, right):
    total = dict(left)
    for monomial, value in right.items():
        value += total.pop(monomial, 0)
        if value:
            total[monomial] = value
    return total


def scale(polynomial, factor):
    return {monomial: value * factor for monomial, value in polynomial.items()}


def multiply(left, right):
    total = {}
    for one, first in left.items():
        for other, second in right.items():
            total = add(total, {tuple(sorted(one + other)): first * second})
    return total
