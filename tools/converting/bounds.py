"""Refutes bounds of integers that have no solution together, where the solver says so without a reason.

An upper bound on an unknown is added to a lower one, with factors that make the unknown vanish, and the sum
is divided by the common divisor of its coefficients and rounded. The smallest bounds are added first."""
from heapq import heappop, heappush
from itertools import count

from .arithmetic import add, scale, tight

MOST = 300  # bounds that are added to others, before the search is given up


class Bound:
    """A polynomial that is at least 0, or 0: a literal that is given, or a sum of other bounds."""

    def __init__(self, kind, polynomial, literal=None, parts=()):
        self.kind = kind  # ">=" or "=", or "false" where there is no such number
        self.polynomial = polynomial
        self.literal = literal
        self.parts = parts  # pairs of a bound and its factor

    def below(self):
        """All bounds that this one is made of and itself, each after its parts."""
        order, seen, stack = [], set(), [(self, False)]
        while stack:
            bound, done = stack.pop()
            if done:
                order.append(bound)
            elif id(bound) not in seen:
                seen.add(id(bound))
                stack.append((bound, True))
                stack += [(part, False) for part, _ in bound.parts]
        return order


def refute(arithmetic, literals):
    """A bound that no number keeps, made of those literals that are bounds; None where none is found."""
    waiting, seen, number = [], set(), count()

    def take(bound):
        for factor in (1, -1) if bound.kind == "=" else (1,):
            side = scale(bound.polynomial, factor)  # it is at least 0
            key = frozenset(side.items())
            if side and key not in seen:
                seen.add(key)
                size = sum(abs(value) + 1 for unknown, value in side.items() if unknown)
                heappush(waiting, (size, next(number), side, bound, factor))

    for literal in literals:
        relation = arithmetic.relation(literal)
        if relation is False:
            return Bound("false", None, literal)
        if isinstance(relation, tuple) and relation[0] in (">=", "="):
            take(Bound(relation[0], dict(relation[1]), literal))
    done = []
    while waiting and len(done) < MOST:
        one = heappop(waiting)[2:]
        for other in done:
            for unknown, value in one[0].items():
                if unknown and value * other[0].get(unknown, 0) < 0:
                    bound = sum_without(unknown, one, other)
                    if bound.kind == "false":
                        return bound
                    take(bound)
        done.append(one)
    return None


def sum_without(unknown, one, other):
    """The sum of two sides in which an unknown vanishes. Its polynomial is empty where it says nothing."""
    factors = int(abs(other[0][unknown])), int(abs(one[0][unknown]))
    total = add(scale(one[0], factors[0]), scale(other[0], factors[1]))
    found = tight(">=", total)
    parts = tuple((bound, sign * factor) for (_, bound, sign), factor in zip((one, other), factors))
    if isinstance(found, bool):
        return Bound(">=" if found else "false", {}, None, parts)
    return Bound(">=", dict(found[1]), None, parts)
