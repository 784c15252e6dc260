"""Clauses of DIMACS, and what a SAT solver says that follows from them, as chains of resolution.

A clause is a list of literals, numbers as DIMACS has them. A chain is a clause and then pairs of a
clause and a pivot: resolved one after another they give the clause that was learned or a part of it."""


class NotDerived(Exception):
    """A clause does not follow by unit propagation."""


def read_clauses(path):
    """The clauses of a DIMACS file."""
    clauses, current = [], []
    with open(path, encoding="ascii") as text:
        for line in text:
            if line[:1] in ("c", "p", "%"):
                continue
            for word in line.split():
                if word == "0":
                    clauses.append(current)
                    current = []
                else:
                    current.append(int(word))
    return clauses


def read_proof(path):
    """What a solver wrote, line by line: `("add", literals)`, `("delete", literals)`, or, of a trace,
    `("trace", number, literals, antecedents)`."""
    with open(path, encoding="ascii", errors="replace") as text:
        lines = (line.split() for line in text if line[:1] not in ("c", "%", "o"))
        for words in lines:
            if not words:
                continue
            if words[0] == "d":
                yield "delete", [int(word) for word in words[1:-1]]
            elif words.count("0") == 2:
                first = words.index("0")
                yield ("trace", int(words[0]), [int(word) for word in words[1:first]],
                       [int(word) for word in words[first + 1:-1]])
            else:
                yield "add", [int(word) for word in words[:-1]]


RECENT = 1000  # a clause is near as long as one of the last 1,000 learned clauses used it
SORTED = 500  # after how many learned clauses near and far ones are told apart anew


class Propagation:
    """Clauses with what follows from them by unit propagation.

    What a solver learned it learned mostly from clauses that it used shortly before, so those are near, and
    go first. The others are far: they are looked at only where the near ones give nothing more. Without
    that the time for each clause would grow with how many there are."""

    def __init__(self):
        self.clauses = []  # the literals of each, the two watched ones first
        self.given = []  # the literals of each as it was added
        self.chains = {}  # of each clause that was learned
        self.near = {}  # the near clauses that watch each literal
        self.far = {}
        self.used = []  # of each clause: how many were learned when it was used last
        self.learned = 0
        self.numbers = {}  # the clauses that stand for what the solver wrote, by its sorted literals
        self.holders = []  # of each clause: how often it is in `numbers`
        self.deleted = set()
        self.value = {}  # of a literal: the clause that makes it true, None where it is assumed
        self.trail = []
        self.done_near = 0  # how much of the trail the near clauses have seen
        self.done_far = 0
        self.units = {}  # the clause that is the one literal, for literals that are true for good
        self.empty = None

    def add(self, literals, chain=None):
        """A further clause, whose literals are different. Returns its number."""
        literals = list(dict.fromkeys(literals))
        number = self.append(literals, chain)
        if chain is None:
            self.hold(literals, number)
        if not literals:
            self.empty = number
            return number
        literals.sort(key=lambda literal: -literal in self.value)  # those that are not false go first
        for literal in literals[:2]:
            self.near.setdefault(literal, []).append(number)
        if len(literals) == 1:
            self.units.setdefault(literals[0], number)
        if self.empty is None:
            if -literals[0] in self.value:
                self.end(number)
            elif (len(literals) == 1 or -literals[1] in self.value) and literals[0] not in self.value:
                self.assign(literals[0], number)
                conflict = self.propagate()
                if conflict is not None:
                    self.end(conflict)
        return number

    def append(self, literals, chain):
        number = len(self.clauses)
        self.clauses.append(literals)
        self.given.append(tuple(literals))
        self.used.append(self.learned)
        self.holders.append(0)
        if chain is not None:
            self.chains[number] = chain
        return number

    def written(self, number):
        """The literals of a clause in the order in which it was added."""
        return self.given[number]

    def hold(self, literals, number):
        """A clause stands for these literals, which the solver wrote; it may have fewer of them."""
        self.numbers.setdefault(tuple(sorted(set(literals))), []).append(number)
        self.holders[number] += 1

    def end(self, conflict):
        """All follows: the empty clause from one whose literals are false for good."""
        self.add([], self.explain(conflict, len(self.trail))[0])

    def delete(self, literals):
        """The solver has deleted a clause. What stands for it goes, unless it stands for another too."""
        numbers = self.numbers.get(tuple(sorted(set(literals))))
        if not numbers:
            return
        number = numbers.pop()
        self.holders[number] -= 1
        clause = self.clauses[number]
        is_reason = self.value.get(clause[0]) == number
        if not self.holders[number] and len(clause) > 1 and not is_reason:
            self.deleted.add(number)

    def assign(self, literal, reason):
        self.value[literal] = reason
        self.trail.append(literal)

    def propagate(self):
        """Makes all true that follows. Returns a clause whose literals are all false, if there is one."""
        conflict = None
        while conflict is None:
            if self.done_near < len(self.trail):
                self.done_near += 1
                conflict = self.visit(self.near, -self.trail[self.done_near - 1])
            elif self.done_far < len(self.trail):
                self.done_far += 1
                conflict = self.visit(self.far, -self.trail[self.done_far - 1])
            else:
                return None
        return conflict

    def visit(self, watching, false):
        """Makes true what follows from the clauses that watch a literal, which is false now.

        Returns one whose literals are all false, if there is one."""
        numbers = watching.get(false)
        if not numbers:
            return None
        value, clauses, deleted = self.value, self.clauses, self.deleted
        kept = []
        for at, number in enumerate(numbers):
            literals = clauses[number]
            if literals[0] == false and len(literals) > 1:
                literals[0], literals[1] = literals[1], false
            first = literals[0]
            if first in value:
                kept.append(number)
                continue
            if number in deleted:
                continue
            for place in range(2, len(literals)):
                other = literals[place]
                if -other not in value:
                    literals[1], literals[place] = other, false
                    watching.setdefault(other, []).append(number)
                    break
            else:
                kept.append(number)
                if -first in value:
                    watching[false] = kept + numbers[at + 1:]
                    return number
                self.assign(first, number)
        watching[false] = kept
        return None

    def sort(self):
        """Tells near and far clauses apart. Only literals that are true for good have a value now."""
        self.near, self.far = {}, {}
        for number, literals in enumerate(self.clauses):
            if number not in self.deleted:
                watching = self.near if self.used[number] > self.learned - RECENT else self.far
                for literal in literals[:2]:
                    watching.setdefault(literal, []).append(number)

    def learn(self, literals):
        """A clause that follows by unit propagation; what is added may have fewer literals."""
        if self.empty is not None:
            return self.empty
        self.learned += 1
        if self.learned % SORTED == 0:
            self.sort()
        number = self.derive(literals)
        self.hold(literals, number)
        return number

    def derive(self, literals):
        """The number of a clause that has some of these literals, or all, and follows."""
        start = len(self.trail)
        for literal in literals:
            if literal in self.value:  # it is true for good, or its negation is in the clause too
                reason = self.value[literal]
                self.undo(start)
                if reason is None:
                    raise NotDerived(literals)
                return self.unit(literal)
            if -literal not in self.value:
                self.assign(-literal, None)
        conflict = self.propagate()
        if conflict is None:
            self.undo(start)
            raise NotDerived(literals)
        chain, rest = self.explain(conflict, start)
        self.undo(start)
        return self.add(rest, chain) if len(chain) > 1 else conflict

    def undo(self, start):
        for literal in self.trail[start:]:
            del self.value[literal]
        del self.trail[start:]
        self.done_near = self.done_far = start

    def explain(self, conflict, start):
        """The chain from a clause whose literals are false, and the literals that it leaves."""
        chain, rest = [conflict], set(self.clauses[conflict])
        self.used[conflict] = self.learned
        for literal in reversed(self.trail[start:]):
            reason = self.value[literal]
            if -literal in rest and reason is not None:
                self.used[reason] = self.learned
                chain.append((reason, literal))
                rest.discard(-literal)
                rest.update(other for other in self.clauses[reason] if other != literal)
        for literal in list(rest):
            if -literal in self.value and self.value[-literal] is not None:
                chain.append((self.unit(-literal), -literal))
                rest.discard(literal)
        return chain, sorted(rest, key=abs)

    def unit(self, literal):
        """The clause of one literal that is true for good."""
        stack = [literal]
        while stack:
            top = stack[-1]
            if top in self.units:
                stack.pop()
                continue
            reason = self.value[top]
            others = [other for other in self.clauses[reason] if other != top]
            pending = [-other for other in others if -other not in self.units]
            if pending:
                stack += pending
                continue
            stack.pop()
            self.units[top] = self.append([top], [reason] + [(self.units[-other], -other) for other in others])
        return self.units[literal]


def follow(clauses, antecedents, literals):
    """The chain from a trace's antecedents, in whatever order these are."""
    value, order = {-literal: None for literal in literals}, []
    waiting = list(antecedents)
    while waiting:
        later = []
        for number in waiting:
            free = [literal for literal in clauses[number] if -literal not in value]
            if not free:
                return chain_back(clauses, number, order)
            if len(free) == 1:
                if free[0] not in value:
                    value[free[0]] = number
                    order.append((number, free[0]))
            else:
                later.append(number)
        if len(later) == len(waiting):
            break
        waiting = later
    raise NotDerived(literals)


def chain_back(clauses, conflict, order):
    chain, rest = [conflict], set(clauses[conflict])
    for reason, literal in reversed(order):
        if -literal in rest:
            chain.append((reason, literal))
            rest.discard(-literal)
            rest.update(other for other in clauses[reason] if other != literal)
    return chain, sorted(rest, key=abs)
