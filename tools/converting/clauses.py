"""Resolution on clauses as the signatures do it, to know which rule gives a conclusion."""


class Clauses:
    def __init__(self, terms):
        self.terms = terms
        self.falsity = terms.atom("false")

    def negation(self, literal):
        return self.terms.app("not", literal)

    def literals(self, clause):
        """The literals of a clause: the parts of an `or`, none of `false`, else the one."""
        if clause == self.falsity:
            return []
        return list(self.terms.arguments(clause)) if self.terms.head(clause) == "or" else [clause]

    def clause(self, literals):
        """The clause of some literals."""
        if not literals:
            return self.falsity
        return literals[0] if len(literals) == 1 else self.terms.app("or", *literals)

    def is_literals(self, literals, clause):
        """Whether a list of literals, written as a clause, is this formula."""
        if len(literals) == 1:
            return literals[0] == clause
        return literals == self.literals(clause) and clause not in literals

    def chain(self, premises, steps):
        """The literals of `chain_resolution`: each step removes the first of each side."""
        current = self.literals(premises[0])
        for premise, (positive, pivot) in zip(premises[1:], steps):
            other = self.literals(premise)
            opposite = self.negation(pivot)
            remove(current, pivot if positive else opposite)
            remove(other, opposite if positive else pivot)
            current += other
        return current

    def merged_chain(self, premises, steps):
        """The set of literals of `chain_m_resolution`: each step removes all, and an `or` may be a literal."""
        def side(premise, literal):
            return {premise} if premise == literal else set(self.literals(premise))

        current = None
        for premise, (positive, pivot) in zip(premises[1:], steps):
            opposite = self.negation(pivot)
            ours, theirs = (pivot, opposite) if positive else (opposite, pivot)
            current = side(premises[0], ours) if current is None else current
            current = (current - {ours}) | (side(premise, theirs) - {theirs})
        return set(self.literals(premises[0])) if current is None else current


def remove(literals, literal):
    if literal in literals:
        literals.remove(literal)
