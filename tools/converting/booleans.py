"""Truth tables of small formulas, which say what the signature's `bool_taut` will accept."""
CONNECTIVES = {"not", "and", "or", "=>", "xor"}
MOST_ATOMS = 24
MOST_SPLITS = 300


class Booleans:
    def __init__(self, terms, sorts):
        """`sorts` gives the sort of a declared name's values, as text."""
        self.terms = terms
        self.sorts = sorts
        self.relations = {"<", "<=", ">", ">=", "=", "distinct", "forall", "exists"}

    def is_bool(self, term):
        node = self.terms.nodes[term]
        if isinstance(node, str):
            return node in ("true", "false") or self.sorts.get(node) == "Bool"
        head = self.terms.head(term)
        if head == "ite":
            return self.is_bool(node[2])
        return head in CONNECTIVES or head in self.relations or self.sorts.get(head) == "Bool"

    def is_connective(self, term):
        """Whether a term is a formula of formulas."""
        head, parts = self.terms.head(term), self.terms.arguments(term)
        if head in CONNECTIVES:
            return True
        if head == "ite":
            return self.is_bool(parts[1])
        return head in ("=", "distinct") and all(map(self.is_bool, parts))

    def atoms(self, term):
        """The formulas that a formula is made of, in order."""
        found, seen, stack = [], set(), [term]
        while stack:
            top = stack.pop()
            if top in seen:
                continue
            seen.add(top)
            if self.is_connective(top):
                stack += reversed(self.terms.arguments(top))
            elif self.terms.nodes[top] not in ("true", "false"):
                found.append(top)
        return found

    def value(self, term, given):
        """The truth of a formula where some atoms are known: True, False, or None where it is open."""
        if term in given:
            return given[term]
        node = self.terms.nodes[term]
        if node == "true" or node == "false":
            return node == "true"
        if not self.is_connective(term):
            return None
        head = self.terms.head(term)
        values = [self.value(part, given) for part in node[1:]]
        if head == "not":
            return None if values[0] is None else not values[0]
        if head == "and":
            return False if False in values else None if None in values else True
        if head == "or":
            return True if True in values else None if None in values else False
        if head == "=>":
            if False in values[:-1] or values[-1] is True:
                return True
            return None if None in values else False
        if head == "ite":
            if values[0] is None:
                return values[1] if values[1] == values[2] else None
            return values[1] if values[0] else values[2]
        if head == "=" and len(node) == 3 and node[1] == node[2]:
            return True
        if None in values:
            return None
        if head == "xor":
            return sum(values) % 2 == 1
        if head == "=":
            return all(a == b for a, b in zip(values, values[1:]))
        return len(values) == len(set(values))

    def is_tautology(self, term):
        """Whether a formula is true however its atoms are; None where that takes too long to say."""
        atoms = self.atoms(term)
        if len(atoms) > MOST_ATOMS:
            return None
        given, splits = {}, [0]

        def holds(at):
            value = self.value(term, given)
            if value is not None:
                return value
            splits[0] += 1
            if splits[0] > MOST_SPLITS:
                return None
            for choice in (True, False):
                given[atoms[at]] = choice
                if not holds(at + 1):
                    del given[atoms[at]]
                    return False
            del given[atoms[at]]
            return True

        return holds(0)
