"""Translates terms as cvc5 prints them into the form of the signatures."""
import re

DECIMAL = re.compile(r"\d+\.0+$")
NUMERAL = re.compile(r"-?\d+$")


def negative(numeral):
    """The text of a numeral's negative."""
    if numeral == "0":
        return numeral
    return numeral[1:] if numeral.startswith("-") else "-" + numeral


def normalizer(terms, constants, keeps_minus=False):
    """A function from a term as it is read to the term as it is written.

    `constants` gives what a name means, such as a skolem. Numbers are integers: `1.0` is 1,
    and `(to_real t)` is t. `(- 1)` is -1 and `(- t)` is `(- 0 t)`, unless a minus of one argument
    stays, as in what the problem asserts."""
    nodes = terms.nodes
    known = []  # of each term: what is written for it, None where that is not known yet

    def leaf(term):
        text = nodes[term]
        if DECIMAL.match(text):
            return terms.atom(text.split(".")[0])
        return constants.get(term, term)

    def whole(parts):
        first = nodes[parts[0]] if parts else None
        if len(parts) == 2:
            if first == "to_real":
                return parts[1]
            if first == "-" and not keeps_minus:
                text = nodes[parts[1]]
                if isinstance(text, str) and NUMERAL.match(text):
                    return terms.atom(negative(text))
                return terms.app("-", "0", parts[1])
        return terms.list(parts)

    def normal(term):
        if term < len(known) and known[term] is not None:
            return known[term]
        stack = [term]
        while stack:
            known.extend([None] * (len(nodes) - len(known)))
            top = stack[-1]
            if known[top] is not None:
                stack.pop()
                continue
            node = nodes[top]
            if isinstance(node, str):
                value = leaf(top)
                if value == top or value < len(known) and known[value] is not None:
                    known[top] = value if value == top else known[value]
                    stack.pop()
                else:
                    stack.append(value)  # what a name means is brought into form itself
                continue
            pending = [part for part in node if known[part] is None]
            if pending:
                stack += pending
                continue
            known[top] = whole([known[part] for part in node])
            stack.pop()
        return known[term]

    return normal
