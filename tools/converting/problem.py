"""Reads a user's problem: what it declares, and the same problem without its own definitions."""
from . import terms as reading


class Problem:
    def __init__(self, path):
        self.terms = reading.Terms()
        self.sorts = {}  # the sort of the values of each declared name
        self.macros = {}  # the parameters and the body of each `define-fun`
        self.commands = []
        with open(path, encoding="utf-8") as text:
            for command in reading.read(self.terms, reading.pieces(text)):
                self.take(command)

    def take(self, command):
        terms = self.terms
        head, parts = terms.head(command), terms.arguments(command)
        show = lambda term: show_plain(terms, term)
        if head in ("declare-const", "declare-fun"):
            self.sorts[terms.nodes[parts[0]]] = show(parts[-1])
        if head == "define-fun":
            parameters = [terms.nodes[pair][0] for pair in terms.nodes[parts[1]]]
            self.macros[parts[0]] = parameters, self.expanded(parts[3])
        elif head == "assert":
            self.commands.append(terms.app("assert", self.expanded(parts[0])))
        else:
            self.commands.append(command)

    def has_binders(self):
        return any(node in ("forall", "exists") for node in self.terms.nodes)

    def expanded(self, term, bound=None):
        """A term with the bodies of definitions in the place of their names, and without `!`."""
        terms, nodes, macros = self.terms, self.terms.nodes, self.macros
        known = dict(bound or {})
        stack = [term]
        while stack:
            top = stack[-1]
            if top in known:
                stack.pop()
                continue
            node = nodes[top]
            if isinstance(node, str):
                known[top] = macros[top][1] if top in macros and not macros[top][0] else top
                stack.pop()
                continue
            named = terms.head(top) == "!"
            parts = node[1:2] if named else node
            pending = [part for part in parts if part not in known]
            if pending:
                stack += pending
                continue
            stack.pop()
            if named:
                known[top] = known[node[1]]
            elif node and node[0] in macros and len(node) > 1:
                parameters, body = macros[node[0]]
                given = dict(zip(parameters, (known[part] for part in node[1:])))
                known[top] = self.expanded(body, given) if parameters else body
            else:
                known[top] = terms.list(tuple(known[part] for part in node))
        return known[term]

    def write(self, out):
        """Writes the problem without definitions. What is shared is written once in each command."""
        for command in self.commands:
            out.write(show_shared(self.terms, command) + "\n")


def show_plain(terms, term):
    node = terms.nodes[term]
    return node if isinstance(node, str) else "(%s)" % " ".join(show_plain(terms, p) for p in node)


def show_shared(terms, command):
    """A command's text; an assertion's shared terms are bound by `let`, the inner ones first."""
    if terms.head(command) != "assert":
        return show_plain(terms, command)
    order, texts, uses = [], {}, {}
    stack = [command]
    while stack:
        top = stack.pop()
        uses[top] = uses.get(top, 0) + 1
        if uses[top] == 1:
            order.append(top)
            if terms.head(top) not in ("forall", "exists") and not terms.is_atom(top):
                stack += terms.nodes[top]
    bindings = []
    for top in sorted(order):
        node = terms.nodes[top]
        if isinstance(node, str):
            texts[top] = node
        elif terms.head(top) in ("forall", "exists"):
            texts[top] = show_plain(terms, top)
        else:
            texts[top] = "(%s)" % " ".join(texts[part] for part in node)
            if top != command and (uses[top] > 1 or len(texts[top]) > 2000):
                bindings.append((len(bindings), texts[top]))
                texts[top] = "?s%d" % bindings[-1][0]
    formula = texts[terms.nodes[command][1]]
    before = "".join("(let ((?s%d %s)) " % binding for binding in bindings)
    return "(assert %s%s%s)" % (before, formula, ")" * len(bindings))
