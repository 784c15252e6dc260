"""Writes the commands of a proof: terms by their names once they have one, steps, and scopes.

What is shared is written once, by `define`. A `define` inside a scope would end with it, so the
commands of an outermost scope wait until it is closed, and the definitions go before them."""

DEEPEST = 100  # how many lists may be open in a term as it is written; the rest gets a name


class Writer:
    def __init__(self, terms, out, spell):
        """`spell` gives the text of an atom."""
        self.terms = terms
        self.out = out
        self.spell = spell
        self.names = {}  # the name or the text of a term that is written once and for all
        self.waiting = []  # the commands of the open scopes
        self.scopes = 0
        self.facts = 0
        self.definitions = 0
        self.binders = {"forall", "exists"}

    def text(self, term):
        """The text of a term. Terms that are parts of several others get a name first."""
        if term in self.names:
            return self.names[term]
        nodes, names = self.terms.nodes, self.names
        written = {}  # the text of parts that have no name, with how many lists are open in it
        stack = [term]
        while stack:
            top = stack[-1]
            node = nodes[top]
            if top in names or top in written:
                stack.pop()
                continue
            if isinstance(node, str):
                names[top] = self.spell(node)
                stack.pop()
                continue
            if node and nodes[node[0]] in self.binders:
                written[top] = self.plain(top), 1
                stack.pop()
                continue
            pending = [part for part in node if part not in names and part not in written]
            if pending:
                stack += pending
                continue
            stack.pop()
            deepest = 0
            pieces = []
            for part in node:
                if part in names:
                    pieces.append(names[part])
                else:
                    piece, depth = written[part]
                    pieces.append(piece)
                    deepest = max(deepest, depth)
            text = "(%s)" % " ".join(pieces)
            if (self.terms.uses[top] > 1 and len(text) > 12) or deepest >= DEEPEST:
                names[top] = self.define(text)
            else:
                written[top] = text, deepest + 1
        return names[term] if term in names else written[term][0]

    def plain(self, term):
        """The text of a term without names: what it binds has no name outside."""
        pieces = []
        stack = [term]
        while stack:
            top = stack.pop()
            if top is None:
                pieces.append(")")
                continue
            node = self.terms.nodes[top]
            if isinstance(node, str):
                pieces.append(self.spell(node))
            else:
                pieces.append("(")
                stack.append(None)
                stack += reversed(node)
        return " ".join(pieces).replace("( ", "(").replace(" )", ")")

    def define(self, text):
        self.definitions += 1
        name = "@t%d" % self.definitions
        self.out.write("(define %s () %s)\n" % (name, text))
        return name

    def command(self, text):
        if self.scopes:
            self.waiting.append(text)
        else:
            self.out.write(text)

    def name(self):
        self.facts += 1
        return "@p%d" % self.facts

    def assume(self, term):
        """A fact that the reference file asserts. It is outside every scope."""
        name = self.name()
        self.out.write("(assume %s %s)\n" % (name, self.text(term)))
        return name

    def push(self, term):
        """Opens a scope with an assumption, which is a fact in it."""
        name, text = self.name(), self.text(term)
        self.scopes += 1
        self.waiting.append("(assume-push %s %s)\n" % (name, text))
        return name

    def step(self, rule, conclusion, premises=(), arguments=()):
        """A fact by a rule. `conclusion` is a term, or None where the rule says it alone."""
        return self.apply("step", rule, conclusion, premises, arguments)

    def pop(self, rule, conclusion, premises=(), arguments=()):
        """Closes the last scope by a rule, and gives the fact that stays."""
        name = self.apply("step-pop", rule, conclusion, premises, arguments)
        self.scopes -= 1
        if not self.scopes:
            self.out.write("".join(self.waiting))
            self.waiting.clear()
        return name

    def apply(self, command, rule, conclusion, premises, arguments):
        name = self.name()
        stated = "" if conclusion is None else " " + self.text(conclusion)
        given = " :premises (%s)" % " ".join(premises) if premises else ""
        given += " :args (%s)" % " ".join(self.argument(a) for a in arguments) if arguments else ""
        self.command("(%s %s%s :rule %s%s)\n" % (command, name, stated, rule, given))
        return name

    def argument(self, argument):
        """An argument is a term, or a text, or a list of these, which is written as `(@list ..)`."""
        if isinstance(argument, str):
            return argument
        if isinstance(argument, list):
            return "(@list %s)" % " ".join(map(self.argument, argument)) if argument else "@nil"
        return self.text(argument)
