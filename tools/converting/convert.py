"""From a proof as cvc5 1.0.3 prints it to the steps of a proof in Eunoia.

The proof is a graph of rules. Each is written after its premises, once; what a scope's assumptions do
not reach is written before the scope is opened, so that it is a fact outside too."""
from collections import Counter
from itertools import permutations

from .normal import normalizer
from .rules import Rules
from .writer import Writer


class Refused(Exception):
    """The proof is not one that can be converted at all."""


class Converter:
    def __init__(self, terms, problem, out, declared=None):
        """`declared` are the rules that there are, None where that is not known."""
        self.terms = terms
        self.problem = problem
        self.declared = declared
        self.constants = {}
        self.normal = normalizer(terms, self.constants)
        self.as_asserted = normalizer(terms, self.constants, keeps_minus=True)
        self.writer = Writer(terms, out, lambda atom: atom)
        self.trusted = Counter()
        self.asserted = {}  # of each assertion in the form of the steps: as the problem has it
        self.conclusion_key = terms.atom(":conclusion")
        self.arguments_key = terms.atom(":args")
        self.free = {}  # the assumptions of open scopes that a proof rests on, where there are any
        self.facts = {}  # the name of the fact that a term is
        self.levels = []  # of each open scope: the terms that became facts in it, with the facts that they were
        self.rules = Rules(self)

    # ---- the parts of a proof

    def parts(self, proof):
        """The rule of a proof, its conclusion, its premises and its arguments."""
        node = self.terms.nodes[proof]
        rule = self.terms.nodes[node[0]]
        if len(node) < 3 or node[1] != self.conclusion_key:
            raise Refused("no conclusion in a step of %s" % rule)
        if len(node) > 4 and node[-2] == self.arguments_key:
            return rule, node[2], node[3:-2], self.terms.nodes[node[-1]]
        return rule, node[2], node[3:], ()

    def walk(self, root):
        """All proofs below one, premises first."""
        seen, stack = bytearray(len(self.terms.nodes)), [(root, False)]
        while stack:
            proof, done = stack.pop()
            if done:
                yield proof
            elif not seen[proof]:
                seen[proof] = True
                stack.append((proof, True))
                stack += [(premise, False) for premise in reversed(self.parts(proof)[2]) if not seen[premise]]

    # ---- facts

    def known(self, term):
        """The name of the fact that a term is, if it is one here."""
        return self.facts.get(term)

    def add(self, term, name):
        """A fact is what a term is, until the scope is closed that is open now."""
        if self.levels:
            self.levels[-1].append((term, self.facts.get(term)))
        self.facts[term] = name
        return name

    def step(self, rule, conclusion, premises=(), arguments=()):
        """The fact `conclusion`, by a rule, unless it is a fact already."""
        name = self.known(conclusion)
        if name is None and self.declared is not None and rule not in self.declared and rule != "trust":
            return self.trust(conclusion, rule)
        if name is None:
            name = self.add(conclusion, self.writer.step(rule, conclusion, premises, arguments))
        return name

    def trust(self, conclusion, rule):
        """The fact `conclusion`, which no rule of the signatures gives."""
        name = self.known(conclusion)
        if name is None:
            self.trusted[rule] += 1
            name = self.step("trust", conclusion, (), (conclusion,))
        return name

    def fact(self, proof):
        """The name of the fact that a proof concludes, which was written before."""
        return self.known(self.conclusion(proof))

    def conclusion(self, proof):
        return self.normal(self.parts(proof)[1])

    # ---- the whole proof

    def convert(self, root):
        rule, _, premises, arguments = self.parts(root)
        if rule == "SCOPE":
            self.asserted = {self.normal(formula): self.as_asserted(formula) for formula in arguments}
            body = premises[0]
        else:
            body = root
        self.find_skolems(body)
        self.find_free(body)
        self.run([("visit", body)])
        if self.terms.nodes[self.conclusion(body)] != "false":
            raise Refused("the proof does not end with false")

    def find_skolems(self, body):
        """What the names that the solver made mean."""
        for proof in self.walk(body):
            rule, conclusion, premises, _ = self.parts(proof)
            if rule in ("SKOLEM_INTRO", "THEORY_PREPROCESS") and self.terms.head(conclusion) == "=":
                for name, meaning in permutations(self.terms.arguments(conclusion), 2):
                    if self.is_unknown(name):
                        self.constants.setdefault(name, meaning)
                self.find_quotient(*self.terms.arguments(conclusion))
            elif rule == "SKOLEMIZE":
                self.find_witnesses(self.parts(premises[0])[1], conclusion)
            elif rule == "ARRAYS_EXT":
                unequal = self.terms.arguments(self.parts(premises[0])[1])[0]
                read = self.terms.arguments(self.terms.arguments(conclusion)[0])[0]
                index = self.terms.arguments(read)[1]
                if self.terms.is_atom(index):
                    self.constants[index] = self.terms.app("@array_deq_diff", *self.terms.arguments(unequal))

    def find_quotient(self, remainder, difference):
        """The name in `(= (mod x n) (- x (* n name)))` of `(div x n)`."""
        terms = self.terms
        if terms.head(remainder) == "mod" and terms.head(difference) == "-":
            dividend, divisor = terms.arguments(remainder)
            product = terms.arguments(difference)[-1]
            if difference == terms.app("-", dividend, product) and terms.head(product) == "*":
                name = terms.arguments(product)[-1]
                if product == terms.app("*", divisor, name) and self.is_unknown(name):
                    self.constants.setdefault(name, terms.app("div", dividend, divisor))

    def find_witnesses(self, premise, conclusion):
        """The names in `(not F')` that are where `(not (forall xs F))` has its variables."""
        terms = self.terms
        if terms.head(premise) != "not" or terms.head(conclusion) != "not":
            return
        quantified = terms.arguments(premise)[0]
        if terms.head(quantified) != "forall":
            return
        binder, body = terms.arguments(quantified)
        variables = {}
        for place, variable in enumerate(terms.nodes[binder]):
            name, sort = terms.nodes[variable]
            variables[name] = sort, terms.atom(str(place))
        seen, stack = set(), [(body, terms.arguments(conclusion)[0])]
        while stack:
            pair = stack.pop()
            if pair in seen:
                continue
            seen.add(pair)
            inner, outer = map(terms.nodes.__getitem__, pair)
            if pair[0] in variables and self.is_unknown(pair[1]):
                sort, place = variables[pair[0]]
                self.constants.setdefault(
                    pair[1], terms.app("@quantifiers_skolemize", sort, quantified, place))
            elif not isinstance(inner, str) and not isinstance(outer, str) and len(inner) == len(outer):
                stack += zip(inner, outer)

    def is_unknown(self, term):
        """Whether a term is a name that the problem does not declare."""
        text = self.terms.nodes[term]
        return isinstance(text, str) and text[0] not in "-0123456789#\"" and (
            text not in ("true", "false") and text not in self.problem.sorts)

    def find_free(self, body):
        """The assumptions that each proof rests on, but for those of the reference file."""
        nothing = frozenset()
        kept = {nothing: nothing}
        for proof in self.walk(body):
            rule, conclusion, premises, arguments = self.parts(proof)
            if rule == "ASSUME":
                formula = self.normal(conclusion)
                free = nothing if formula in self.asserted else frozenset((formula,))
            else:
                found = [self.free[premise] for premise in premises if premise in self.free]
                free = nothing if not found else found[0] if len(set(found)) == 1 else frozenset().union(*found)
                if rule == "SCOPE" and free:
                    free = free.difference(map(self.normal, arguments))
            if free:
                self.free[proof] = kept.setdefault(free, free)

    def run(self, work):
        while work:
            kind, proof = work.pop()
            if kind == "close":
                self.close(proof)
            elif kind == "emit":
                self.emit(proof)
            elif self.known(self.conclusion(proof)) is not None:
                continue
            elif kind == "open":
                self.open(proof)
                work.append(("close", proof))
                work.append(("visit", self.parts(proof)[2][0]))
            elif self.parts(proof)[0] == "SCOPE":
                work.append(("open", proof))
                work += [("visit", inner) for inner in reversed(self.independent(proof))]
            else:
                work.append(("emit", proof))
                work += [("visit", premise) for premise in reversed(self.rules.needed(proof))]

    def independent(self, scope):
        """The largest parts of a scope's proof that hold outside of it."""
        found, seen, stack = [], set(), [self.parts(scope)[2][0]]
        while stack:
            proof = stack.pop()
            if proof in seen:
                continue
            seen.add(proof)
            rule, _, premises, _ = self.parts(proof)
            if rule == "ASSUME" or self.known(self.conclusion(proof)) is not None:
                continue
            if all(self.known(formula) is not None for formula in self.free.get(proof, ())):
                found.append(proof)
            elif rule == "SCOPE":
                stack += reversed(premises)
            else:
                stack += reversed(self.rules.needed(proof))
        return found

    def open(self, scope):
        self.open_scope(list(map(self.normal, self.parts(scope)[3])))

    def open_scope(self, formulas):
        """Opens one scope for all assumptions of a proof: several are one `and`, and its parts."""
        self.levels.append([])
        together = self.together(formulas)
        name = self.add(together, self.writer.push(together))
        if len(formulas) > 1:
            for place, formula in enumerate(formulas):
                index = self.terms.atom(str(place))
                self.add(formula, self.writer.step("and_elim", None, (name,), (index,)))

    def together(self, formulas):
        return formulas[0] if len(formulas) == 1 else self.terms.app("and", *formulas)

    def close(self, scope):
        _, conclusion, premises, arguments = self.parts(scope)
        self.close_scope(list(map(self.normal, arguments)), self.conclusion(premises[0]), self.normal(conclusion))

    def close_scope(self, formulas, inner, conclusion):
        """Closes the last scope, in which `inner` is a fact, with what it says outside."""
        implied = self.terms.app("=>", self.together(formulas), inner)
        name = self.writer.pop("scope", implied, (self.known(inner),))
        for term, before in reversed(self.levels.pop()):
            if before is None:
                del self.facts[term]
            else:
                self.facts[term] = before
        self.add(implied, name)
        if conclusion != implied:
            self.step("process_scope", conclusion, (name,), (inner,))

    def assume(self, asserted, conclusion):
        """A fact of what is asserted, without a minus of one argument."""
        name = self.writer.assume(asserted)
        if asserted == conclusion:
            return name
        return self.writer.step("minus_elim", conclusion, (name,))

    def emit(self, proof):
        conclusion = self.conclusion(proof)
        if self.known(conclusion) is not None:
            return
        rule = self.parts(proof)[0]
        if rule == "ASSUME":
            if conclusion not in self.asserted:
                raise Refused("an assumption of no scope")
            # an `assume` is outside every scope, and so is a fact after each of these
            self.facts[conclusion] = self.assume(self.asserted[conclusion], conclusion)
        else:
            self.rules.write(proof)
            if self.known(conclusion) is None:
                self.trust(conclusion, rule)
