"""The rules of cvc5 1.0.3 by those of the signatures."""
from math import gcd

from .arithmetic import Arithmetic
from .booleans import Booleans
from .bounds import refute
from .clauses import Clauses
from .rewrites import BINDERS, LISTS, Rewrites

# the same name, premises and arguments
SAME = """
    REFL SYMM TRANS SPLIT EQ_RESOLVE MODUS_PONENS NOT_NOT_ELIM CONTRA AND_ELIM AND_INTRO NOT_OR_ELIM
    IMPLIES_ELIM NOT_IMPLIES_ELIM1 NOT_IMPLIES_ELIM2 EQUIV_ELIM1 EQUIV_ELIM2 NOT_EQUIV_ELIM1
    NOT_EQUIV_ELIM2 XOR_ELIM1 XOR_ELIM2 NOT_XOR_ELIM1 NOT_XOR_ELIM2 ITE_ELIM1 ITE_ELIM2 NOT_ITE_ELIM1
    NOT_ITE_ELIM2 NOT_AND CNF_AND_POS CNF_AND_NEG CNF_OR_POS CNF_OR_NEG CNF_IMPLIES_POS
    CNF_IMPLIES_NEG1 CNF_IMPLIES_NEG2 CNF_EQUIV_POS1 CNF_EQUIV_POS2 CNF_EQUIV_NEG1 CNF_EQUIV_NEG2
    CNF_XOR_POS1 CNF_XOR_POS2 CNF_XOR_NEG1 CNF_XOR_NEG2 CNF_ITE_POS1 CNF_ITE_POS2 CNF_ITE_POS3
    CNF_ITE_NEG1 CNF_ITE_NEG2 CNF_ITE_NEG3 TRUE_INTRO TRUE_ELIM FALSE_INTRO FALSE_ELIM FACTORING
    REORDERING ARITH_MULT_POS ARITH_MULT_NEG ARITH_SUM_UB INT_TIGHT_UB INT_TIGHT_LB
    ARRAYS_READ_OVER_WRITE ARRAYS_READ_OVER_WRITE_CONTRA ARRAYS_READ_OVER_WRITE_1 SKOLEMIZE
""".split()
LONGEST = 200  # how many clauses one step of a chain resolves with
WITHOUT_ARGUMENTS = {"ARITH_SUM_UB", "ARITH_TRICHOTOMY", "ARRAYS_EXT", "SKOLEMIZE", "INT_TIGHT_UB", "INT_TIGHT_LB"}


class Rules:
    def __init__(self, converter):
        self.converter = converter
        self.terms = converter.terms
        self.clauses = Clauses(self.terms)
        self.arithmetic = Arithmetic(self.terms)
        self.booleans = Booleans(self.terms, converter.problem.sorts)
        self.rewrites = Rewrites(self)
        self.own = {
            "CONG": self.cong,
            "CHAIN_RESOLUTION": self.chain,
            "RESOLUTION": self.chain,
            "THEORY_REWRITE": self.rewrite,
            "EVALUATE": self.rewrite,
            "PREPROCESS": self.rewrite,
            "THEORY_PREPROCESS": self.rewrite,
            "REWRITE": self.rewrite,
            "SKOLEM_INTRO": self.refl,
            "REMOVE_TERM_FORMULA_AXIOM": self.ite_axiom,
            "INSTANTIATE": self.instantiate,
            "ARITH_TRICHOTOMY": self.same,
            "ARRAYS_EXT": self.same,
            "EQ_RESOLVE": self.eq_resolve,
            "ARITH_MULT_SIGN": self.sign,
            "THEORY_LEMMA": self.lemma,
            "THEORY_PREPROCESS_LEMMA": self.quotient,
            "TRUST_SUBS_EQ": self.consequence,
        }

    def needed(self, proof):
        """The premises that are written before a proof is."""
        rule, conclusion, premises, _ = self.converter.parts(proof)
        if rule == "CONG" and self.terms.head(self.terms.arguments(conclusion)[0]) in BINDERS:
            return ()  # they speak of variables outside their binder
        scaled = self.scaled_sum(proof)
        return premises if scaled is None else scaled[0]

    def write(self, proof):
        """Writes the steps of a proof, or none where no rule fits."""
        rule = self.converter.parts(proof)[0]
        if rule in self.own:
            self.own[rule](proof)
        elif rule in SAME:
            self.same(proof)

    def premises(self, proof):
        return [self.converter.fact(premise) for premise in self.converter.parts(proof)[2]]

    def arguments(self, proof):
        return [self.converter.normal(argument) for argument in self.converter.parts(proof)[3]]

    def same(self, proof):
        rule = self.converter.parts(proof)[0]
        arguments = () if rule in WITHOUT_ARGUMENTS else self.arguments(proof)
        self.converter.step(rule.lower(), self.converter.conclusion(proof), self.premises(proof), arguments)

    def refl(self, proof):
        conclusion = self.converter.conclusion(proof)
        left, right = self.terms.arguments(conclusion)
        if left == right:
            self.converter.step("refl", conclusion, (), (left,))

    def cong(self, proof):
        conclusion = self.converter.conclusion(proof)
        left, right = self.terms.arguments(conclusion)
        head = self.terms.head(left)
        if head in BINDERS:
            self.rewrites.write(conclusion)
            return
        parts, others = self.terms.arguments(left), self.terms.arguments(right)
        premises = self.premises(proof)
        if len(parts) != len(premises) or len(others) != len(parts):
            return
        if head == "distinct" and len(parts) > 2:
            return
        self.converter.step("nary_cong" if head in LISTS else "cong", conclusion, premises, (left,))

    def chain(self, proof):
        converter = self.converter
        conclusion = converter.conclusion(proof)
        clauses = [converter.conclusion(premise) for premise in converter.parts(proof)[2]]
        arguments = self.arguments(proof)
        steps = [(self.terms.nodes[polarity] == "true", pivot)
                 for polarity, pivot in zip(arguments[0::2], arguments[1::2])]
        names = self.premises(proof)
        if self.clauses.is_literals(self.clauses.chain(clauses, steps), conclusion):
            self.chains("chain_resolution", names, clauses, steps, conclusion)
        elif self.clauses.merged_chain(clauses, steps) in (
                set(self.clauses.literals(conclusion)), {conclusion}):
            self.chains("chain_m_resolution", names, clauses, steps, conclusion)

    def chains(self, rule, names, clauses, steps, conclusion):
        """Writes a chain, a long one in several steps: a rule's program calls itself for each clause."""
        while len(steps) > LONGEST:
            if rule == "chain_resolution":
                literals = self.clauses.chain(clauses[:LONGEST + 1], steps[:LONGEST])
            else:
                literals = sorted(self.clauses.merged_chain(clauses[:LONGEST + 1], steps[:LONGEST]))
            part = self.clauses.clause(literals)
            name = self.one_chain(rule, names[:LONGEST + 1], steps[:LONGEST], part)
            names, clauses, steps = [name] + names[LONGEST + 1:], [part] + clauses[LONGEST + 1:], steps[LONGEST:]
        self.one_chain(rule, names, steps, conclusion)

    def one_chain(self, rule, names, steps, conclusion):
        signs = ["true" if positive else "false" for positive, _ in steps]
        pivots = [pivot for _, pivot in steps]
        given = () if rule == "chain_resolution" else (conclusion,)
        return self.converter.step(rule, conclusion, names, given + (signs, pivots))

    def rewrite(self, proof):
        conclusion = self.converter.conclusion(proof)
        if self.terms.head(conclusion) == "=" and len(self.terms.arguments(conclusion)) == 2:
            self.rewrites.write(conclusion)

    def ite_axiom(self, proof):
        conclusion = self.converter.conclusion(proof)
        if self.terms.head(conclusion) == "ite":
            choice = self.terms.arguments(self.terms.arguments(conclusion)[1])[0]
            if self.terms.head(choice) == "ite":
                self.converter.step("ite_eq", conclusion, (), (choice,))

    def instantiate(self, proof):
        converter = self.converter
        premise = converter.conclusion(converter.parts(proof)[2][0])
        if self.terms.head(premise) == "forall":
            count = len(self.terms.nodes[self.terms.arguments(premise)[0]])
            values = list(self.arguments(proof)[:count])
            converter.step("instantiate", converter.conclusion(proof), self.premises(proof), (values,))

    def sign(self, proof):
        """The sign of a product. cvc5 writes the sign of one factor as it is, the rule as a list of one."""
        step, terms = self.converter.step, self.terms
        conclusion = self.converter.conclusion(proof)
        if terms.head(conclusion) != "=>":
            return
        signs, outcome = terms.arguments(conclusion)
        product = terms.arguments(outcome)[0]
        if terms.head(product) != "*":
            return
        together = signs if terms.head(signs) == "and" else terms.app("and", signs)
        listed = terms.app("=>", together, outcome)
        name = step("arith_mult_sign", listed, (), (together, product))
        if listed != conclusion:
            same = terms.app("=>", listed, conclusion)
            step("modus_ponens", conclusion, (name, step("bool_taut", same, (), (same,))))

    def quotient(self, proof):
        """What a quotient by a numeral is: `(and (<= (* n (div x n)) x) (< x (* n (+ (div x n) 1))))`."""
        terms, conclusion = self.terms, self.converter.conclusion(proof)
        if terms.head(conclusion) == "and":
            product = terms.arguments(terms.arguments(conclusion)[0])[0]
            last = terms.arguments(product)[-1:]
            if last and terms.head(last[0]) == "div" and self.rewrites.reduction(last[0]) == conclusion:
                self.converter.step("arith_reduction", conclusion, (), last)

    def consequence(self, proof):
        """What follows from one premise by truth tables."""
        converter, conclusion = self.converter, self.converter.conclusion(proof)
        premises = converter.parts(proof)[2]
        if len(premises) == 1:
            implied = self.terms.app("=>", converter.conclusion(premises[0]), conclusion)
            if self.booleans.is_tautology(implied):
                name = converter.step("bool_taut", implied, (), (implied,))
                converter.step("modus_ponens", conclusion, (converter.fact(premises[0]), name))

    # ---- lemmas of integers

    def lemma(self, proof):
        """That some bounds of integers have no solution together, which cvc5 says without a reason."""
        terms, converter = self.terms, self.converter
        conclusion = converter.conclusion(proof)
        if terms.head(conclusion) != "not":
            return
        together = terms.arguments(conclusion)[0]
        literals = list(terms.arguments(together)) if terms.head(together) == "and" else [together]
        never = refute(self.arithmetic, literals)
        if never is not None:
            converter.open_scope(literals)
            for bound in never.below():
                self.bound(bound)
            converter.close_scope(literals, terms.atom("false"), conclusion)

    def bound(self, bound):
        """Writes a bound, whose parts are written, and gives it its fact."""
        terms, step = self.terms, self.converter.step
        bound.formula = terms.atom("false")
        if bound.kind != "false":
            bound.formula = terms.app(bound.kind, self.arithmetic.sum(bound.polynomial), "0")
        said = bound.literal
        if said is None:
            # an upper bound each: what is at least 0 has a negative factor
            numerals = [terms.atom(str(-factor)) for _, factor in bound.parts]
            sides = [[terms.app("*", numeral, side) for numeral, (part, _) in zip(numerals, bound.parts)
                      for side in terms.arguments(part.formula)[place:place + 1]] for place in (0, 1)]
            said = terms.app("<=", terms.app("+", *sides[0]), terms.app("+", *sides[1]))
            names = [part.name for part, _ in bound.parts]
            bound.name = step("macro_arith_scale_sum_ub", said, names, (numerals,))
        else:
            bound.name = self.converter.known(said)
        if said != bound.formula:
            equal = terms.app("=", said, bound.formula)
            bound.name = step("eq_resolve", bound.formula, (bound.name, step("arith_rel_norm", equal, (), (equal,))))

    # ---- sums of bounds with factors that are fractions

    def scaled_sum(self, proof):
        """For a step that brings a sum of scaled bounds into normal form: the bounds, and the factors.

        The factors are made integers; the rules of the signatures have no others. None of any other step."""
        converter = self.converter
        rule, _, premises, _ = converter.parts(proof)
        if rule != "EQ_RESOLVE" or converter.parts(premises[0])[0] != "ARITH_SUM_UB":
            return None
        if self.arithmetic.relation(converter.conclusion(proof)) is None:
            return None
        bounds, factors = [], []
        for premise in converter.parts(premises[0])[2]:
            rule, _, inner, _ = converter.parts(premise)
            if rule != "MODUS_PONENS" or not converter.parts(inner[1])[0].startswith("ARITH_MULT_"):
                return None
            factor = self.arithmetic.number(converter.normal(converter.parts(inner[1])[3][0]))
            both = converter.parts(inner[0])
            if factor is None or both[0] != "AND_INTRO":
                return None
            bounds.append(both[2][1])
            factors.append(factor)
        return bounds, factors

    def eq_resolve(self, proof):
        scaled = self.scaled_sum(proof)
        if scaled is None:
            return self.same(proof)
        bounds, factors = scaled
        converter, terms = self.converter, self.terms
        common = 1
        for factor in factors:
            common = common * factor.denominator // gcd(common, factor.denominator)
        sides, strict = ([], []), False
        numerals = [terms.atom(str(int(factor * common))) for factor in factors]
        for bound, factor in zip(bounds, numerals):
            relation = converter.conclusion(bound)
            strict = strict or terms.head(relation) in ("<", ">")
            for side, part in zip(sides, terms.arguments(relation)):
                side.append(terms.app("*", factor, part))
        total = terms.app("<" if strict else "<=", terms.app("+", *sides[0]), terms.app("+", *sides[1]))
        conclusion = converter.conclusion(proof)
        names = [converter.fact(bound) for bound in bounds]
        added = converter.step("macro_arith_scale_sum_ub", total, names, (numerals,))
        equal = terms.app("=", total, conclusion)
        same = self.rewrites.write(equal)
        if same is not None:
            converter.step("eq_resolve", conclusion, (added, same))
