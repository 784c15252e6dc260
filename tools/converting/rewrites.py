"""Equations that cvc5's rewriter gives, by the rules of the signatures."""
from itertools import combinations

LISTS = {"and", "or", "+", "*"}  # heads with a terminator
BINDERS = {"forall", "exists"}
DEEPEST = 100  # how far equal parts are looked for


class Rewrites:
    def __init__(self, rules):
        self.converter = rules.converter
        self.terms = rules.terms
        self.arithmetic = rules.arithmetic
        self.booleans = rules.booleans
        self.depth = 0

    def write(self, conclusion):
        """Writes steps that conclude an equation, and gives its fact; None where no rule fits."""
        left, right = self.terms.arguments(conclusion)
        name = self.converter.known(conclusion)
        for attempt in (self.named, self.arithmetical, self.of_arrays, self.of_booleans, self.of_lists,
                        self.of_binders, self.of_parts):
            if name is not None:
                break
            attempt(conclusion, left, right)
            name = self.converter.known(conclusion)
        return name

    def equation(self, left, right):
        """The fact that two terms are equal; None where no rule fits."""
        return self.write(self.terms.app("=", left, right))

    def named(self, conclusion, left, right):
        step, nodes = self.converter.step, self.terms.nodes
        head, parts = self.terms.head(left), self.terms.arguments(left)
        others = self.terms.arguments(right)
        if left == right:
            step("refl", conclusion, (), (left,))
        elif head == "=" and self.terms.head(right) == "=" and len(parts) == 2 and others == parts[::-1]:
            step("eq_symm", conclusion, (), parts)
        elif head == "=" and len(parts) == 2 and parts[0] == parts[1] and nodes[right] == "true":
            step("eq_refl", conclusion, (), parts[:1])
        elif head == "not" and self.terms.head(parts[0]) == "not" and self.terms.arguments(parts[0]) == (right,):
            step("bool_double_not_elim", conclusion, (), (right,))
        elif head == "=>" and len(parts) == 2 and nodes[parts[1]] == "false" and right == self.terms.app("not", parts[0]):
            step("bool_impl_false1", conclusion, (), parts[:1])
        elif head == "distinct" and len(parts) == 2 and self.terms.head(right) == "not":
            if self.terms.arguments(others[0]) == parts:
                step("distinct_elim", conclusion, (), (left,))
            elif self.terms.arguments(others[0]) == parts[::-1]:
                other = self.terms.app("not", self.terms.app("=", *parts))
                first = step("distinct_elim", self.terms.app("=", left, other), (), (left,))
                turned = self.write(self.terms.app("=", self.terms.app("=", *parts), others[0]))
                second = step("cong", self.terms.app("=", other, right), (turned,), (other,))
                step("trans", conclusion, (first, second))
        elif head == "distinct" and len(parts) > 2 and self.terms.head(right) == "and":
            self.all_distinct(conclusion, left, right)
        elif head == "exists" and right == self.terms.app(
                "not", self.terms.app("forall", parts[0], self.terms.app("not", parts[1]))):
            step("exists_elim", conclusion, (), (left,))
        elif head == "ite" and nodes[parts[0]] == "true" and right == parts[1]:
            step("ite_true_cond", conclusion, (), parts[1:])
        elif head == "ite" and nodes[parts[0]] == "false" and right == parts[2]:
            step("ite_false_cond", conclusion, (), parts[1:])
        elif head == "ite" and self.terms.head(parts[0]) == "not" and self.terms.head(right) == "ite" and (
                others == (self.terms.arguments(parts[0])[0], parts[2], parts[1])):
            step("ite_not_cond", conclusion, (), others[:1] + parts[1:])
        elif head == "ite" and right == self.terms.app("ite", parts[0], parts[1], self.branch(parts, 2)):
            step("ite_else_lookahead", conclusion, (), parts[:2] + self.terms.arguments(parts[2])[1:])
        elif head == "ite" and right == self.terms.app("ite", parts[0], self.branch(parts, 1), parts[2]):
            step("ite_then_lookahead", conclusion, (), parts[:1] + self.terms.arguments(parts[1])[1:] + parts[2:])
        elif head == "ite" and parts[1] == parts[2] == right:
            step("ite_eq_branch", conclusion, (), parts[:2])

    def branch(self, parts, place):
        """What a branch of a choice comes to where it makes the same choice."""
        inner = parts[place]
        if self.terms.head(inner) == "ite" and self.terms.arguments(inner)[0] == parts[0]:
            return self.terms.arguments(inner)[place]
        return inner

    def all_distinct(self, conclusion, left, right):
        """`distinct` of several is that each two are not equal, in whichever order cvc5 writes these."""
        terms, step = self.terms, self.converter.step
        pairs = list(combinations(terms.arguments(left), 2))
        items = [terms.app("not", terms.app("=", *pair)) for pair in pairs]
        others = terms.arguments(right)
        plain = terms.app("and", *items)
        first = step("distinct_elim", terms.app("=", left, plain), (), (left,))
        if plain == right or len(others) != len(items):
            return
        turned = []
        for (one, two), item, other in zip(pairs, items, others):
            equal = terms.app("=", item, other)
            if item == other:
                turned.append(step("refl", equal, (), (item,)))
            elif other == terms.app("not", terms.app("=", two, one)):
                inner = terms.app("=", terms.app("=", one, two), terms.app("=", two, one))
                turned.append(step("cong", equal, (step("eq_symm", inner, (), (one, two)),), (item,)))
            else:
                return
        second = step("nary_cong", terms.app("=", plain, right), turned, (plain,))
        step("trans", conclusion, (first, second))

    def arithmetical(self, conclusion, left, right):
        arithmetic = self.arithmetic
        mine, other = arithmetic.relation(left), arithmetic.relation(right)
        if mine is not None and mine == other and not self.terms.is_atom(left):
            self.converter.step("arith_rel_norm", conclusion, (), (conclusion,))
        elif self.terms.head(left) in ("+", "-", "*") and arithmetic.same_polynomial(left, right):
            self.converter.step("arith_poly_norm", conclusion, (), (conclusion,))
        elif arithmetic.value(left) is not None and arithmetic.value(left) == arithmetic.number(right):
            self.converter.step("evaluate", conclusion, (), (left,))
        elif self.terms.head(left) in ("mod", "abs") and conclusion == self.reduction(left):
            self.converter.step("arith_reduction", conclusion, (), (left,))
        elif self.terms.head(left) == "=" and self.terms.head(right) == "and" and mine is not None:
            self.two_bounds(conclusion, left, right)

    def reduction(self, term):
        """What `arith_reduction` concludes of a quotient by a positive numeral, a remainder or an absolute value."""
        app, parts = self.terms.app, self.terms.arguments(term)
        if self.terms.head(term) == "div":
            below, above = app("*", parts[1], term), app("*", parts[1], app("+", term, "1"))
            return app("and", app("<=", below, parts[0]), app("<", parts[0], above))
        if self.terms.head(term) == "mod":
            return app("=", term, app("-", parts[0], app("*", parts[1], app("div", *parts))))
        zero = self.terms.atom("0")
        return app("=", term, app("ite", app("<", parts[0], zero), app("-", zero, parts[0]), parts[0]))

    def two_bounds(self, conclusion, left, right):
        """An equation of integers is a bound from below and one from above, in either order."""
        app, step = self.terms.app, self.converter.step
        parts, others = self.terms.arguments(left), self.terms.arguments(right)
        bounds = [app(">=", *parts), app("<=", *parts)]
        if len(others) != 2:
            return
        plain = app("and", *bounds)
        first = step("arith_eq_elim_int", app("=", left, plain), (), parts)
        if self.arithmetic.relation(bounds[0]) != self.arithmetic.relation(others[0]):
            turned = app("and", *reversed(bounds))
            second = self.equation(plain, turned)
            first = second and step("trans", app("=", left, turned), (first, second))
            bounds.reverse()
            plain = turned
        equal = [self.equation(bound, other) for bound, other in zip(bounds, others)]
        if first is not None and None not in equal:
            second = step("nary_cong", app("=", plain, right), equal, (plain,))
            step("trans", conclusion, (first, second))

    def of_arrays(self, conclusion, left, right):
        if self.terms.head(left) == "store":
            array, index, value = self.terms.arguments(left)
            if self.terms.head(array) == "store" and self.terms.arguments(array)[1] == index:
                inner, _, before = self.terms.arguments(array)
                if right == self.terms.app("store", inner, index, value):
                    self.converter.step("array_store_overwrite", conclusion, (), (inner, index, before, value))
        elif self.terms.head(left) == "select":
            array, index = self.terms.arguments(left)
            if self.terms.head(array) == "store":
                inner, written, value = self.terms.arguments(array)
                if written == index and value == right:
                    self.converter.step("arrays_read_over_write_1", conclusion, (), (left,))
                elif value == right and self.arithmetic.same_polynomial(written, index):
                    self.read_where_written(conclusion, left, written)
                elif right == self.terms.app("select", inner, index):
                    apart = self.apart(written, index)
                    if apart is not None:
                        self.converter.step("arrays_read_over_write", conclusion, (apart,), (left,))

    def read_where_written(self, conclusion, left, written):
        """A value is read with another term of the same index."""
        app, step = self.terms.app, self.converter.step
        array, index = self.terms.arguments(left)
        other = app("select", array, written)
        same = [self.equation(array, array), self.equation(index, written)]
        if None not in same:
            first = step("cong", app("=", left, other), same, (left,))
            value = self.terms.arguments(conclusion)[1]
            second = step("arrays_read_over_write_1", app("=", other, value), (), (other,))
            step("trans", conclusion, (first, second))

    def apart(self, left, right):
        """The fact that two terms are not equal, where arithmetic says so."""
        equal = self.terms.app("=", left, right)
        if self.arithmetic.relation(equal) is not False:
            return None
        never = self.write(self.terms.app("=", equal, self.terms.atom("false")))
        return self.converter.step("false_elim", self.terms.app("not", equal), (never,))

    def of_booleans(self, conclusion, left, right):
        if self.booleans.is_bool(left) and self.booleans.is_tautology(conclusion):
            self.converter.step("bool_taut", conclusion, (), (conclusion,))

    def of_lists(self, conclusion, left, right):
        """The same formulas in nested `and` or `or`, in another order or more than once."""
        head = self.terms.head(left)
        if head in ("and", "or"):
            neutral = "true" if head == "and" else "false"
            if self.items(head, neutral, left) == self.items(head, neutral, right):
                self.converter.step("aci_norm", conclusion, (), (conclusion,))
            elif self.terms.nodes[right] == ("false" if head == "and" else "true"):
                if right in self.items(head, neutral, left):
                    self.converter.step("absorb", conclusion, (), (conclusion,))

    def of_binders(self, conclusion, left, right):
        """Formulas under the same binders that are the same part by part."""
        if BINDERS.isdisjoint((self.terms.head(left), self.terms.head(right))):
            return
        if self.is_same(left, right, False):
            self.converter.step("quant_bool_taut", conclusion, (), (conclusion,))
        elif self.is_same(left, right, True):
            self.by_sums(conclusion, left, right)

    def by_sums(self, conclusion, left, right):
        """The same but for comparisons: first without `=>`, which the rule does not go into."""
        plain, other = self.without_implications(left), self.without_implications(right)
        chain = [(left, plain, "quant_bool_taut"), (plain, other, "quant_arith_norm"),
                 (other, right, "quant_bool_taut")]
        names = []
        for one, two, rule in chain:
            if one != two:
                equal = self.terms.app("=", one, two)
                names.append(self.converter.step(rule, equal, (), (equal,)))
        if len(names) > 1:
            self.converter.step("trans", conclusion, names)

    def without_implications(self, term):
        node, head, app = self.terms.nodes[term], self.terms.head(term), self.terms.app
        if head in BINDERS:
            return app(head, node[1], self.without_implications(node[2]))
        if head == "=>" and len(node) == 3:
            return app("or", app("not", self.without_implications(node[1])), self.without_implications(node[2]))
        if head in ("not", "and", "or"):
            return app(head, *map(self.without_implications, node[1:]))
        return term

    def is_same(self, left, right, by_sums):
        """Whether two formulas are the same part by part by truth tables and, if wanted, as comparisons."""
        if left == right or self.booleans.is_tautology(self.terms.app("=", left, right)):
            return True
        relation = self.arithmetic.relation(left) if by_sums else None
        if relation is not None and relation == self.arithmetic.relation(right):
            return True
        mine, other = self.terms.nodes[left], self.terms.nodes[right]
        if isinstance(mine, str) or isinstance(other, str) or len(mine) != len(other) or mine[0] != other[0]:
            return False
        head = self.terms.nodes[mine[0]]
        if head in BINDERS:
            return mine[1] == other[1] and self.is_same(mine[2], other[2], by_sums)
        return head in ("not", "and", "or", "=>") and all(
            self.is_same(one, two, by_sums) for one, two in zip(mine[1:], other[1:]))

    def of_parts(self, conclusion, left, right):
        """The same head, with equal parts."""
        head = self.terms.head(left)
        parts, others = self.terms.arguments(left), self.terms.arguments(right)
        if head is None or head in BINDERS or head != self.terms.head(right) or len(parts) != len(others):
            return
        if head == "distinct" and len(parts) > 2 or self.depth > DEEPEST:
            return
        self.depth += 1
        equal = []
        for part, other in zip(parts, others):
            equal.append(self.equation(part, other))
            if equal[-1] is None:
                break
        self.depth -= 1
        if None not in equal:
            self.converter.step("nary_cong" if head in LISTS else "cong", conclusion, equal, (left,))

    def items(self, head, neutral, term):
        found, stack, seen = set(), [term], set()
        while stack:
            top = stack.pop()
            if top in seen:
                continue
            seen.add(top)
            if self.terms.head(top) == head:
                stack += self.terms.arguments(top)
            elif self.terms.nodes[top] != neutral:
                found.add(top)
        return found
