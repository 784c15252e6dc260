"""A second reader of the language, to try rules with: slow, short, and independent of the product.

It has what signatures/ uses: constants with attributes, macros, programs, rules, facts and scopes. It
knows no limits and no files of the command line, and what it accepts proves nothing: examples/run
tries the same files on the product.
"""

import os
import sys

sys.setrecursionlimit(100000)


class Stuck(Exception):
    """A term has no value."""


class Refused(Exception):
    """A command is not accepted."""


# ---- terms: equal trees are one object

_table = {}


class Node:
    __slots__ = ("kind", "a", "b", "c", "value", "closed")

    def __repr__(self):
        return show(self)


def make(kind, a=None, b=None, c=None):
    key = (kind, a, b, c)
    node = _table.get(key)
    if node is None:
        node = Node()
        node.kind, node.a, node.b, node.c = kind, a, b, c
        parts = [p for p in ((a, b, c) if kind != "op" else b) if isinstance(p, Node)]
        node.closed = kind != "par" and all(p.closed for p in parts)
        node.value = kind not in ("par", "op", "qar") and all(p.value for p in parts)
        _table[key] = node
    return node


def con(name):
    return make("con", name)


def num(n):
    return make("num", n)


def app(f, *xs):
    for x in xs:
        f = make("app", f, x)
    return f


TYPE, BOOL, TRUE, FALSE = con("Type"), con("Bool"), con("true"), con("false")


def boolean(b):
    return TRUE if b else FALSE


def show(t):
    if t.kind in ("con", "par"):
        return str(t.a)
    if t.kind == "num":
        return str(t.a)
    if t.kind == "bits":
        return "#b" + format(t.b, "0%db" % t.a)
    if t.kind == "str":
        return '"' + t.a + '"'
    if t.kind == "var":
        return '(eo::var "%s" %s)' % (t.a, show(t.b))
    if t.kind == "arr":
        return "(-> %s %s)" % (show(t.a), show(t.b))
    if t.kind == "app":
        args = []
        while t.kind == "app":
            args.append(show(t.b))
            t = t.a
        return "(_ %s %s)" % (show(t), " ".join(reversed(args)))
    if t.kind == "op":
        return "(%s %s)" % (t.a, " ".join(show(x) for x in t.b))
    return "(%s ..)" % t.kind


# ---- texts to trees of lists and words

def tokens(text):
    i, n = 0, len(text)
    while i < n:
        c = text[i]
        if c in " \t\r\n":
            i += 1
        elif c == ";":
            while i < n and text[i] not in "\r\n":
                i += 1
        elif c in "()":
            yield c
            i += 1
        elif c == '"':
            j = i + 1
            while text[j] != '"' or text[j + 1 : j + 2] == '"':
                j += 2 if text[j] == '"' else 1
            yield ("str", text[i + 1 : j].replace('""', '"'))
            i = j + 1
        elif c == "|":
            j = text.index("|", i + 1)
            yield ("sym", text[i + 1 : j])
            i = j + 1
        else:
            j = i
            while j < n and text[j] not in ' \t\r\n()";|':
                j += 1
            word = text[i:j]
            i = j
            if word[0] == ":":
                yield ("key", word)
            elif word[0].isdigit() or word[0] == "#" or (word[0] == "-" and word[1:2].isdigit()):
                yield ("lit", word)
            else:
                yield ("sym", word)


def commands(text):
    """The commands of a file; a proof's `unsat` and outer pair are passed over."""
    stack = [[]]
    for t in tokens(text):
        if t == "(":
            stack.append([])
        elif t == ")":
            done = stack.pop()
            stack[-1].append(done)
        else:
            stack[-1].append(t)
    top = stack[0]
    if top and top[0] == ("sym", "unsat"):
        top = top[1:]
    if len(top) == 1 and top[0] and isinstance(top[0][0], list):
        top = top[0]
    return top


# ---- what is declared

class Session:
    def __init__(self, closed=False):
        self.constants = {n: (TYPE if n in ("Type", "Bool") else BOOL, [], None) for n in ("Type", "Bool", "true", "false")}
        self.macros, self.programs, self.rules, self.classes = {}, {}, {}, {}
        self.asserted, self.facts, self.scopes, self.included = set(), {}, [], set()
        self.types, self.sorry, self.in_proof, self.closed = {}, False, False, closed

    # -- meaning of terms

    def term(self, s, local, lists=frozenset()):
        if isinstance(s, tuple):
            kind, word = s
            if kind == "str":
                return make("str", word)
            if kind == "lit":
                if word.startswith("#b"):
                    return make("bits", len(word) - 2, int(word[2:], 2))
                if word.startswith("#x"):
                    return make("bits", 4 * (len(word) - 2), int(word[2:], 16))
                return num(int(word))
            if word in local:
                return local[word]
            if word in self.macros and not self.macros[word][0]:
                return self.macros[word][1]
            if word in self.constants:
                return con(word)
            raise Refused("unknown symbol " + word)
        if len(s) < 2:
            raise Refused("BadArity")
        head = s[0]
        if isinstance(head, tuple) and head[0] == "sym" and head[1] not in local:
            word = head[1]
            if word == "let":
                inner = dict(local)
                for (name, body) in s[1]:
                    inner[name[1]] = self.term(body, local, lists)
                return self.term(s[2], inner, lists)
            if word == "!":
                return self.term(s[1], local, lists)
            if word == "_":
                return app(*[self.term(x, local, lists) for x in s[1:]])
            if word == "->":
                parts = [self.term(x, local, lists) for x in s[1:]]
                out = parts[-1]
                for p in reversed(parts[:-1]):
                    out = make("arr", p, out)
                return out
            if word.startswith("eo::"):
                args = tuple(self.term(x, local, lists) for x in s[1:])
                if len(args) != OPERATORS[word]:
                    raise Refused("BadArity of " + word)
                return make("op", word, args)
            if word in self.programs:
                args = tuple(self.term(x, local, lists) for x in s[1:])
                if len(args) != len(self.programs[word][1]):
                    raise Refused("BadArity of " + word)
                return make("op", word, args)
            if word in self.macros and self.macros[word][0]:
                pars, body = self.macros[word]
                if len(pars) != len(s) - 1:
                    raise Refused("BadArity of " + word)
                return put(body, {p: self.term(x, local, lists) for p, x in zip(pars, s[1:])})
        h = self.term(head, local, lists)
        if h.kind == "con" and self.constants[h.a][2]:
            attribute, with_ = self.constants[h.a][2]
            if attribute == ":binder" and isinstance(s[1], list) and s[1] and isinstance(s[1][0], list):
                inner, xs = dict(local), []
                for (name, ty) in s[1]:
                    v = make("var", name[1], self.term(ty, local, lists))
                    inner[name[1]] = v
                    xs.append(v)
                return app(h, self.fold(with_, xs, lists), *[self.term(x, inner, lists) for x in s[2:]])
        return self.fold(h, [self.term(x, local, lists) for x in s[1:]], lists)

    def fold(self, f, args, lists):
        attribute, with_ = (self.constants[f.a][2] or (None, None)) if f.kind == "con" else (None, None)
        if attribute == ":right-assoc-nil":
            tail = with_
            if args[-1] in lists:
                tail = args[-1]
                args = args[:-1]
            for a in reversed(args):
                tail = make("op", "eo::list_concat", (f, a, tail)) if a in lists else app(f, a, tail)
            return tail
        if attribute == ":left-assoc-nil":
            out = with_
            for a in args:
                out = app(f, out, a)
            return out
        if attribute in (":right-assoc", ":left-assoc", ":chainable", ":pairwise") and len(args) < 2:
            raise Refused("BadArity")
        if attribute == ":right-assoc":
            out = args[-1]
            for a in reversed(args[:-1]):
                out = app(f, a, out)
            return out
        if attribute == ":left-assoc":
            out = args[0]
            for a in args[1:]:
                out = app(f, out, a)
            return out
        if attribute in (":chainable", ":pairwise") and len(args) > 2:
            n = len(args)
            pairs = [(i, i + 1) for i in range(n - 1)] if attribute == ":chainable" else [(i, j) for i in range(n) for j in range(i + 1, n)]
            return self.fold(with_, [app(f, args[i], args[j]) for i, j in pairs], lists)
        return app(f, *args)

    # -- types

    def type_of(self, t):
        if t in self.types:
            return self.types[t]
        ty, pars = self.open_type(t)
        if ty is not None and not ty.value:
            ty = None
        self.types[t] = ty
        return ty

    def open_type(self, t):
        if t.kind == "con":
            return self.constants[t.a][0], {}
        if t.kind == "var":
            return (t.b if self.type_of(t.b) is TYPE else None), {}
        if t.kind == "arr":
            return (TYPE if self.type_of(t.a) is TYPE and self.type_of(t.b) is TYPE else None), {}
        if t.kind in ("num", "bits", "str"):
            ty = self.classes.get(t.kind)
            if ty is None:
                return None, {}
            try:
                return self.evaluate(put(ty, {make("par", "eo::self"): t})), {}
            except Stuck:
                return None, {}
        if t.kind == "app":
            x = self.type_of(t.b)
            f, _ = self.open_type(t.a)
            if x is None or f is None:
                return None, {}
            if f.kind == "arr":
                found = {}
                if not match(f.a, x, found):
                    return None, {}
                return self.settle(put(f.b, found)), {}
            if f.kind == "qar":
                found = {}
                if not match(f.b, x, found):
                    return None, {}
                found[f.a] = t.b
                return self.settle(put(f.c, found)), {}
        return None, {}

    def settle(self, t):
        if t is None or t.kind in ("con", "num", "str", "bits", "par", "var"):
            return t
        if t.kind == "op":
            args = tuple(self.settle(x) for x in t.b)
            t = make("op", t.a, args)
            if any(x is None for x in args):
                return None
            try:
                return self.evaluate(t) if t.closed else t
            except Stuck:
                return None
        parts = [self.settle(x) for x in (t.a, t.b, t.c)[1 if t.kind == "qar" else 0 :] if x is not None]
        if any(p is None for p in parts):
            return None
        return make(t.kind, *(([t.a] if t.kind == "qar" else []) + parts))

    # -- values

    def evaluate(self, t):
        self.memo = {}
        return self.eval(t)

    def eval(self, t):
        if t.value:
            return t
        if t.kind == "qar" or t.kind == "par":
            raise Stuck(show(t))
        if t.kind != "op":
            return make(t.kind, self.eval(t.a), self.eval(t.b) if isinstance(t.b, Node) else t.b)
        op, args = t.a, t.b
        if op == "eo::ite":
            c = self.eval(args[0])
            if c is TRUE:
                return self.eval(args[1])
            if c is FALSE:
                return self.eval(args[2])
            raise Stuck("ite")
        if op == "eo::requires":
            a, b = self.eval(args[0]), self.eval(args[1])
            if a is not b:
                raise Stuck("requires %s %s" % (show(a), show(b)))
            return self.eval(args[2])
        if op in ("eo::is_eq", "eo::is_ok"):
            values = []
            for x in args:
                try:
                    values.append(self.eval(x))
                except Stuck:
                    values.append(None)
            return boolean(values[0] is not None and (op == "eo::is_ok" or values[0] is values[1]))
        args = tuple(self.eval(x) for x in args)
        if op.startswith("eo::"):
            return operator(self, op, args)
        if (op, args) in self.memo:
            known = self.memo[(op, args)]
            if known is None:
                raise Stuck("call of %s" % op)
            return known
        self.memo[(op, args)] = None
        for patterns, body in self.programs[op][2]:
            found = {}
            if all(match(p, x, found) for p, x in zip(patterns, args)):
                value = self.eval(put(body, found))
                self.memo[(op, args)] = value
                return value
        raise Stuck("no case of %s for %s" % (op, " ".join(map(show, args))))

    # -- uses of rules

    def conclude(self, rule, premises, args, assumption=None):
        r = self.rules[rule]
        found = {}
        patterns, terms = [], []
        if (r["assumption"] is None) != (assumption is None):
            raise Refused("WrongKind")
        if assumption is not None:
            patterns.append(r["assumption"])
            terms.append(assumption)
        if r["joined"] is not None:
            pattern, f = r["joined"]
            tail = self.constants[f.a][2][1]
            for p in reversed(premises):
                tail = app(f, p, tail)
            patterns.append(pattern)
            terms.append(tail)
        else:
            if len(premises) != len(r["premises"]):
                raise Refused("PremiseMismatch")
            patterns += r["premises"]
            terms += premises
        if len(args) != len(r["args"]):
            raise Refused("PremiseMismatch")
        patterns += r["args"]
        terms += args
        if not all(match(p, t, found) for p, t in zip(patterns, terms)):
            raise Refused("PremiseMismatch")
        for par, ty in reversed(r["params"]):
            if par not in found:
                continue
            have = self.type_of(found[par])
            want = self.settle(put(ty, found))
            if have is None or want is None or not match(want, have, found):
                raise Refused("IllTyped")
        body = put(r["conclusion"], found)
        for a, b in reversed(r["requires"]):
            body = make("op", "eo::requires", (put(a, found), put(b, found), body))
        value = self.evaluate(body)
        ty = self.type_of(value)
        if ty is None:
            raise Refused("IllTyped")
        if ty is not BOOL:
            raise Refused("NotBool")
        if r["sorry"]:
            self.sorry = True
        return value

    # -- commands

    def params(self, s):
        local, lists, out = {}, set(), []
        for p in s:
            par = make("par", p[0][1], len(out))
            ty = self.term(p[1], local, frozenset(lists))
            keys = {k[1] for k in p[2:]}
            local[p[0][1]] = par
            if ":list" in keys:
                lists.add(par)
            out.append((par, ty))
        return local, frozenset(lists), out

    def attribute(self, s, local):
        if not s:
            return None
        word = s[0][1]
        return (word, self.term(s[1], local) if len(s) > 1 else None)

    def declare(self, name, ty, params=(), attribute=None):
        if name in self.constants:
            if self.constants[name][0] is ty:
                return
            raise Refused("Redeclared " + name)
        if name in self.macros or name in self.programs:
            raise Refused("Redeclared " + name)
        self.constants[name] = (ty, params, attribute)

    def command(self, s, folder):
        word = s[0][1]
        if word == "include":
            path = os.path.normpath(os.path.join(folder, s[1][1]))
            if path not in self.included:
                self.run(path)
        elif word == "declare-const":
            self.declare(s[1][1], self.evaluate(self.term(s[2], {})), (), self.attribute(s[3:], {}))
        elif word == "declare-fun":
            ty = self.term(s[3], {})
            for a in reversed(s[2]):
                ty = make("arr", self.term(a, {}), ty)
            self.declare(s[1][1], self.evaluate(ty))
        elif word == "declare-sort":
            ty = TYPE
            for _ in range(int(s[2][1])):
                ty = make("arr", TYPE, ty)
            self.declare(s[1][1], ty)
        elif word == "declare-parameterized-const":
            local, _, pars = self.params(s[2])
            ty = self.term(s[3], local)
            for (par, t), p in reversed(list(zip(pars, s[2]))):
                if ("key", ":implicit") not in p:
                    ty = make("qar", par, t, ty)
            self.declare(s[1][1], ty, pars, self.attribute(s[4:], local))
        elif word == "declare-consts":
            kind = {"<numeral>": "num", "<binary>": "bits", "<string>": "str"}[s[1][1]]
            self.classes[kind] = self.term(s[2], {"eo::self": make("par", "eo::self")})
        elif word in ("define", "define-fun", "define-sort"):
            local, lists, pars = self.params(s[2] if word != "define-sort" else [[p, ("sym", "Type")] for p in s[2]])
            body = self.term(s[-1], local, lists)
            if s[1][1] in self.macros and self.macros[s[1][1]] != ([p for p, _ in pars], body):
                raise Refused("Redeclared " + s[1][1])
            self.macros[s[1][1]] = ([p for p, _ in pars], body)
        elif word == "program":
            if self.in_proof and self.closed:
                raise Refused("ProofDeclares")
            local, lists, _ = self.params(s[2])
            if s[1][1] in self.programs or s[1][1] in self.constants:
                raise Refused("Redeclared " + s[1][1])
            self.programs[s[1][1]] = (s[1][1], s[4], [])
            for left, body in s[6]:
                if left[0][1] != s[1][1] or len(left) - 1 != len(s[4]):
                    raise Refused("BadCommand: case of " + s[1][1])
                patterns = [self.term(x, local, lists) for x in left[1:]]
                if any(has_op(p) for p in patterns):
                    raise Refused("BadPattern in " + s[1][1])
                tree = self.term(body, local, lists)
                bound = set().union(*[pars_of(p) for p in patterns])
                if not pars_of(tree) <= bound:
                    raise Refused("UnboundParam in %s: %s" % (s[1][1], pars_of(tree) - bound))
                self.programs[s[1][1]][2].append((patterns, tree))
        elif word == "declare-rule":
            self.declare_rule(s)
        elif word == "assert":
            t = s[1]
            value = self.evaluate(self.term(t, {}))
            self.asserted.add(value)
            self.names(t)
        elif word == "assume":
            t = self.evaluate(self.term(s[2], {}))
            if t not in self.asserted:
                raise Refused("NotAsserted")
            self.add_fact(s[1][1], t)
        elif word == "assume-push":
            t = self.evaluate(self.term(s[2], {}))
            if self.type_of(t) is not BOOL:
                raise Refused("NotBool")
            self.scopes.append((dict(self.facts), dict(self.macros), t))
            self.add_fact(s[1][1], t)
        elif word in ("step", "step-pop"):
            self.step(s, word == "step-pop")
        elif word in ("set-logic", "set-info", "set-option", "check-sat", "get-model", "exit", "get-proof"):
            pass
        else:
            raise Refused("UnknownCommand " + word)

    def names(self, s):
        if isinstance(s, list):
            for x in s:
                self.names(x)
            if s and s[0] == ("sym", "!") and ("key", ":named") in s:
                self.macros[s[s.index(("key", ":named")) + 1][1]] = ([], self.term(s[1], {}))

    def add_fact(self, name, t):
        if name in self.facts:
            raise Refused("Redeclared fact " + name)
        self.facts[name] = t

    def step(self, s, pop):
        rest = s[2:]
        stated = None
        if rest[0][0] != "key":
            stated = rest[0]
            rest = rest[1:]
        keys = {rest[i][1]: rest[i + 1] for i in range(0, len(rest), 2)}
        rule = keys[":rule"][1]
        if rule not in self.rules:
            raise Refused("UnknownRule " + rule)
        premises = []
        for p in keys.get(":premises", []):
            if p[1] not in self.facts:
                raise Refused("UnknownPremise " + p[1])
            premises.append(self.facts[p[1]])
        if stated is not None:
            stated = self.evaluate(self.term(stated, {}))
        args = [self.evaluate(self.term(x, {})) for x in keys.get(":args", [])]
        assumption = self.scopes[-1][2] if pop else None
        value = self.conclude(rule, premises, args, assumption)
        if stated is not None and stated is not value:
            raise Refused("ConclusionDiffers: %s" % show(value))
        if pop:
            self.facts, self.macros, _ = self.scopes.pop()
        self.add_fact(s[1][1], value)

    def declare_rule(self, s):
        name = s[1][1]
        if self.in_proof and self.closed:
            raise Refused("ProofDeclares")
        if name in self.rules:
            raise Refused("Redeclared rule " + name)
        local, lists, pars = self.params(s[2])
        keys, i = {}, 3
        while i < len(s):
            k = s[i][1]
            n = {":sorry": 0, ":premise-list": 2}.get(k, 1)
            keys[k] = s[i + 1 : i + 1 + n]
            i += 1 + n
        read = lambda x: self.term(x, local, lists)
        rule = {"params": pars, "premises": [], "joined": None, "assumption": None, "sorry": ":sorry" in keys}
        if ":assumption" in keys:
            rule["assumption"] = read(keys[":assumption"][0])
        if ":premises" in keys:
            rule["premises"] = [read(x) for x in keys[":premises"][0]]
        if ":premise-list" in keys:
            rule["joined"] = (read(keys[":premise-list"][0]), read(keys[":premise-list"][1]))
        rule["args"] = [read(x) for x in keys[":args"][0]] if ":args" in keys else []
        rule["requires"] = [(read(a), read(b)) for a, b in keys[":requires"][0]] if ":requires" in keys else []
        rule["conclusion"] = read(keys[":conclusion"][0])
        patterns = rule["premises"] + rule["args"] + [x for x in [rule["assumption"]] if x] + ([rule["joined"][0]] if rule["joined"] else [])
        if any(has_op(p) for p in patterns):
            raise Refused("BadPattern in rule " + name)
        solved = set().union(*[pars_of(p) for p in patterns]) if patterns else set()
        for par, ty in reversed(pars):
            if par in solved:
                solved |= pars_of(ty)
        used = pars_of(rule["conclusion"]).union(*[pars_of(a) | pars_of(b) for a, b in rule["requires"]])
        if not used <= solved:
            raise Refused("UnboundParam in rule %s: %s" % (name, used - solved))
        self.rules[name] = rule

    def run(self, path):
        self.included.add(os.path.normpath(path))
        with open(path) as f:
            text = f.read()
        for s in commands(text):
            try:
                self.command(s, os.path.dirname(path))
            except (Refused, Stuck) as e:
                raise Refused("%s in %s of %s" % (e, " ".join(str(x[1]) if isinstance(x, tuple) else ".." for x in s[:4]), path))


def check(include, reference, proof, closed=True):
    session = Session(closed)
    session.run(include)
    if reference:
        session.run(reference)
    session.in_proof = True
    session.run(proof)
    if session.scopes:
        raise Refused("ScopeOpen")
    if not any(t is FALSE for t in session.facts.values()):
        raise Refused("NoRefutation")
    return "incomplete" if session.sorry else "correct"


# ---- matching and substitution

def match(p, t, found):
    if p.kind == "par":
        if p in found:
            return found[p] is t
        found[p] = t
        return True
    if p is t and p.closed:
        return True
    if p.kind != t.kind:
        return False
    if p.kind == "app" or p.kind == "arr":
        return match(p.a, t.a, found) and match(p.b, t.b, found)
    if p.kind == "var":
        return p.a == t.a and match(p.b, t.b, found)
    return False


def put(t, found, memo=None):
    if t.closed or not found:
        return t
    memo = {} if memo is None else memo
    if t in memo:
        return memo[t]
    if t.kind == "par":
        out = found.get(t, t)
    elif t.kind == "op":
        out = make("op", t.a, tuple(put(x, found, memo) for x in t.b))
    elif t.kind == "qar":
        out = make("qar", t.a, put(t.b, found, memo), put(t.c, found, memo))
    elif t.kind == "var":
        out = make("var", t.a, put(t.b, found, memo))
    else:
        out = make(t.kind, put(t.a, found, memo), put(t.b, found, memo))
    memo[t] = out
    return out


def parts_of(t):
    return t.b if t.kind == "op" else [x for x in (t.a, t.b, t.c) if isinstance(x, Node)]


def has_op(t):
    return t.kind == "op" or any(has_op(x) for x in parts_of(t))


def pars_of(t):
    if t.kind == "par":
        return {t}
    return set().union(*[pars_of(x) for x in parts_of(t)]) if not t.closed else set()


# ---- operators

OPERATORS = {
    "eo::ite": 3, "eo::requires": 3, "eo::is_eq": 2, "eo::is_ok": 1, "eo::typeof": 1, "eo::var": 2, "eo::nameof": 1,
    "eo::is_z": 1, "eo::is_bin": 1, "eo::is_str": 1, "eo::is_bool": 1, "eo::is_var": 1, "eo::and": 2, "eo::or": 2,
    "eo::xor": 2, "eo::not": 1, "eo::add": 2, "eo::mul": 2, "eo::neg": 1, "eo::zdiv": 2, "eo::zmod": 2,
    "eo::is_neg": 1, "eo::gt": 2, "eo::len": 1, "eo::nil": 1, "eo::cons": 3, "eo::list_len": 2, "eo::list_concat": 3,
    "eo::list_nth": 3, "eo::list_find": 3, "eo::list_rev": 2, "eo::list_erase": 3, "eo::list_setof": 2,
    "eo::list_minclude": 3,
}


def items(session, f, t):
    if f.kind != "con" or not session.constants[f.a][2] or session.constants[f.a][2][0] != ":right-assoc-nil":
        raise Stuck("no list constant " + show(f))
    nil, out = session.constants[f.a][2][1], []
    while t is not nil:
        if t.kind != "app" or t.a.kind != "app" or t.a.a is not f:
            raise Stuck("no list: " + show(t))
        out.append(t.a.b)
        t = t.b
    return out, nil


def spell(f, xs, nil):
    for x in reversed(xs):
        nil = app(f, x, nil)
    return nil


def operator(session, op, args):
    kinds = [x.kind for x in args]
    if op == "eo::typeof":
        ty = session.type_of(args[0])
        if ty is None:
            raise Stuck("no type of " + show(args[0]))
        return ty
    if op == "eo::var":
        if kinds[0] != "str":
            raise Stuck(op)
        return make("var", args[0].a, args[1])
    if op == "eo::nameof" and kinds[0] == "var":
        return make("str", args[0].a)
    if op in ("eo::is_z", "eo::is_bin", "eo::is_str", "eo::is_var"):
        return boolean(kinds[0] == {"eo::is_z": "num", "eo::is_bin": "bits", "eo::is_str": "str", "eo::is_var": "var"}[op])
    if op == "eo::is_bool":
        return boolean(args[0] in (TRUE, FALSE))
    if op in ("eo::and", "eo::or", "eo::xor", "eo::not") and all(x in (TRUE, FALSE) for x in args):
        v = [x is TRUE for x in args]
        return boolean({"eo::and": lambda: v[0] and v[1], "eo::or": lambda: v[0] or v[1], "eo::xor": lambda: v[0] != v[1], "eo::not": lambda: not v[0]}[op]())
    if op in ("eo::add", "eo::mul", "eo::neg", "eo::zdiv", "eo::zmod", "eo::is_neg", "eo::gt") and all(k == "num" for k in kinds):
        v = [x.a for x in args]
        if op == "eo::add":
            return num(v[0] + v[1])
        if op == "eo::mul":
            return num(v[0] * v[1])
        if op == "eo::neg":
            return num(-v[0])
        if op == "eo::is_neg":
            return boolean(v[0] < 0)
        if op == "eo::gt":
            return boolean(v[0] > v[1])
        if v[1] == 0:
            raise Stuck("division by zero")
        r = v[0] % abs(v[1])
        return num(r if op == "eo::zmod" else (v[0] - r) // v[1])
    if op == "eo::len" and kinds[0] == "bits":
        return num(args[0].a)
    if op == "eo::nil" or op == "eo::cons" or op.startswith("eo::list_"):
        f = args[0]
        if op == "eo::nil":
            return items(session, f, session.constants[f.a][2][1] if f.kind == "con" and session.constants[f.a][2] else f)[1]
        xs, nil = items(session, f, args[2] if op == "eo::cons" else args[1])
        if op == "eo::cons":
            return spell(f, [args[1]] + xs, nil)
        if op == "eo::list_len":
            return num(len(xs))
        if op == "eo::list_concat":
            return spell(f, xs + items(session, f, args[2])[0], nil)
        if op == "eo::list_nth":
            if kinds[2] != "num" or not 0 <= args[2].a < len(xs):
                raise Stuck("list_nth")
            return xs[args[2].a]
        if op == "eo::list_find":
            return num(xs.index(args[2]) if args[2] in xs else -1)
        if op == "eo::list_rev":
            return spell(f, xs[::-1], nil)
        if op == "eo::list_erase":
            if args[2] in xs:
                xs.remove(args[2])
            return spell(f, xs, nil)
        if op == "eo::list_setof":
            return spell(f, list(dict.fromkeys(xs)), nil)
        if op == "eo::list_minclude":
            ys = items(session, f, args[2])[0]
            return boolean(all(xs.count(y) >= ys.count(y) for y in ys))
    raise Stuck("%s of %s" % (op, " ".join(map(show, args))))


if __name__ == "__main__":
    words = sys.argv[1:]
    try:
        if words[0] == "load":
            Session().run(words[1])
            print("loaded")
        else:
            print(check(words[0], words[1], words[2]))
    except (Refused, Stuck) as e:
        print("refused", e)
