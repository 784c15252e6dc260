"""The rows that hostile/run tries: what is run, over which files, and what is expected."""
import os
import resource
import subprocess
import sys

program, work = sys.argv[1:]

CHECK = ["check", "--include=cpc.eo", "--reference=r.smt2", "p.eo"]
LOAD = ["load", "a.eo"]
FORMULAS = "(declare-const p Bool)\n(declare-const q Bool)\n(declare-const r Bool)\n(assert p)\n"
STACK = 8 << 20


def lines(*rows):
    return "".join(row + "\n" for row in rows)


# Words, files, and the status and the line that are due.
REFUSED = {
    "a benchmark with the suite": (
        CHECK,
        {
            "r.smt2": lines(
                "(set-logic QF_UF)", "(set-info :smt-lib-version 2.6)", "(declare-const p Bool)",
                "(assert p)", "(assert (not p))", "(check-sat)",
            ),
            "p.eo": lines(
                "unsat", "(", "(declare-const p Bool)", "(define @t1 () (not p))", "(assume @p1 p)",
                "(assume @p2 @t1)", "(step @p3 false :rule contra :premises (@p1 @p2))", ")",
            ),
        },
        (0, "correct\n"),
    ),
    "scopes one after another": (
        CHECK,
        {
            "r.smt2": lines(
                "(declare-const p Bool)", "(declare-const q Bool)", "(declare-const c Int)",
                "(declare-fun g (Int) Int)", "(assert false)",
            ),
            "p.eo": lines(
                "(assume-push @a p)", "(define @x () (not q))",
                "(step @s (= @x @x) :rule refl :args (@x))",
                "(step-pop @r1 :rule scope :premises (@a))", "(assume-push @b p)",
                "(define @x () (g c))", "(step @s (= @x @x) :rule refl :args (@x))",
                "(step-pop @r2 :rule scope :premises (@b))", "(assume @f false)",
            ),
        },
        (0, "correct\n"),
    ),
    "a proof that is trimmed": (
        ["trim", "--include=cpc.eo", "--reference=r.smt2", "p.eo"],
        {
            "r.smt2": lines("(declare-const p Bool)", "(assert p)", "(assert (not p))"),
            "p.eo": lines(
                "(assume @p1 p)", "(assume-push @h p)", "(step @x :rule refl :args (p))",
                "(step-pop @y :rule scope :premises (@h))", "(assume @p2 (not p))",
                "(step @p3 false :rule contra :premises (@p1 @p2))",
            ),
        },
        (0, lines("(assume @p1 p)", "(assume @p2 (not p))", "(step @p3 false :rule contra :premises (@p1 @p2))")),
    ),
    "a proof by rules that keep truth": (
        ["prove", "--reference=r.smt2", "p.eo"],
        {
            "r.smt2": lines("(declare-const p Bool)", "(assert p)", "(assert (not p))"),
            "p.eo": lines("(assume @p1 p)", "(assume @p2 (not p))", "(step @p3 false :rule contra :premises (@p1 @p2))"),
        },
        (0, "valid\n"),
    ),
    "files that include others": (
        LOAD,
        {
            "a.eo": lines('(include "b.eo")', '(include "c.eo")'),
            "b.eo": lines('(include "d.eo")'),
            "c.eo": lines('(include "x/../d.eo")', '(include "c.eo")'),
            "d.eo": lines("(declare-const p Bool)"),
        },
        (0, "loaded 6 commands\n"),
    ),
    "a resolution": (
        CHECK,
        {
            "r.smt2": lines(
                "(declare-const p Bool)", "(declare-const q Bool)", "(assert (or p q))",
                "(assert (not p))", "(assert (not q))",
            ),
            "p.eo": lines(
                "(assume @p1 (or p q))", "(assume @p2 (not p))", "(assume @p3 (not q))",
                "(step @p4 q :rule resolution :premises (@p1 @p2) :args (true p))",
                "(step @p5 false :rule resolution :premises (@p4 @p3) :args (true q))",
            ),
        },
        (0, "correct\n"),
    ),
    "a bench of ten hops": (
        ["bench", "10"], {}, (0, "bench 10: correct, 33 commands, 99 terms\n"),
    ),
}


def proof(*rows):
    """A check of these lines, and the place after them."""
    text = lines(*rows)
    return CHECK, {"r.smt2": FORMULAS, "p.eo": text}, f"p.eo:{len(rows) + 1}:{len(text)}\n"


def accepted(*rows):
    words, files, end = proof(*rows)
    return words, files, (2, "refused F41 NoRefutation " + end)


def open_scope(*rows):
    words, files, end = proof(*rows)
    return words, files, (2, "refused F40 ScopeOpen " + end)


def not_asserted(row):
    return CHECK, {"r.smt2": FORMULAS, "p.eo": row + "\n"}, (2, "refused F28 NotAsserted p.eo:1:0\n")


def loaded(text, status, line):
    return LOAD, {"a.eo": text}, (status, line)


def includes(count):
    files = {f"n{k}.eo": f'(include "n{k + 1}.eo")\n' for k in range(1, count)}
    files[f"n{count}.eo"] = ""
    files["a.eo"] = '(include "n1.eo")\n'
    return LOAD, files, (0, f"loaded {count} commands\n")


COUNT_DOWN = (
    "(program $e ((n Int)) :signature (Int) Bool ((($e 0) true) (($e n) ($e (eo::add n -1)))))"
)

# On 0 and a number as many calls as twice the number less one, all of them different.
HALVES = (
    "(program $c ((a Int) (b Int)) :signature (Int Int) Bool ((($c a b) "
    "(eo::ite (eo::is_eq (eo::add a 1) b) true (eo::and ($c a (eo::zdiv (eo::add a b) 2)) "
    "($c (eo::zdiv (eo::add a b) 2) b))))))",
    "(program $w ((a Int)) :signature (Int) Bool ((($w a) ($c 0 a))))",
)

# A string that is doubled so often.
DOUBLING = (
    "(program $d ((s String) (n Int)) :signature (String Int) Bool ((($d s 0) true) "
    "(($d s n) ($d (eo::concat s s) (eo::add n -1)))))"
)

# Macros of a negation, of ten, of a hundred, and so on to 100,000.
NEGATIONS = ("(define d0 ((x Bool)) (not x))",) + tuple(
    f"(define d{k} ((x Bool)) {f'(d{k - 1} ' * 10}x{')' * 11}" for k in range(1, 6)
)


def negations(count):
    """So many negations of p by these macros."""
    macros = "".join(f"(d{k} " * int(digit) for k, digit in zip(range(5, -1, -1), f"{count:06}"))
    return f"{macros}p{')' * macros.count('(')}"


def refused(fault, *rows):
    """A check that refuses the last of these lines."""
    text = lines(*rows)
    at = len(text) - len(rows[-1]) - 1
    return CHECK, {"r.smt2": FORMULAS, "p.eo": text}, (2, f"refused {fault} p.eo:{len(rows)}:{at}\n")


def value(term, name="@s"):
    return f"(step {name} (= {term} true) :rule refl :args (true))"


def lets(name, count):
    """Nested lets that each bind a name to the name before it."""
    opened = "".join(f"(let (({name(k + 1)} {name(k)})) " for k in range(count))
    return f"(let (({name(0)} q)) {opened}{name(count)}{')' * (count + 1)}"


LIMITS = {
    "lists in lists": loaded("(" * 100_000, 2, "refused F02 Unclosed a.eo:1:100000\n"),
    "lists in lists, one more": loaded(
        "(" * 100_001, 2, "refused F07 Nesting a.eo:1:100000\n"),
    "lists in the outer pair": (
        CHECK, {"r.smt2": FORMULAS, "p.eo": "(" * 100_001},
        (2, "refused F02 Unclosed p.eo:1:100001\n"),
    ),
    "a formula of many lists": not_asserted(
        "(assume @a " + "(not " * 99_999 + "p" + ")" * 100_000),
    "a type of many lists": accepted(
        "(declare-const c " + "(-> Bool " * 99_999 + "Bool" + ")" * 100_000),
    "operators in operators": not_asserted(
        "(assume @a " + "(eo::and true " * 99_999 + "true" + ")" * 100_000),
    "lets of one name": not_asserted(f"(assume @a {lets(lambda k: 'x', 99_996)})"),
    "lets of different names": not_asserted(f"(assume @a {lets(lambda k: f'x{k}', 99_996)})"),
    "a long conjunction": accepted(
        f"(define m () (and{' p' * 65_535}))", "(step @s (= m m) :rule refl :args (m))"),
    "a list that is too long": (
        CHECK, {"r.smt2": FORMULAS, "p.eo": f"(define m () (and{' p' * 65_536}))\n"},
        (2, "refused F08 Width p.eo:1:131088\n"),
    ),
    "a tall formula": accepted(*NEGATIONS, f"(define h () {negations(999_999)})"),
    "a formula that is too tall": refused(
        "F18 TermHeight", *NEGATIONS, f"(define h () (not {negations(999_999)}))"),
    "a tall conclusion": accepted(
        *NEGATIONS, f"(define h () {negations(999_997)})", "(step @s (= h h) :rule refl :args (h))"),
    "a tall assumption": open_scope(
        *NEGATIONS, f"(define h () {negations(999_999)})", "(assume-push @a h)"),
    "conjunctions that double": accepted(
        "(define u0 ((x Bool)) x)",
        *(f"(define u{k} ((x Bool)) (and (u{k - 1} x) (u{k - 1} x)))" for k in range(1, 65)),
        "(define v () (u64 p))"),
    "calls in calls": accepted(COUNT_DOWN, value("($e 999999)")),
    "calls in calls, one more": refused("F19 EvalDepth", COUNT_DOWN, value("($e 1000000)")),
    "different calls": accepted(*HALVES, value("($w 1000000)")),
    "different calls, and one of them again": accepted(
        *HALVES, value("(eo::and ($w 1000000) ($c 0 1))")),
    "different calls, one more": refused(
        "F20 EvalCalls", *HALVES, value("(eo::and ($w 1000000) ($w 1))")),
    "steps over long strings": accepted(
        DOUBLING, *(value(f'($d "{k:04}" 14)', f"@s{k}") for k in range(1_000))),
    "scopes in scopes": open_scope(*(f"(assume-push @a{k} p)" for k in range(1_000))),
    "files in files": includes(16),
}

# Runs that take less than so many megabytes: what a step evaluates to is given back with the step.
MEMORY = {"steps over long strings": 64}


def run(words, **settings):
    done = subprocess.run([program, *words], cwd=work, capture_output=True, text=True, **settings)
    return done.returncode, done.stdout


def put(files):
    for name, text in files.items():
        with open(os.path.join(work, name), "w", encoding="ascii") as file:
            file.write(text)


def differs(name, got, due):
    print(f"hostile: {name}: answered {got} and not {due}")
    return 1


def refuse_each(name, words, files, due):
    """Refuses each allocation of a run in turn."""
    put(files)
    count = os.path.join(work, "count")
    loaded = {"PATH": os.environ["PATH"], "LD_PRELOAD": os.path.join(work, "refuse.so")}
    wrong = 0
    got = run(words, env={**loaded, "COUNT": count})
    if got != due:
        wrong += differs(name, got, due)
    with open(count, encoding="ascii") as file:
        asked = int(file.read())
    said = 0
    for number in range(1, asked + 1):
        got = run(words, env={**loaded, "REFUSE": str(number)})
        if got == (6, "out of memory\n"):
            said += 1
        elif got != due:
            wrong += differs(f"{name}, allocation {number} refused", got, due)
    print(
        f"hostile: {name}: {asked} allocations refused in turn, {said} ended out of memory, "
        f"{wrong} answers were wrong"
    )
    return wrong


def at_limit(name, words, files, due):
    """Runs with the stack that a shell gives, and prints the seconds and the memory of it."""
    put(files)
    process = subprocess.Popen(
        [program, *words], cwd=work, stdout=subprocess.PIPE, text=True,
        preexec_fn=lambda: resource.setrlimit(resource.RLIMIT_STACK, (STACK, STACK)))
    line = process.stdout.read()
    _, status, used = os.wait4(process.pid, 0)
    got = os.waitstatus_to_exitcode(status), line
    seconds = used.ru_utime + used.ru_stime
    memory = used.ru_maxrss / 1024
    print(f"hostile: {name}: {seconds:.2f} s, {memory:.0f} MB")
    wrong = 0 if got == due else differs(name, got, due)
    if memory >= MEMORY.get(name, memory + 1):
        wrong += differs(name, f"{memory:.0f} MB", f"less than {MEMORY[name]}")
    return wrong


wrong = sum(at_limit(name, *row) for name, row in LIMITS.items())
print(f"hostile: {len(LIMITS)} texts at limits, {wrong} answers were wrong")
wrong += sum(refuse_each(name, *row) for name, row in REFUSED.items())
sys.exit(1 if wrong else 0)
