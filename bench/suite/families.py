"""The families of the solver suite: scripts in SMT-LIB 2.6 and programs in the Viper language, each from a seed or a size.

A family of stacks is a function that gives the lines of one stack, from a random generator or a size. Programs are for `vsil`, whose questions
are recorded and replayed.
"""

import itertools
import random


def declared(sort, *names):
    """Declarations of constants of one sort."""
    return [f"(declare-fun {name} () {sort})" for name in names]


def asserted(*formulas):
    return [f"(assert {formula})" for formula in formulas]


def joined(word, parts):
    """An application to these parts; one part alone stands for itself."""
    return parts[0] if len(parts) == 1 else f"({word} {' '.join(parts)})"


def numeral(n, sort="Int"):
    """A number as SMT-LIB writes it."""
    text = f"{abs(n)}.0" if sort == "Real" else str(abs(n))
    return f"(- {text})" if n < 0 else text


# Random stacks, by theory.


class Stack:
    """A random stack: atoms of some theories under `not`, `and`, `or`, `=>`."""

    def __init__(self, rng, theories):
        self.rng = rng
        self.theories = theories

    def constant(self, sort):
        return f"{ {'Int': 'i', 'Real': 'r', 'U': 'u', 'Bool': 'p'}[sort]}{self.rng.randrange(4)}"

    def number(self, sort, depth):
        """A term of Int or Real."""
        roll = self.rng.random()
        if depth == 0 or roll < 0.3:
            return self.constant(sort) if self.rng.random() < 0.8 else numeral(self.rng.randint(-9, 9), sort)
        part = lambda: self.number(sort, depth - 1)
        if roll < 0.7:
            return f"({self.rng.choice('+-')} {part()} {part()})"
        if roll < 0.85:
            return f"(* {numeral(self.rng.randint(-4, 4), sort)} {part()})"
        if roll < 0.93 or sort == "Real":
            return f"(ite {self.atom(0)} {part()} {part()})"
        return f"({self.rng.choice(['div', 'mod'])} {part()} {self.rng.randint(2, 4)})"

    def element(self, depth):
        """A term of the sort U, with functions of one and two arguments."""
        roll = self.rng.random()
        if depth == 0 or roll < 0.4:
            return self.constant("U")
        if roll < 0.75:
            return f"(f {self.element(depth - 1)})"
        return f"(g {self.element(depth - 1)} {self.element(depth - 1)})"

    def atom(self, depth):
        theory = self.rng.choice(self.theories)
        if theory == "Bool":
            return self.constant("Bool")
        if theory == "U":
            return f"(= {self.element(depth)} {self.element(depth)})"
        return f"({self.rng.choice(['=', '<', '<=', '<='])} {self.number(theory, depth)} {self.number(theory, depth)})"

    def formula(self, depth):
        roll = self.rng.random()
        if depth == 0 or roll < 0.35:
            return self.atom(2)
        if roll < 0.55:
            return f"(not {self.formula(depth - 1)})"
        return f"({self.rng.choice(['or', 'or', 'and', '=>'])} {self.formula(depth - 1)} {self.formula(depth - 1)})"

    def lines(self, assertions):
        out = declared("Bool", *(f"p{k}" for k in range(4)))
        for sort, letter in (("Int", "i"), ("Real", "r")):
            if sort in self.theories:
                out += declared(sort, *(f"{letter}{k}" for k in range(4)))
        if "U" in self.theories:
            out += ["(declare-sort U 0)", *declared("U", *(f"u{k}" for k in range(4))), "(declare-fun f (U) U)", "(declare-fun g (U U) U)"]
        return out + asserted(*(self.formula(2) for _ in range(assertions)))


THEORIES = {"Bool": ["Bool"], "equality": ["U"], "Int": ["Int"], "Perm": ["Real"], "mixed": ["Bool", "U", "Int", "Real"]}


def random_stack(theory, seed):
    rng = random.Random(f"{theory} {seed}")
    return Stack(rng, THEORIES[theory]).lines(rng.randint(3, 12) * (2 if theory == "Bool" else 1))


# Families by size.


def diamonds(n):
    """Each diamond leads from one end to the next over the one corner or the other; the first end differs from the last."""
    out = declared("Int", *(f"{letter}{k}" for k in range(n + 1) for letter in "abc"))
    sides = [f"(or (and (= a{k} b{k}) (= b{k} a{k + 1})) (and (= a{k} c{k}) (= c{k} a{k + 1})))" for k in range(n)]
    return out + asserted(*sides, f"(not (= a0 a{n}))")


def maxima(n):
    """The greatest of n values, by choices, is below one of them."""
    out = declared("Int", *(f"x{k}" for k in range(n)))
    greatest = "x0"
    for k in range(1, n):
        out += declared("Int", f"m{k}") + asserted(f"(= m{k} (ite (<= {greatest} x{k}) x{k} {greatest}))")
        greatest = f"m{k}"
    return out + asserted(joined("or", [f"(< {greatest} x{k})" for k in range(n)]))


def different(n):
    """n + 1 different whole numbers from 1 to n."""
    names = [f"x{k}" for k in range(n + 1)]
    bounds = [f"(and (<= 1 {x}) (<= {x} {n}))" for x in names]
    return declared("Int", *names) + asserted(*bounds, *(f"(not (= {x} {y}))" for x, y in itertools.combinations(names, 2)))


def tasks(n):
    """n tasks of length 2 on one machine, within less than 2 n."""
    names = [f"s{k}" for k in range(n)]
    bounds = [f"(and (<= 0 {x}) (<= (+ {x} 2) {2 * n - 1}))" for x in names]
    apart = [f"(or (<= (+ {x} 2) {y}) (<= (+ {y} 2) {x}))" for x, y in itertools.combinations(names, 2)]
    return declared("Int", *names) + asserted(*bounds, *apart)


def pigeons(n):
    """n + 1 pigeons in n holes, each hole with one at most."""
    at = lambda pigeon, hole: f"h{pigeon}n{hole}"
    out = declared("Bool", *(at(p, h) for p in range(n + 1) for h in range(n)))
    housed = [joined("or", [at(p, h) for h in range(n)]) for p in range(n + 1)]
    alone = [f"(or (not {at(p, h)}) (not {at(q, h)}))" for h in range(n) for p, q in itertools.combinations(range(n + 1), 2)]
    return out + asserted(*housed, *alone)


def strict_chain(n):
    """x0 < x1 < .. < xn < x0."""
    names = [f"x{k}" for k in range(n + 1)]
    return declared("Int", *names) + asserted(*(f"(< {x} {y})" for x, y in zip(names, names[1:] + names[:1])))


def knapsack(seed):
    """Five items in small numbers fill a sum that may not be one of theirs."""
    rng = random.Random(f"knapsack {seed}")
    names = [f"x{k}" for k in range(5)]
    weights = [rng.randint(12, 60) for _ in names]
    total, *more = [f"(* {w} {x})" for w, x in zip(weights, names)]
    for part in more:
        total = f"(+ {total} {part})"
    return declared("Int", *names) + asserted(*(f"(and (<= 0 {x}) (<= {x} 3))" for x in names), f"(= {total} {rng.randint(60, 400)})")


def nested(n):
    """f is applied n times, and n + 1 times, without a change to one and to the other: then also once."""
    def times(k):
        return "(f " * k + "u0" + ")" * k
    return ["(declare-sort U 0)", *declared("U", "u0"), "(declare-fun f (U) U)"] + asserted(f"(= {times(n)} u0)", f"(= {times(n + 1)} u0)", "(not (= (f u0) u0))")


def parity(order):
    """Two equations without a common whole solution, and a bound that has nothing to do with them, in one of six orders."""
    facts = asserted("(<= x z)", "(= z (* 2 y))", "(= z (- 1 y))")
    return declared("Int", "x", "y", "z") + list(list(itertools.permutations(facts))[order])


def permuted(seed):
    """A random stack of whole numbers, ten times, its assertions in other orders."""
    lines = random_stack("Int", 100000 + seed // 10)
    rng = random.Random(f"order {seed}")
    head = [line for line in lines if not line.startswith("(assert")]
    facts = [line for line in lines if line.startswith("(assert")]
    rng.shuffle(facts)
    return head + facts


BY_SIZE = {
    "diamonds": (diamonds, (10, 20, 30)),
    "maxima": (maxima, (10, 20, 30)),
    "different whole numbers": (different, (4, 5, 6)),
    "tasks on one machine": (tasks, (5, 6, 7)),
    "pigeons": (pigeons, (4, 6, 8)),
    "strict chains": (strict_chain, (160, 320, 640)),
    "nested applications": (nested, (20, 40, 80)),
}


# Programs of the whole language.


class Program:
    """A random program: two fields and a reference, a predicate, two functions, and three methods that call one another."""

    def __init__(self, seed):
        self.rng = random.Random(f"program {seed}")

    def pick(self, *choices):
        return self.rng.choice(choices)

    def number(self, depth, held):
        """A term of Int; `held` tells whether r.f may be read."""
        leaf = ["x", "y", str(self.rng.randrange(6))] + (["r.f"] if held else [])
        if depth == 0 or self.rng.random() < 0.3:
            return self.pick(*leaf)
        a, b = self.number(depth - 1, held), self.number(depth - 1, held)
        whole = [f"({a} + {b})", f"({a} - {b})", f"({self.rng.randint(2, 4)} * {a})", f"({a} \\ 3)", f"({a} % 2)", f"(b ? {a} : {b})", f"twice({a})"]
        return self.pick(*whole)

    def truth(self, depth, held):
        if depth == 0 or self.rng.random() < 0.5:
            return self.pick("b", *([f"({self.number(1, held)} {self.pick('<', '<=', '==', '!=')} {self.number(1, held)})"] * 4))
        a, c = self.truth(depth - 1, held), self.truth(depth - 1, held)
        return self.pick(f"({a} && {c})", f"({a} || {c})", f"({a} ==> {c})", f"!{a}")

    def statement(self, depth):
        deep = [self.choice(depth), self.loop(depth)] if depth else []
        simple = [f"x := {self.number(2, True)}", f"y := {self.number(2, True)}", f"r.f := {self.number(2, True)}", f"b := {self.truth(1, True)}",
                  f"assert {self.truth(2, True)}", f"assume {self.truth(1, True)}", "y := step(x, r)", "fold cell(s)\n  y := get(s)\n  unfold cell(s)", "s.g := x + 1",
                  "exhale acc(r.f, 1/2)\n  inhale acc(r.f, 1/2)", "t := new(f, g)\n  assert t != r"]
        return self.pick(*simple, *deep, *deep)

    def block(self, depth):
        return "{\n  " + "\n  ".join(self.statement(depth) for _ in range(self.rng.randint(1, 3))) + "\n  }"

    def choice(self, depth):
        return f"if ({self.truth(1, True)}) {self.block(depth - 1)} else {self.block(depth - 1)}"

    def loop(self, depth):
        kept = f"acc(r.f) && acc(s.f) && acc(s.g) && {self.truth(1, False)}"
        return f"while ({self.truth(1, True)}) invariant {kept} {self.block(depth - 1)}"

    def method(self, name):
        head = f"method {name}(x0: Int, r: Ref, s: Ref) returns (y: Int)\n  requires acc(r.f) && acc(s.f) && acc(s.g) && 0 <= x0\n"
        body = "\n  ".join(self.statement(1) for _ in range(self.rng.randint(3, 7)))
        promise = f"  ensures acc(r.f) && acc(s.f) && acc(s.g) && {self.pick('true', 'y >= y', 'r.f == r.f', 'y == x0')}\n"
        return f"{head}{promise}{{\n  var x: Int := x0\n  var b: Bool\n  var t: Ref\n  {body}\n}}\n"

    def text(self):
        rest = "field f: Int\nfield g: Int\npredicate cell(q: Ref) { acc(q.f) && acc(q.g) }\n"
        rest += f"function twice(n: Int): Int ensures result == 2 * n {{ n + n }}\nfunction get(q: Ref): Int requires cell(q) {{ unfolding cell(q) in q.f + {self.rng.randrange(3)} * q.g }}\n"
        rest += "method step(n: Int, q: Ref) returns (m: Int) requires acc(q.f, 1/2) ensures acc(q.f, 1/2) && m == n + q.f\n"
        return rest + "".join(self.method(name) for name in ("one", "two", "three"))
