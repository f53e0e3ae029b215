"""A dossier as SMT-LIB2 over bit vectors, for z3: for each obligation one query, "is there a binding that breaks it?".

Numbers have one width, the least in which no term of the dossier overflows; a set has a bit for each member; an element is the set that has it alone. Quantifiers of
the dossier are unfolded. What stands under "there is" on the side of the premises is a constant of the query. Under "there is none" (the concrete precondition, the
abstract after state, the abstract initial state) there are two translations:
  quantified  a quantifier of SMT-LIB over the variables
  unfolded    a variable that a conjunct gives (v' = t) is replaced by t; the others are unfolded over all their values, up to 16,384
Each query is sent as text and answered sat or unsat; the first sat refutes the dossier."""
import itertools, math
from walk import Walk, conjuncts, names_of, solved

MOST = 16384    # values over which a variable is unfolded; above, it is quantified


class Smt(Walk):
    def __init__(self, dossier, style):
        super().__init__(dossier)
        self.style, self.types, self.count = style, {}, 0
        d = dossier
        for n, t in d.abstract + d.concrete:
            self.types[n] = self.types[n + "'"] = t
        self.largest, self.bounds = 1, {}
        for p in [d.astate, d.cstate, d.ainit, d.cinit, d.retrieve]:
            self.measure(p)
        for name, inputs, outputs, above, below in d.ops:
            self.types.update(inputs + outputs)
            self.measure(above)
            self.measure(below)
        for t in list(self.types.values()):
            if t[0] == 'range':
                self.largest = max(self.largest, abs(t[1]), abs(t[2]))
        self.width = self.largest.bit_length() + 1

    def limits_of(self, name):
        t = self.bounds.get(name) or self.types[name]
        return t[1], t[2]

    def measure(self, p):
        """the largest absolute value of a number in p"""
        if isinstance(p, list):
            for x in p:
                self.measure(x)
        elif isinstance(p, tuple) and p:
            if p[0] in ('forall', 'exists', 'exists1') and p[2][0] == 'range':
                b = self.bounds.get(p[1], p[2])
                self.bounds[p[1]] = ('range', min(b[1], p[2][1]), max(b[2], p[2][2]))
            if p[0] == 'within':
                self.largest = max(self.largest, abs(p[2]), abs(p[3]))
            if len(p) > 2 and p[1] == 'num':
                divisor = [abs(p[3])] if p[0] in ('div', 'mod') else []
                self.largest = max([self.largest, *map(abs, self.d.limits(p, self.limits_of))] + divisor)
            for x in p[1:]:
                self.measure(x)

    # texts of terms
    def literal(self, x, kind):
        if isinstance(x, str):
            return x
        if kind == 'num':
            return f'(_ bv{x % (1 << self.width)} {self.width})'
        if kind[0] == 'elem':
            return '#b' + format(1 << x, f'0{self.d.size(kind[1])}b')
        return '#b' + format(x, f'0{self.d.bits(kind)}b')

    def member(self, kind, x):
        return x

    def unite(self, kind, sets):
        texts = [self.literal(s, kind) for s in sets]
        return texts[0] if len(texts) == 1 else f'(bvor {" ".join(texts)})'

    def bit(self, x, i):
        return f'((_ extract {i} {i}) {x})'

    def concat(self, bits):
        return bits[0] if len(bits) == 1 else f'(concat {" ".join(reversed(bits))})'

    def pair(self, kind, a, b):
        g, h = map(self.d.size, kind[1:])
        a, b = self.literal(a, ('elem', kind[1])), self.literal(b, ('elem', kind[2]))
        return self.concat([f'(bvand {self.bit(a, i)} {self.bit(b, j)})' for i in range(g) for j in range(h)])

    def gather(self, kind, truths):
        return self.concat([('#b1' if x else '#b0') if isinstance(x, bool) else f'(ite {x} #b1 #b0)' for x in truths])

    def text(self, t, parts, env):
        op, kind = t[0], t[2][1]
        a = self.literal(parts[0], kind)
        if op == '#':
            n = self.d.bits(kind)
            ones = [f'((_ zero_extend {self.width - 1}) {self.bit(a, i)})' for i in range(n)]
            return ones[0] if n == 1 else f'(bvadd {" ".join(ones)})'
        if op in ('dom', 'ran'):
            g, h = map(self.d.size, kind[1:])
            lines = [[i * h + j for j in range(h)] for i in range(g)] if op == 'dom' else [[i * h + j for i in range(g)] for j in range(h)]
            return self.concat([f'(bvor {" ".join(self.bit(a, k) for k in line)})' if len(line) > 1 else self.bit(a, line[0]) for line in lines])
        if op == 'neg':
            return f'(bvneg {a})'
        b = self.literal(parts[1], kind)
        if op in ('div', 'mod'):
            if self.d.limits(t[2], self.limits_of)[0] >= 0 and parts[1] > 0:
                return f'({"bvudiv" if op == "div" else "bvurem"} {a} {b})'
            return f'(bvsmod {a} {b})' if op == 'mod' else f'(bvsdiv (bvsub {a} (bvsmod {a} {b})) {b})'
        if op == 'minus':
            return f'(bvand {a} (bvnot {b}))'
        return f'({ {"+": "bvadd", "-": "bvsub", "*": "bvmul", "union": "bvor", "inter": "bvand"}[op] } {a} {b})'

    # texts of predicates
    def compare(self, op, terms, parts, env):
        if op == 'pairin':
            g, h = map(self.d.size, terms[2][1][1:])
            a, b, r = parts[0], parts[1], self.literal(parts[2], terms[2][1])
            rows = [a] if isinstance(a, int) else range(g)
            columns = [b] if isinstance(b, int) else range(h)
            return self.join('or', [self.join('and', [f'(= {self.bit(r, i * h + j)} #b1)'] + [f'(= {self.bit(a, i)} #b1)'] * isinstance(a, str)
                                             + [f'(= {self.bit(b, j)} #b1)'] * isinstance(b, str)) for i in rows for j in columns])
        if op == 'in':
            x, s = parts[0], self.literal(parts[1], terms[1][1])
            if isinstance(x, int):
                return f'(= {self.bit(s, x)} #b1)'
            return f'(distinct (bvand {x} {s}) {self.literal(0, terms[1][1])})'
        a, b = self.literal(parts[0], terms[0][1]), self.literal(parts[1], terms[1][1])
        return f'({ {"=": "=", "/=": "distinct", "<": "bvslt", "<=": "bvsle"}[op] } {a} {b})'

    def between(self, t, a, low, high, env):
        return f'(and (bvsle {self.literal(low, "num")} {a}) (bvsle {a} {self.literal(high, "num")}))'

    def joined(self, op, texts):
        return f'({op} {" ".join(texts)})'

    def denied(self, a):
        return f'(not {a})'

    def same(self, a, b):
        return f'(= {a} {b})'

    # variables
    def sort(self, t):
        return f'(_ BitVec {self.width if t[0] == "range" else self.d.size(t[1]) if t[0] == "given" else self.d.bits(t)})'

    def carried(self, t, x):
        """x is in the carrier t; None where every value of the sort is"""
        if t[0] == 'range':
            return f'(and (bvsle {self.literal(t[1], "num")} {x}) (bvsle {x} {self.literal(t[2], "num")}))'
        if t[0] in ('pow', 'rel'):
            return None
        h = self.d.size(t[-1])
        rows = [x] if t[0] == 'given' else [f'((_ extract {i * h + h - 1} {i * h}) {x})' for i in range(self.d.size(t[1]))]
        allowed = [0] * (t[0] == 'pfun') + [1 << j for j in range(h)]
        each = [self.join('or', [f'(= {r} {"#b" + format(v, f"0{h}b")})' for v in allowed]) for r in rows]
        return self.join('and', each)

    def fresh(self, declared, env):
        """env with a new constant for each declared name; their declarations and carriers go to the query"""
        env = dict(env)
        for n, t in declared:
            self.count += 1
            x = env[n] = f'x{self.count}'
            self.lines.append(f'(declare-const {x} {self.sort(t)})')
            self.claim(self.carried(t, x))
        return env

    def claim(self, text):
        if text is not None and text is not True:
            self.lines.append(f'(assert {"false" if text is False else text})')

    def none(self, declared, parts, env):
        """no values of the declared names meet the predicates `parts`, each with the renaming of its names"""
        parts, left, needs, env = [(c, r) for p, r in parts for c in conjuncts(p)], dict(declared), [], dict(env)
        if self.style == 'unfolded':
            parts = self.solve(left, parts, needs, env)
            if math.prod(len(self.d.values(t)) for t in left.values()) <= MOST:
                return self.unfold(left, parts, needs, env)
        binders = []
        for n, t in left.items():
            self.count += 1
            env[n] = f'x{self.count}'
            binders.append(f'({env[n]} {self.sort(t)})')
            needs.append(self.carried(t, env[n]))
        texts = [x for x in needs if x is not None] + [self.truth(p, self.renamed(env, r)) for p, r in parts]
        none = self.deny(self.join('and', texts))
        self.claim(f'(forall ({" ".join(binders)}) {none})' if isinstance(none, str) else none)

    def renamed(self, env, r):
        return {**env, **{n: env[m] for n, m in r.items() if m in env}}

    def solve(self, left, parts, needs, env):
        """takes the variables that a conjunct gives out of `left`: each is a constant of the query; the conjuncts that remain"""
        found = True
        while found and left:
            found = None
            for c, r in parts:
                real = {n: r.get(n, n) for n in names_of(c)}
                s = solved(c, {n for n, m in real.items() if m in left})
                if s and not {real[n] for n in names_of(s[1]) if n in real} & set(left):
                    found = real[s[0]], s[1], (c, r)
                    break
            if found:
                name, term, part = found
                t = left.pop(name)
                value = self.literal(self.term(term, self.renamed(env, part[1])), term[1])
                self.count += 1
                env[name] = f'x{self.count}'
                self.lines.append(f'(define-const {env[name]} {self.sort(t)} {value})')
                needs.append(self.carried(t, env[name]))
                parts = [p for p in parts if p is not part]
        return parts

    def unfold(self, left, parts, needs, env):
        inside = [p for p in parts if {p[1].get(n, n) for n in names_of(p[0])} & set(left)]
        gate = [x for x in needs if x is not None] + [self.truth(p, self.renamed(env, r)) for p, r in parts if (p, r) not in inside]
        some = []
        for values in itertools.product(*[self.d.values(t) for t in left.values()]):
            some.append(self.conjunction(inside, {**env, **dict(zip(left, values))}))
            if some[-1] is True:
                break
        self.claim(self.deny(self.join('and', gate + [self.join('or', list(dict.fromkeys(some)))])))

    def conjunction(self, parts, env):
        texts = []
        for p, r in parts:
            x = self.truth(p, self.renamed(env, r))
            if x is False:
                return False
            texts.append(x)
        return self.join('and', texts)

    def queries(self):
        """(obligation, text) of each query in order"""
        d = self.d
        primed = lambda state: [(n + "'", t) for n, t in state]
        prime = {n: n + "'" for n, t in d.abstract + d.concrete}
        a_prime = {n: n + "'" for n, t in d.abstract}
        c_prime = {n: n + "'" for n, t in d.concrete}
        for name, inputs, outputs, above, below in [(None, [], [], None, None)] + d.ops:
            self.types.update(inputs + outputs)
            for obligation in ['initialisation'] if name is None else [f'applicability {name}', f'correctness {name}']:
                self.lines = []
                if name is None:
                    env = self.fresh(d.concrete, {})
                    for p in (d.cstate, d.cinit):
                        self.claim(self.truth(p, env))
                    self.none(d.abstract, [(d.astate, {}), (d.ainit, {}), (d.retrieve, {})], env)
                    yield obligation, '\n'.join(self.lines)
                    continue
                env = self.fresh(d.abstract + d.concrete + inputs, {})
                for p in (d.astate, d.cstate, d.retrieve):
                    self.claim(self.truth(p, env))
                inner = self.fresh(outputs + primed(d.abstract), env)
                self.claim(self.truth(d.astate, self.renamed(inner, a_prime)))
                self.claim(self.truth(above, inner))
                if obligation.startswith('applicability'):
                    self.none(outputs + primed(d.concrete), [(below, {}), (d.cstate, c_prime)], env)
                else:
                    env = self.fresh(outputs + primed(d.concrete), env)
                    self.claim(self.truth(d.cstate, self.renamed(env, c_prime)))
                    self.claim(self.truth(below, env))
                    self.none(primed(d.abstract), [(above, {}), (d.astate, a_prime), (d.retrieve, prime)], env)
                yield obligation, '\n'.join(self.lines)


def translate(dossier, style):
    return list(Smt(dossier, style).queries())
