"""A walk over the predicates of a dossier: what both translations share."""
import itertools


def conjuncts(p):
    """p as a list of conjuncts, `true` left out"""
    if p[0] == 'and':
        return conjuncts(p[1]) + conjuncts(p[2])
    return [] if p[0] == 'true' else [p]


def names_of(p):
    """the variables and bound names that a tree uses"""
    if isinstance(p, (tuple, list)):
        if len(p) == 3 and p[0] == 'var':
            return {p[2]}
        return set().union(*map(names_of, p)) if p else set()
    return set()


def solved(p, wanted):
    """(name, term) where the conjunct p says that a wanted name equals a term without it. `forall x @ x in S <=> q`, also over pairs, gives S."""
    if p[0] == '=':
        for a, b in ((p[1], p[2]), (p[2], p[1])):
            if a[0] == 'var' and a[2] in wanted and a[2] not in names_of(b):
                return a[2], b
    binders, q = [], p
    while q[0] == 'forall':
        binders.append((q[1], q[2]))
        q = q[3]
    if binders and q[0] == '<=>':
        for a, b in ((q[1], q[2]), (q[2], q[1])):
            members = [m[2] if m[0] == 'var' else None for m in a[1:-1]] if a[0] in ('in', 'pairin') else []
            if members and sorted(map(str, members)) == sorted(n for n, t in binders) and all(t[0] == 'given' for n, t in binders):
                s = a[-1]
                if s[0] == 'var' and s[2] in wanted and s[2] not in names_of(b):
                    return s[2], ('such', s[1], members, b)
    return None


class Walk:
    """Terms and predicates under an environment: each name a number (its value) or a text of the target language. What consists of numbers is computed here; the
    subclass makes the texts. Quantifiers and set braces are unfolded."""

    def __init__(self, dossier):
        self.d = dossier

    def term(self, t, env):
        op, kind = t[0], t[1]
        if op in ('num', 'elem'):
            return t[2]
        if op == 'var':
            return env[t[2]]
        if op == 'empty':
            return 0
        if op == 'such':
            names = [t[2]] if isinstance(t[2], str) else t[2]
            places = itertools.product(*[range(self.d.size(g)) for g in kind[1:]])
            return self.gathered(kind, [self.truth(t[3], {**env, **dict(zip(names, p))}) for p in places])
        if op == 'list':
            return self.union(kind, [self.single(a, env) for a in t[2]])
        if op == 'pairs':
            h = self.d.size(kind[2])
            pairs = [(self.term(a, env), self.term(b, env)) for a, b in t[2]]
            return self.union(kind, [1 << a * h + b if isinstance(a, int) and isinstance(b, int) else self.pair(kind, a, b) for a, b in pairs])
        parts = [self.term(x, env) if isinstance(x, tuple) else x for x in t[2:]]
        if all(isinstance(x, int) for x in parts):
            return self.compute(op, t[2][1], *parts)
        return self.text(t, parts, env)

    def compute(self, op, kind, a, b=0):
        if op in ('dom', 'ran'):
            g, h = map(self.d.size, kind[1:])
            here = [(i, j) for i in range(g) for j in range(h) if a >> i * h + j & 1]
            return sum({1 << (i if op == 'dom' else j) for i, j in here})
        return {'neg': lambda: -a, '#': lambda: bin(a).count('1'), '+': lambda: a + b, '-': lambda: a - b, '*': lambda: a * b, 'div': lambda: a // b,
                'mod': lambda: a % b, 'union': lambda: a | b, 'inter': lambda: a & b, 'minus': lambda: a & ~b}[op]()

    def single(self, a, env):
        x = self.term(a, env)
        return 1 << x if isinstance(x, int) else self.member(a[1], x)

    def union(self, kind, sets):
        known = [s for s in sets if isinstance(s, int)]
        texts = [s for s in sets if not isinstance(s, int)]
        mask = 0
        for s in known:
            mask |= s
        return self.unite(kind, texts + [mask] * (mask != 0)) if texts else mask

    def gathered(self, kind, truths):
        if all(isinstance(x, bool) for x in truths):
            return sum(1 << i for i, x in enumerate(truths) if x)
        return self.gather(kind, truths)

    def truth(self, p, env):
        """True, False or a text"""
        op = p[0]
        if op in ('true', 'false'):
            return op == 'true'
        if op == 'not':
            return self.deny(self.truth(p[1], env))
        if op in ('and', 'or'):
            a = self.truth(p[1], env)
            return a if a is (op == 'or') else self.join(op, [a, self.truth(p[2], env)])
        if op == '=>':
            return self.truth(('or', ('not', p[1]), p[2]), env)
        if op == '<=>':
            a, b = self.truth(p[1], env), self.truth(p[2], env)
            if isinstance(a, bool):
                return b if a else self.deny(b)
            return a if b is True else self.deny(a) if b is False else self.same(a, b)
        if op in ('forall', 'exists', 'exists1'):
            all_of = [self.truth(p[3], {**env, p[1]: v}) for v in self.d.values(p[2])]
            if op != 'exists1':
                return self.join('and' if op == 'forall' else 'or', all_of)
            return self.join('or', [self.join('and', [x if i == j else self.deny(x) for j, x in enumerate(all_of)]) for i in range(len(all_of))])
        if op == 'within':
            a = self.term(p[1], env)
            return p[2] <= a <= p[3] if isinstance(a, int) else self.between(p[1], a, p[2], p[3], env)
        parts = [self.term(x, env) for x in p[1:]]
        if not all(isinstance(x, int) for x in parts):
            return self.compare(op, p[1:], parts, env)
        a, b = parts[:2]
        if op == 'pairin':
            return bool(parts[2] >> a * self.d.size(p[3][1][2]) + b & 1)
        return {'=': a == b, '/=': a != b, '<': a < b, '<=': a <= b}[op] if op != 'in' else bool(b >> a & 1)

    def join(self, op, parts):
        ends = op == 'or'
        if any(x is ends for x in parts):
            return ends
        texts = [x for x in parts if not isinstance(x, bool)]
        return not ends if not texts else texts[0] if len(texts) == 1 else self.joined(op, texts)

    def deny(self, a):
        return not a if isinstance(a, bool) else self.denied(a)
