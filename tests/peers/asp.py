"""A dossier as a logic program for gringo and clasp: states, retrieve and operations as relations over values, bad(K) where obligation K fails (0 initialisation, 2J + 1
applicability and 2J + 2 correctness of operation J). The grounder computes the relations; K of the least bad(K) is the verdict.

Values are numbers as in dossier.py. A top conjunct `v = t` is an equation that the grounder solves; `forall x @ x in S <=> q` is one for S; a disjunction with equations in
it makes a rule for each case; # and dom and ran are joins with tables; every other conjunct is a comparison of arithmetic terms, in which truth is 0 or 1."""
import itertools
from walk import Walk, conjuncts, names_of, solved

TABLE = 10    # bits up to which #, dom and ran are tables
CASES = 16    # rules that one predicate is split into


class Asp(Walk):
    def __init__(self, dossier):
        super().__init__(dossier)
        self.tables, self.out, self.types = {}, [], {}

    # terms
    def member(self, kind, x):
        return f'(2**{x})'

    def pair(self, kind, a, b):
        return f'(2**({a}*{self.d.size(kind[2])}+{b}))'

    def unite(self, kind, sets):
        return f'({"?".join(map(str, sets))})' if len(sets) > 1 else str(sets[0])

    def gather(self, kind, truths):
        return '(' + '+'.join(f'{1 << i}*{int(x) if isinstance(x, bool) else x}' for i, x in enumerate(truths) if x is not False) + ')'

    def text(self, t, parts, env):
        op, kind, a = t[0], t[2][1], parts[0]
        if op in ('#', 'dom', 'ran'):
            bits = self.d.bits(kind)
            if bits <= TABLE:
                return self.looked_up(op, kind, a)
            if op == '#':
                return '(' + '+'.join(f'({a}/{1 << i}&1)' for i in range(bits)) + ')'
            g, h = map(self.d.size, kind[1:])
            lines = [(i, sum(1 << i * h + j for j in range(h))) for i in range(g)] if op == 'dom' else [(j, sum(1 << i * h + j for i in range(g))) for j in range(h)]
            return '(' + '+'.join(f'{1 << i}*(1-1/(1+({a}&{m})))' for i, m in lines) + ')'
        if op == 'neg':
            return f'(-{a})'
        b = parts[1]
        if op in ('div', 'mod'):
            low, high = self.d.limits(t[2], lambda n: self.limits_of(n, env))
            if b < 0:
                a, b, low = f'(-{a})', -b, -high
                sign = -1 if op == 'mod' else 1
            else:
                sign = 1
            shift = max(0, -(low // b))
            x = f'({a}+{shift * b})' if shift else a
            r = f'({x}\\{b})' if op == 'mod' else f'({x}/{b}-{shift})'
            return r if sign > 0 else f'(-{r})'
        if op == 'minus':
            return f'({a}&~{b})' if isinstance(b, str) else f'({a}&{((1 << self.d.bits(kind)) - 1) & ~b})'
        return f'({a}{ {"+": "+", "-": "-", "*": "*", "union": "?", "inter": "&"}[op] }{b})'

    def limits_of(self, n, env):
        if isinstance(env[n], int):
            return env[n], env[n]
        return self.types[n][1], self.types[n][2]

    def looked_up(self, op, kind, a):
        """a join with the table of an operator on sets"""
        name = f'{ {"#": "size"}.get(op, op) }_{"_".join(map(str, map(self.d.size, kind[1:])))}'
        if name not in self.tables:
            self.tables[name] = ' '.join(f'{name}({v},{self.compute(op, kind, v)}).' for v in range(1 << self.d.bits(kind)))
        literal = self.joins.setdefault((name, a), f'K{len(self.joins) + 1}')
        return literal

    # truth as 0 or 1
    def compare(self, op, terms, parts, env):
        a, b = parts[:2]
        if op in ('in', 'pairin'):
            place = a if op == 'in' else f'({a}*{self.d.size(terms[2][1][2])}+{b})'
            s = parts[-1]
            return f'({s}/{1 << place}&1)' if isinstance(place, int) else f'({s}/2**{place}&1)'
        if op == '=':
            return f'(1/(1+|{a}-{b}|))'
        if op == '/=':
            return f'(1-1/(1+|{a}-{b}|))'
        if op == '<=':
            return f'(1-{self.compare("<", terms[::-1], parts[::-1], env)})'
        return f'((|{b}-{a}|+{b}-{a}+1)/(|{b}-{a}|+2))'

    def between(self, t, a, low, high, env):
        return f'({self.compare("<=", [t, t], [low, a], env)}*{self.compare("<=", [t, t], [a, high], env)})'

    def joined(self, op, texts):
        return f'({("*" if op == "and" else "?").join(texts)})'

    def denied(self, a):
        return f'(1-{a})'

    def same(self, a, b):
        return f'(1-({a}^{b}))'

    # conjuncts as literals: a list of cases, each a list of literals
    def cases(self, p, env, yes=True):
        op = p[0]
        if op in ('true', 'false'):
            return [[]] if (op == 'true') == yes else []
        if op == 'not':
            return self.cases(p[1], env, not yes)
        if op == '=>':
            return self.cases(('or', ('not', p[1]), ('and', p[1], p[2])) if yes else ('and', p[1], ('not', p[2])), env)
        if op == '<=>':
            return self.cases(('or', ('and', p[1], p[2] if yes else ('not', p[2])), ('and', ('not', p[1]), ('not', p[2]) if yes else p[2])), env)
        if op in ('forall', 'exists', 'and', 'or'):
            if op in ('and', 'or'):
                parts = [self.cases(q, env, yes) for q in p[1:]]
            else:
                parts = [self.cases(p[3], {**env, p[1]: v}, yes) for v in self.d.values(p[2])]
            if (op in ('forall', 'and')) != yes:
                return [c for part in parts for c in part]
            product = [[]]
            for part in parts:
                product = [a + b for a in product for b in part]
                if len(product) > CASES:
                    return self.test(p, env, yes)
            return product
        if op in ('=', '/=', '<', '<='):
            a, b = self.term(p[1], env), self.term(p[2], env)
            if not (isinstance(a, int) and isinstance(b, int)):
                if not yes:
                    op, a, b = {'=': ('/=', a, b), '/=': ('=', a, b), '<': ('<=', b, a), '<=': ('<', b, a)}[op]
                return [[f'{a} {"!=" if op == "/=" else op} {b}']]
        return self.test(p, env, yes)

    def test(self, p, env, yes=True):
        x = self.truth(p, env)
        if isinstance(x, bool):
            return [[]] if x == yes else []
        return [[f'{x} {"!=" if yes else "="} 0']]

    def rule(self, head, literals, parts, env):
        """a relation's rules: the head holds where the literals and the predicates do"""
        self.joins, product = {}, [[]]
        for p in [c for q in parts for c in conjuncts(q)]:
            s = solved(p, {n for n in names_of(p) if isinstance(env.get(n), str)})
            if s and s[1][0] == 'such':
                cases = [[f'{env[s[0]]} = {self.term(s[1], env)}']]
            else:
                cases = self.cases(p, env)
                if len(cases) > 1 and (len(cases) * len(product) > CASES or not any(' = ' in x and not x.endswith(' = 0') for c in cases for x in c)):
                    cases = self.test(p, env)
            product = [a + b for a in product for b in cases]
        for case in product:
            joins = [f'{name}({a},{k})' for (name, a), k in self.joins.items() if any(k in x for x in case) or any(k in a for n, a in self.joins)]
            body = literals + joins + case
            self.out.append(f'{head} :- {", ".join(body)}.' if body else f'{head}.')

    # variables
    def carrier(self, t, x):
        if t[0] in ('range', 'given', 'pow', 'rel'):
            v = self.d.values(t)
            return f'{x} = {v[0]}..{v[-1]}'
        name = f'{t[0]}_{self.d.size(t[1])}_{self.d.size(t[2])}'
        self.tables.setdefault(name, ' '.join(f'{name}({v}).' for v in self.d.values(t)))
        return f'{name}({x})'

    def atom(self, name, primed=False):
        """the text of a relation's atom and the names in it; a relation has a column for each variable that it depends on, and no other"""
        names = [n + "'" if primed and n in self.plain else n for n in self.columns[name]]
        return name + (f'({",".join(self.env[n] for n in names)})' if names else ''), names

    def relation(self, head, allowed, atoms, parts=(), absent=None):
        """the relation `head` over the allowed names: it holds where the atoms and predicates do and the absent atom does not, whatever the other names are"""
        names = {n for a in atoms for n in a[1]}
        used = {n for p in parts for n in names_of(p) if n in self.env} | set(absent[1] if absent else [])
        literals = [a[0] for a in atoms] + [self.carrier(self.types[n], self.env[n]) for n in self.env if n in used - names]
        self.columns[head] = [n for n in allowed if n in names | used]
        self.rule(self.atom(head)[0], literals + ([f'not {absent[0]}'] if absent else []), parts, self.env)

    def program(self):
        d = self.d
        a, c = [n for n, t in d.abstract], [n for n, t in d.concrete]
        a2, c2 = [n + "'" for n in a], [n + "'" for n in c]
        self.plain, self.columns, atom, relation = a + c, {}, self.atom, self.relation
        self.types = dict(d.abstract + d.concrete)
        self.types.update({n + "'": t for n, t in self.types.items()})
        self.env = env = {n: 'V' + n.replace("'", '_') for n in self.types}
        relation('astate', a, [], [d.astate])
        relation('cstate', c, [], [d.cstate])
        relation('related', a + c, [atom('astate'), atom('cstate')], [d.retrieve])
        relation('ainit', a, [atom('astate')], [d.ainit])
        relation('cinit', c, [atom('cstate')], [d.cinit])
        relation('begun', c, [atom('ainit'), atom('related')])
        relation('bad(0)', [], [atom('cinit')], absent=atom('begun'))
        for j, (name, inputs, outputs, above, below) in enumerate(d.ops):
            self.types.update(inputs + outputs)
            self.env = env = {**{n: x for n, x in env.items() if n[-1] not in '?!'}, **{n: f'V{n[:-1]}{"_i" if n[-1] == "?" else "_o"}' for n, t in inputs + outputs}}
            i, o = [n for n, t in inputs], [n for n, t in outputs]
            aop, cop, ready, able, need, met = [f'{x}{j}' for x in ('aop', 'cop', 'ready', 'able', 'need', 'met')]
            relation(aop, a + i + o + a2, [atom('astate'), atom('astate', True)], [above])
            relation(cop, c + i + o + c2, [atom('cstate'), atom('cstate', True)], [below])
            relation(ready, a + i, [atom(aop)])
            relation(able, c + i, [atom(cop)])
            relation(f'bad({2 * j + 1})', [], [atom(ready), atom('related')], absent=atom(able))
            relation(need, a + i + o + c2, [atom(ready), atom('related'), atom(cop)])
            relation(met, a + i + o + c2, [atom(need), atom(aop), atom('related', True)])
            relation(f'bad({2 * j + 2})', [], [atom(need)], absent=atom(met))
        return '\n'.join(list(self.tables.values()) + self.out + ['#show bad/1.', ''])


def translate(dossier):
    return Asp(dossier).program()
