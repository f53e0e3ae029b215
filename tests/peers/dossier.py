"""A dossier of document 01 as trees. Refuses nothing: the texts of the benchmark are valid dossiers.

Types of variables: ('given', G), ('range', a, b), ('pow', G), ('rel', G, H), ('pfun', G, H), ('fun', G, H).
Types of terms: 'num', ('elem', G), ('set', G), ('pairs', G, H). A term is (operator, type, parts...), a predicate (connective or comparison, parts...).
Values are numbers: an element its place, a set its bits."""
import itertools, math, re

SYMBOL = re.compile(r"\s+|([A-Za-z0-9]+['?!]?|\|->|<->|-\+>|-->|<=>|<=|=>|/=|\.\.|[:;,|@()\[\]{}=<+*#-])")


class Dossier:
    """given: sets and their elements; abstract, concrete: (name, type) in order; ops: (name, inputs, outputs, abstract predicate, concrete predicate)"""

    def __init__(self, text):
        self.symbols, self.at, self.bound = [s for s in SYMBOL.findall(text) if s], 0, {}
        self.given, self.elements, self.names = {}, {}, {}
        while self.symbols[self.at] != 'end':
            self.at += 1
        self.take('end')
        while self.peek() == 'given':
            self.at += 1
            name = self.take()
            self.given[name] = self.until('end')
            self.elements.update({e: (name, i) for i, e in enumerate(self.given[name])})
            self.take('end')
        self.abstract, self.astate = self.state('abstract')
        self.concrete, self.cstate = self.state('concrete')
        self.ainit, self.cinit, self.retrieve = [self.section(w) for w in ('ainit', 'cinit', 'retrieve')]
        self.ops = []
        while self.at < len(self.symbols):
            self.take('op')
            name, declared = self.take(), []
            outer = dict(self.names)
            while self.peek() != 'abstract':
                declared.append(self.declaration())
            self.names.update(declared)
            self.names.update({n + "'": t for n, t in self.abstract + self.concrete})
            self.take('abstract')
            above = self.predicate()
            self.take('concrete')
            below = self.predicate()
            self.take('end')
            self.names = outer
            self.ops.append((name, [d for d in declared if d[0][-1] == '?'], [d for d in declared if d[0][-1] == '!'], above, below))

    def peek(self, ahead=0):
        return self.symbols[self.at + ahead] if self.at + ahead < len(self.symbols) else ''

    def take(self, wanted=None):
        s = self.peek()
        if s == '' or wanted not in (None, s):
            raise SyntaxError(f'symbol {self.at}: {s!r}, not {wanted!r}')
        self.at += 1
        return s

    def until(self, last):
        start = self.at
        while self.peek() != last:
            self.at += 1
        return self.symbols[start:self.at]

    def number(self):
        sign = -1 if self.peek() == '-' else 1
        self.at += sign < 0
        return sign * int(self.take())

    def type(self):
        if self.peek() == 'P':
            self.at += 1
            return ('pow', self.take())
        if self.peek() == '-' or self.peek()[0].isdigit():
            a = self.number()
            self.take('..')
            return ('range', a, self.number())
        g = self.take()
        kind = {'<->': 'rel', '-+>': 'pfun', '-->': 'fun'}.get(self.peek())
        if kind:
            self.at += 1
            return (kind, g, self.take())
        return ('given', g)

    def declaration(self):
        name = self.take()
        self.take(':')
        t = self.type()
        self.take(';')
        return name, t

    def state(self, word):
        self.take(word)
        declared = []
        while self.peek() != 'where':
            declared.append(self.declaration())
        self.names.update(declared)
        return declared, self.body()

    def section(self, word):
        self.take(word)
        return self.body()

    def body(self):
        self.take('where')
        p = self.predicate()
        self.take('end')
        return p

    # predicates, loosest first
    def predicate(self):
        p = self.implication()
        while self.peek() == '<=>':
            self.at += 1
            p = ('<=>', p, self.implication())
        return p

    def implication(self):
        p = self.joined('or', lambda: self.joined('and', self.denial))
        if self.peek() == '=>':
            self.at += 1
            return ('=>', p, self.implication())
        return p

    def joined(self, word, part):
        p = part()
        while self.peek() == word:
            self.at += 1
            p = (word, p, part())
        return p

    def denial(self):
        s = self.peek()
        if s == 'not':
            self.at += 1
            return ('not', self.denial())
        if s in ('true', 'false'):
            self.at += 1
            return (s,)
        if s != '(':
            return self.comparison()
        self.at += 1
        word = self.peek()
        if word in ('forall', 'exists', 'exists1'):
            self.at += 1
            name = self.take()
            self.take(':')
            t = self.type()
            self.take('@')
            p = (word, name, t, self.within(name, t))
        else:
            p = self.predicate()
        self.take(')')
        return p

    def within(self, name, t):
        self.bound[name] = t
        p = self.predicate()
        del self.bound[name]
        return p

    def comparison(self):
        t = self.term()
        pair = None
        if self.peek() == '|->':
            self.at += 1
            pair = self.term()
        s = self.take()
        if s not in ('in', 'notin'):
            return (s, t, self.term())
        sign = self.peek() == '-'
        if self.peek(sign)[0].isdigit() and self.peek(sign + 1) == '..':
            r = self.type()
            p = ('within', t, r[1], r[2])
        else:
            p = ('in', t, self.term()) if pair is None else ('pairin', t, pair, self.term())
        return p if s == 'in' else ('not', p)

    # terms
    def term(self):
        t = self.factor()
        while self.peek() in ('+', '-', 'union', 'minus'):
            s = self.take()
            t = (s, t[1], t, self.factor())
        return t

    def factor(self):
        t = self.prefixed()
        while self.peek() in ('*', 'div', 'mod', 'inter'):
            s = self.take()
            t = (s, t[1], t, self.prefixed() if s in ('*', 'inter') else self.number())
        return t

    def prefixed(self):
        s = self.peek()
        if s not in ('-', '#', 'dom', 'ran'):
            return self.primary()
        self.at += 1
        t = self.prefixed()
        if s in ('-', '#'):
            return ('neg' if s == '-' else '#', 'num', t)
        return (s, ('set', t[1][1 if s == 'dom' else 2]), t)

    def primary(self):
        s = self.take()
        if s == '[':
            t = self.term()
            self.take(']')
            return t
        if s == 'empty':
            g = self.take()
            if self.peek() in self.given:
                return ('empty', ('pairs', g, self.take()))
            return ('empty', ('set', g))
        if s == '{':
            if self.peek(1) == ':':
                name = self.take()
                self.take(':')
                t = self.type()
                self.take('|')
                p = self.within(name, t)
                self.take('}')
                return ('such', ('set', t[1]), name, p)
            members = []
            while not members or self.peek() == ',':
                self.at += bool(members)
                a = self.term()
                b = None
                if self.peek() == '|->':
                    self.at += 1
                    b = self.term()
                members.append((a, b))
            self.take('}')
            a, b = members[0]
            if b is None:
                return ('list', ('set', a[1][1]), [a for a, b in members])
            return ('pairs', ('pairs', a[1][1], b[1][1]), members)
        if s[0].isdigit():
            return ('num', 'num', int(s))
        if s in self.elements:
            g, i = self.elements[s]
            return ('elem', ('elem', g), i)
        return ('var', kind_of(self.bound[s] if s in self.bound else self.names[s]), s)

    # carriers
    def size(self, g):
        return len(self.given[g])

    def bits(self, t):
        """how many bits a set of a type has"""
        return self.size(t[1]) * (self.size(t[2]) if len(t) == 3 else 1)

    def values(self, t):
        """the carrier of a variable, in order"""
        if t[0] == 'range':
            return range(t[1], t[2] + 1)
        if t[0] == 'given':
            return range(self.size(t[1]))
        if t[0] in ('pow', 'rel'):
            return range(1 << self.bits(t))
        h = self.size(t[2])
        rows = [0] * (t[0] == 'pfun') + [1 << j for j in range(h)]
        return sorted(sum(r << i * h for i, r in enumerate(f)) for f in itertools.product(rows, repeat=self.size(t[1])))

    def bindings(self):
        """how many bindings the whole order has"""
        count = lambda declared: math.prod(len(self.values(t)) for n, t in declared)
        a, c = count(self.abstract), count(self.concrete)
        return c + sum(a * c * count(inputs) * (1 + count(outputs) * c) for _, inputs, outputs, _, _ in self.ops)

    def limits(self, t, of):
        """least and largest value of a number term; `of` gives those of a name"""
        op = t[0]
        if op == 'num':
            return t[2], t[2]
        if op == 'var':
            return of(t[2])
        if op == '#':
            return 0, self.bits(t[2][1])
        a = self.limits(t[2], of)
        if op == 'neg':
            return -a[1], -a[0]
        if op == 'mod':
            return (0, t[3] - 1) if t[3] > 0 else (t[3] + 1, 0)
        if op == 'div':
            return tuple(sorted((a[0] // t[3], a[1] // t[3])))
        b = self.limits(t[3], of)
        if op == '+':
            return a[0] + b[0], a[1] + b[1]
        if op == '-':
            return a[0] - b[1], a[1] - b[0]
        products = [x * y for x in a for y in b]
        return min(products), max(products)


def kind_of(t):
    return {'range': 'num', 'given': ('elem',) + t[1:], 'pow': ('set',) + t[1:]}.get(t[0], ('pairs',) + t[1:])
