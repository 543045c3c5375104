"""Evaluates the definitions of crates/*/specs: a plain subset of antt (clauses, records, `elim`, `do`).

It is no judge, the prover is; but it says in seconds what the prover says in minutes. A form outside the subset is
named in an error: write it plainer, or teach the evaluator. Words that are asked again and again of one history have a
memo (`MEMO`). `CALLED` holds the definitions that were called since it was cleared.
"""
import re
import sys
import threading
import time
import pathlib

REPO = None


class D:
    __slots__ = ('n', 'a')

    def __init__(self, n, a=()):
        self.n, self.a = n, tuple(a)

    def __eq__(self, o):
        return isinstance(o, D) and self.n == o.n and self.a == o.a

    def __hash__(self):
        return hash((self.n, self.a))

    def __repr__(self):
        return self.n if not self.a else '(' + self.n + ' ' + ' '.join(map(repr, self.a)) + ')'


class Cons:
    __slots__ = ('h', 't', 'len')

    def __init__(self, h, t):
        self.h, self.t = h, t
        self.len = 1 + (t.len if t is not None else 0)

    def __eq__(self, o):
        a, b = self, o
        while True:
            if a is b:
                return True
            if a is None or b is None or not isinstance(b, Cons) or a.len != b.len:
                return False
            if not (a.h == b.h):
                return False
            a, b = a.t, b.t

    def __hash__(self):
        return id(self)

    def __repr__(self):
        return '[' + ', '.join(map(repr, to_list(self))) + ']'


class Rec:
    __slots__ = ('f',)

    def __init__(self, f):
        self.f = f

    def __eq__(self, o):
        return isinstance(o, Rec) and self.f == o.f

    def __hash__(self):
        return id(self)

    def __repr__(self):
        return '{' + '; '.join(f'{k} = {v!r}' for k, v in self.f.items()) + '}'


def to_list(x):
    out = []
    while x is not None:
        out.append(x.h)
        x = x.t
    return out


def from_list(xs, tail=None):
    for x in reversed(xs):
        tail = Cons(x, tail)
    return tail


class Fun:
    """arity, python callable on a list of args; curried by apply"""
    __slots__ = ('arity', 'f', 'args', 'name')

    def __init__(self, arity, f, args=(), name=''):
        self.arity, self.f, self.args, self.name = arity, f, args, name

    def __repr__(self):
        return f'<{self.name or "fun"}>'


def apply(f, args):
    while args:
        if isinstance(f, D):
            f = D(f.n, f.a + tuple(args))
            return f
        if not isinstance(f, Fun):
            raise Exception(f'applying {f!r} to {args!r}')
        need = f.arity - len(f.args)
        if len(args) < need:
            return Fun(f.arity, f.f, f.args + tuple(args), f.name)
        now, args = args[:need], args[need:]
        f = f.f(*(f.args + tuple(now)))
    return f


# ---------------------------------------------------------------- tokens

TOKEN = re.compile(r'\s+|--[^\n]*|"[^"]*"|[(){}\[\];,]|λ|[^\s(){}\[\];,λ]+')


def tokens(text):
    out = []
    at = 0
    prev_end = -1
    while at < len(text):
        m = TOKEN.match(text, at)
        tok = m.group(0)
        if not (tok.isspace() or (tok.startswith('--'))):
            glued = prev_end == at
            out.append((tok, glued))
            prev_end = m.end()
        at = m.end()
    return out


OPS = {'||': (2, 'r'), '&&': (3, 'r'), '==': (4, 'n'), '∷': (5, 'r'), '++': (5, 'r'), '+': (6, 'l'), '-': (6, 'l'), '*': (7, 'l'), '/': (7, 'l'), '%': (7, 'l'), '^': (8, 'r'), '≡': (1, 'n'), '×': (1, 'r')}
STOP = {')', '}', ']', ';', ',', 'then', 'else', 'in', '|', '↦', '=', 'of', '←'}


class Parser:
    def __init__(self, toks, mod):
        self.t, self.i, self.mod = toks, 0, mod

    def peek(self):
        return self.t[self.i][0] if self.i < len(self.t) else None

    def next(self):
        tok = self.t[self.i][0]
        self.i += 1
        return tok

    def expect(self, tok):
        got = self.next()
        if got != tok:
            raise Exception(f'expected {tok}, got {got} in {self.mod.name}: {" ".join(x for x, _ in self.t[max(0, self.i - 12):self.i + 8])}')

    # expressions give ('kind', ...)
    def expr(self, level=0):
        left = self.app()
        while True:
            op = self.peek()
            if op not in OPS:
                return left
            prec, assoc = OPS[op]
            if prec < level:
                return left
            self.next()
            right = self.expr(prec if assoc == 'r' else prec + 1)
            left = ('op', op, left, right)

    def app(self):
        tok = self.peek()
        if tok == 'λ':
            return self.lam()
        if tok == 'if':
            self.next()
            c = self.expr()
            self.expect('then')
            a = self.expr()
            self.expect('else')
            b = self.expr()
            return ('if', c, a, b)
        if tok == 'let':
            self.next()
            name = self.next()
            if self.peek() == ':':
                self.next()
                depth = 0
                while self.peek() != '=' or depth:
                    depth += {'(': 1, ')': -1}.get(self.next(), 0)
            self.expect('=')
            v = self.expr()
            self.expect('in')
            return ('let', name, v, self.expr())
        head = self.atom()
        args = []
        while self.i < len(self.t):
            tok = self.peek()
            if tok in STOP or tok in OPS:
                break
            if tok in ('λ', 'if', 'let'):
                args.append(self.app())
                break
            args.append(self.atom())
        return ('app', head, args) if args else head

    def lam(self):
        self.expect('λ')
        names = []
        while True:
            tok = self.next()
            if tok == '(':
                name = self.next()
                names.append(name)
                depth = 1
                while depth:
                    depth += {'(': 1, ')': -1}.get(self.next(), 0)
                if self.peek() == '.':
                    self.next()
                    break
            elif tok.endswith('.'):
                if tok != '.':
                    names.append(tok[:-1])
                break
            else:
                names.append(tok)
        return ('lam', names, self.expr())

    def postfix(self, e):
        while self.i < len(self.t) and self.t[self.i][1] and self.t[self.i][0].startswith('.') and len(self.t[self.i][0]) > 1:
            for f in self.next()[1:].split('.'):
                e = ('field', e, f)
        return e

    def atom(self):
        tok = self.next()
        if tok == '(':
            e = self.expr()
            if self.peek() == ',':
                items = [e]
                while self.peek() == ',':
                    self.next()
                    items.append(self.expr())
                e = ('tuple', items)
            self.expect(')')
            return self.postfix(e)
        if tok == '[':
            self.expect(']')
            return ('const', None)
        if tok == 'record':
            base = None
            if self.peek() != '{':
                base = self.atom()
            self.expect('{')
            fields = []
            while self.peek() != '}':
                name = self.next()
                self.expect('=')
                fields.append((name, self.expr()))
                if self.peek() == ';':
                    self.next()
            self.expect('}')
            return ('record', base, fields)
        if tok == 'elim':
            e = self.atom()
            self.expect('[')
            cases = []
            if self.peek() == '|':
                self.next()
            while self.peek() != ']':
                p = self.pattern()
                self.expect('↦')
                cases.append((p, self.expr()))
                if self.peek() == '|':
                    self.next()
            self.expect(']')
            return ('elim', e, cases)
        if tok.startswith('"'):
            return ('const', from_list(list(tok[1:-1].encode())))
        if re.fullmatch(r'0x[0-9a-fA-F]+', tok):
            return ('const', int(tok, 16))
        if tok.isdigit():
            return ('const', int(tok))
        return self.name(tok)

    def name(self, tok):
        if '.' in tok and not tok.startswith('.'):
            parts = tok.split('.')
            if parts[0] in self.mod.aliases:
                e = ('global', (self.mod.aliases[parts[0]], parts[1]))
                rest = parts[2:]
            else:
                e = ('var', parts[0])
                rest = parts[1:]
            for f in rest:
                e = ('field', e, f)
            return e
        return ('var', tok)

    # patterns
    def pattern(self):
        p = self.pattern_app()
        if self.peek() == '∷':
            self.next()
            return ('cons', p, self.pattern())
        return p

    def pattern_app(self):
        head = self.pattern_atom()
        if head[0] in ('con', 'suc'):
            args = []
            while self.peek() not in ('↦', ')', '∷', '=', ',', None):
                args.append(self.pattern_atom())
            if head[0] == 'suc':
                return ('suc', args[0])
            return ('con', head[1], args)
        return head

    def pattern_atom(self):
        tok = self.next()
        if tok == '(':
            p = self.pattern()
            if self.peek() == ',':
                items = [p]
                while self.peek() == ',':
                    self.next()
                    items.append(self.pattern())
                p = ('tup', items)
            self.expect(')')
            return p
        if tok == '[':
            self.expect(']')
            return ('nil',)
        if tok == '_':
            return ('any',)
        if tok == 'zero':
            return ('lit', 0)
        if tok == 'suc':
            return ('suc',)
        if tok == 'true':
            return ('lit', True)
        if tok == 'false':
            return ('lit', False)
        if tok == 'tt':
            return ('any',)
        last = tok.split('.')[-1]
        if last[0].isupper():
            return ('con', last, [])
        return ('var', tok)


# ---------------------------------------------------------------- builtins

def b(arity):
    def deco(f):
        BUILTIN[f.__name__.rstrip('_')] = Fun(arity, f, (), f.__name__)
        return f
    return deco


BUILTIN = {'zero': 0, 'true': True, 'false': False, 'tt': D('tt')}
NONE = D('None')


def some(x):
    return D('Some', (x,))


@b(2)
def bind_do(x, f):
    return apply(f, [x.a[0]]) if x.n in ('Some', 'Ok') else x


@b(2)
def ok_or(x, e):
    return D('Ok', x.a) if x.n == 'Some' else D('Err', (e,))


@b(2)
def option_map(f, x):
    return some(apply(f, [x.a[0]])) if x.n == 'Some' else x


@b(2)
def option_and_then(f, x):
    return apply(f, [x.a[0]]) if x.n == 'Some' else x


@b(1)
def is_ascii_digit(n):
    return 48 <= n <= 57


@b(4)
def match_ordering(o, less, equal, greater):
    return {'Less': less, 'Equal': equal, 'Greater': greater}[o.n]


@b(3)
def slice_cmp(f, x, y):
    a, z = to_list(x), to_list(y)
    return D('Less' if a < z else 'Greater' if a > z else 'Equal')


BUILTIN['nat_cmp'] = None


@b(2)
def digits_value(base, text):
    return int(bytes(to_list(text)), base)


@b(1)
def host_or_empty(url):
    h = url.f['host']
    return h.a[0] if h.n == 'Some' else D('Domain', (None,))


@b(1)
def host_text(h):
    if h.n == 'Domain':
        return h.a[0]
    return from_list(list('.'.join(str(x) for x in to_list(h.a[0].f['octets'])).encode()))


@b(1)
def ipv4_bits(a):
    n = 0
    for x in to_list(a.f['octets']):
        n = 256 * n + x
    return n


@b(1)
def concat(x):
    out = []
    for y in to_list(x):
        out += to_list(y)
    return from_list(out)


@b(1)
def suc(n):
    return n + 1


@b(1)
def not_(x):
    return not x


@b(2)
def nat_lt(x, y):
    return x < y


@b(2)
def nat_le(x, y):
    return x <= y


@b(1)
def length(x):
    return 0 if x is None else x.len


@b(2)
def range_with_len(a, n):
    return from_list(list(range(a, a + n)))


@b(2)
def take(n, xs):
    if xs is None or n >= xs.len:
        return xs
    out = []
    while n and xs is not None:
        out.append(xs.h)
        xs = xs.t
        n -= 1
    return from_list(out)


@b(2)
def drop(n, xs):
    while n and xs is not None:
        xs = xs.t
        n -= 1
    return xs


@b(2)
def map_(f, xs):
    return from_list([apply(f, [x]) for x in to_list(xs)])


@b(2)
def filter_(f, xs):
    return from_list([x for x in to_list(xs) if apply(f, [x])])


MEMO_LISTS = {}


def stable(f):
    return not f.args and f.name not in ('', 'λ')


@b(2)
def filter_map(f, xs):
    if not stable(f):
        out = []
        for x in to_list(xs):
            r = apply(f, [x])
            if r.n == 'Some':
                out.append(r.a[0])
        return from_list(out)
    memo = MEMO_LISTS.setdefault((id(f), 'map'), {})
    cells = []
    at = xs
    while at is not None and id(at) not in memo:
        cells.append(at)
        at = at.t
    v = None if at is None else memo[id(at)][0]
    for c in reversed(cells):
        r = apply(f, [c.h])
        if r.n == 'Some':
            v = Cons(r.a[0], v)
        memo[id(c)] = (v, c)
    return v


@b(2)
def flat_map(f, xs):
    out = []
    for x in to_list(xs):
        out += to_list(apply(f, [x]))
    return from_list(out)


@b(2)
def find(f, xs):
    while xs is not None:
        if apply(f, [xs.h]):
            return some(xs.h)
        xs = xs.t
    return NONE


@b(3)
def fold(f, a, xs):
    for x in to_list(xs):
        a = apply(f, [a, x])
    return a


@b(2)
def list_any(f, xs):
    if not stable(f):
        while xs is not None:
            if apply(f, [xs.h]):
                return True
            xs = xs.t
        return False
    memo = MEMO_LISTS.setdefault((id(f), 'any'), {})
    cells = []
    at = xs
    while at is not None and id(at) not in memo:
        cells.append(at)
        at = at.t
    v = False if at is None else memo[id(at)][0]
    for c in reversed(cells):
        v = v or apply(f, [c.h])
        memo[id(c)] = (v, c)
    return v


@b(2)
def list_all(f, xs):
    while xs is not None:
        if not apply(f, [xs.h]):
            return False
        xs = xs.t
    return True


@b(1)
def is_some(x):
    return x.n == 'Some'


@b(1)
def is_none(x):
    return x.n == 'None'


@b(1)
def is_ok(x):
    return x.n == 'Ok'


@b(2)
def unwrap_or(x, y):
    return x.a[0] if x.n == 'Some' else y


@b(2)
def option_or(x, y):
    return x if x.n == 'Some' else y


@b(2)
def slice_get(xs, n):
    while n and xs is not None:
        xs = xs.t
        n -= 1
    return NONE if xs is None else some(xs.h)


@b(1)
def codes(x):
    return x


@b(1)
def decimal(n):
    return from_list(list(str(n).encode()))


@b(2)
def bytes_eq(x, y):
    return x == y


@b(3)
def cond(c, x, y):
    return x if c else y


@b(1)
def pos(n):
    return D('pos', (n,))


@b(1)
def negsuc(n):
    return D('negsuc', (n,))


def append(xs, ys):
    if ys is None:
        return xs
    return from_list(to_list(xs), ys)


OPFUN = {
    '+': lambda x, y: x + y, '-': lambda x, y: max(0, x - y), '*': lambda x, y: x * y, '/': lambda x, y: x // y if y else 0,
    '%': lambda x, y: x % y if y else x, '^': lambda x, y: x ** y, '==': lambda x, y: x == y, '∷': Cons, '++': append,
}

# ---------------------------------------------------------------- modules

MODULES = {}
TEXTS = {}  # the text of a file that is read in place of the file's own
CALLED = set()
MEMO = {'findings', 'checks', 'contents', 'events', 'all_events', 'actions_out', 'out', 'stream_count', 'verdict_of', 'is_classified', 'is_dequeued', 'unclassified_before',
        'is_ready', 'is_established', 'first_session', 'is_gone', 'is_gone_by_call', 'waiting_streams', 'received_count', 'is_handed_out', 'is_given_up', 'is_reset', 'was_read',
        'session_part', 'control_walk', 'target_of', 'is_waiting', 'has_request', 'all_answered', 'fault_of', 'next', 'datagrams_of', 'session_walk_of', 'control_walk_of', 'response_walk_of',
        'uni_verdict_of', 'bi_verdict_of', 'is_open', 'peer_count', 'local_count', 'end_of', 'stop_of', 'is_finished', 'credit', 'unis_allowed', 'bis_allowed', 'is_connected', 'loss_of',
        'datagram_fact', 'sent_on'}


class Module:
    def __init__(self, name, path):
        self.name, self.path = name, path
        self.aliases = {}
        self.imports = {}
        self.defs = {}
        self.cache = {}
        self.load()

    def load(self):
        items = []
        for line in TEXTS.get(str(self.path), None or self.path.read_text()).split('\n'):
            if line.startswith('--') or not line.strip():
                continue
            if line[0].isspace() or line[0] in '}])':
                if items:
                    items[-1] += '\n' + line
            else:
                items.append(line)
        self.lemmas = []
        for item in items:
            first = item.split(None, 1)[0]
            if first == 'use':
                self.use(item[4:].strip())
            elif first in ('pub', 'abbrev', 'unfoldable', 'unfolding', 'where', 'record', 'data'):
                m = re.match(r'pub (recorded-\S+) : (.*)', item, re.S)
                if m:
                    self.lemmas.append((m.group(1), m.group(2)))
                continue
            else:
                name = first
                self.defs.setdefault(name, []).append(item)

    def use(self, text):
        if ' as ' in text and '{' not in text:
            path, alias = text.rsplit(' as ', 1)
            self.aliases[alias.strip()] = path.strip()
            return
        m = re.match(r'(.*)\.\{(.*)\}$', text, re.S)
        if not m:
            return
        for n in m.group(2).split(','):
            n = n.strip()
            if ' as ' in n:
                n, local = n.split(' as ')
            else:
                local = n
            self.imports[local.strip()] = (m.group(1), n.strip())

    def get(self, name):
        if name in self.cache:
            return self.cache[name]
        v = self.find(name)
        self.cache[name] = v
        return v

    def find(self, name):
        if name in self.defs:
            return self.compile(name, self.defs[name])
        if name in self.imports:
            path, n = self.imports[name]
            return lookup(path, n)
        if name in BUILTIN:
            return BUILTIN[name]
        if name[0].isupper():
            return D(name)
        raise Exception(f'{name} unknown in {self.name}')

    def compile(self, name, clauses):
        parsed = []
        for text in clauses:
            text = without_do(text)
            toks = tokens(text)
            p = Parser(toks, self)
            CURRENT[0] = f'{self.name}.{name}'
            p.next()
            pats = []
            while p.peek() != '=':
                pats.append(p.pattern_atom())
            p.expect('=')
            e = p.expr()
            if p.i != len(toks):
                raise Exception(f'rest in {self.name}.{name}: {toks[p.i:p.i+6]}')
            bound = []
            for q in pats:
                binds(q, bound)
            parsed.append(([(i, q[1]) for i, q in enumerate(pats) if q[0] == 'var'], [(i, q) for i, q in enumerate(pats) if q[0] not in ('var', 'any')],
                           comp(e, self, frozenset(bound))))
        arity = len(pats)
        if arity == 0:
            return parsed[0][2]({})

        key = (self.name, name)

        def run(*args):
            CALLED.add(key)
            for names, tests, body in parsed:
                env = {n: args[i] for i, n in names}
                for i, q in tests:
                    if not match(q, args[i], env):
                        break
                else:
                    return body(env)
            raise Exception(f'no clause of {name} for {args!r}'[:2000])
        run.__name__ = name
        if name in MEMO:
            memo = {}

            def memoized(*args):
                key = tuple(id(x) if isinstance(x, (Cons, Rec, Fun)) else x for x in args)
                if key in memo:
                    return memo[key][0]
                v = run(*args)
                memo[key] = (v, args)
                return v
            CLEAR.append(memo)
            return Fun(arity, memoized, (), name)
        return Fun(arity, run, (), name)


class Uses(Module):
    """The names that some lines `use ..` import."""

    def __init__(self, name, lines):
        self.name, self.aliases, self.imports, self.defs, self.cache = name, {}, {}, {}, {}
        for line in lines:
            self.use(line)


def without_do(text):
    if not re.search(r'= do\s*\n', text):
        return text
    head, body = re.split(r'= do\s*\n', text, maxsplit=1)
    lines = [l.strip() for l in body.split('\n') if l.strip()]
    e = lines[-1]
    for l in reversed(lines[:-1]):
        name, v = l.split('←', 1)
        e = f'bind_do ({v}) (λ {name.strip()}. {e})'
    return head + '= ' + e


EQUATIONS = None  # those of wt_promise/src, once sentences.py read them
CLEAR = []
CURRENT = ['']


def lookup(path, name):
    if path.startswith('Rattle.wt_') and '.declared.' not in path:
        parts = path.split('.')
        file = REPO / 'crates' / parts[1] / 'specs' / ('/'.join(parts[3:]) + '.antt')
        if file.exists():
            key = str(file)
            if key not in MODULES:
                MODULES[key] = Module(path, file)
            return MODULES[key].get(name)
    if name in BUILTIN:
        return BUILTIN[name]
    if name[0].isupper():
        return D(name)
    raise Exception(f'{name} of {path} unknown')


def binds(q, out):
    if q[0] == 'var':
        out.append(q[1])
    elif q[0] == 'con':
        for x in q[2]:
            binds(x, out)
    elif q[0] == 'cons':
        binds(q[1], out)
        binds(q[2], out)
    elif q[0] == 'suc':
        binds(q[1], out)
    elif q[0] == 'tup':
        for x in q[1]:
            binds(x, out)


def match(q, v, env):
    k = q[0]
    if k == 'var':
        env[q[1]] = v
        return True
    if k == 'any':
        return True
    if k == 'nil':
        return v is None
    if k == 'cons':
        return isinstance(v, Cons) and match(q[1], v.h, env) and match(q[2], v.t, env)
    if k == 'lit':
        return v is q[1] or (v == q[1] and type(v) is type(q[1]))
    if k == 'suc':
        return v > 0 and match(q[1], v - 1, env)
    if k == 'con':
        if not isinstance(v, D) or v.n != q[1]:
            return False
        return all(match(x, y, env) for x, y in zip(q[2], v.a))
    if k == 'tup':
        return all(match(x, v.f[str(i)], env) for i, x in enumerate(q[1]))
    raise Exception(q)


def names_in(e):
    """All names in an expression."""
    if isinstance(e, tuple):
        return {e[1]} if e[:1] == ('var',) else set().union(*map(names_in, e))
    return set().union(*map(names_in, e)) if isinstance(e, list) else set()


def comp(e, mod, bound):
    """closure: env -> value"""
    k = e[0]
    if k == 'const':
        v = e[1]
        return lambda env: v
    if k == 'var':
        n = e[1]
        if n in bound:
            return lambda env: env[n]
        cell = []

        def get(env):
            if not cell:
                cell.append(mod.get(n))
            return cell[0]
        return get
    if k == 'global':
        path, n = e[1]
        cell = []

        def getg(env):
            if not cell:
                cell.append(lookup(path, n))
            return cell[0]
        return getg
    if k == 'field':
        x, f = comp(e[1], mod, bound), e[2]
        return lambda env: x(env).f[f]
    if k == 'tuple':
        xs = [comp(x, mod, bound) for x in e[1]]
        return lambda env: Rec({str(i): x(env) for i, x in enumerate(xs)})
    if k == 'record':
        fs = [(n, comp(x, mod, bound)) for n, x in e[2]]
        if e[1] is None:
            return lambda env: Rec({n: x(env) for n, x in fs})
        base = comp(e[1], mod, bound)

        def upd(env):
            f = dict(base(env).f)
            for n, x in fs:
                f[n] = x(env)
            return Rec(f)
        return upd
    if k == 'if':
        c, x, y = (comp(z, mod, bound) for z in e[1:])
        return lambda env: x(env) if c(env) else y(env)
    if k == 'let':
        v = comp(e[2], mod, bound)
        body = comp(e[3], mod, bound | {e[1]})
        n = e[1]

        def let(env):
            env2 = dict(env)
            env2[n] = v(env)
            return body(env2)
        return let
    if k == 'lam':
        names = e[1]
        body = comp(e[2], mod, bound | set(names))

        def lam(env):
            def f(*args):
                env2 = dict(env)
                env2.update(zip(names, args))
                return body(env2)
            return Fun(len(names), f, (), 'λ')
        if bound.isdisjoint(names_in(e)):
            closed = lam({})
            closed.name = 'closed λ'
            return lambda env: closed
        return lam
    if k == 'elim':
        x = comp(e[1], mod, bound)
        cases = []
        for q, body in e[2]:
            out = []
            binds(q, out)
            cases.append((q, comp(body, mod, bound | set(out))))

        def elim(env):
            v = x(env)
            for q, body in cases:
                env2 = dict(env)
                if match(q, v, env2):
                    return body(env2)
            raise Exception('elim')
        return elim
    if k == 'op':
        op = e[1]
        x, y = comp(e[2], mod, bound), comp(e[3], mod, bound)
        if op == '&&':
            return lambda env: x(env) and y(env)
        if op == '||':
            return lambda env: x(env) or y(env)
        f = OPFUN[op]
        return lambda env: f(x(env), y(env))
    if k == 'app':
        f = comp(e[1], mod, bound)
        args = [comp(x, mod, bound) for x in e[2]]
        return lambda env: apply(f(env), [x(env) for x in args])
    raise Exception(k)
