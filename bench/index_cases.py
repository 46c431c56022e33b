"""Writes the table of crates/array_tests/src/index.rt: what each call answers on small arrays, worked by the rules
with dictionaries of cells by row and column, and knowing nothing of the crate."""
import itertools, random

ARRAYS = [(0, 0, []), (1, 0, []), (0, 1, []), (0, 5, []), (1, 1, [7]), (1, 3, [1, 2, 3]), (3, 1, [1, 2, 3]), (2, 3, [1, 2, 3, 4, 5, 6])]
# kind, rows, cols, cells by columns
POSITIONS = [None, ('n', 1, 1, [1]), ('n', 1, 1, [2]), ('n', 1, 2, [3, 1]), ('n', 2, 1, [2, 2]), ('n', 0, 0, []),
             ('m', 1, 3, [1, 0, 1]), ('n', 2, 2, [1, 3, 2, 1]), ('n', 1, 1, [5]), ('n', 1, 1, [0]), ('m', 2, 1, [0, 1]), ('n', 1, 1, [1000001])]
VALUES = [(1, 1, [9]), (1, 2, [8, 9]), (2, 1, [8, 9]), (1, 3, [7, 8, 9]), (0, 0, [])]
BAD, RANGE, LIMIT, GROW, SIZE, DEL = -8, -9, -4, -10, -11, -12

class Refused(Exception):
    pass

def table(a):
    r, c, x = a
    return {(i, j): x[j * r + i] for j in range(c) for i in range(r)}

def array(r, c, t):
    return (r, c, [t.get((i, j), 0) for j in range(c) for i in range(r)])

def numbers(p, extent):
    if p is None:
        return list(range(1, extent + 1))
    if p[0] == 'm':
        return [k + 1 for k, v in enumerate(p[3]) if v]
    return p[3]

def check(ps):
    for p in ps:
        if p is not None and p[0] == 'n' and any(v < 1 for v in p[3]):
            raise Refused(BAD)

def vector(r, c):
    return r == 1 or c == 1

def select(a, ps):
    r, c, x = a
    check(ps)
    if len(ps) == 1:
        p = ps[0]
        ns = numbers(p, r * c)
        if any(n > r * c for n in ns):
            raise Refused(RANGE)
        cells = [x[n - 1] for n in ns]
        if p is None:
            return (len(ns), 1, cells)
        pr, pc = (p[1], p[2]) if p[0] == 'n' else ((1, len(ns)) if p[1] == 1 else (len(ns), 1))
        if vector(r, c) and (r, c) != (1, 1) and vector(pr, pc):
            pr, pc = (1, len(ns)) if r == 1 else (len(ns), 1)
        return (pr, pc, cells)
    rs, cs = numbers(ps[0], r), numbers(ps[1], c)
    if any(n > r for n in rs) or any(n > c for n in cs):
        raise Refused(RANGE)
    t = table(a)
    return (len(rs), len(cs), [t[(i - 1, j - 1)] for j in cs for i in rs])

def assign(a, ps, v):
    r, c, x = a
    vr, vc, vx = v
    check(ps)
    t = table(a)
    if len(ps) == 1:
        ns = numbers(ps[0], r * c)
        top = max(ns, default=0)
        nr, nc = r, c
        if top > r * c:
            if top > 10**6:
                raise Refused(LIMIT)
            if r == 1 or (r, c) == (0, 0):
                nr, nc = 1, top
            elif c == 1 and r >= 2:
                nr, nc = top, 1
            else:
                raise Refused(GROW)
        if len(vx) != 1 and len(vx) != len(ns):
            raise Refused(SIZE)
        where = [((n - 1) % nr, (n - 1) // nr) for n in ns]
    else:
        nil = (r, c) == (0, 0)
        rs, cs = numbers(ps[0], vr if nil else r), numbers(ps[1], vc if nil else c)
        nr, nc = r, c
        if rs and cs:
            nr, nc = max([r] + rs), max([c] + cs)
        if nr * nc > 10**6 or nr > 10**6 or nc > 10**6:
            raise Refused(LIMIT)
        lines = (len(rs) == 1 or len(cs) == 1) and vector(vr, vc) and len(vx) == len(rs) * len(cs)
        if not (len(vx) == 1 or (vr, vc) == (len(rs), len(cs)) or lines):
            raise Refused(SIZE)
        where = [(i - 1, j - 1) for j in cs for i in rs]
    for k, w in enumerate(where):
        t[w] = vx[0] if len(vx) == 1 else vx[k]
    return array(nr, nc, t)

def delete(a, ps):
    r, c, x = a
    check(ps)
    if len(ps) == 1:
        if not (vector(r, c) or (r, c) == (0, 0)):
            raise Refused(DEL)
        ns = numbers(ps[0], r * c)
        if any(n > r * c for n in ns):
            raise Refused(RANGE)
        left = [v for k, v in enumerate(x) if k + 1 not in ns]
        if (r, c) == (0, 0):
            return a
        return (1, len(left), left) if r == 1 else (len(left), 1, left)
    p, q = ps
    if p is None and q is None:
        return (0, c, [])
    if p is not None and q is not None:
        raise Refused(DEL)
    ns = numbers(q if p is None else p, c if p is None else r)
    if any(n > (c if p is None else r) for n in ns):
        raise Refused(RANGE)
    t = table(a)
    rs = [i for i in range(r) if p is None or i + 1 not in ns]
    cs = [j for j in range(c) if p is not None or j + 1 not in ns]
    return (len(rs), len(cs), [t[(i, j)] for j in cs for i in rs])

def outcome(call, ai, p1, p2, vi):
    a = ARRAYS[ai]
    ps = [POSITIONS[p1]] + ([POSITIONS[p2]] if p2 >= 0 else [])
    try:
        if call == 0: o = select(a, ps)
        elif call == 1: o = assign(a, ps, VALUES[vi])
        elif call == 2: o = assign((0, 0, []), ps, VALUES[vi])
        else: o = delete(a, ps)
    except Refused as e:
        return (e.args[0], 0, 0)
    n = 0
    for v in o[2]:
        n = n * 10 + v
    return (o[0], o[1], n)

# the call rows come first
cases = [(0, 5, 8, -1, 0), (1, 5, 8, -1, 0), (3, 5, 2, -1, 0), (2, 0, 2, -1, 0)]
random.seed(7)
n = len(POSITIONS)
every = {
    0: [(0, a, p, q, 0) for a in range(8) for p in range(n) for q in [-1] + list(range(n))],
    1: [(1, a, p, q, v) for a in range(8) for p in range(n) for q in [-1] + list(range(n)) for v in range(5)],
    2: [(2, 0, p, q, v) for p in range(n) for q in [-1] + list(range(n)) for v in range(5)],
    3: [(3, a, p, q, 0) for a in range(8) for p in range(n) for q in [-1] + list(range(n))]}
for call, count in ((0, 30), (1, 56), (2, 10), (3, 24)):
    every[call] = [c for c in every[call] if outcome(*c)[0] * outcome(*c)[1] <= 18]
    ones = [c for c in every[call] if c[3] < 0 and c not in cases]
    twos = [c for c in every[call] if c[3] >= 0]
    random.shuffle(ones); random.shuffle(twos)
    # one of each kind of answer first, and then others
    for group, want in ((ones, count * 3 // 5), (twos, count - count * 3 // 5)):
        seen, first, rest = set(), [], []
        for c in group:
            o = outcome(*c)
            key = (o[0] if o[0] < 0 else (o[0], o[1]), c[1])
            if o[0] < 0 and sum(1 for d in first if outcome(*d)[0] == o[0]) >= 3:
                continue
            (first if key not in seen else rest).append(c)
            seen.add(key)
        cases += (first + rest)[:want]
if __name__ == '__main__':
    import sys
    if sys.argv[1:] == ['octave']:
        def lit(p):
            if p is None: return ':'
            if isinstance(p[0], str):
                body = f"reshape([{' '.join(map(str, p[3]))}],{p[1]},{p[2]})"
                return f"logical({body})" if p[0] == 'm' else body
            return f"reshape([{' '.join(map(str, p[2]))}],{p[0]},{p[1]})"
        for c in cases:
            call, a, p, q, v = c
            at = lit(POSITIONS[p]) + (',' + lit(POSITIONS[q]) if q >= 0 else '')
            if call == 0: body = f"A={lit(ARRAYS[a])}; A=A({at});"
            elif call == 1: body = f"A={lit(ARRAYS[a])}; A({at})={lit(VALUES[v])};"
            elif call == 2: body = f"clear A; A({at})={lit(VALUES[v])};"
            else: body = f"A={lit(ARRAYS[a])}; A({at})=[];"
            print(f"try, {body} if (numel(A)>12) printf('{c}|big\\n'); else n=0; for x=double(A(:))', n=n*10+x; end; printf('{c}|(%d, %d, %d)\\n', size(A,1), size(A,2), n); end; catch, printf('{c}|refused\\n'); end")
    elif sys.argv[1:] == ['expect']:
        for c in cases: print(f"{c}|{outcome(*c)}")
    else:
        print(len(cases))
        for c in cases:
            print('    ' + ' '.join(f'{x},' for x in c + outcome(*c)))
