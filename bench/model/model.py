# Independent model of documents 01 and 02, as far as 02 has landed (tables, labels, sheet, hardener, the three machines, label questions, six entries).
M32 = 1 << 32
def le(w, n): return list(int(n).to_bytes(w, 'little'))
def un(bs): return int.from_bytes(bytes(bs), 'little')
KIND = {'num':16,'var':17,'add':18,'sub':19,'mul':20,'choice':21,'const':32,'eq':33,'lt':34,'not':35,'and':36,
        'skip':48,'assign':49,'seq':50,'if':51,'while':52,'read':53,'write':54}
NAME = {v:k for k,v in KIND.items()}
# field layout: letter per field: n = 4-byte number, x = variable, a = array, b = constant, N/T/C = child of that sort
LAY = {'num':'n','var':'x','add':'NN','sub':'NN','mul':'NN','choice':'TNN','const':'b','eq':'NN','lt':'NN','not':'T','and':'TT',
       'skip':'','assign':'xN','seq':'CC','if':'TCC','while':'TC','read':'xaN','write':'aNN'}
def sort(k): return 'N' if KIND[k] < 32 else 'T' if KIND[k] < 48 else 'C'
def size(k): return 4 + sum(4 if f == 'n' else 2 for f in LAY[k])
# P7: bytes of a variable mask, and the most variables, by the version of a table and its sheet
MASK = {1: 4, 2: 8}
MOST_VARIABLES = {1: 32, 2: 64}
def masks(version, L): return le(MASK[version], L[0]) + le(2, L[1])
# ---- assembler: trees (nested tuples) to records
def emit(t, out):
    k = t[0]; f = []
    for l, v in zip(LAY[k], t[1:]):
        f += le(4, v) if l == 'n' else le(2, emit(v, out)) if l in 'NTC' else le(2, v)
    out.append(le(2, 4 + len(f)) + le(2, KIND[k]) + f)
    return len(out) - 1
def table(V, vm, counts, am, prog, version=None):
    """of the version given, else of the lowest that holds the variables"""
    if version is None: version = min(k for k in MASK if V <= MOST_VARIABLES[k])
    out = []; emit(prog, out)
    return ([le(2,10)+le(2,1)+le(2,version)+le(1,V)+le(1,len(counts))+le(2,len(out)), le(2,6+MASK[version])+le(2,3)+masks(version, (vm, am))]
            + [le(2,6)+le(2,2)+le(2,c) for c in counts] + out)
def flat(recs): return [b for r in recs for b in r]
class Refused(Exception): pass
def refuse(n, p): raise Refused(n, p)
# ---- reader
def readTable(bs):
    at = 0
    def frame(want):            # want: function kind -> length or None
        nonlocal at
        if len(bs) - at < 4: refuse(1, at)
        ln, kd = un(bs[at:at+2]), un(bs[at+2:at+4])
        w = want(kd)
        if w is None or w != ln: refuse(2, at)
        if len(bs) - at < ln: refuse(1, at)
        r = bs[at+4:at+ln]; p = at; at += ln
        return kd, r, p
    _, r, p = frame(lambda k: 10 if k == 1 else None)
    ver, V, A, N = un(r[0:2]), r[2], r[3], un(r[4:6])
    if ver not in MASK or V > MOST_VARIABLES[ver] or A > 16 or N < 1 or N > 4096: refuse(3, p)
    _, r, p = frame(lambda k: 6 + MASK[ver] if k == 3 else None)
    vm, am = un(r[:MASK[ver]]), un(r[MASK[ver]:])
    if vm >> V or am >> A: refuse(3, p)
    counts = []
    for _i in range(A):
        _, r, p = frame(lambda k: 6 if k == 2 else None)
        c = un(r)
        if c < 1 or sum(counts) + c > 16384: refuse(3, p)
        counts.append(c)
    nodes, places, used = [], [], []
    for i in range(N):
        kd, r, p = frame(lambda k: size(NAME[k]) if k in NAME else None)
        k = NAME[kd]; fs = []; o = 0
        for l in LAY[k]:
            w = 4 if l == 'n' else 2
            fs.append(un(r[o:o+w])); o += w
        for l, v in zip(LAY[k], fs):
            if (l == 'x' and v >= V) or (l == 'a' and v >= A) or (l == 'b' and v > 1) or (l in 'NTC' and v >= i): refuse(4, p)
        for l, v in zip(LAY[k], fs):
            if l in 'NTC' and sort(nodes[v][0]) != l: refuse(5, p)
        nodes.append((k,) + tuple(fs)); places.append(p); used.append(0)
        for l, v in zip(LAY[k], fs):
            if l in 'NTC': used[v] += 1
    bad = [i for i in range(N - 1) if used[i] != 1] + ([N - 1] if sort(nodes[-1][0]) != 'C' else [])
    if bad: refuse(6, places[min(bad)])   # P1: "the record of the lowest-numbered node that breaks the rule"
    if at < len(bs): refuse(7, at)
    def tree(i):                # (number, kind, parts..)
        k, *fs = nodes[i]
        return (i, k) + tuple(tree(v) if l in 'NTC' else v for l, v in zip(LAY[k], fs))
    return dict(version=ver, V=V, A=A, N=N, vm=vm, am=am, counts=counts, kinds=[k for k, *_ in nodes], root=tree(N - 1))
def strip(t):
    return (t[1],) + tuple(strip(s) if isinstance(s, tuple) else s for s in t[2:])
# ---- labels (trees with numbers)
def vars_of(t):
    if t[1] == 'var': return {t[2]}
    if t[1] == 'mul' and ('num', 0) in (t[2][1:], t[3][1:]): return set()   # P6: an operand that is itself a number node of value 0; what stands in the product counts for nothing
    s = set()
    for p in t[2:]:
        if isinstance(p, tuple): s |= vars_of(p)
    return s
def elabel(e, L): return int(any(L[0] >> x & 1 for x in vars_of(e)))
def setbit(m, x, b): return (m | 1 << x) if b else (m & ~(1 << x))
def join(L, K): return (L[0] | K[0], L[1] | K[1])
def analyse(t, ctx, L, notes, before):
    """labelling after t; notes[n] = the sheet fields of command n, before[n] = the labelling that enters it (last pass wins: that is the settled one)"""
    n, k = t[0], t[1]
    before[n] = L   # also for a loop: the passes below are its body's, and the labelling they settle at is not the one on entry
    if k == 'skip': return L
    if k == 'assign': return (setbit(L[0], t[2], elabel(t[3], L) | ctx), L[1])
    if k == 'seq':
        M = analyse(t[2], ctx, L, notes, before); notes[n] = ('seq', M)
        return analyse(t[3], ctx, M, notes, before)
    if k == 'if':
        c = elabel(t[2], L); notes[n] = ('if', c)
        return join(analyse(t[3], ctx | c, L, notes, before), analyse(t[4], ctx | c, L, notes, before))
    if k == 'while':
        while True:
            c = elabel(t[2], L)
            M = join(L, analyse(t[3], ctx | c, L, notes, before))
            if M == L: break
            L = M
        notes[n] = ('while', c, L)
        return L
    if k == 'read':
        i = elabel(t[4], L); v = i | (L[1] >> t[3] & 1) | ctx; notes[n] = ('read', v, i)
        return (setbit(L[0], t[2], v), L[1])
    if k == 'write':
        i = elabel(t[3], L); notes[n] = ('write', i)
        return (L[0], L[1] | ((i | elabel(t[4], L) | ctx) << t[2]))
def sheet(p):
    notes = {}; F = analyse(p['root'], 0, (p['vm'], p['am']), notes, {})
    version = p['version']; wide = MASK[version]   # P7: "A sheet has its table's version."
    rs = [le(2,10+wide)+le(2,128)+le(2,version)+le(2,p['N'])+masks(version, F)]
    for n in sorted(notes):
        t = notes[n]; k = t[0]
        if k == 'seq': rs.append(le(2,8+wide)+le(2,129)+le(2,n)+masks(version, t[1]))
        if k == 'if': rs.append(le(2,8)+le(2,130)+le(2,n)+le(2,t[1]))
        if k == 'while': rs.append(le(2,10+wide)+le(2,131)+le(2,n)+le(2,t[1])+masks(version, t[2]))
        if k == 'read': rs.append(le(2,10)+le(2,132)+le(2,n)+le(2,t[1])+le(2,t[2]))
        if k == 'write': rs.append(le(2,8)+le(2,133)+le(2,n)+le(2,t[1]))
    return rs
# ---- label questions, P2
def questions(p, bs):
    # "more than 256 pairs, the list ends inside a pair, the node is not a command or the variable is not declared"
    if len(bs) > 4 * 256 or len(bs) % 4: refuse(11, 0)
    pairs = [(un(bs[at:at+2]), un(bs[at+2:at+4])) for at in range(0, len(bs), 4)]
    for n, x in pairs:
        if n >= p['N'] or sort(p['kinds'][n]) != 'C' or x >= p['V']: refuse(11, 0)
    return pairs
def replies(p, pairs):
    """a byte for each pair (node, variable), all from one analysis"""
    before = {}; analyse(p['root'], 0, (p['vm'], p['am']), {}, before)
    return [before[n][0] >> x & 1 for n, x in pairs]
# ---- masks
def hardened(p):
    notes = {}; analyse(p['root'], 0, (p['vm'], p['am']), notes, {})
    f = p['V']; F = ('var', f); one = ('num', 1); zero = ('num', 0)
    def cond(c, s): return ('and', ('eq', F, zero), c) if s else c
    def index(i, s): return ('choice', ('eq', F, one), zero, i) if s else i
    def h(t):
        n, k = t[0], t[1]
        if k in ('skip', 'assign'): return strip(t)
        if k == 'seq': return ('seq', h(t[2]), h(t[3]))
        if k == 'if':
            c = cond(strip(t[2]), notes[n][1])
            return ('if', c, ('seq', ('assign', f, ('choice', c, F, one)), h(t[3])), ('seq', ('assign', f, ('choice', c, one, F)), h(t[4])))
        if k == 'while':
            c = cond(strip(t[2]), notes[n][1])
            return ('seq', ('while', c, ('seq', ('assign', f, ('choice', c, F, one)), h(t[3]))), ('assign', f, ('choice', c, one, F)))
        if k == 'read':
            v, i = notes[n][1:]
            r = ('read', t[2], t[3], index(strip(t[4]), i))
            return r if v or i else ('seq', r, ('assign', t[2], ('choice', ('eq', F, one), zero, ('var', t[2]))))
        if k == 'write': return ('write', t[2], index(strip(t[3]), notes[n][1]), strip(t[4]))
    version = 2 if p['version'] == 2 or f + 1 == 33 else 1   # P7: "version 2 where its input is, or where it declares 33 variables; otherwise it stays version 1"
    return table(f + 1, p['vm'], p['counts'], p['am'], h(p['root']), version)
# ---- evaluation and machines
def ev(e, vs):
    k = e[1]
    if k == 'num' or k == 'const': return e[2]
    if k == 'var': return vs[e[2]]
    if k == 'choice': return ev(e[3], vs) if ev(e[2], vs) else ev(e[4], vs)
    a = ev(e[2], vs)
    if k == 'not': return 1 - a
    b = ev(e[3], vs)
    return {'add':(a+b)%M32, 'sub':(a-b)%M32, 'mul':(a*b)%M32, 'eq':int(a==b), 'lt':int(a<b), 'and':a&b}[k]
def directives(bs, kinds=(72,73,74,75)):
    ds, at = [], 0
    while at < len(bs):
        if len(bs) - at < 4: refuse(10, 0)
        ln, kd = un(bs[at:at+2]), un(bs[at+2:at+4])
        named = kd in (74,75)
        if kd not in kinds or ln != (10 if named else 4) or len(bs) - at < ln: refuse(10, 0)
        ds.append((kd,) + ((un(bs[at+4:at+6]), un(bs[at+6:at+10])) if named else ())); at += ln
    return ds
def goes_on(t, value): return [t[3] if value else t[4]] if t[1] == 'if' else [t, t[3]] if value else []
def run(p, vs, cells, room, budget, ds=None, saves=None):
    """ds: None without guessing; saves: on P5's machine the open saves, oldest first, each (variables, cells, pending), none at the start"""
    vs, cells = list(vs), list(cells)
    counts = p['counts']; start = [sum(counts[:i]) for i in range(len(counts))]
    pend, obs, steps, used, flag = [p['root']], [], 0, 0, 0
    def res(end): return dict(end=end, steps=steps, used=used, obs=obs, flag=flag, nxt=pend[-1][0] if pend else 0, pend=[t[0] for t in pend], vs=vs, cells=cells)
    while True:
        back = saves is not None and ds[used:used+1] == [(76,)]
        if not pend and not back: return res(1)
        if steps == budget: return res(2)
        if back:            # P5: "the budget is checked first, then 76, even when nothing is pending; with no save open it is stuck"
            if not saves: return res(4)
            if len(obs) + 4 > room: return res(5)
            vs, cells, pend = saves.pop()
            obs = obs + le(2,4)+le(2,67); steps += 1; used += 1; flag = int(len(saves) > 0)
            continue
        t = pend[-1]; n, k = t[0], t[1]
        shown = k in ('if','while','read','write')
        d = (72,)
        if shown and ds is not None:
            if used == len(ds): return res(3)
            d = ds[used]
        o = []
        if k in ('if','while'):
            if d[0] not in (72,73): return res(4)
            if d[0] == 73 and saves is not None and len(saves) == 8: return res(4)   # P5: "a force beyond them is stuck"
            v = ev(t[2], vs); o = le(2,6)+le(2,64)+le(2,v)
        if k in ('read','write'):
            a = t[3] if k == 'read' else t[2]
            i = ev(t[4] if k == 'read' else t[3], vs)
            o = le(2,10)+le(2,65 if k == 'read' else 66)+le(2,a)+le(4,i)
            redirect = 74 if k == 'read' else 75
            if i < counts[a]:   # P4: "takes the normal cell and uses up the directive, with the flag set or clear"
                if d[0] not in (72, redirect): return res(4)
                at = start[a] + i
            else:
                if not (flag and d[0] == redirect): return res(4)
                if not (d[1] < len(counts) and d[2] < counts[d[1]]): return res(4)
                at = start[d[1]] + d[2]
        if len(obs) + len(o) > room: return res(5)
        pend.pop()
        if k == 'assign': vs[t[2]] = ev(t[3], vs)
        if k == 'seq': pend += [t[3], t[2]]
        if k in ('if','while'):
            if d[0] == 73 and saves is not None: saves.append((list(vs), list(cells), pend + goes_on(t, v)))   # "the state of the right side"
            if d[0] == 73: flag = 1
            pend = pend + goes_on(t, 1 - v if d[0] == 73 else v)
        if k == 'read': vs[t[2]] = cells[at]
        if k == 'write': cells[at] = ev(t[4], vs)
        obs = obs + o; steps += 1
        if shown and ds is not None: used += 1
# ---- entries: (answer numbers, memory at exit)
def words(l): return [b for w in l for b in le(4, w)]
def unwords(bs): return [un(bs[i:i+4]) for i in range(0, len(bs), 4)]
def over(buf, bs): return list(bs) + list(buf[len(bs):])
def writeEntry(make, tab, buf, hard=False):
    try:
        p = readTable(tab)
        if hard and p['N'] > 512: refuse(8, 0)
        if hard and p['V'] == 64: refuse(9, 0)
        out = flat(make(p))
        if len(out) > len(buf): refuse(23, 0)
        return [0, len(out)], over(buf, out)
    except Refused as r: return list(r.args), list(buf)
def sheetEntry(tab, buf): return writeEntry(sheet, tab, buf)
def hardenEntry(tab, buf): return writeEntry(hardened, tab, buf, True)
def questionsEntry(tab, asked, buf, make=replies):
    try:
        p = readTable(tab)
        pairs = questions(p, asked)
        if len(pairs) > len(buf): refuse(23, 0)
        return [0, len(pairs)], over(buf, make(p, pairs))
    except Refused as r: return list(r.args), list(buf)
def padded(pend, N): return pend + [0] * (N - len(pend))
def runEntry(tab, vs, cells, pend, obs, budget, dirs=None, saves=None):
    """saves: the slice of P5's machine, and left with the others by it; None on the other two"""
    try:
        p = readTable(tab); N = p['N']
        ds = None if dirs is None else directives(dirs) if saves is None else directives(dirs, (72,73,74,75,76))
        if len(vs) != 4 * p['V']: refuse(20, 0)
        if len(cells) != 4 * sum(p['counts']): refuse(21, 0)
        if len(pend) < 4 * N: refuse(22, 0)
        place = p['V'] + sum(p['counts']) + N
        if saves is not None and len(saves) < 4 * 8 * place: refuse(24, 0)
        kept = None if saves is None else []
        r = run(p, unwords(vs), unwords(cells), len(obs), budget, ds, kept)
        left = [words(r['vs']), words(r['cells']), over(pend, words(padded(r['pend'], N))), over(obs, r['obs'])]
        if saves is not None:
            open_ = [w for v, c, l in kept for w in v + c + padded([t[0] for t in l], N)]
            left.append(over(saves, words(padded(open_, 8 * place))))
        return ([0, r['end'], r['steps'], r['used'], len(r['obs']), r['flag'], r['nxt']], *left)
    except Refused as r: return (list(r.args), *(list(s) for s in (vs, cells, pend, obs, saves) if s is not None))
