from model import *
def seqs(l): return l[0] if len(l) == 1 else ('seq', l[0], seqs(l[1:]))
v = lambda x: ('var', x); n = lambda x: ('num', x)
skip = ('skip',)
copies = ('seq', ('assign',0,v(1)), ('seq', ('assign',1,v(2)), ('assign',2,v(3))))
T = {}
T['loop'] = table(4, 8, [], 0, ('while', ('lt', v(0), n(3)), copies))
T['straight'] = table(4, 8, [], 0, copies)
bs = ('if', ('eq', v(0), n(0)), ('assign', 1, n(1)), skip)
T['branch'] = table(2, 1, [], 0, bs)
T['branchThen'] = table(2, 1, [], 0, ('seq', bs, ('assign', 1, n(2))))
ifx = ('if', ('eq', v(0), n(0)), skip, skip)
T['secretIf'] = table(1, 1, [], 0, ifx)
T['publicIf'] = table(1, 0, [], 0, ifx)
T['bounds'] = table(3, 0, [4,256,1], 4, ('if', ('lt', v(0), n(4)), ('seq', ('read',1,0,v(0)), ('read',2,1,v(1))), skip))
T['skip31'] = table(31, 0, [], 0, skip)
T['skip32'] = table(32, 0, [], 0, skip)
chain = ('seq', ('while', ('lt', v(0), n(3)), seqs([('assign', i, v(i+1)) for i in range(30)])), ('read', 0, 0, v(0)))
T['chain'] = table(31, 1 << 30, [1], 0, chain)
# P2's: q p x s numbered 0 to 3, s secret; where the inner loop begins, q is public, and p and x are secret only from the outer loop's second pass
TRUE = ('const', 1)
def around(inner, last): return ('while', TRUE, ('seq', ('assign',0,n(0)), ('seq', ('while', TRUE, inner), last)))
shift = ('seq', ('assign',1,v(0)), ('assign',0,v(3)))
T['nestedLoops'] = table(4, 8, [], 0, around(shift, ('assign',2,v(1))))
# q p r s: r is made public at the start of the inner loop's body
T['nestedReset'] = table(4, 8, [], 0, around(('seq', ('assign',2,n(0)), shift), ('assign',2,v(1))))
T['straightThen'] = table(4, 8, [], 0, ('seq', copies, skip))
# s x y: a loop in a secret condition's side, and a loop after it
T['loopAfterLoop'] = table(3, 1, [], 0, ('seq', ('if', ('eq', v(0), n(0)), ('while', TRUE, ('assign',1,n(1))), skip), ('while', TRUE, ('assign',2,v(1)))))
# c x y s: each side makes another variable secret, the condition is public
T['sides'] = table(4, 8, [], 0, ('seq', ('if', ('eq', v(0), n(0)), ('assign',1,v(3)), ('assign',2,v(3))), skip))
# x y s: the condition is secret from the second pass, and by it y
T['secretLoop'] = table(3, 4, [], 0, ('while', ('lt', v(0), n(3)), ('seq', ('assign',1,n(0)), ('assign',0,v(2)))))
# x y, array 1 secret: array 0 is, too, after the write
T['arrays'] = table(2, 0, [2,1], 2, seqs([('read',0,1,n(0)), ('read',1,0,n(0)), ('write',0,n(0),v(0)), ('read',1,0,n(0)), skip]))
# x s: the array is secret from the second pass
T['arrayLoop'] = table(2, 2, [1], 0, ('while', TRUE, ('seq', ('read',0,0,n(0)), ('write',0,n(0),v(1)))))
# x i, i secret: the index makes x secret
T['secretIndex'] = table(2, 2, [4], 0, ('seq', ('read',0,0,v(1)), skip))
# six assignments over and over, x0 x1 x2 := s, then := 0
def rounds(count, last): return table(4, 8, [], 0, seqs([('assign', k % 3, v(3) if k % 6 < 3 else n(0)) for k in range(count)] + [last]))
T['rounds'] = rounds(99, ('assign',0,n(0)))
if __name__ == '__main__':
    for k, r in T.items():
        b = flat(r); p = readTable(b)
        s = sheet(p); print(k, 'N', p['N'], 'bytes', len(b), 'final', s[0][8:])
        buf = [0]*20000
        a, o = hardenEntry(b, buf); print('   harden', a, 'N', un(o[8:10]))
    print(sheet(readTable(flat(T['loop']))))
    tab = flat(T['bounds']); ds = le(2,4)+le(2,73)+le(2,10)+le(2,74)+le(2,2)+le(4,0)+le(2,4)+le(2,72)
    a, o = hardenEntry(tab, [0]*2000); hard = o[:a[1]]
    cells = words([0]*4+[0]*256+[77])
    for i, d in ((4, ds), (3, ds[:14])):
        for tb, vs in ((tab, [i,0,0]), (hard, [i,0,0,0])):
            N = un(tb[8:10])
            r = runEntry(tb, words(vs), cells, [9]*(4*N+5), [9]*40, 1000, d)
            print(r[0], r[1], r[4])
    print(hardenEntry(flat(table(0,0,[],0,skip)), [9]*30), hardenEntry([], [1,2]))
