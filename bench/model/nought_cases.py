# Calls of P6: "A product with a number node of value 0 as either operand is public, and a variable's place inside one makes no larger expression secret."
# The operand itself is that number node; an expression that comes to 0 is none. Sheets, hardened nodes, replies and runs are worked out by hand.
import model
from model import flat, table, words, le
from calls import *
from programs import seqs, v, n, skip
from machine_cases import FINISHED, OUT_OF_DIRECTIVES, MOST
from harden_cases import hand, hardened
from questions_cases import commands, whole, said
from rollback_cases import places
Z, ONE, TWO = n(0), n(1), n(2)
def mul(a, b): return ('mul', a, b)
def either(truth): return ('choice', truth, ONE, TWO)
# records of a sheet
def final(nodes, variables, arrays=0): return le(2, 14) + le(2, 128) + le(2, 1) + le(2, nodes) + le(4, variables) + le(2, arrays)
def after(at, variables, arrays=0): return le(2, 12) + le(2, 129) + le(2, at) + le(4, variables) + le(2, arrays)
def sides(at, condition): return le(2, 8) + le(2, 130) + le(2, at) + le(2, condition)
def loop(at, condition, variables, arrays=0): return le(2, 14) + le(2, 131) + le(2, at) + le(2, condition) + le(4, variables) + le(2, arrays)
def got(at, variable, index): return le(2, 10) + le(2, 132) + le(2, at) + le(2, variable) + le(2, index)
def put(at, index): return le(2, 8) + le(2, 133) + le(2, at) + le(2, index)
def labelled(tab, *records):
    """the whole sheet, into a buffer that has just the room"""
    out = [b for record in records for b in record]
    assert sheet(tab, len(out), want=[0, len(out)])[1] == out, ('call', len(calls) - 1)
# ---- y := an expression, and how many nodes that takes; s y c are numbered 0 to 2, c is public and y starts as what it does not become
s, c = v(0), v(2)
PUBLIC = ((mul(s, Z), 4), (mul(Z, s), 4), (mul(Z, Z), 4), (mul(('add', s, ONE), Z), 6), (mul(Z, mul(s, s)), 6), (mul(mul(s, Z), mul(s, Z)), 8), (mul(mul(s, Z), Z), 6),
          (('sub', mul(s, Z), mul(Z, s)), 8), (mul(either(('eq', s, Z)), Z), 9),
          (('choice', ('lt', c, ONE), mul(s, Z), ONE), 9), (('choice', ('lt', c, ONE), ONE, mul(Z, s)), 9), (('choice', ('lt', mul(s, Z), ONE), c, ONE), 9),
          (either(('eq', mul(s, Z), mul(Z, s))), 11), (either(('not', ('eq', mul(s, Z), Z))), 10), (either(('and', ('eq', mul(s, Z), Z), ('lt', mul(Z, s), ONE))), 15))
SECRET = ((mul(mul(s, Z), s), 6), (mul(s, mul(s, Z)), 6), (('add', mul(s, Z), s), 6), (('sub', s, mul(s, Z)), 6), (mul(s, ONE), 4), (mul(ONE, s), 4),
          # operands that come to 0 and are no number nodes
          (mul(s, ('add', Z, Z)), 6), (mul(('sub', Z, Z), s), 6), (mul(s, mul(ONE, Z)), 6), (mul(s, ('choice', ('lt', c, ONE), Z, Z)), 9),
          # a 0 that is a variable's number; a 0 in a sum or a difference
          (mul(s, s), 4), (mul(c, s), 4), (('add', s, Z), 4), (('add', Z, s), 4), (('sub', s, Z), 4), (('sub', Z, s), 4),
          (('choice', ('eq', mul(s, Z), Z), s, ONE), 9), (either(('eq', s, Z)), 7), (either(('lt', s, mul(s, Z))), 9), (('choice', ('not', ('eq', s, Z)), mul(s, Z), ONE), 10),
          (either(('and', ('eq', mul(s, Z), Z), ('eq', s, Z))), 13), (either(('and', ('eq', s, Z), ('eq', mul(s, Z), Z))), 13))
def expressions():
    for e, nodes in PUBLIC: labelled(flat(table(3, 3, [], 0, ('assign', 1, e))), final(nodes, 1))
    for e, nodes in SECRET: labelled(flat(table(3, 1, [], 0, ('assign', 1, e))), final(nodes, 3))
    # numbers with zeros in all bytes but one, and the largest
    for number in (256, 65536, 1 << 24, 1 << 31, MOST):
        for e in (mul(s, n(number)), mul(n(number), s)): labelled(flat(table(3, 1, [], 0, ('assign', 1, e))), final(4, 3))
# ---- conditions: s y numbered 0 and 1
NOUGHT = ('eq', mul(s, Z), Z)
def condition(at): return [('var', 0), ('num', 0), ('mul', at, at + 1), ('num', 0), ('eq', at + 2, at + 3)]
def conditions():
    # if s*0=0 then skip else skip: nodes s, 0, multiply, 0, equal, skip, skip, if; the condition is copied as it is, f is variable 1
    tab = flat(table(1, 1, [], 0, ('if', NOUGHT, skip, skip))); assert len(tab) == 76
    labelled(tab, final(8, 1), sides(7, 0))
    assert 232 == len(hand(tab, 2, 1, [], 0, condition(0)
         + condition(5) + [('var', 1), ('num', 1), ('choice', 9, 10, 11), ('assign', 1, 12), ('skip',), ('seq', 13, 14)]
         + condition(16) + [('num', 1), ('var', 1), ('choice', 20, 21, 22), ('assign', 1, 23), ('skip',), ('seq', 24, 25)] + [('if', 4, 15, 26)]))
    harden(tab, 231, want=[23, 0])
    # s*1=0 is masked as before, and so takes 12 nodes and 90 bytes more
    tab = flat(table(1, 1, [], 0, ('if', ('eq', mul(s, ONE), Z), skip, skip)))
    labelled(tab, final(8, 1), sides(7, 1)); _, out = harden(tab, 322, want=[0, 322]); assert out[8:10] == le(2, 40)
    # then y:=1: y stays public; y:=1 and y:=2: it becomes so
    tab = flat(table(2, 1, [], 0, ('if', NOUGHT, ('assign', 1, ONE), skip)))
    labelled(tab, final(9, 1), sides(8, 0))
    hand(tab, 3, 1, [], 0, condition(0)
         + condition(5) + [('var', 2), ('num', 1), ('choice', 9, 10, 11), ('assign', 2, 12), ('num', 1), ('assign', 1, 14), ('seq', 13, 15)]
         + condition(17) + [('num', 1), ('var', 2), ('choice', 21, 22, 23), ('assign', 2, 24), ('skip',), ('seq', 25, 26)] + [('if', 4, 16, 27)])
    labelled(flat(table(2, 3, [], 0, ('if', NOUGHT, ('assign', 1, ONE), ('assign', 1, TWO)))), final(10, 1), sides(9, 0))
    # while s*0=0 do y:=1
    labelled(flat(table(2, 1, [], 0, ('while', NOUGHT, ('assign', 1, ONE)))), final(8, 1), loop(7, 0, 1))
# ---- a secret context makes secret what is assigned, read or written, whatever the product
def contexts():
    within = lambda command: ('if', ('eq', s, Z), command, skip)
    labelled(flat(table(2, 1, [], 0, within(('assign', 1, mul(s, Z))))), final(9, 3), sides(8, 1))
    labelled(flat(table(2, 1, [], 0, ('while', ('lt', s, ONE), ('assign', 1, mul(s, Z))))), final(8, 3), loop(7, 1, 3))
    labelled(flat(table(2, 1, [2], 0, within(('write', 0, Z, mul(s, Z))))), final(10, 1, 1), put(7, 0), sides(9, 1))
    # if s=0 then y:=a0[s*0] else skip: the condition is masked, neither index nor value is
    tab = flat(table(2, 1, [2], 0, within(('read', 1, 0, mul(s, Z)))))
    labelled(tab, final(9, 3), got(6, 1, 0), sides(8, 1))
    def masked(at): return [('var', 2), ('num', 0), ('eq', at, at + 1), ('var', 0), ('num', 0), ('eq', at + 3, at + 4), ('and', at + 2, at + 5)]
    hand(tab, 3, 1, [2], 0, masked(0)
         + masked(7) + [('var', 2), ('num', 1), ('choice', 13, 14, 15), ('assign', 2, 16), ('var', 0), ('num', 0), ('mul', 18, 19), ('read', 1, 0, 20), ('seq', 17, 21)]
         + masked(23) + [('num', 1), ('var', 2), ('choice', 29, 30, 31), ('assign', 2, 32), ('skip',), ('seq', 33, 34)] + [('if', 6, 22, 35)])
# ---- reads and writes: s x numbered 0 and 1
INDEX = [('var', 0), ('num', 0), ('mul', 0, 1)]
READ_MASKED = INDEX + [('read', 1, 0, 2), ('var', 2), ('num', 1), ('eq', 4, 5), ('num', 0), ('var', 1), ('choice', 6, 7, 8), ('assign', 1, 9), ('seq', 3, 10)]
def accesses():
    # x:=a0[s*0]: of a public array the value is masked, of a secret one nothing
    tab = flat(table(2, 1, [2], 0, ('read', 1, 0, mul(s, Z))))
    labelled(tab, final(4, 1), got(3, 0, 0)); hand(tab, 3, 1, [2], 0, READ_MASKED)
    tab = flat(table(2, 1, [2], 1, ('read', 1, 0, mul(s, Z))))
    labelled(tab, final(4, 3, 1), got(3, 1, 0)); hand(tab, 3, 1, [2], 1, INDEX + [('read', 1, 0, 2)])
    # x:=a0[s*1]: the index is masked
    tab = flat(table(2, 1, [2], 0, ('read', 1, 0, mul(s, ONE))))
    labelled(tab, final(4, 3), got(3, 1, 1))
    hand(tab, 3, 1, [2], 0, [('var', 2), ('num', 1), ('eq', 0, 1), ('num', 0), ('var', 0), ('num', 1), ('mul', 4, 5), ('choice', 2, 3, 6), ('read', 1, 0, 7)])
    # a0[s*0]:=x and a0[0]:=s*0: nothing is masked, and the array stays public; with s*1 it does not
    tab = flat(table(2, 1, [2], 0, ('write', 0, mul(s, Z), v(1))))
    labelled(tab, final(5, 1), put(4, 0)); hand(tab, 3, 1, [2], 0, INDEX + [('var', 1), ('write', 0, 2, 3)])
    tab = flat(table(2, 1, [2], 0, ('write', 0, Z, mul(s, Z))))
    labelled(tab, final(5, 1), put(4, 0)); hand(tab, 3, 1, [2], 0, [('num', 0), ('var', 0), ('num', 0), ('mul', 1, 2), ('write', 0, 0, 3)])
    labelled(flat(table(2, 1, [2], 0, ('write', 0, mul(s, ONE), v(1)))), final(5, 1, 1), put(4, 1))
    labelled(flat(table(2, 1, [2], 0, ('write', 0, Z, mul(s, ONE)))), final(5, 1, 1), put(4, 0))
    # a0[0]:=s*0; x:=a0[0]: nodes 0, s, 0, multiply, write (4), 0, read (6), sequence (7)
    labelled(flat(table(2, 3, [2], 0, ('seq', ('write', 0, Z, mul(s, Z)), ('read', 1, 0, Z)))), final(8, 1), put(4, 0), got(6, 0, 0), after(7, 3))
# ---- document 01's chain, x y z s numbered 0 to 3, s secret, with a product in it: while x<3 do (x:=..; (y:=..; z:=..)), 14 nodes, sequences 11 and 12, loop 13
def chain(*values, condition=('lt', v(0), n(3))): return flat(table(4, 8, [], 0, ('while', condition, seqs([('assign', k, e) for k, e in enumerate(values)]))))
CUT_X, CUT_Y, CUT_Z = chain(mul(v(1), Z), v(2), v(3)), chain(v(1), mul(v(2), Z), v(3)), chain(v(1), v(2), mul(v(3), Z))
WHOLE = chain(mul(v(1), ONE), v(2), v(3))
# without the loop, y z s secret: x:=y; (y:=z*0; z:=s): nodes y, x:= (1), z, 0, multiply, y:= (5), s, z:= (7), sequence 5 7 (8), sequence 1 8 (9)
STRAIGHT = flat(table(4, 14, [], 0, seqs([('assign', 0, v(1)), ('assign', 1, mul(v(2), Z)), ('assign', 2, v(3))])))
# s y x, s and y secret: while x<3 do (y:=s*0; x:=y): nodes x, 3, less, s, 0, multiply, y:= (6), y, x:= (8), sequence (9), loop (10)
CLEARED = flat(table(3, 3, [], 0, ('while', ('lt', v(2), n(3)), ('seq', ('assign', 1, mul(v(0), Z)), ('assign', 2, v(1))))))
def chains():
    for tab, condition, mask in ((CUT_X, 0, 14), (CUT_Y, 0, 12), (CUT_Z, 0, 8), (WHOLE, 1, 15)):
        labelled(tab, final(14, mask), after(11, mask), after(12, mask), loop(13, condition, mask))
    # while x*0<3: all become secret, the condition does not
    labelled(chain(v(1), v(2), v(3), condition=('lt', mul(v(0), Z), n(3))), final(14, 15), after(11, 15), after(12, 15), loop(13, 0, 15))
    labelled(STRAIGHT, final(10, 13), after(8, 13), after(9, 15))
    # y comes back from the labelling that enters, and behind y:=s*0 it is public
    labelled(CLEARED, final(11, 3), after(9, 1), loop(10, 0, 3))
    # y:=z*0 in the middle, f is variable 4: no condition is masked
    def less(at): return [('var', 0), ('num', 3), ('lt', at, at + 1)]
    hand(CUT_Y, 5, 8, [], 0, less(0)
         + less(3) + [('var', 4), ('num', 1), ('choice', 5, 6, 7), ('assign', 4, 8)]
         + [('var', 1), ('assign', 0, 10), ('var', 2), ('num', 0), ('mul', 12, 13), ('assign', 1, 14), ('var', 3), ('assign', 2, 16), ('seq', 15, 17), ('seq', 11, 18)]
         + [('seq', 9, 19), ('while', 2, 20)] + less(22) + [('num', 1), ('var', 4), ('choice', 24, 25, 26), ('assign', 4, 27), ('seq', 21, 28)])
# ---- questions
def told(tab, replies):
    """as `whole`, without the refusals"""
    assert sorted(replies) == commands(tab)
    said(tab, [(at, x) for at in replies for x in range(tab[6])], [int(b) for at in replies for b in replies[at]])
def asked():
    # y:=s*0; skip: nodes s, 0, multiply, y:= (3), skip (4), sequence (5); y secret at entry, and public; and with s*1
    cleared = lambda mask, number: flat(table(2, mask, [], 0, ('seq', ('assign', 1, mul(s, number)), skip)))
    whole(cleared(3, Z), {5: '11', 3: '11', 4: '10'})
    told(cleared(1, Z), {5: '10', 3: '10', 4: '10'}); told(cleared(1, ONE), {5: '10', 3: '10', 4: '11'})
    # CUT_Y: nodes x, 3, less, y, x:= (4), z, 0, multiply, y:= (8), s, z:= (10); CUT_Z: y:= is 6; CUT_X, WHOLE: x:= is 6, y:= is 8
    told(CUT_Y, {13: '0001', 12: '0011', 4: '0011', 11: '0011', 8: '0011', 10: '0011'})
    told(CUT_Z, {13: '0001', 12: '0001', 4: '0001', 11: '0001', 6: '0001', 10: '0001'})
    told(CUT_X, {13: '0001', 12: '0111', 6: '0111', 11: '0111', 8: '0111', 10: '0111'})
    told(WHOLE, {13: '0001', 12: '1111', 6: '1111', 11: '1111', 8: '1111', 10: '1111'})
    told(STRAIGHT, {9: '0111', 1: '0111', 8: '1111', 5: '1111', 7: '1011'})
    told(CLEARED, {10: '110', 9: '110', 6: '110', 8: '100'})
# ---- nodes in another order: s y numbered 0 and 1
def other_orders():
    two = lambda count, *records: head(2, 0, count) + labels(1) + [b for record in records for b in record]
    S, NIL, UNIT = node('var', 0), node('num', 0), node('num', 1)
    # s*0 with the 0 before s, 0*s with it behind
    for tab in (two(4, NIL, S, node('mul', 1, 0), node('assign', 1, 2)), two(4, S, NIL, node('mul', 1, 0), node('assign', 1, 2))): labelled(tab, final(4, 1))
    # s*1+0, then s*0+1: the number that is not the product's stands nearer to it
    labelled(two(6, UNIT, NIL, S, node('mul', 2, 0), node('add', 3, 1), node('assign', 1, 4)), final(6, 3))
    labelled(two(6, NIL, UNIT, S, node('mul', 2, 0), node('add', 3, 1), node('assign', 1, 4)), final(6, 1))
    # 0, skip, s, multiply, y:= (4), sequence 4 1: commands in between
    labelled(two(6, NIL, node('skip'), S, node('mul', 2, 0), node('assign', 1, 3), node('seq', 4, 1)), final(6, 1), after(5, 1))
    # x:=a0[s*0] with the 0 first comes out as in any order
    hand(head(2, 1, 4) + labels(1) + array(2) + NIL + S + node('mul', 1, 0) + node('read', 1, 0, 2), 3, 1, [2], 0, READ_MASKED)
    # y:=0, 253 skips, y:=s*7 with the 7 at node 256, whose low byte is that of the 0; then with 0 and 7 exchanged
    for first, last, mask in ((0, 7, 3), (7, 0, 1)):
        far = flat(table(2, 1, [], 0, seqs([('assign', 1, n(first))] + [skip] * 253 + [('assign', 1, mul(s, n(last)))])))
        labelled(far, final(513, mask), *[after(at, 1) for at in range(259, 513)])
# ---- hardened tables run, from states that differ in s, and in the second group in the secret cell too
def clearing_runs():
    # s x y numbered 0 to 2: if s*0=0 then skip else (x:=a0[s*0]; y:=a1[x]); hardened, 50 nodes: the right side is the sequence 15, the second read is 38
    hard = hardened(flat(table(3, 1, [2, 3], 0, ('if', NOUGHT, skip, ('seq', ('read', 1, 0, mul(s, Z)), ('read', 2, 1, v(1)))))))
    assert model.un(hard[8:10]) == 50
    cells, seen = [2, 1, 20, 21, 22], branch(1) + shown_read(0, 0)
    for secret in (0, 9):
        state = [secret, 5, 6, 0]
        guess(hard, STEP, state, cells, want=[0, FINISHED, 4, 1, 6, 0, 0], variables_left=words(state), shown=branch(1) + [170])
        guess(hard, FORCE + STEP * 2, state, cells, want=[0, FINISHED, 10, 3, 26, 1, 0], variables_left=words([secret, 0, 0, 1]), shown=seen + shown_read(1, 0) + [170])
        rollback(hard, FORCE + STEP * 2 + BACK, state, cells, want=[0, FINISHED, 13, 4, 30, 0, 0], variables_left=words(state), saves_left=places(hard),
                 shown=seen + shown_read(1, 0) + SHOWN_BACK + [170])
        rollback(hard, FORCE + STEP, state, cells, want=[0, OUT_OF_DIRECTIVES, 8, 2, 16, 1, 38], variables_left=words([secret, 0, 6, 1]),
                 saves_left=places(hard, (state, cells, [15])), shown=seen + [170])
def bounds_check():
    # document 01's, i j x s numbered 0 to 3, s and array 2 secret: if i+s*0<4 then (j:=a0[i+s*0]; x:=a1[j]) else skip; the index is public, so it is shown as it is
    index = ('add', v(0), mul(v(3), Z))
    plain = flat(table(4, 8, [4, 8, 1], 4, ('if', ('lt', index, n(4)), ('seq', ('read', 1, 0, index), ('read', 2, 1, v(1))), skip)))
    labelled(plain, final(18, 8, 4), got(12, 0, 0), got(14, 0, 0), after(15, 8, 4), sides(17, 0))
    def less(at): return [('var', 0), ('var', 3), ('num', 0), ('mul', at + 1, at + 2), ('add', at, at + 3), ('num', 4), ('lt', at + 4, at + 5)]
    def mask(at, x): return [('var', 4), ('num', 1), ('eq', at, at + 1), ('num', 0), ('var', x), ('choice', at + 2, at + 3, at + 4), ('assign', x, at + 5)]
    hard = hand(plain, 5, 8, [4, 8, 1], 4, less(0)
         + less(7) + [('var', 4), ('num', 1), ('choice', 13, 14, 15), ('assign', 4, 16)]
         + [('var', 0), ('var', 3), ('num', 0), ('mul', 19, 20), ('add', 18, 21), ('read', 1, 0, 22)] + mask(24, 1) + [('seq', 23, 30)]
         + [('var', 1), ('read', 2, 1, 32)] + mask(34, 2) + [('seq', 33, 40), ('seq', 31, 41), ('seq', 17, 42)]
         + less(44) + [('num', 1), ('var', 4), ('choice', 50, 51, 52), ('assign', 4, 53), ('skip',), ('seq', 54, 55)] + [('if', 6, 43, 56)])
    script, seen = FORCE + load(2, 0) + STEP, branch(0) + shown_read(0, 4)
    for secret, cell in ((0, 7), (9, 6)):
        cells = [5, 6, 7, 3] + [1000 + k for k in range(8)] + [cell]
        guess(plain, script, [4, 0, 0, secret], cells, want=[0, FINISHED, 4, 3, 26, 1, 0], variables_left=words([4, cell, 1000 + cell, secret]), shown=seen + shown_read(1, cell) + [170])
        guess(hard, script, [4, 0, 0, secret, 0], cells, want=[0, FINISHED, 10, 3, 26, 1, 0], variables_left=words([4, 0, 0, secret, 1]), shown=seen + shown_read(1, 0) + [170])
        rollback(hard, script + BACK, [4, 0, 0, secret, 0], cells, want=[0, FINISHED, 13, 4, 30, 0, 0], variables_left=words([4, 0, 0, secret, 0]), cells_left=words(cells),
                 saves_left=places(hard), shown=seen + shown_read(1, 0) + SHOWN_BACK + [170])
        run(hard, [3, 0, 0, secret, 0], cells, want=[0, FINISHED, 10, 0, 26, 0, 0], variables_left=words([3, 3, 1003, secret, 0]), shown=branch(1) + shown_read(0, 3) + shown_read(1, 3) + [170])
def add_nought_cases():
    for group in (expressions, conditions, contexts, accesses, chains, asked, other_orders, clearing_runs, bounds_check): group()
