# Calls of flow_harden, and runs of hardened tables on both machines. Answers and bytes are worked out by hand where they are given.
import model
from model import flat, table, words, un, KIND, NAME
from calls import *
from programs import T, seqs, v, n, skip
from remembered import remembering, nested
from machine_cases import BOUNDS, CELLS, FIVE, MOST, FINISHED, SPENT, OUT_OF_DIRECTIVES, STUCK, FULL
def hardened(tab):
    numbers, out = model.hardenEntry(list(tab), filled(40000))
    assert numbers[0] == 0
    return out[:numbers[1]]
def exactly(tab, make=model.hardened):
    """hardens into a buffer that has just the room"""
    return harden(tab, len(flat(make(model.readTable(tab)))), make=make)
def fits(tab, size, nodes):
    """a buffer of exactly that size suffices, what lies beyond it is left alone, and one byte less is 23"""
    harden(tab, size, want=[0, size])
    _, out = harden(tab, size + 3, want=[0, size])
    assert un(out[8:10]) == nodes and out[size:] == filled(3)
    harden(tab, size - 1, want=[23, 0])
    return out[:size]
def hand(tab, V, variables, counts, arrays, nodes, version=1):
    """the hardened table by hand: its version, and its nodes, one after another"""
    nodes = [node(*one) for one in nodes]
    out = (head(V, len(counts), len(nodes), version) + labels(variables, arrays, version)
           + [b for c in counts for b in array(c)] + [b for one in nodes for b in one])
    assert exactly(tab) == ([0, len(out)], out)
    return out
# ---- document 01's cases
def document():
    # the example of the program: V 0 becomes 1, skip stays
    tab = bytes.fromhex('0a000100010000000100' '0a000300000000000000' '04003000')
    _, out = harden(tab, 24, want=[0, 24])
    assert bytes(out) == bytes.fromhex('0a000100010001000100' '0a000300000000000000' '04003000')
    harden(tab, 23, want=[23, 0]); harden(tab, 0, want=[23, 0]); harden(tab, 30, want=[0, 24])
    # if x=0 then skip else skip: the condition (f=0) and x=0 three times over, f is variable 1
    def condition(at): return [('var', 1), ('num', 0), ('eq', at, at + 1), ('var', 0), ('num', 0), ('eq', at + 3, at + 4), ('and', at + 2, at + 5)]
    secret = hand(flat(T['secretIf']), 2, 1, [], 0, condition(0)
         + condition(7) + [('var', 1), ('num', 1), ('choice', 13, 14, 15), ('assign', 1, 16), ('skip',), ('seq', 17, 18)]
         + condition(20) + [('num', 1), ('var', 1), ('choice', 26, 27, 28), ('assign', 1, 29), ('skip',), ('seq', 30, 31)] + [('if', 6, 19, 32)])
    assert len(secret) == 274; fits(flat(T['secretIf']), 274, 34)
    plain = lambda at: [('var', 0), ('num', 0), ('eq', at, at + 1)]
    assert 184 == len(hand(flat(T['publicIf']), 2, 0, [], 0, plain(0)
         + plain(3) + [('var', 1), ('num', 1), ('choice', 5, 6, 7), ('assign', 1, 8), ('skip',), ('seq', 9, 10)]
         + plain(12) + [('num', 1), ('var', 1), ('choice', 14, 15, 16), ('assign', 1, 17), ('skip',), ('seq', 18, 19)] + [('if', 2, 11, 20)]))
    # sizes and node counts by hand
    fits(flat(T['loop']), 322, 40); fits(BOUNDS, 362, 42); fits(flat(T['skip31']), 24, 1)
    fits(flat(T['straight']), 78, 8)
    for name in ('branch', 'branchThen', 'chain'): exactly(flat(T[name]))
# ---- reads, writes and loops, node by node
def by_hand():
    flagged = [('var', 2), ('num', 1), ('eq', 0, 1), ('num', 0)]
    # a secret index is masked, whatever the array; the variable is then secret, and no mask follows
    for secret_array in (0, 1):
        hand(flat(table(2, 1, [2], secret_array, ('read', 1, 0, v(0)))), 3, 1, [2], secret_array, flagged + [('var', 0), ('choice', 2, 3, 4), ('read', 1, 0, 5)])
    hand(flat(table(2, 1, [2], 0, ('write', 0, v(0), v(1)))), 3, 1, [2], 0, flagged + [('var', 0), ('choice', 2, 3, 4), ('var', 1), ('write', 0, 5, 6)])
    # a public index of a public array: the value is masked after the read; of a secret array: nothing
    hand(flat(table(2, 2, [2], 0, ('read', 1, 0, v(0)))), 3, 2, [2], 0,
         [('var', 0), ('read', 1, 0, 0), ('var', 2), ('num', 1), ('eq', 2, 3), ('num', 0), ('var', 1), ('choice', 4, 5, 6), ('assign', 1, 7), ('seq', 1, 8)])
    hand(flat(table(2, 0, [2], 1, ('read', 1, 0, v(0)))), 3, 0, [2], 1, [('var', 0), ('read', 1, 0, 0)])
    # a public index of a write, a secret value
    hand(flat(table(2, 2, [2], 0, ('write', 0, v(0), v(1)))), 3, 2, [2], 0, [('var', 0), ('var', 1), ('write', 0, 0, 1)])
    # a public index where the context is secret is not masked, nor is the value, which the context makes secret
    within = flat(table(2, 1, [2], 0, ('while', ('lt', v(0), n(1)), ('read', 1, 0, n(0)))))
    def condition(at): return [('var', 2), ('num', 0), ('eq', at, at + 1), ('var', 0), ('num', 1), ('lt', at + 3, at + 4), ('and', at + 2, at + 5)]
    hand(within, 3, 1, [2], 0, condition(0) + condition(7) + [('var', 2), ('num', 1), ('choice', 13, 14, 15), ('assign', 2, 16), ('num', 0), ('read', 1, 0, 18),
         ('seq', 17, 19), ('while', 6, 20)] + condition(22) + [('num', 1), ('var', 2), ('choice', 28, 29, 30), ('assign', 2, 31), ('seq', 21, 32)])
    # nodes that stand in another order come out parts first
    other = head(1, 0, 7) + labels() + node('skip') + node('num', 5) + node('assign', 0, 1) + node('skip') + node('const', 1) + node('if', 4, 2, 0) + node('seq', 5, 3)
    hand(other, 2, 0, [], 0, [('const', 1), ('const', 1), ('var', 1), ('num', 1), ('choice', 1, 2, 3), ('assign', 1, 4), ('num', 5), ('assign', 0, 6), ('seq', 5, 7),
         ('const', 1), ('num', 1), ('var', 1), ('choice', 9, 10, 11), ('assign', 1, 12), ('skip',), ('seq', 13, 14), ('if', 0, 8, 15), ('skip',), ('seq', 16, 17)])
# ---- programs with every kind of node, under several labels
EVERY = ('seq', ('if', ('and', ('not', ('lt', v(0), n(7))), ('eq', v(1), ('mul', n(3), v(0)))), ('read', 2, 0, ('sub', v(3), n(1))), ('write', 1, v(3), v(0))),
         ('while', ('lt', v(1), n(2)), ('seq', ('write', 0, v(1), ('choice', ('const', 1), v(1), n(MOST))), ('seq', ('read', 0, 1, ('add', v(1), v(1))), ('assign', 1, ('add', v(1), n(1)))))))
def every(variables, arrays): return flat(table(4, variables, [2, 3], arrays, EVERY))
MARKS = ((0, 0), (1, 0), (2, 0), (8, 0), (0, 1), (0, 2), (15, 3))
def all_kinds():
    for variables, arrays in MARKS: exactly(every(variables, arrays))
    # what came out goes in again
    exactly(hardened(flat(T['secretIf']))); exactly(hardened(BOUNDS))
# ---- limits
def skips(nodes): return flat(table(1, 0, [], 0, seqs([skip] * ((nodes - 1) // 2) + [('assign', 0, n(1)) if nodes % 2 == 0 else skip])))
def limits():
    assert un(skips(512)[8:10]) == 512 and un(skips(513)[8:10]) == 513
    _, out = exactly(skips(512)); assert out == head(2, 0, 512) + skips(512)[10:]
    harden(skips(513), 0, want=[8, 0])
    many = head(32, 0, 513) + skips(513)[10:]
    harden(many, 50, want=[8, 0]); harden(many + [0], 50, want=[7, len(many)]); harden(head(1, 0, 513) + labels() + node('skip') * 513, 50, want=[6, 20])
    # all variables of version 1: it comes out in version 2, which has 28 bytes (P7; 9 is in version_cases)
    harden(flat(T['skip32']), 0, want=[23, 0]); harden(flat(T['skip32']), 100, want=[0, 28])
    harden(flat(T['skip32']) + [1, 2], 100, want=[7, 24]); harden(head(33) + labels() + node('skip'), 100, want=[3, 0])
    # 8 for 1: 127 loops on a secret, 4 nodes each that become 32, around a 4-node if that becomes 16
    inner = ('if', ('const', 0), skip, skip)
    for _ in range(127): inner = ('while', ('lt', v(0), n(3)), inner)
    most = flat(table(1, 1, [], 0, inner)); assert un(most[8:10]) == 512
    _, out = exactly(most); assert un(out[8:10]) == 32 * 127 + 16
    # loops in loops that each take two passes
    for d in (2, 7): p = model.readTable(nested(d, 31)); assert remembering(model.hardened)(p) == model.hardened(p)
    exactly(nested(60, 31), remembering(model.hardened))
# ---- refusals of the table, and short answers
def refused():
    two = head(2, 2, 2) + labels() + array(2) + array(3)    # nodes from 32
    good = two + node('var', 0) + node('read', 1, 1, 0)
    for tab, number, place in (([], 1, 0), (good[:-1], 1, 38), (good[:40], 1, 38), (head(2, 2, 2) + labels() + node('skip'), 2, 20), (head(2, 2, 2, version=2) + good[10:], 2, 10),
            (two + node('var', 0) + node('read', 2, 1, 0), 4, 38), (two + node('skip') + node('read', 1, 1, 0), 5, 36),
            (two + node('skip') + node('skip'), 6, 32), (good + [9], 7, 48)):
        harden(tab, 200, want=[number, place]); harden(tab, 0, want=[number, place])
    for size in (0, 7, 8, 9, 15, 16, 17, 24, 64): harden(good, 110, answer=size, want=[0, 110]); harden(good + [9], 110, answer=size, want=[7, 48])
# ---- hardened tables run
def bounds_check():
    tab = hardened(BOUNDS)
    # in bounds and out of bounds without a guess: as the original, with a sequence and an assign more on the side taken and at each read, and f stays 0
    for entry in (lambda *a, **k: run(*a, **k), lambda t, s, c, **k: guess(t, STEP * 3, s, c, **k)):
        ran = lambda used: used if calls[-1][0] == GUESS else 0
        numbers, _ = entry(tab, [3, 0, 0, 0], CELLS, variables_left=words([3, 8, 1008, 0]), shown=branch(1) + shown_read(0, 3) + shown_read(1, 8) + [170])
        assert numbers == [0, FINISHED, 10, ran(3), 26, 0, 0]
        numbers, _ = entry(tab, [4, 0, 0, 0], CELLS, variables_left=words([4, 0, 0, 0]), shown=branch(0) + [170])
        assert numbers == [0, FINISHED, 4, ran(1), 6, 0, 0]
    # document 01: branch 0, read 0 4, read 1 0; and i = 3 with force, load
    guess(tab, FORCE + load(2, 0) + STEP, [4, 0, 0, 0], CELLS, want=[0, FINISHED, 10, 3, 26, 1, 0], variables_left=words([4, 0, 0, 1]),
          shown=branch(0) + shown_read(0, 4) + shown_read(1, 0) + [170])
    guess(tab, FORCE + load(2, 0), [3, 0, 0, 0], CELLS, want=[0, FINISHED, 4, 1, 6, 1, 0], variables_left=words([3, 0, 0, 1]), shown=branch(1) + [170])
def small_runs():
    # a secret condition under a force: from then on the condition is false, and only forces go in
    tab = hardened(flat(table(2, 1, [], 0, ('while', ('lt', v(0), n(3)), ('assign', 0, ('add', v(0), n(1)))))))
    run(tab, [0, 0, 0], [], variables_left=words([3, 0, 0]), shown=branch(1) * 3 + branch(0) + [170])
    guess(tab, STEP * 4, [0, 0, 0], [], variables_left=words([3, 0, 0]), shown=branch(1) * 3 + branch(0) + [170])
    guess(tab, FORCE * 4, [0, 0, 0], [], variables_left=words([0, 0, 1]), shown=branch(1) + [170])
    guess(tab, STEP * 3 + FORCE + STEP, [0, 0, 0], [], variables_left=words([4, 0, 1]), shown=branch(1) * 3 + branch(0) * 2 + [170])
    # a secret index under a force is 0, on both sides of the bound
    for i in (0, 1, 2, MOST):
        tab = hardened(flat(table(2, 1, [2, 3], 0, ('if', ('const', 1), skip, ('read', 1, 0, v(0))))))
        guess(tab, FORCE + STEP, [i, 7, 0], FIVE, variables_left=words([i, 10, 1]), shown=branch(1) + shown_read(0, 0) + [170])
        tab = hardened(flat(table(2, 1, [2, 3], 0, ('if', ('const', 1), skip, ('write', 0, v(0), v(1))))))
        guess(tab, FORCE + STEP, [i, 7, 0], FIVE, cells_left=words([7, 11, 20, 21, 22]), shown=branch(1) + shown_write(0, 0) + [170])
        guess(tab, FORCE + store(0, 1), [i, 7, 0], FIVE, want=[0, FINISHED, 4, 2, 16, 1, 0], cells_left=words([7, 11, 20, 21, 22]), shown=branch(1) + shown_write(0, 0) + [170])
    # stuck as the original is
    tab = hardened(flat(table(2, 1, [2, 3], 0, ('read', 1, 0, v(0)))))
    run(tab, [1, 7, 0], FIVE, variables_left=words([1, 11, 0])); run(tab, [2, 7, 0], FIVE, want=[0, STUCK, 0, 0, 0, 0, 6]); guess(tab, STEP, [2, 7, 0], FIVE, want=[0, STUCK, 0, 0, 0, 0, 6])
def whole_runs():
    for variables, arrays in MARKS:
        tab = hardened(every(variables, arrays))
        run(tab, [0, 0, 9, 1, 0], FIVE, room=80, pending=4 * un(tab[8:10]))
    tab = hardened(every(15, 3))
    run(tab, [7, 21, 9, 1, 0], FIVE, room=80)
    for script in (STEP * 9, FORCE + STEP * 8, STEP + FORCE + STEP * 7): guess(tab, script, [7, 0, 9, 4, 0], FIVE, room=80)
    # every index is masked to 0, which is in bounds: a0[0] is read, then written, whatever is named
    guess(tab, FORCE + load(1, 2) + FORCE + store(0, 1) + STEP * 5, [7, 0, 9, 4, 0], FIVE, room=80, want=[0, FINISHED, 16, 6, 48, 1, 0], variables_left=words([20, 1, 10, 4, 1]),
          cells_left=words([0, 11, 20, 21, 22]), shown=branch(0) + shown_read(0, 0) + branch(0) + shown_write(0, 0) + shown_read(1, 0) + branch(0) + [170])
    for script in (FORCE * 9, []): guess(tab, script, [7, 0, 9, 4, 0], FIVE, room=80)
# ---- P4: one script with redirects that may be in bounds, played to two states
def redirects_in_bounds():
    tab = hardened(BOUNDS)
    def alike(script, i, **more):
        """with the secret cell 77 and 78"""
        for secret in (77, 78): guess(tab, script, [i, 0, 0, 0], CELLS[:-1] + [secret], **more)
    # i = 4 forced in: j is masked to 0, then the load meets a1[0], in bounds; before hardening it meets a1[78], or a1[77] (machine_cases)
    script = FORCE + load(2, 0) + load(9, 9)
    guess(BOUNDS, script, [4, 0, 0], CELLS[:-1] + [78], want=[0, FINISHED, 4, 3, 26, 1, 0], variables_left=words([4, 78, 1078]),
          shown=branch(0) + shown_read(0, 4) + shown_read(1, 78) + [170])
    alike(script, 4, want=[0, FINISHED, 10, 3, 26, 1, 0], variables_left=words([4, 0, 0, 1]),
          shown=branch(0) + shown_read(0, 4) + shown_read(1, 0) + [170])
    # i = 3 forced out: nothing is read; i = 3 and a step: both own cells with the flag clear; i = 4 and a step: nothing is read
    alike(script, 3, want=[0, FINISHED, 4, 1, 6, 1, 0], variables_left=words([3, 0, 0, 1]), shown=branch(1) + [170])
    script = STEP + load(2, 0) + load(9, 9)
    alike(script, 3, want=[0, FINISHED, 10, 3, 26, 0, 0], variables_left=words([3, 8, 1008, 0]),
          shown=branch(1) + shown_read(0, 3) + shown_read(1, 8) + [170])
    alike(script, 4, want=[0, FINISHED, 4, 1, 6, 0, 0], variables_left=words([4, 0, 0, 0]), shown=branch(0) + [170])
    # a secret index, in bounds from one state and out of bounds from the other: before hardening both runs go on and tell them apart; hardened, it is 0
    secret_read = flat(table(2, 1, [2, 3], 0, ('if', ('const', 1), skip, ('read', 1, 0, v(0)))))
    for i, value in ((1, 11), (2, 22)):
        guess(secret_read, FORCE + load(1, 2), [i, 7], FIVE, want=[0, FINISHED, 2, 2, 16, 1, 0], variables_left=words([i, value]), shown=branch(1) + shown_read(0, i) + [170])
        guess(hardened(secret_read), FORCE + load(1, 2), [i, 7, 0], FIVE, want=[0, FINISHED, 4, 2, 16, 1, 0], variables_left=words([i, 10, 1]),
              shown=branch(1) + shown_read(0, 0) + [170])
    secret_write = flat(table(2, 1, [2, 3], 0, ('if', ('const', 1), skip, ('write', 0, v(0), v(1)))))
    for i, left in ((1, [10, 7, 20, 21, 22]), (2, [10, 11, 20, 21, 7])):
        guess(secret_write, FORCE + store(1, 2), [i, 7], FIVE, want=[0, FINISHED, 2, 2, 16, 1, 0], cells_left=words(left), shown=branch(1) + shown_write(0, i) + [170])
        guess(hardened(secret_write), FORCE + store(1, 2), [i, 7, 0], FIVE, want=[0, FINISHED, 4, 2, 16, 1, 0], cells_left=words([7, 11, 20, 21, 22]),
              shown=branch(1) + shown_write(0, 0) + [170])
def add_harden_cases():
    for group in (document, by_hand, all_kinds, limits, refused): group()
def add_hardened_runs():
    for group in (bounds_check, small_runs, whole_runs, redirects_in_bounds): group()
