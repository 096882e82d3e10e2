# Calls of flow_run and flow_guess. The answers `want` and what the slices hold after are worked out by hand where they are given;
# their order: 0, end, steps, directives used, observation bytes, flag, next node.
from model import flat, table, words, readTable, le
from calls import *
from programs import T, seqs, v, n, skip
FINISHED, SPENT, OUT_OF_DIRECTIVES, STUCK, FULL = 1, 2, 3, 4, 5
MOST = 4294967295
BOUNDS = flat(T['bounds'])
# a0 holds 5 to 8, a1[k] is 1000 + k, a2 holds 77
CELLS = [5, 6, 7, 8] + [1000 + k for k in range(256)] + [77]
# the same with 8 cells in a1, and 7 in a2
SMALL = head(3, 3, 10) + BOUNDS[10:20] + array(4) + array(8) + array(1) + BOUNDS[38:]
FEW = CELLS[:12] + [7]
def both(tab, variables, cells, want, directives=None, **more):
    """one run that is the same on both machines but for the directives used: by hand, one step for each shown step"""
    guessed = STEP * 5 if directives is None else directives
    run(tab, variables, cells, want=want[:3] + [0] + want[4:], **more)
    guess(tab, guessed, variables, cells, want=want, **more)
def listed(entries, nodes): return words(entries + [0] * (nodes - len(entries)))
# ---- the bounds check of document 01: nodes 0 to 9 are i, 4, less, i, read, j, read, sequence, skip, if
def bounds_check():
    assert readTable(BOUNDS)['N'] == 10
    wrong_way = FORCE + load(2, 0) + STEP
    both(BOUNDS, [3, 0, 0], CELLS, [0, FINISHED, 4, 3, 26, 0, 0], variables_left=words([3, 8, 1008]), cells_left=words(CELLS),
         pending_left=words([0] * 10) + [170] * 5, shown=branch(1) + shown_read(0, 3) + shown_read(1, 8) + [170] * 14)
    both(BOUNDS, [4, 0, 0], CELLS, [0, FINISHED, 2, 1, 6, 0, 0], variables_left=words([4, 0, 0]), shown=branch(0) + [170])
    guess(BOUNDS, wrong_way, [4, 0, 0], CELLS, want=[0, FINISHED, 4, 3, 26, 1, 0],
          variables_left=words([4, 77, 1077]), shown=branch(0) + shown_read(0, 4) + shown_read(1, 77) + [170])
    guess(BOUNDS, FORCE + load(2, 0), [3, 0, 0], CELLS, want=[0, FINISHED, 2, 1, 6, 1, 0],
          variables_left=words([3, 0, 0]), shown=branch(1) + [170])
    # cut by the budget before each step; the pending list as it then stands
    pending = {0: [9], 1: [7], 2: [6, 4], 3: [6], 4: []}
    used = {0: (0, 0, 0), 1: (1, 6, 1), 2: (1, 6, 1), 3: (2, 16, 1), 4: (3, 26, 1)}
    for budget in range(5):
        guess(SMALL, wrong_way, [4, 0, 0], FEW, budget=budget, pending=43,
              want=[0, FINISHED if budget == 4 else SPENT, budget, *used[budget], pending[budget][-1] if budget < 4 else 0],
              pending_left=listed(pending[budget], 10) + [170] * 3)
    # an observation that fits exactly is written; one byte less and the run is full, with the directive not used
    for room, end, steps, directives, shown, flag, at in ((26, FINISHED, 4, 3, 26, 1, 0), (25, FULL, 3, 2, 16, 1, 6), (16, FULL, 3, 2, 16, 1, 6),
            (15, FULL, 2, 1, 6, 1, 4), (6, FULL, 2, 1, 6, 1, 4), (5, FULL, 0, 0, 0, 0, 9), (0, FULL, 0, 0, 0, 0, 9)):
        guess(SMALL, wrong_way, [4, 0, 0], FEW, room=room, want=[0, end, steps, directives, shown, flag, at])
# ---- the ends, and their order
READ = flat(table(2, 0, [2, 3], 0, ('read', 1, 1, v(0))))               # v1 := a1[v0]
WRITE = flat(table(2, 0, [2, 3], 0, ('write', 0, v(0), v(1))))          # a0[v0] := v1
FORCED = flat(table(2, 0, [2, 3], 0, ('if', ('const', 1), skip, ('read', 1, 1, v(0)))))    # nodes: 1, skip, v0, read, if
FORCED_WRITE = flat(table(2, 0, [2, 3], 0, ('if', ('const', 1), skip, ('write', 0, v(0), v(1)))))  # 1, skip, v0, v1, write, if
FIVE = [10, 11, 20, 21, 22]
def ends():
    # in bounds: the last cell; the index of a write and its value; array 1 begins behind array 0
    both(READ, [2, 7], FIVE, [0, FINISHED, 1, 1, 10, 0, 0], variables_left=words([2, 22]), shown=shown_read(1, 2) + [170])
    both(READ, [0, 7], FIVE, [0, FINISHED, 1, 1, 10, 0, 0], variables_left=words([0, 20]))
    both(WRITE, [1, MOST], FIVE, [0, FINISHED, 1, 1, 10, 0, 0], cells_left=words([10, MOST, 20, 21, 22]), shown=shown_write(0, 1) + [170])
    # out of bounds without a guess: stuck, also where the cell of the next array would be there
    for i in (3, 4, MOST): both(READ, [i, 7], FIVE, [0, STUCK, 0, 0, 0, 0, 1], variables_left=words([i, 7]), shown=[170])
    for i in (2, MOST): both(WRITE, [i, 7], FIVE, [0, STUCK, 0, 0, 0, 0, 2], cells_left=words(FIVE), shown=[170])
    # the order: finished, spent, out of directives, stuck, full
    both(READ, [0, 7], FIVE, [0, FINISHED, 1, 1, 10, 0, 0], budget=1)
    both(READ, [9, 7], FIVE, [0, SPENT, 0, 0, 0, 0, 1], directives=[], budget=0, room=0)
    guess(READ, [], [9, 7], FIVE, budget=1, room=0, want=[0, OUT_OF_DIRECTIVES, 0, 0, 0, 0, 1])
    guess(READ, [], [0, 7], FIVE, want=[0, OUT_OF_DIRECTIVES, 0, 0, 0, 0, 1])
    both(READ, [9, 7], FIVE, [0, STUCK, 0, 0, 0, 0, 1], room=0)
    both(READ, [0, 7], FIVE, [0, FULL, 0, 0, 0, 0, 1], room=9)
    both(READ, [0, 7], FIVE, [0, FINISHED, 1, 1, 10, 0, 0], room=10)
    both(WRITE, [0, 7], FIVE, [0, FULL, 0, 0, 0, 0, 2], room=9, cells_left=words(FIVE))
    # out of directives in the middle of a run, then stuck on the same step
    guess(FORCED, FORCE, [9, 7], FIVE, want=[0, OUT_OF_DIRECTIVES, 1, 1, 6, 1, 3])
    guess(FORCED, FORCE + STEP, [9, 7], FIVE, want=[0, STUCK, 1, 1, 6, 1, 3])
# ---- which directive fits where
def directives_that_fit():
    # out of bounds with the flag set: only a load at a read, a store at a write, and of a cell that is there
    took = [0, FINISHED, 2, 2, 16, 1, 0]
    for array, index, value in ((0, 0, 10), (0, 1, 11), (1, 2, 22)):
        guess(FORCED, FORCE + load(array, index), [3, 7], FIVE, want=took, variables_left=words([3, value]), shown=branch(1) + shown_read(1, 3) + [170])
    for array, index, left in ((0, 1, [10, 7, 20, 21, 22]), (1, 2, [10, 11, 20, 21, 7])):
        guess(FORCED_WRITE, FORCE + store(array, index), [2, 7], FIVE, want=took, cells_left=words(left), shown=branch(1) + shown_write(0, 2) + [170])
    for d in (STEP, FORCE, store(0, 0), load(0, 2), load(1, 3), load(2, 0), load(65535, 0), load(0, MOST)):
        guess(FORCED, FORCE + d, [3, 7], FIVE, want=[0, STUCK, 1, 1, 6, 1, 3], variables_left=words([3, 7]), shown=branch(1) + [170])
    for d in (STEP, FORCE, load(0, 0), store(0, 2), store(1, 3), store(2, 0), store(65535, 0), store(0, MOST)):
        guess(FORCED_WRITE, FORCE + d, [2, 7], FIVE, want=[0, STUCK, 1, 1, 6, 1, 4], cells_left=words(FIVE), shown=branch(1) + [170])
    # in bounds with the flag set: a step, a load at a read, a store at a write
    read, wrote = dict(want=took, variables_left=words([2, 22])), dict(want=took, cells_left=words([10, 7, 20, 21, 22]))
    no_read, no_write = dict(want=[0, STUCK, 1, 1, 6, 1, 3]), dict(want=[0, STUCK, 1, 1, 6, 1, 4])
    guess(FORCED, FORCE + STEP, [2, 7], FIVE, **read)
    guess(FORCED_WRITE, FORCE + STEP, [1, 7], FIVE, **wrote)
    for d, at_read, at_write in ((FORCE, no_read, no_write), (load(1, 2), read, no_write), (store(1, 2), no_read, wrote)):
        guess(FORCED, FORCE + d, [2, 7], FIVE, **at_read)
        guess(FORCED_WRITE, FORCE + d, [1, 7], FIVE, **at_write)
    # with the flag not set, nothing fits out of bounds, and in bounds what fits with it set
    took = [0, FINISHED, 1, 1, 10, 0, 0]
    read, wrote = dict(want=took, variables_left=words([0, 20])), dict(want=took, cells_left=words([7, 11, 20, 21, 22]))
    no_read, no_write = dict(want=[0, STUCK, 0, 0, 0, 0, 1]), dict(want=[0, STUCK, 0, 0, 0, 0, 2])
    for d, at_read, at_write in ((FORCE, no_read, no_write), (load(0, 0), read, no_write), (store(0, 0), no_read, wrote)):
        guess(READ, d, [0, 7], FIVE, **at_read)
        guess(WRITE, d, [0, 7], FIVE, **at_write)
        guess(READ, d, [9, 7], FIVE, **no_read)
        guess(WRITE, d, [9, 7], FIVE, **no_write)
    # a branch takes no load and no store
    for d in (load(0, 0), store(0, 0)): guess(FORCED, d, [0, 7], FIVE, want=[0, STUCK, 0, 0, 0, 0, 4], shown=[170])
    # a cell that is not there sticks though the buffer is full too; one that is there is full
    guess(FORCED, FORCE + load(2, 0), [3, 7], FIVE, room=15, want=[0, STUCK, 1, 1, 6, 1, 3])
    guess(FORCED, FORCE + load(0, 0), [3, 7], FIVE, room=15, want=[0, FULL, 1, 1, 6, 1, 3])
# ---- loops
COUNT = flat(table(1, 0, [], 0, ('while', ('lt', v(0), n(3)), ('assign', 0, ('add', v(0), n(1))))))    # nodes 0 to 7; the loop is 7
SPIN = flat(table(0, 0, [], 0, ('while', ('const', 1), skip)))                                         # 1, skip, loop
def loops():
    whole = branch(1) * 3 + branch(0)
    both(COUNT, [0], [], [0, FINISHED, 7, 4, 24, 0, 0], variables_left=words([3]), shown=whole + [170])
    # the largest budget, on runs that end
    both(COUNT, [0], [], [0, FINISHED, 7, 4, 24, 0, 0], budget=MOST, variables_left=words([3]), shown=whole + [170])
    guess(SMALL, FORCE + load(2, 0) + STEP, [4, 0, 0], FEW, budget=MOST, want=[0, FINISHED, 4, 3, 26, 1, 0])
    # a budget of exactly the steps, and one less: the list then holds the loop
    both(COUNT, [0], [], [0, FINISHED, 7, 4, 24, 0, 0], budget=7)
    both(COUNT, [0], [], [0, SPENT, 6, 3, 18, 0, 7], budget=6, pending=32, variables_left=words([3]))
    both(COUNT, [0], [], [0, SPENT, 5, 3, 18, 0, 6], budget=5, pending=32, pending_left=listed([7, 6], 8))
    # forced out of the loop at once; forced in at its end, and out again
    guess(COUNT, FORCE, [0], [], want=[0, FINISHED, 1, 1, 6, 1, 0], variables_left=words([0]), shown=branch(1) + [170])
    guess(COUNT, STEP * 3 + FORCE + FORCE + STEP, [0], [], want=[0, FINISHED, 11, 6, 36, 1, 0],
          variables_left=words([5]), shown=branch(1) * 3 + branch(0) * 3 + [170])
    guess(COUNT, FORCE * 3, [3], [], want=[0, OUT_OF_DIRECTIVES, 6, 3, 18, 1, 7], variables_left=words([6]))
    # a loop without an end: spent, full, out of directives
    for budget in (0, 1, 2, 100):
        run(SPIN, [], [], budget=budget, room=6 * 50, want=[0, SPENT, budget, 0, 6 * ((budget + 1) // 2), 0, 1 if budget == 1 else 2])
    both(SPIN, [], [], [0, FULL, 4, 2, 12, 0, 2], room=17, budget=MOST, shown=branch(1) * 2 + [170] * 5)
    guess(SPIN, STEP * 3, [], [], budget=MOST, want=[0, OUT_OF_DIRECTIVES, 6, 3, 18, 0, 2])
# ---- values
def values():
    # sum, difference and product modulo 2^32
    three = flat(table(5, 0, [], 0, seqs([('assign', 0, ('add', v(3), v(4))), ('assign', 1, ('sub', v(3), v(4))), ('assign', 2, ('mul', v(3), v(4)))])))
    for a, b, added, less, product in ((MOST, 1, 0, 4294967294, MOST), (0, 1, 1, MOST, 0), (65536, 65536, 131072, 0, 0), (MOST, MOST, 4294967294, 0, 1),
            (2147483648, 2, 2147483650, 2147483646, 0), (65537, 65535, 131072, 2, MOST), (3, MOST, 2, 4, 4294967293), (123456789, 987654321, 1111111110, 3430769764, 4227814277)):
        run(three, [1, 1, 1, a, b], [], want=[0, FINISHED, 5, 0, 0, 0, 0], variables_left=words([added, less, product, a, b]))
    guess(three, [], [1, 1, 1, MOST, 1], [], want=[0, FINISHED, 5, 0, 0, 0, 0], variables_left=words([0, 4294967294, MOST, MOST, 1]))
    # less is unsigned; equal, not, and, constants and choice
    bit = lambda truth: ('choice', truth, n(1), n(0))
    truths = flat(table(8, 0, [], 0, seqs([
        ('assign', 0, bit(('lt', v(6), v(7)))), ('assign', 1, bit(('eq', v(6), v(7)))), ('assign', 2, bit(('not', ('lt', v(6), v(7))))),
        ('assign', 3, bit(('and', ('lt', v(6), v(7)), ('lt', v(7), n(MOST))))), ('assign', 4, bit(('and', ('const', 1), ('not', ('const', 0))))),
        ('assign', 5, ('choice', ('eq', v(6), n(0)), ('choice', ('const', 0), n(7), n(8)), v(7)))])))
    for a, b, after in ((1, 2147483648, [1, 0, 0, 1, 1, 2147483648]), (2147483648, 1, [0, 0, 1, 0, 1, 1]), (0, MOST, [1, 0, 0, 0, 1, 8]), (MOST, MOST, [0, 1, 1, 0, 1, MOST])):
        run(truths, [9] * 6 + [a, b], [], want=[0, FINISHED, 11, 0, 0, 0, 0], variables_left=words(after + [a, b]))
    # the last variable of version 1 and the last array that there can be; a write's index and value see the state before it
    last = flat(table(32, 0, [1] * 15 + [3], 0, ('seq', ('write', 15, v(31), ('mul', v(31), n(2147483649))), ('read', 31, 15, n(2)))))
    both(last, [k for k in range(31)] + [2], list(range(100, 118)), [0, FINISHED, 3, 2, 20, 0, 0], variables_left=words(list(range(31)) + [2]),
         cells_left=words(list(range(100, 117)) + [2]), shown=shown_write(15, 2) + shown_read(15, 2) + [170])
    # an index that wraps around
    wrapped = flat(table(2, 0, [2, 3], 0, ('read', 1, 0, ('sub', v(0), n(3)))))
    both(wrapped, [4, 7], FIVE, [0, FINISHED, 1, 1, 10, 0, 0], variables_left=words([4, 11]), shown=shown_read(0, 1) + [170])
    both(wrapped, [2, 7], FIVE, [0, STUCK, 0, 0, 0, 0, 3], shown=[170])
    wrapped = flat(table(2, 0, [2, 3], 0, ('if', ('const', 0), ('write', 0, ('sub', v(0), n(3)), n(6)), skip)))
    guess(wrapped, FORCE + store(1, 0), [2, 7], FIVE, want=[0, FINISHED, 2, 2, 16, 1, 0], cells_left=words([10, 11, 6, 21, 22]), shown=branch(0) + shown_write(0, MOST) + [170])
    # a deep condition
    deep = ('const', 0)
    for _ in range(999): deep = ('not', deep)
    guess(flat(table(0, 0, [], 0, ("if", deep, skip, skip))), STEP, [], [], want=[0, FINISHED, 2, 1, 6, 0, 0], pending=4 * 1003, shown=branch(1) + [170])
# ---- the pending list
def lists():
    one = lambda x: ('assign', x, n(x))
    # ((0; 1); (2; 3)): nodes 0, 1 | 2, 3 | 4 | 5, 6 | 7, 8 | 9 | 10, so assigns 1, 3, 6, 8, sequences 4, 9, 10
    tree = flat(table(4, 0, [], 0, ('seq', ('seq', one(0), one(1)), ('seq', one(2), one(3)))))
    stages = ([10], [9, 4], [9, 3, 1], [9, 3], [9], [8, 6], [8], [])
    for budget, stage in enumerate(stages):
        run(tree, [9] * 4, [], budget=budget, pending=44 + budget, want=[0, SPENT if stage else FINISHED, budget, 0, 0, 0, (stage or [0])[-1]],
            variables_left=words([0 if budget > 2 else 9, 1 if budget > 3 else 9, 2 if budget > 5 else 9, 3 if budget > 6 else 9]),
            pending_left=listed(stage, 11) + [170] * budget)
    # what the slice holds at entry counts for nothing, and stays beyond the first N entries
    run(tree, [9] * 4, [], budget=2, pending=bytes(range(1, 60)), want=[0, SPENT, 2, 0, 0, 0, 1],
        pending_left=listed([9, 3, 1], 11) + list(range(45, 60)))
    # a table whose nodes stand in another order: the second part before the first, the condition in between
    other = head(1, 0, 7) + labels() + node('skip') + node('num', 5) + node('assign', 0, 1) + node('skip') + node('const', 1) + node('if', 4, 2, 0) + node('seq', 5, 3)
    both(other, [1], [], [0, FINISHED, 4, 1, 6, 0, 0], variables_left=words([5]), shown=branch(1) + [170])
    for budget, stage in enumerate(([6], [3, 5], [3, 2], [3])):
        guess(other, STEP, [1], [], budget=budget, pending=31, want=[0, SPENT, budget, budget > 1, 6 * (budget > 1), 0, stage[-1]], pending_left=listed(stage, 7) + [170] * 3)
    guess(other, FORCE, [1], [], budget=2, pending=31, want=[0, SPENT, 2, 1, 6, 1, 0], pending_left=listed([3, 0], 7) + [170] * 3)
    # a sequence nested to the left by far: the list is as long as it gets
    left = skip
    for _ in range(499): left = ('seq', left, skip)
    left = flat(table(0, 0, [], 0, left))
    run(left, [], [], budget=499, pending=3999, want=[0, SPENT, 499, 0, 0, 0, 0], pending_left=listed([997 - 2 * k for k in range(499)], 999) + [170] * 3)
    # no variables, no arrays, one node: every slice but the list may be empty
    alone = flat(table(0, 0, [], 0, skip))
    both(alone, [], [], [0, FINISHED, 1, 0, 0, 0, 0], directives=[], room=0, pending=4)
    both(alone, [], [], [0, SPENT, 0, 0, 0, 0, 0], directives=[], room=0, pending=4, budget=0)
    # silent steps take no directive, and what is left of a list is left
    guess(alone, FORCE + load(9, 9), [], [], want=[0, FINISHED, 1, 0, 0, 0, 0])
# ---- refusals, and answers cut short
def refused_states():
    d = STEP
    for bad in (STEP[:1], STEP[:3], STEP + FORCE[:3], load(0, 0)[:4], load(0, 0)[:9], STEP * 3 + store(0, 0)[:9],
                le(2, 4) + le(2, 71), le(2, 4) + le(2, 76), le(2, 4) + le(2, 0), le(2, 10) + le(2, 64) + [0] * 6,
                le(2, 10) + le(2, 72) + [0] * 6, le(2, 5) + le(2, 73) + [0], le(2, 4) + le(2, 74), le(2, 9) + le(2, 75) + [0] * 5,
                le(2, 11) + le(2, 75) + [0] * 7, le(2, 0) + le(2, 72), STEP + [0], STEP * 2 + le(2, 3) + le(2, 72)):
        guess(READ, bad, [0, 7], FIVE, want=[10, 0], variables_left=words([0, 7]), cells_left=words(FIVE), pending=13, shown=[170] * 40)
    # what does not fit is not refused, nor is what the run never comes to
    guess(READ, STEP + load(65535, MOST), [0, 7], FIVE, want=[0, FINISHED, 1, 1, 10, 0, 0])
    lengths = lambda size: (size - 4, size - 1, size + 1, size + 4)
    for size in lengths(8) + (0,): run(READ, bytes(size), FIVE, want=[20, 0]); guess(READ, d, bytes(size), FIVE, want=[20, 0])
    for size in lengths(20) + (0,): run(READ, [0, 7], bytes(size), want=[21, 0]); guess(READ, d, [0, 7], bytes(size), want=[21, 0])
    for size in (7, 4, 1, 0): run(READ, [0, 7], FIVE, pending=size, want=[22, 0]); guess(READ, d, [0, 7], FIVE, pending=size, want=[22, 0])
    for size in (8, 9, 10, 11, 12, 15, 16): both(READ, [0, 7], FIVE, [0, FINISHED, 1, 1, 10, 0, 0], pending=size)
    # the order: the table, 10, 20, 21, 22
    guess(READ + [0], [1], bytes(1), bytes(1), pending=0, want=[7, len(READ)])
    guess(READ, [1], bytes(1), bytes(1), pending=0, want=[10, 0])
    guess(READ, [], bytes(1), bytes(1), pending=0, want=[20, 0]); run(READ, bytes(1), bytes(1), pending=0, want=[20, 0])
    guess(READ, [], [0, 7], bytes(1), pending=0, want=[21, 0]); run(READ, [0, 7], bytes(1), pending=0, want=[21, 0])
    guess(READ, [], [0, 7], FIVE, pending=0, want=[22, 0]); run(READ, [0, 7], FIVE, pending=0, want=[22, 0])
    # tables, with the state of a call that would run
    two = head(2, 2, 2) + labels() + array(2) + array(3)    # nodes from 32
    for tab, number, place in (([], 1, 0), (READ[:-1], 1, 38), (READ[:40], 1, 38), (head(2, 2, 2) + labels() + node('skip'), 2, 20), (head(2, 2, 2, version=2) + READ[10:], 2, 10),
            (two + node('var', 0) + node('read', 1, 2, 0), 4, 38), (two + node('skip') + node('read', 1, 1, 0), 5, 36),
            (two + node('skip') + node('skip'), 6, 32), (READ + [9], 7, 48)):
        run(tab, [0, 7], FIVE, pending=13, want=[number, place]); guess(tab, STEP, [0, 7], FIVE, pending=13, want=[number, place])
    # numbers that do not fit whole are dropped, and the bytes they would take are unchanged
    for size in (0, 7, 8, 9, 15, 16, 23, 24, 31, 39, 47, 48, 55, 56, 57, 64):
        both(FORCED, [3, 7], FIVE, [0, FINISHED, 2, 1, 6, 0, 0], answer=size)
    for size in (0, 7, 8, 15, 16, 17, 64):
        run(READ + [9], [0, 7], FIVE, answer=size, want=[7, 48]); guess(READ, [0], [0, 7], FIVE, answer=size, want=[10, 0])
# ---- P4: in bounds, a load at a read and a store at a write take the program's own cell, whatever they name
ANY_CELL = ((0, 0), (0, 1), (1, 0), (1, 1), (1, 2),                                   # those of READ and WRITE that exist
            (0, 2), (1, 3), (1, 4), (0, MOST), (1, MOST), (2, 0), (256, 1), (257, 1), (65535, 0), (65535, MOST))
def own_cells():
    # v1 := a1[1] gives 21, and a0[1] := 9 changes that cell alone, whatever cell is named
    for array, index in ANY_CELL:
        read = dict(variables_left=words([1, 21]), cells_left=words(FIVE))
        guess(READ, load(array, index), [1, 9], FIVE, want=[0, FINISHED, 1, 1, 10, 0, 0], shown=shown_read(1, 1) + [170], **read)
        guess(FORCED, FORCE + load(array, index), [1, 9], FIVE, want=[0, FINISHED, 2, 2, 16, 1, 0], shown=branch(1) + shown_read(1, 1) + [170], **read)
        wrote = dict(variables_left=words([1, 9]), cells_left=words([10, 9, 20, 21, 22]))
        guess(WRITE, store(array, index), [1, 9], FIVE, want=[0, FINISHED, 1, 1, 10, 0, 0], shown=shown_write(0, 1) + [170], **wrote)
        guess(FORCED_WRITE, FORCE + store(array, index), [1, 9], FIVE, want=[0, FINISHED, 2, 2, 16, 1, 0], shown=branch(1) + shown_write(0, 1) + [170], **wrote)
    # one script, and every index up to the bound and beyond: the own cells, then the named one, which must exist; without the flag, none
    for i, value in ((0, 20), (1, 21), (2, 22), (3, 10), (4, 10), (MOST, 10)):
        guess(FORCED, FORCE + load(0, 0), [i, 8], FIVE, want=[0, FINISHED, 2, 2, 16, 1, 0], variables_left=words([i, value]), shown=branch(1) + shown_read(1, i) + [170])
        guess(FORCED, FORCE + load(2, 0), [i, 8], FIVE, want=[0, FINISHED, 2, 2, 16, 1, 0] if i < 3 else [0, STUCK, 1, 1, 6, 1, 3],
              variables_left=words([i, value if i < 3 else 8]))
        guess(READ, load(0, 0), [i, 8], FIVE, want=[0, FINISHED, 1, 1, 10, 0, 0] if i < 3 else [0, STUCK, 0, 0, 0, 0, 1], variables_left=words([i, value if i < 3 else 8]))
    for i, left in ((0, [8, 11, 20, 21, 22]), (1, [10, 8, 20, 21, 22]), (2, [10, 11, 8, 21, 22]), (3, [10, 11, 8, 21, 22]), (MOST, [10, 11, 8, 21, 22])):
        guess(FORCED_WRITE, FORCE + store(1, 0), [i, 8], FIVE, want=[0, FINISHED, 2, 2, 16, 1, 0], cells_left=words(left), shown=branch(1) + shown_write(0, i) + [170])
        guess(FORCED_WRITE, FORCE + store(1, 3), [i, 8], FIVE, want=[0, FINISHED, 2, 2, 16, 1, 0] if i < 2 else [0, STUCK, 1, 1, 6, 1, 4],
              cells_left=words(left if i < 2 else FIVE))
        guess(WRITE, store(1, 0), [i, 8], FIVE, want=[0, FINISHED, 1, 1, 10, 0, 0] if i < 2 else [0, STUCK, 0, 0, 0, 0, 2], cells_left=words(left if i < 2 else FIVE))
def other_directives():
    # in bounds still stuck, with the flag set and clear: the other access's redirect, be it of the own cell, and force
    same = dict(variables_left=words([1, 9]), cells_left=words(FIVE))
    for d in (store(1, 1), store(0, 0), store(2, 0), store(65535, MOST), FORCE):
        guess(READ, d, [1, 9], FIVE, want=[0, STUCK, 0, 0, 0, 0, 1], shown=[170], **same)
        guess(FORCED, FORCE + d, [1, 9], FIVE, want=[0, STUCK, 1, 1, 6, 1, 3], shown=branch(1) + [170], **same)
    for d in (load(0, 1), load(1, 0), load(2, 0), load(65535, MOST), FORCE):
        guess(WRITE, d, [1, 9], FIVE, want=[0, STUCK, 0, 0, 0, 0, 2], shown=[170], **same)
        guess(FORCED_WRITE, FORCE + d, [1, 9], FIVE, want=[0, STUCK, 1, 1, 6, 1, 4], shown=branch(1) + [170], **same)
def in_order():
    # spent comes first, whether the directive fits or not
    for d in (load(9, 9), store(9, 9)):
        guess(READ, d, [1, 7], FIVE, budget=0, want=[0, SPENT, 0, 0, 0, 0, 1], shown=[170])
        guess(FORCED_WRITE, FORCE + d, [1, 7], FIVE, budget=1, want=[0, SPENT, 1, 1, 6, 1, 4], cells_left=words(FIVE))
    guess(READ, load(9, 9), [1, 7], FIVE, budget=1, want=[0, FINISHED, 1, 1, 10, 0, 0])
    # full comes last: a byte short and the directive is not used; what does not fit is stuck though there is no room
    for room in (0, 9):
        guess(READ, load(9, 9), [1, 7], FIVE, room=room, want=[0, FULL, 0, 0, 0, 0, 1], variables_left=words([1, 7]), shown=[170] * room)
        guess(WRITE, store(9, 9), [1, 7], FIVE, room=room, want=[0, FULL, 0, 0, 0, 0, 2], cells_left=words(FIVE), shown=[170] * room)
    guess(READ, load(9, 9), [1, 7], FIVE, room=10, want=[0, FINISHED, 1, 1, 10, 0, 0], variables_left=words([1, 21]))
    guess(WRITE, store(9, 9), [1, 7], FIVE, room=10, want=[0, FINISHED, 1, 1, 10, 0, 0], cells_left=words([10, 7, 20, 21, 22]))
    guess(FORCED, FORCE + load(9, 9), [1, 7], FIVE, room=15, want=[0, FULL, 1, 1, 6, 1, 3], variables_left=words([1, 7]), shown=branch(1) + [170] * 9)
    guess(FORCED, FORCE + load(9, 9), [1, 7], FIVE, room=16, want=[0, FINISHED, 2, 2, 16, 1, 0], variables_left=words([1, 21]))
    guess(WRITE, load(0, 1), [1, 7], FIVE, room=0, want=[0, STUCK, 0, 0, 0, 0, 2], cells_left=words(FIVE))
    guess(READ, store(1, 1), [1, 7], FIVE, room=0, want=[0, STUCK, 0, 0, 0, 0, 1], variables_left=words([1, 7]))
    guess(FORCED_WRITE, FORCE + load(0, 1), [1, 7], FIVE, room=15, want=[0, STUCK, 1, 1, 6, 1, 4], cells_left=words(FIVE))
    # the directive is used up: without another one the next shown step has none; a silent step needs none
    guess(SMALL, STEP + load(2, 0), [2, 0, 0], FEW, pending=43, want=[0, OUT_OF_DIRECTIVES, 3, 2, 16, 0, 6], variables_left=words([2, 7, 0]),
          shown=branch(1) + shown_read(0, 2) + [170], pending_left=listed([6], 10) + [170] * 3)
    guess(SMALL, STEP + load(2, 0) * 2, [2, 0, 0], FEW, want=[0, FINISHED, 4, 3, 26, 0, 0], variables_left=words([2, 7, 1007]))
    guess(SMALL, STEP + load(2, 0) * 3, [2, 0, 0], FEW, want=[0, FINISHED, 4, 3, 26, 0, 0], variables_left=words([2, 7, 1007]))
    # j = 8 is out of bounds, and there the flag is asked for
    guess(SMALL, STEP + load(2, 0) * 2, [3, 0, 0], FEW, pending=43, want=[0, STUCK, 3, 2, 16, 0, 6], variables_left=words([3, 8, 0]), pending_left=listed([6], 10) + [170] * 3)
def redirects_in_bounds():
    # the bounds check: one script for i = 3 and i = 4, from step or from force
    missing = load(2, 0) + load(9, 9)
    guess(BOUNDS, STEP + load(2, 0) + STEP, [3, 0, 0], CELLS, want=[0, FINISHED, 4, 3, 26, 0, 0], variables_left=words([3, 8, 1008]), cells_left=words(CELLS),
          pending_left=words([0] * 10) + [170] * 5, shown=branch(1) + shown_read(0, 3) + shown_read(1, 8) + [170])
    guess(BOUNDS, STEP + missing, [3, 0, 0], CELLS, want=[0, FINISHED, 4, 3, 26, 0, 0], variables_left=words([3, 8, 1008]),
          shown=branch(1) + shown_read(0, 3) + shown_read(1, 8) + [170])
    guess(BOUNDS, STEP + missing, [4, 0, 0], CELLS, want=[0, FINISHED, 2, 1, 6, 0, 0], variables_left=words([4, 0, 0]), shown=branch(0) + [170])
    guess(BOUNDS, FORCE + missing, [3, 0, 0], CELLS, want=[0, FINISHED, 2, 1, 6, 1, 0], variables_left=words([3, 0, 0]), shown=branch(1) + [170])
    guess(BOUNDS, FORCE + missing, [4, 0, 0], CELLS, want=[0, FINISHED, 4, 3, 26, 1, 0], variables_left=words([4, 77, 1077]), cells_left=words(CELLS),
          pending_left=words([0] * 10) + [170] * 5, shown=branch(0) + shown_read(0, 4) + shown_read(1, 77) + [170])
    # out of bounds the named cell must exist, as before
    for d in (load(2, 5), load(9, 9), load(3, 0)):
        guess(BOUNDS, FORCE + d, [4, 0, 0], CELLS, want=[0, STUCK, 2, 1, 6, 1, 4], variables_left=words([4, 0, 0]), shown=branch(0) + [170],
              pending_left=listed([6, 4], 10) + [170] * 5)
    own_cells(); other_directives(); in_order()
    # while v0<3 do (v1:=a1[v0]; v0:=v0+1): a load in each turn; forced in once more, v0 is out of bounds and the load is a redirect
    loop = flat(table(2, 0, [2, 3], 0, ('while', ('lt', v(0), n(3)), ('seq', ('read', 1, 1, v(0)), ('assign', 0, ('add', v(0), n(1)))))))
    turns = branch(1) + shown_read(1, 0) + branch(1) + shown_read(1, 1) + branch(1) + shown_read(1, 2) + branch(0)
    guess(loop, (STEP + load(0, 1)) * 3 + STEP, [0, 7], FIVE, room=80, want=[0, FINISHED, 13, 7, 54, 0, 0], variables_left=words([3, 22]), shown=turns + [170])
    guess(loop, (STEP + load(0, 1)) * 3 + FORCE + load(0, 1) + STEP, [0, 7], FIVE, room=80, want=[0, FINISHED, 17, 9, 70, 1, 0], variables_left=words([4, 11]),
          shown=turns + shown_read(1, 3) + branch(0) + [170])
def add_machine_cases():
    for group in (bounds_check, ends, directives_that_fit, loops, values, lists, refused_states, redirects_in_bounds): group()
