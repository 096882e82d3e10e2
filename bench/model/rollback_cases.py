# Calls of flow_rollback, P5. The answers `want` and what the slices hold after are worked out by hand; their order: 0, end, steps,
# directives used, observation bytes, flag, next node.
import random
import model
from model import flat, table, words, readTable, le
from calls import *
from programs import seqs, v, n, skip
from machine_cases import (FINISHED, SPENT, OUT_OF_DIRECTIVES, STUCK, FULL, MOST, BOUNDS, CELLS, SMALL, FEW, READ, WRITE, FORCED, FORCED_WRITE,
                           FIVE, COUNT, SPIN, listed)
def places(tab, *saves):
    """the save words: variables, cells and list of each, oldest first; places without a save are zeros"""
    each = words([w for variables, cells, entries in saves for w in variables + cells + entries + [0] * (model.un(tab[8:10]) - len(entries))])
    return each + [0] * (saves_bytes(tab) - len(each))
WRONG = FORCE + load(2, 0) + STEP
# ---- the bounds check of document 01: nodes 0 to 9 are i, 4, less, i, read, j, read, sequence, skip, if
def bounds_check():
    seen = branch(0) + shown_read(0, 4) + shown_read(1, 77)
    rollback(BOUNDS, WRONG + BACK, [4, 0, 0], CELLS, want=[0, FINISHED, 6, 4, 30, 0, 0], variables_left=words([4, 0, 0]), cells_left=words(CELLS),
             pending_left=words([0] * 10) + [170] * 5, saves_left=places(BOUNDS), shown=seen + SHOWN_BACK + [170])
    # finished with the save open: place 0 is 4 0 0, the cells, and the skip
    rollback(BOUNDS, WRONG, [4, 0, 0], CELLS, want=[0, FINISHED, 4, 3, 26, 1, 0], variables_left=words([4, 77, 1077]), cells_left=words(CELLS),
             saves_left=places(BOUNDS, ([4, 0, 0], CELLS, [8])), shown=seen + [170])
    # nothing pending and 76 next: spent
    rollback(BOUNDS, WRONG + BACK, [4, 0, 0], CELLS, budget=4, want=[0, SPENT, 4, 3, 26, 1, 0], variables_left=words([4, 77, 1077]),
             saves_left=places(BOUNDS, ([4, 0, 0], CELLS, [8])), shown=seen + [170])
    # hardened, 42 nodes: if i<4 then (f:=..; ((j:=a0[i]; j:=..); (x:=a1[j]; x:=..))) else (f:=..; skip); 76 comes before the last mask
    numbers, out = model.hardenEntry(BOUNDS, [0] * 1000); hard = out[:numbers[1]]
    assert readTable(hard)['N'] == 42
    for secret in (77, 78):
        cells = CELLS[:-1] + [secret]
        rollback(hard, WRONG + BACK, [4, 0, 0, 0], cells, want=[0, FINISHED, 13, 4, 30, 0, 0], variables_left=words([4, 0, 0, 0]), cells_left=words(cells),
                 saves_left=places(hard), shown=branch(0) + shown_read(0, 4) + shown_read(1, 0) + SHOWN_BACK + [170])
# ---- the same with few cells, cut by the budget and by the room at each step
def cut_short():
    save = ([4, 0, 0], FEW, [8])
    stages = (([9], 0, 0, 0, 0, [4, 0, 0]), ([7], 1, 6, 1, 7, [4, 0, 0]), ([6, 4], 1, 6, 1, 4, [4, 0, 0]), ([6], 2, 16, 1, 6, [4, 7, 0]),
              ([], 3, 26, 1, 0, [4, 7, 1007]), ([8], 4, 30, 0, 8, [4, 0, 0]), ([], 4, 30, 0, 0, [4, 0, 0]))
    for budget, (entries, used, shown, flag, at, variables) in enumerate(stages):
        at = 9 if budget == 0 else at
        rollback(SMALL, WRONG + BACK, [4, 0, 0], FEW, budget=budget, pending=43, saves=832 + budget, variables_left=words(variables), cells_left=words(FEW),
                 want=[0, FINISHED if budget == 6 else SPENT, budget, used, shown, flag, at], pending_left=listed(entries, 10) + [170] * 3,
                 saves_left=(places(SMALL, save) if flag else places(SMALL)) + [170] * budget)
    # 67 takes 4 bytes; with 3 left the run is full and nothing is undone
    whole = branch(0) + shown_read(0, 4) + shown_read(1, 7) + SHOWN_BACK
    for room, end, steps, used, shown, flag, at in ((31, FINISHED, 6, 4, 30, 0, 0), (30, FINISHED, 6, 4, 30, 0, 0), (29, FULL, 4, 3, 26, 1, 0), (26, FULL, 4, 3, 26, 1, 0),
            (25, FULL, 3, 2, 16, 1, 6), (15, FULL, 2, 1, 6, 1, 4), (6, FULL, 2, 1, 6, 1, 4), (5, FULL, 0, 0, 0, 0, 9), (0, FULL, 0, 0, 0, 0, 9)):
        rollback(SMALL, WRONG + BACK, [4, 0, 0], FEW, room=room, want=[0, end, steps, used, shown, flag, at], cells_left=words(FEW),
                 variables_left=words([4, 7, 1007] if shown == 26 else [4, 7, 0] if shown == 16 else [4, 0, 0]),
                 saves_left=places(SMALL, save) if flag else places(SMALL), shown=whole[:shown] + [170] * (room - shown))
# ---- 76 and its order
LOOP = flat(table(1, 0, [], 0, ('while', ('const', 0), ('assign', 0, ('add', v(0), n(1))))))     # 0, v0, 1, add, assign, loop
TURN = flat(table(1, 0, [], 0, ('while', ('const', 1), ('assign', 0, ('add', v(0), n(1))))))     # the same with a true condition
def order():
    assert readTable(LOOP)['N'] == 6
    # no save open: stuck, also where there is no room or nothing is pending; spent comes first
    for tab, variables, cells, root in ((SMALL, [4, 0, 0], FEW, 9), (LOOP, [3], [], 5)):
        for more in ([], STEP, BACK):
            rollback(tab, BACK + more, variables, cells, want=[0, STUCK, 0, 0, 0, 0, root], pending_left=words([root, 0]), saves_left=places(tab), shown=[170])
        rollback(tab, BACK, variables, cells, room=0, want=[0, STUCK, 0, 0, 0, 0, root])
        rollback(tab, BACK, variables, cells, budget=0, room=0, want=[0, SPENT, 0, 0, 0, 0, root], saves_left=places(tab))
        rollback(tab, BACK, variables, cells, budget=1, want=[0, STUCK, 0, 0, 0, 0, root])
    rollback(LOOP, STEP + BACK, [3], [], want=[0, STUCK, 1, 1, 6, 0, 0], pending_left=words([0] * 6), shown=branch(0) + [170])
    rollback(LOOP, STEP + BACK, [3], [], budget=1, want=[0, SPENT, 1, 1, 6, 0, 0])
    rollback(LOOP, STEP + STEP, [3], [], budget=1, want=[0, FINISHED, 1, 1, 6, 0, 0])
    rollback(SMALL, STEP + BACK, [3, 0, 0], FEW, want=[0, STUCK, 1, 1, 6, 0, 7], pending_left=words([7, 0]))
    # taken before a silent step; back onto an empty list, and finished there, whatever but 76 is left of the directives
    for more in ([], STEP, FORCE, load(0, 0)):
        rollback(LOOP, FORCE + BACK + more, [3], [], want=[0, FINISHED, 2, 2, 10, 0, 0], variables_left=words([3]), pending_left=words([0] * 6) + [170] * 5,
                 saves_left=places(LOOP), shown=branch(0) + SHOWN_BACK + [170])
    # 76 again with no save open, nothing pending: stuck, and before that spent
    rollback(LOOP, FORCE + BACK + BACK, [3], [], want=[0, STUCK, 2, 2, 10, 0, 0], variables_left=words([3]), saves_left=places(LOOP))
    rollback(LOOP, FORCE + BACK + BACK, [3], [], budget=3, room=10, want=[0, STUCK, 2, 2, 10, 0, 0])
    rollback(LOOP, FORCE + BACK + BACK, [3], [], budget=2, want=[0, SPENT, 2, 2, 10, 0, 0])
    # the budget just used with 76 next, a silent step pending
    one = places(LOOP, ([3], [], []))
    rollback(LOOP, FORCE + BACK, [3], [], budget=1, want=[0, SPENT, 1, 1, 6, 1, 4], pending_left=words([5, 4, 0]), saves_left=one)
    rollback(LOOP, FORCE + BACK, [3], [], budget=1, room=9, want=[0, SPENT, 1, 1, 6, 1, 4], saves_left=one)
    rollback(LOOP, FORCE + BACK, [3], [], budget=2, want=[0, FINISHED, 2, 2, 10, 0, 0])
    # 3 bytes of room and 4
    for room in (6, 7, 8, 9):
        rollback(LOOP, FORCE + BACK, [3], [], room=room, want=[0, FULL, 1, 1, 6, 1, 4], variables_left=words([3]), pending_left=words([5, 4, 0]), saves_left=one,
                 shown=branch(0) + [170] * (room - 6))
    rollback(LOOP, FORCE + BACK, [3], [], room=10, want=[0, FINISHED, 2, 2, 10, 0, 0], shown=branch(0) + SHOWN_BACK)
    # a step before 76: the wrong side's variable is undone; without 76 the run is out of directives, or finishes, with the save open
    rollback(LOOP, FORCE + STEP + BACK, [3], [], want=[0, FINISHED, 4, 3, 16, 0, 0], variables_left=words([3]), saves_left=places(LOOP),
             shown=branch(0) + branch(0) + SHOWN_BACK + [170])
    rollback(LOOP, FORCE, [3], [], want=[0, OUT_OF_DIRECTIVES, 2, 1, 6, 1, 5], variables_left=words([4]), pending_left=words([5, 0]), saves_left=one)
    rollback(LOOP, FORCE + STEP, [3], [], want=[0, FINISHED, 3, 2, 12, 1, 0], variables_left=words([4]), pending_left=words([0] * 6), saves_left=one)
    # guessed and undone in every turn: the loop goes on as without guessing
    rollback(TURN, (FORCE + BACK) * 20, [0], [], room=200, want=[0, OUT_OF_DIRECTIVES, 60, 40, 200, 0, 5], variables_left=words([20]), saves_left=places(TURN),
             shown=(branch(1) + SHOWN_BACK) * 20)
    rollback(TURN, FORCE + BACK + FORCE, [0], [], want=[0, FINISHED, 4, 3, 16, 1, 0], variables_left=words([1]), saves_left=places(TURN, ([1], [], [5, 4])))
    rollback(TURN, [], [0], [], want=[0, OUT_OF_DIRECTIVES, 0, 0, 0, 0, 5], saves_left=places(TURN))
# ---- at most eight saves are open
def branches(): return seqs([('if', ('const', 1), skip, ('assign', 0, ('add', v(0), n(1))))] * 10)
CHAIN = flat(table(1, 0, [], 0, branches()))     # if k of 1 to 10 is 7k - 1, its skip 7k - 6, its assign 7k - 2; the sequence that begins with it 79 - k
def eight():
    turns = [([x], [], []) for x in range(8)]
    # the ninth is stuck, also where there is no room for what it shows; with fewer saves open there it is full
    for room in (60, 54, 53, 48):
        rollback(LOOP, FORCE * 9, [0], [], room=room, want=[0, STUCK, 16, 8, 48, 1, 5], variables_left=words([8]), pending_left=words([5, 0]),
                 saves_left=places(LOOP, *turns), shown=branch(0) * 8 + [170] * (room - 48))
    for room in (47, 42):
        rollback(LOOP, FORCE * 9, [0], [], room=room, want=[0, FULL, 14, 7, 42, 1, 5], variables_left=words([7]), saves_left=places(LOOP, *turns[:7]))
    rollback(LOOP, FORCE * 9, [0], [], budget=16, room=48, want=[0, SPENT, 16, 8, 48, 1, 5], saves_left=places(LOOP, *turns))
    rollback(LOOP, FORCE * 8, [0], [], room=48, want=[0, OUT_OF_DIRECTIVES, 16, 8, 48, 1, 5], saves_left=places(LOOP, *turns))
    rollback(LOOP, FORCE * 8 + STEP, [0], [], room=54, want=[0, FINISHED, 17, 9, 54, 1, 0], variables_left=words([8]), saves_left=places(LOOP, *turns))
    # undone one after another, each 76 before the assignment that is pending
    rollback(LOOP, FORCE * 8 + BACK * 8, [0], [], room=80, want=[0, FINISHED, 23, 16, 80, 0, 0], variables_left=words([0]), saves_left=places(LOOP),
             shown=branch(0) * 8 + SHOWN_BACK * 8)
    rollback(LOOP, FORCE * 8 + BACK * 3, [0], [], room=80, want=[0, FINISHED, 18, 11, 60, 1, 0], variables_left=words([5]), saves_left=places(LOOP, *turns[:5]))
    rollback(LOOP, FORCE * 8 + BACK * 9, [0], [], room=80, want=[0, STUCK, 23, 16, 80, 0, 0], variables_left=words([0]), saves_left=places(LOOP))
    rollback(LOOP, FORCE * 8 + BACK + FORCE, [0], [], room=80, want=[0, FINISHED, 16, 9, 52, 1, 0], variables_left=words([7]), saves_left=places(LOOP, *turns[:7]))
    # a place that was given back is used again; then the next force is stuck
    assert readTable(CHAIN)['N'] == 79
    chain = [([k - 1], [], [78 - k, 7 * k - 6]) for k in range(1, 9)]
    rollback(CHAIN, FORCE * 8 + BACK + FORCE * 2, [0], [], room=70, want=[0, STUCK, 28, 10, 58, 1, 69], variables_left=words([8]), pending_left=words([69, 0]),
             saves_left=places(CHAIN, *chain[:7], ([7], [], [69, 57])), shown=branch(1) * 8 + SHOWN_BACK + branch(1) + [170])
    rollback(CHAIN, FORCE * 9, [0], [], room=70, want=[0, STUCK, 25, 8, 48, 1, 62], variables_left=words([8]), pending_left=words([69, 62, 0]), saves_left=places(CHAIN, *chain))
    rollback(CHAIN, FORCE * 4 + BACK * 4 + STEP * 9, [0], [], room=200, want=[0, FINISHED, 42, 17, 94, 0, 0], variables_left=words([0]), saves_left=places(CHAIN))
# ---- one guess inside another, with variables assigned and cells written on the wrong side
# (if v0=0 then (v0:=5; (a0[0]:=9; if v0=0 then v0:=6 else a0[1]:=v0)) else v0:=7); a0[1]:=v0
INNER = ('if', ('eq', v(0), n(0)), ('assign', 0, n(6)), ('write', 0, n(1), v(0)))
OUTER = ('if', ('eq', v(0), n(0)), ('seq', ('assign', 0, n(5)), ('seq', ('write', 0, n(0), n(9)), INNER)), ('assign', 0, n(7)))
NESTED = flat(table(1, 0, [2], 0, ('seq', OUTER, ('write', 0, n(1), v(0)))))
# nodes: v0:=5 4, a0[0]:=9 7, v0:=6 12, inner a0[1]:=v0 15, inner if 16, sequences 17 and 18, v0:=7 20, outer if 21, last write 24, all 25
def nested():
    assert readTable(NESTED)['N'] == 26
    first, second = ([1], [20, 21], [24, 20]), ([5], [9, 21], [24, 15])
    two = FORCE + STEP + FORCE
    play = lambda directives, **more: rollback(NESTED, directives, [1], [20, 21], room=70, **more)
    seen = branch(0) + shown_write(0, 0) + branch(0)
    # two forces, 76 and 76: each returns to the state at its own branch
    play(two + BACK, budget=8, want=[0, SPENT, 8, 4, 26, 1, 15], variables_left=words([5]), cells_left=words([9, 21]), pending_left=words([24, 15, 0]),
         saves_left=places(NESTED, first), shown=seen + SHOWN_BACK + [170])
    play(two + BACK * 2, budget=9, want=[0, SPENT, 9, 5, 30, 0, 20], variables_left=words([1]), cells_left=words([20, 21]), pending_left=words([24, 20, 0]), saves_left=places(NESTED))
    play(two + BACK * 2, want=[0, OUT_OF_DIRECTIVES, 10, 5, 30, 0, 24], variables_left=words([7]), cells_left=words([20, 21]), pending_left=words([24, 0]),
         saves_left=places(NESTED), shown=seen + SHOWN_BACK * 2 + [170])
    play(two + BACK * 2 + STEP, want=[0, FINISHED, 11, 6, 40, 0, 0], variables_left=words([7]), cells_left=words([20, 7]), saves_left=places(NESTED),
         shown=seen + SHOWN_BACK * 2 + shown_write(0, 1) + [170])
    play(two + BACK * 3, want=[0, STUCK, 9, 5, 30, 0, 20], variables_left=words([1]), pending_left=words([24, 20, 0]))
    # two forces and a step: v0 is 6 and a0[1] with it, both saves are open; then 76 undoes the inner guess alone
    play(two + STEP, want=[0, FINISHED, 9, 4, 32, 1, 0], variables_left=words([6]), cells_left=words([9, 6]), saves_left=places(NESTED, first, second))
    play(two + STEP + BACK, want=[0, OUT_OF_DIRECTIVES, 10, 5, 36, 1, 15], variables_left=words([5]), cells_left=words([9, 21]), pending_left=words([24, 15, 0]),
         saves_left=places(NESTED, first), shown=seen + shown_write(0, 1) + SHOWN_BACK + [170])
    play(two + STEP + BACK + STEP * 2, want=[0, FINISHED, 12, 7, 56, 1, 0], variables_left=words([5]), cells_left=words([9, 5]), saves_left=places(NESTED, first))
    play(two + STEP + BACK + STEP * 2 + BACK, want=[0, OUT_OF_DIRECTIVES, 14, 8, 60, 0, 24], variables_left=words([7]), cells_left=words([20, 21]),
         pending_left=words([24, 0]), saves_left=places(NESTED))
    # after the outer guess is undone, nothing of the inner one is left: a force after it opens place 0
    play(FORCE + STEP + BACK, budget=9, want=[0, OUT_OF_DIRECTIVES, 8, 3, 20, 0, 24], variables_left=words([7]), cells_left=words([20, 21]), saves_left=places(NESTED))
# ---- the lists that are saved
def lists():
    # (while 1 do v0:=v0+1); v0:=9: forced out of the loop, the save's list holds what follows, the loop and its body
    after = flat(table(1, 0, [], 0, ('seq', ('while', ('const', 1), ('assign', 0, ('add', v(0), n(1)))), ('assign', 0, n(9)))))    # assign 4, loop 5, assign 7, sequence 8
    save = ([0], [], [7, 5, 4])
    rollback(after, FORCE, [0], [], want=[0, FINISHED, 3, 1, 6, 1, 0], variables_left=words([9]), saves_left=places(after, save))
    rollback(after, FORCE + BACK, [0], [], want=[0, OUT_OF_DIRECTIVES, 4, 2, 10, 0, 5], variables_left=words([1]), pending_left=listed([7, 5], 9) + [170] * 5, saves_left=places(after))
    rollback(after, FORCE + BACK, [0], [], budget=3, want=[0, SPENT, 3, 2, 10, 0, 4], variables_left=words([0]), pending_left=listed([7, 5, 4], 9), saves_left=places(after))
    # forced into the loop of COUNT at its end: the save's list is empty; the wrong side's is longer than the right one's
    rollback(COUNT, STEP * 3 + FORCE + BACK, [0], [], want=[0, FINISHED, 8, 5, 28, 0, 0], variables_left=words([3]), pending_left=words([0] * 8), saves_left=places(COUNT))
    rollback(COUNT, STEP * 3 + FORCE, [0], [], budget=7, pending=32, want=[0, SPENT, 7, 4, 24, 1, 6], pending_left=listed([7, 6], 8), saves_left=places(COUNT, ([3], [], [])))
    # a save whose list ends with node 0: if 0 then v0:=5 else skip, the skip is node 0; then another skip, 3
    zero = head(1, 0, 7) + labels() + node('skip') + node('num', 5) + node('assign', 0, 1) + node('skip') + node('const', 0) + node('if', 4, 2, 0) + node('seq', 5, 3)
    rollback(zero, FORCE, [1], [], budget=2, want=[0, SPENT, 2, 1, 6, 1, 2], pending_left=listed([3, 2], 7), saves_left=places(zero, ([1], [], [3, 0])))
    rollback(zero, FORCE, [1], [], want=[0, FINISHED, 4, 1, 6, 1, 0], variables_left=words([5]), saves_left=places(zero, ([1], [], [3, 0])))
    for budget, entries in ((3, [3, 0]), (4, [3]), (5, [])):
        rollback(zero, FORCE + BACK, [1], [], budget=budget, want=[0, SPENT if entries else FINISHED, budget, 2, 10, 0, (entries or [0])[-1]], variables_left=words([1]),
                 pending_left=listed(entries, 7) + [170] * 5, saves_left=places(zero))
    # sequences nested to the left by far, a branch in the innermost: 100 entries below it
    deep = ('if', ('const', 1), skip, skip)     # 0 to 3; then a skip, 4, and a sequence, 5, and so on
    for _ in range(100): deep = ('seq', deep, skip)
    deep = flat(table(0, 0, [], 0, deep))
    below = [202 - 2 * k for k in range(100)]
    rollback(deep, FORCE, [], [], budget=101, want=[0, SPENT, 101, 1, 6, 1, 2], pending_left=listed(below + [2], 204), saves_left=places(deep, ([], [], below + [1])))
    rollback(deep, FORCE + BACK, [], [], budget=500, want=[0, FINISHED, 203, 2, 10, 0, 0], pending_left=words([0] * 204) + [170] * 5, saves_left=places(deep))
    # what the saves hold at entry counts for nothing
    rollback(after, FORCE + BACK, [0], [], saves=bytes(k % 255 + 1 for k in range(330)), want=[0, OUT_OF_DIRECTIVES, 4, 2, 10, 0, 5],
             saves_left=places(after) + [k % 255 + 1 for k in range(320, 330)])
# ---- no variables, no cells, one node
def small_tables():
    alone = flat(table(0, 0, [], 0, skip))
    for saves in (32, 33, 40): rollback(alone, [], [], [], room=0, pending=4, saves=saves, want=[0, FINISHED, 1, 0, 0, 0, 0], saves_left=[0] * 32 + [170] * (saves - 32))
    for saves in (0, 1, 4, 31): rollback(alone, [], [], [], room=0, pending=4, saves=saves, want=[24, 0], saves_left=[170] * saves)
    rollback(alone, [], [], [], room=0, pending=4, budget=0, want=[0, SPENT, 0, 0, 0, 0, 0], saves_left=[0] * 32)
    rollback(alone, BACK, [], [], room=0, pending=4, want=[0, STUCK, 0, 0, 0, 0, 0])
    # no variables and no cells; no variables; no cells
    rollback(SPIN, FORCE, [], [], want=[0, FINISHED, 1, 1, 6, 1, 0], saves_left=places(SPIN, ([], [], [2, 1])))
    rollback(SPIN, FORCE + BACK, [], [], want=[0, OUT_OF_DIRECTIVES, 3, 2, 10, 0, 2], pending_left=words([2, 0, 0]), saves_left=places(SPIN))
    cells = flat(table(0, 0, [2], 0, ('if', ('const', 1), skip, ('write', 0, n(0), n(5)))))    # 1, skip, 0, 5, write, if
    rollback(cells, FORCE + STEP, [], [20, 21], want=[0, FINISHED, 2, 2, 16, 1, 0], cells_left=words([5, 21]), saves_left=places(cells, ([], [20, 21], [1])))
    rollback(cells, FORCE + STEP + BACK, [], [20, 21], want=[0, FINISHED, 4, 3, 20, 0, 0], cells_left=words([20, 21]), saves_left=places(cells),
             shown=branch(1) + shown_write(0, 0) + SHOWN_BACK + [170])
# ---- loads and stores: as on the guessing machine, and by the flag, which is set while a save is open
TWICE = flat(table(2, 0, [2, 3], 0, ('seq', ('if', ('const', 1), skip, skip), ('seq', ('if', ('const', 1), skip, skip), ('read', 1, 1, v(0))))))
# 1, skip 1, skip 2, if 3; 1, skip 5, skip 6, if 7; v0, read 9; sequences 10 and 11
def redirects():
    # in bounds with the flag clear, whatever is named; out of bounds stuck
    rollback(READ, load(9, 9), [1, 7], FIVE, want=[0, FINISHED, 1, 1, 10, 0, 0], variables_left=words([1, 21]), saves_left=places(READ))
    rollback(WRITE, store(9, 9), [1, 7], FIVE, want=[0, FINISHED, 1, 1, 10, 0, 0], cells_left=words([10, 7, 20, 21, 22]), saves_left=places(WRITE))
    rollback(READ, load(0, 0), [3, 7], FIVE, want=[0, STUCK, 0, 0, 0, 0, 1], variables_left=words([3, 7]))
    rollback(WRITE, store(0, 0), [2, 7], FIVE, want=[0, STUCK, 0, 0, 0, 0, 2], cells_left=words(FIVE))
    for d in (FORCE, store(1, 1), BACK): rollback(READ, d, [1, 7], FIVE, want=[0, STUCK, 0, 0, 0, 0, 1], saves_left=places(READ))
    # with it set: in bounds the own cell, out of bounds the named one, which must exist; the save has the state before
    for i, d, value in ((1, load(9, 9), 21), (1, STEP, 21), (3, load(0, 0), 10), (MOST, load(1, 2), 22)):
        save = ([i, 7], FIVE, [1])
        rollback(FORCED, FORCE + d, [i, 7], FIVE, want=[0, FINISHED, 2, 2, 16, 1, 0], variables_left=words([i, value]), saves_left=places(FORCED, save),
                 shown=branch(1) + shown_read(1, i) + [170])
        rollback(FORCED, FORCE + d + BACK, [i, 7], FIVE, want=[0, FINISHED, 4, 3, 20, 0, 0], variables_left=words([i, 7]), saves_left=places(FORCED),
                 shown=branch(1) + shown_read(1, i) + SHOWN_BACK + [170])
    for i, d, left in ((1, store(9, 9), [10, 7, 20, 21, 22]), (0, STEP, [7, 11, 20, 21, 22]), (2, store(1, 2), [10, 11, 20, 21, 7])):
        rollback(FORCED_WRITE, FORCE + d, [i, 7], FIVE, want=[0, FINISHED, 2, 2, 16, 1, 0], cells_left=words(left), saves_left=places(FORCED_WRITE, ([i, 7], FIVE, [1])))
        rollback(FORCED_WRITE, FORCE + d + BACK, [i, 7], FIVE, want=[0, FINISHED, 4, 3, 20, 0, 0], cells_left=words(FIVE), saves_left=places(FORCED_WRITE))
    for d in (STEP, load(9, 9), load(0, 2), store(0, 0), FORCE):
        rollback(FORCED, FORCE + d, [3, 7], FIVE, want=[0, STUCK, 1, 1, 6, 1, 3], variables_left=words([3, 7]), saves_left=places(FORCED, ([3, 7], FIVE, [1])))
    # stuck on the wrong side is undone where 76 is next
    rollback(FORCED, FORCE + BACK, [3, 7], FIVE, want=[0, FINISHED, 3, 2, 10, 0, 0], variables_left=words([3, 7]), saves_left=places(FORCED))
    # v1:=a1[v0] after two branches, v0 = 3: it fits while a save is open, and not after the last is undone
    played = lambda directives, **more: rollback(TWICE, directives, [3, 7], FIVE, **more)
    first = ([3, 7], FIVE, [10, 1])
    played(FORCE * 2 + load(0, 0), want=[0, FINISHED, 7, 3, 22, 1, 0], variables_left=words([3, 10]), saves_left=places(TWICE, first, ([3, 7], FIVE, [9, 5])))
    played(FORCE * 2 + BACK + load(0, 0), want=[0, FINISHED, 8, 4, 26, 1, 0], variables_left=words([3, 10]), saves_left=places(TWICE, first))
    played(FORCE * 2 + BACK * 2 + load(0, 0), want=[0, STUCK, 9, 4, 20, 0, 7], variables_left=words([3, 7]), pending_left=listed([9, 7], 12), saves_left=places(TWICE))
    played(FORCE * 2 + BACK * 2 + STEP + load(0, 0), want=[0, STUCK, 11, 5, 26, 0, 9], variables_left=words([3, 7]), pending_left=listed([9], 12), saves_left=places(TWICE))
    played(FORCE + BACK + FORCE + load(0, 0), want=[0, FINISHED, 8, 4, 26, 1, 0], variables_left=words([3, 10]), saves_left=places(TWICE, ([3, 7], FIVE, [9, 5])))
    # the bounds check: undone, the program reads its own cells; j = 8 is out of bounds and there the flag is asked for
    own = FORCE + BACK + STEP + load(9, 9)
    rollback(SMALL, own, [2, 0, 0], FEW, want=[0, FINISHED, 5, 4, 30, 0, 0], variables_left=words([2, 7, 1007]), saves_left=places(SMALL),
             shown=branch(1) + SHOWN_BACK + shown_read(0, 2) + shown_read(1, 7) + [170])
    rollback(SMALL, FORCE + BACK + STEP + load(2, 0), [3, 0, 0], FEW, want=[0, STUCK, 4, 3, 20, 0, 6], variables_left=words([3, 8, 0]), saves_left=places(SMALL))
    rollback(SMALL, own, [4, 0, 0], FEW, want=[0, FINISHED, 3, 2, 10, 0, 0], variables_left=words([4, 0, 0]), shown=branch(0) + SHOWN_BACK + [170])
    rollback(SMALL, FORCE + load(2, 0) + BACK + STEP, [4, 0, 0], FEW, want=[0, FINISHED, 5, 3, 20, 0, 0], variables_left=words([4, 0, 0]))
# ---- refusals, and answers cut short
def refused():
    untouched = dict(variables_left=words([0]), pending_left=[170] * 29, shown=[170] * 40, saves_left=[170] * 224)
    for bad in (BACK[:1], BACK[:3], STEP + BACK[:3], le(2, 6) + le(2, 76) + [0] * 2, le(2, 10) + le(2, 76) + [0] * 6, le(2, 3) + le(2, 76), le(2, 5) + le(2, 76) + [0],
                le(2, 0) + le(2, 76), le(2, 4) + le(2, 77), le(2, 4) + le(2, 71), le(2, 4) + le(2, 67), le(2, 4) + le(2, 76 + 256), BACK + [0], FORCE + BACK * 9 + [4],
                le(2, 4) + le(2, 74), load(0, 0)[:9], STEP + le(2, 10) + le(2, 73) + [0] * 6):
        rollback(LOOP, bad, [0], [], want=[10, 0], **untouched)
    # the guessing machine knows no 76, wherever it stands
    for bad in (BACK, FORCE + BACK, STEP * 40 + BACK, BACK + STEP, load(0, 0) * 20 + BACK + load(0, 0)):
        guess(LOOP, bad, [0], [], want=[10, 0], variables_left=words([0]), pending_left=[170] * 29, shown=[170] * 40)
    # 24: a byte short, or more; exact; more, and odd lengths
    for saves in (223, 222, 221, 220, 28, 1, 0): rollback(LOOP, FORCE, [0], [], saves=saves, want=[24, 0], variables_left=words([0]), saves_left=[170] * saves, shown=[170] * 40)
    for saves in (224, 225, 226, 227, 228, 300):
        rollback(LOOP, FORCE, [0], [], saves=saves, want=[0, OUT_OF_DIRECTIVES, 2, 1, 6, 1, 5], saves_left=places(LOOP, ([0], [], [])) + [170] * (saves - 224))
    rollback(BOUNDS, WRONG, [4, 0, 0], CELLS, saves=8767, want=[24, 0], cells_left=words(CELLS))
    # the order: the table, 10, 20, 21, 22, 24; each leaves the saves alone
    short = dict(saves=10, saves_left=[170] * 10)
    rollback(READ + [0], [1], bytes(1), bytes(1), pending=0, want=[7, len(READ)], **short)
    rollback(READ, [1], bytes(1), bytes(1), pending=0, want=[10, 0], **short)
    rollback(READ, BACK, bytes(1), bytes(1), pending=0, want=[20, 0], **short)
    rollback(READ, BACK, [0, 7], bytes(1), pending=0, want=[21, 0], **short)
    rollback(READ, BACK, [0, 7], FIVE, pending=7, want=[22, 0], **short)
    rollback(READ, BACK, [0, 7], FIVE, pending=8, want=[24, 0], **short)
    enough = dict(saves=300, saves_left=[170] * 300)
    for size in (0, 4, 7, 9, 12): rollback(READ, STEP, bytes(size), FIVE, want=[20, 0], **enough)
    for size in (0, 16, 19, 21, 24): rollback(READ, STEP, [0, 7], bytes(size), want=[21, 0], **enough)
    for size in (7, 4, 1, 0): rollback(READ, STEP, [0, 7], FIVE, pending=size, want=[22, 0], **enough)
    for size in (8, 9, 11): rollback(READ, STEP, [0, 7], FIVE, pending=size, want=[0, FINISHED, 1, 1, 10, 0, 0], saves=300, saves_left=[0] * 288 + [170] * 12)
    # tables, with the state of a call that would run
    two = head(2, 2, 2) + labels() + array(2) + array(3)    # nodes from 32
    for tab, number, place in (([], 1, 0), (READ[:-1], 1, 38), (head(2, 2, 2) + labels() + node('skip'), 2, 20), (head(2, 2, 2, version=2) + READ[10:], 2, 10),
            (two + node('var', 0) + node('read', 1, 2, 0), 4, 38), (two + node('skip') + node('read', 1, 1, 0), 5, 36),
            (two + node('skip') + node('skip'), 6, 32), (two + node('var', 0) + node('var', 1), 6, 32), (READ + [9], 7, 48)):
        rollback(tab, STEP, [0, 7], FIVE, pending=13, want=[number, place], **enough)
    for size in (0, 7, 8, 9, 15, 16, 23, 24, 31, 39, 47, 48, 55, 57, 64):
        rollback(LOOP, FORCE + BACK, [3], [], answer=size, want=[0, FINISHED, 2, 2, 10, 0, 0])
    for size in (0, 7, 8, 15, 16, 17, 64):
        rollback(LOOP, FORCE, [3], [], saves=223, answer=size, want=[24, 0])
# ---- without 76 and with at most eight forces: what flow_guess answers and leaves
def entered(entry, tab, directives, variables, cells, budget=100, room=200):
    lent = [words(variables), words(cells), filled(4 * model.un(tab[8:10]) + 3), filled(room)]
    more = [filled(saves_bytes(tab))] if entry == ROLLBACK else []
    numbers, *left = model.runEntry(tab, *lent, budget, directives, *more)
    return numbers, left[:4]
def as_guessed(tab, directives, variables, cells, **more):
    assert entered(ROLLBACK, tab, directives, variables, cells, **more) == entered(GUESS, tab, directives, variables, cells, **more)
def some_program(r, size):
    """commands over two variables and two arrays"""
    some = lambda: v(r.randrange(2)) if r.random() < 0.6 else n(r.choice((0, 1, 2, 3, MOST)))
    if size == 0:
        return r.choice((skip, ('assign', r.randrange(2), ('add', some(), some())), ('read', r.randrange(2), r.randrange(2), some()), ('write', r.randrange(2), some(), some())))
    part = lambda: some_program(r, r.randrange(size))
    condition = (r.choice(('lt', 'eq')), some(), some())
    return r.choice((('seq', part(), part()), ('seq', part(), part()), ('if', condition, part(), part()), ('while', condition, part())))
def some_directives(r, count):
    return [b for _ in range(count) for b in r.choice((STEP, STEP, FORCE, load(r.randrange(3), r.randrange(3)), store(r.randrange(3), r.randrange(3))))]
def same_as_guess():
    for directives in ([], STEP * 3, FORCE, WRONG, WRONG + STEP, FORCE + load(9, 9), STEP + load(2, 0) * 2, FORCE * 2):
        for i in (2, 3, 4): as_guessed(SMALL, directives, [i, 0, 0], FEW); rollback(SMALL, directives, [i, 0, 0], FEW)
    for budget in range(8): as_guessed(COUNT, STEP * 3 + FORCE * 2 + STEP, [0], [], budget=budget)
    for room in range(30): as_guessed(COUNT, STEP * 2 + FORCE, [0], [], room=room)
    as_guessed(LOOP, FORCE * 8, [0], [])
    assert entered(GUESS, LOOP, FORCE * 9, [0], [])[0] == [0, OUT_OF_DIRECTIVES, 18, 9, 54, 1, 5]   # where P5's is stuck
    r = random.Random(5)
    for _ in range(2000):
        tab = flat(table(2, 0, [2, 3], 0, some_program(r, 6)))
        directives = some_directives(r, 20)
        if model.directives(directives).count((73,)) <= 8:
            as_guessed(tab, directives, [r.randrange(4), r.randrange(4)], [r.randrange(4) for _ in range(5)], budget=r.choice((3, 10, 40)), room=r.choice((7, 30, 200)))
# ---- hardened programs: one script, states that agree in public and run alike without guessing: the same is shown
# h x y, h secret: (if x<1 then x:=a0[h] else skip); y:=a1[x], with x = 1. Hardened, both indices are masked: 0 where f = 1
SECRET = flat(table(3, 1, [2, 3], 0, ('seq', ('if', ('lt', v(1), n(1)), ('read', 1, 0, v(0)), skip), ('read', 2, 1, v(1)))))
def hardened_alike():
    numbers, out = model.hardenEntry(SECRET, [0] * 2000); hard = out[:numbers[1]]
    assert readTable(hard)['N'] == 36     # the right side of the if is the sequence 26, the last read 34
    cells = [10, 11, 20, 21, 22]
    own = shown_read(1, 1)     # the index is x itself where nothing is guessed
    wrong = branch(0) + shown_read(0, 0)
    for directives, shown, want in (
            (STEP * 2, branch(0) + own, [0, FINISHED, 6, 2, 16, 0, 0]),
            (FORCE + load(1, 2) + BACK + STEP * 4, wrong + SHOWN_BACK + own, [0, FINISHED, 10, 4, 30, 0, 0]),
            (FORCE + STEP * 2 + BACK, wrong + shown_read(1, 0) + SHOWN_BACK, [0, OUT_OF_DIRECTIVES, 10, 4, 30, 0, 34]),
            (FORCE + STEP * 2, wrong + shown_read(1, 0), [0, FINISHED, 6, 3, 26, 1, 0]),
            (FORCE + BACK + load(9, 9), branch(0) + SHOWN_BACK + own, [0, FINISHED, 7, 3, 20, 0, 0]),
            (FORCE + BACK + BACK, branch(0) + SHOWN_BACK, [0, STUCK, 3, 2, 10, 0, 26])):
        for h in (0, 1, 9): rollback(hard, directives, [h, 1, 0, 0], cells, want=want, shown=shown + [170])
    # before hardening the wrong side shows h
    for h in (0, 1): rollback(SECRET, FORCE + STEP + BACK, [h, 1, 0], cells, want=[0, OUT_OF_DIRECTIVES, 5, 3, 20, 0, 8], shown=branch(0) + shown_read(0, h) + SHOWN_BACK + [170])
def add_rollback_cases():
    for group in (bounds_check, cut_short, order, eight, nested, lists, small_tables, redirects, refused, same_as_guess, hardened_alike): group()
