# Calls on public branches and loops inside a secret context, which they hand on: "If analyses both sides with the condition joined to the context".
# s x y are numbered 0 to 2, s alone is secret, and the array has two public cells. Sheets, hardened nodes and replies are worked out by hand.
from model import flat, table
from calls import *
from programs import seqs, v, n, skip
from harden_cases import hand
from nought_cases import labelled, final, after, sides, loop, got, put
SECRET, PUBLIC = ('eq', v(0), n(0)), ('eq', v(1), n(0))
def program(command): return flat(table(3, 1, [2], 0, command))
def guarded(command): return ('if', SECRET, command, skip)
def inner(command): return ('if', PUBLIC, command, skip)
Y_SECRET, ALL_SECRET = 5, 7
# ---- labels; nodes: s 0 = (0 to 2), then the true side, skip, if
def branches():
    # x 0 = (3 to 5), 1 (6), y:=1 (7), skip (8), if (9), skip (10), if (11)
    labelled(program(guarded(inner(('assign', 2, n(1))))), final(12, Y_SECRET), sides(9, 0), sides(11, 1))
    # the same on the other sides: skip (3), x 0 = (4 to 6), skip (7), 1 (8), y:=1 (9), if (10), if (11)
    labelled(program(('if', SECRET, skip, ('if', PUBLIC, skip, ('assign', 2, n(1))))), final(12, Y_SECRET), sides(10, 0), sides(11, 1))
    # behind a skip (3): x 0 = (4 to 6), 1 (7), y:=1 (8), skip (9), if (10), sequence (11), skip (12), if (13); nothing is added before the inner if
    labelled(program(guarded(('seq', skip, inner(('assign', 2, n(1)))))), final(14, Y_SECRET), sides(10, 0), after(11, 1), sides(13, 1))
    # one further in, y = 0: x 0 = (3 to 5), y 0 = (6 to 8), 1 (9), x:=1 (10), skip (11), if (12), skip (13), if (14), skip (15), if (16)
    labelled(program(guarded(inner(('if', ('eq', v(2), n(0)), ('assign', 1, n(1)), skip)))), final(17, 3), sides(12, 0), sides(14, 0), sides(16, 1))
    # a secret if inside the public one: the context is secret in it alone; x 0 = (0 to 2), s 0 = (3 to 5), 1 (6), y:=1 (7), skip (8), if (9), 2 (10), x:=2 (11), if (12)
    labelled(program(('if', PUBLIC, ('if', SECRET, ('assign', 2, n(1)), skip), ('assign', 1, n(2)))), final(13, Y_SECRET), sides(9, 1), sides(12, 0))
def loops():
    # while x<1 do y:=1: x 1 < (3 to 5), 1 (6), y:=1 (7), while (8), skip (9), if (10)
    labelled(program(guarded(('while', ('lt', v(1), n(1)), ('assign', 2, n(1))))), final(11, Y_SECRET), loop(8, 0, Y_SECRET), sides(10, 1))
    # while x<1 do (y:=x; x:=1): the context makes x secret, and so in the settled pass the condition; x 1 < (3 to 5), x (6), y:=x (7), 1 (8), x:=1 (9), sequence (10), while (11)
    labelled(program(guarded(('while', ('lt', v(1), n(1)), ('seq', ('assign', 2, v(1)), ('assign', 1, n(1)))))), final(14, ALL_SECRET),
             after(10, ALL_SECRET), loop(11, 1, ALL_SECRET), sides(13, 1))
    # while s=0 do (if x=0 then y:=1 else skip): s 0 = (0 to 2), x 0 = (3 to 5), 1 (6), y:=1 (7), skip (8), if (9), while (10)
    labelled(program(('while', SECRET, inner(('assign', 2, n(1))))), final(11, Y_SECRET), sides(9, 0), loop(10, 1, Y_SECRET))
def accesses():
    # a write: x 0 = (3 to 5), 0 (6), 1 (7), a[0]:=1 (8), skip (9), if (10), skip (11), if (12)
    labelled(program(guarded(inner(('write', 0, n(0), n(1))))), final(13, 1, 1), put(8, 0), sides(10, 0), sides(12, 1))
    # a read: x 0 = (3 to 5), 0 (6), y:=a[0] (7), skip (8), if (9), skip (10), if (11)
    labelled(program(guarded(inner(('read', 2, 0, n(0))))), final(12, Y_SECRET), got(7, 1, 0), sides(9, 0), sides(11, 1))
# ---- questions: x and y just before the inner if, y:=1 and the skip behind all of it
def asked():
    tab = program(('seq', guarded(inner(('assign', 2, n(1)))), skip))     # the outer if is 11, the skip 12, the sequence 13
    questions(tab, asks([(11, 2), (9, 1), (7, 2), (8, 2), (12, 1), (12, 2), (13, 2)]), 7, want=[0, 7], secret=[0, 0, 0, 0, 0, 1, 0])
# ---- hardened: the outer condition is masked and the inner is not; f is variable 3
def masked(at): return [('var', 3), ('num', 0), ('eq', at, at + 1), ('var', 0), ('num', 0), ('eq', at + 3, at + 4), ('and', at + 2, at + 5)]
def plain(at): return [('var', 1), ('num', 0), ('eq', at, at + 1)]
def if_true(condition): return [('var', 3), ('num', 1), ('choice', condition, condition + 1, condition + 2), ('assign', 3, condition + 3)]
def if_false(condition): return [('num', 1), ('var', 3), ('choice', condition, condition + 1, condition + 2), ('assign', 3, condition + 3)]
def hardened_if(command, last):
    """if s=0 then (if x=0 then COMMAND else skip) else skip, the command's nodes from 28 up to `last` as they were"""
    at = last + 1                                              # the sequence of the inner true side
    return (masked(0) + masked(7) + if_true(13)                # 6: c', 17: f := c' ? f : 1
            + plain(18) + plain(21) + if_true(23)              # 20: x=0, 27: f := x=0 ? f : 1
            + command + [('seq', 27, last)]
            + plain(at + 1) + if_false(at + 3) + [('skip',), ('seq', at + 7, at + 8)] + [('if', 20, at, at + 9), ('seq', 17, at + 10)]
            + masked(at + 12) + if_false(at + 18) + [('skip',), ('seq', at + 22, at + 23)] + [('if', 6, at + 11, at + 24)])
def hardened():
    hand(program(guarded(inner(('assign', 2, n(1))))), 4, 1, [2], 0, hardened_if([('num', 1), ('assign', 2, 28)], 29))
    # the index is public, and stays as it was; the read's variable is secret by the context, and so its value is not masked
    hand(program(guarded(inner(('write', 0, n(0), n(1))))), 4, 1, [2], 0, hardened_if([('num', 0), ('num', 1), ('write', 0, 28, 29)], 30))
    hand(program(guarded(inner(('read', 2, 0, n(0))))), 4, 1, [2], 0, hardened_if([('num', 0), ('read', 2, 0, 28)], 29))
def add_context_cases():
    for add in (branches, loops, accesses, asked, hardened): add()
