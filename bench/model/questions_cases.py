# Calls of flow_questions, P2: "is variable v secret just before command c?" Answers and bytes are worked out by hand.
import model
from model import flat, table, le
from calls import questions, asks, head, labels, array, node
from programs import T, rounds, skip
from remembered import remembering, nested
def said(tab, pairs, secret, make=model.replies):
    """a list into a buffer that has just the room"""
    questions(tab, asks(pairs), len(pairs), want=[0, len(pairs)], secret=secret, make=make)
def alone(tab, pairs, secret):
    """the list, and each of its pairs alone"""
    said(tab, pairs, secret)
    for pair, byte in zip(pairs, secret): said(tab, [pair], [byte])
def commands(tab): return [i for i, k in enumerate(model.readTable(tab)['kinds']) if model.sort(k) == 'C']
def whole(tab, hand):
    """hand: the bytes of all variables, in their order, for every command by its node; any other node is refused"""
    assert sorted(hand) == commands(tab)
    pairs, secret = [(c, x) for c in hand for x in range(tab[6])], [int(b) for c in hand for b in hand[c]]
    p = model.readTable(tab); assert remembering(model.replies)(p, pairs) == secret
    said(tab, pairs, secret)
    for c in range(p['N']):
        if c not in hand: bad(tab, asks([(c, 0)]))
def bad(tab, asked, room=None):
    """11, and where no room is given there is enough"""
    questions(tab, asked, len(asked) // 4 + 3 if room is None else room, want=[11, 0])
LOOP, NESTED = flat(T['loop']), flat(T['nestedLoops'])
FOUR, BYTES = [(11, 0), (11, 3), (4, 0), (10, 2)], [0, 1, 1, 1]
# ---- document 01's chain: nodes 0 to 11 are x, 3, less, y, x:=, z, y:=, s, z:=, sequence 6 8, sequence 4 9, loop
def document():
    alone(LOOP, FOUR, BYTES)
    # the loop is entered with mask 8; it settles at 15, from which all of its body is entered, and no assignment there makes a variable public
    whole(LOOP, {11: '0001', 10: '1111', 4: '1111', 9: '1111', 6: '1111', 8: '1111'})
    # without the loop: y, x:=, z, y:=, s, z:=, sequence 3 5, sequence 1 6; z is secret only after the last, which the skip behind it shows
    whole(flat(T['straight']), {7: '0001', 1: '0001', 6: '0001', 3: '0001', 5: '0001'})
    whole(flat(T['straightThen']), {9: '0001', 7: '0001', 1: '0001', 6: '0001', 3: '0001', 5: '0001', 8: '0011'})
    # if s=0 then x:=1 else skip; x:=2: nodes s, 0, equal, 1, x:=, skip, if, 2, x:=, sequence; the context counts for nothing before x:=1
    whole(flat(T['branchThen']), {9: '10', 6: '10', 4: '10', 5: '10', 8: '11'})
# ---- a loop in a loop
def nested_loops():
    # nodes: true, 0, q:= (2), true, q, p:= (5), s, q:= (7), sequence 5 7 (8), inner loop (9), p, x:= (11), sequence 9 11 (12), sequence 2 12 (13), outer loop (14).
    # Outer pass from s: q:=0; the inner loop from s takes on q, then p, and settles at q p s; x:=p; joined: q p x s.
    # Outer pass from q p x s, which settles: q:=0 leaves p x s, with which the inner loop is entered; it settles at q p x s; x:=p; nothing new.
    inner, outer = [(9, x) for x in range(4)], [(14, x) for x in range(4)]
    alone(NESTED, inner + outer, [0, 1, 1, 1] + [0, 0, 0, 1])
    whole(NESTED, {14: '0001', 13: '1111', 2: '1111', 12: '0111', 9: '0111', 8: '1111', 5: '1111', 7: '1111', 11: '1111'})
    # nodes: true, 0, q:= (2), true, 0, r:= (5), q, p:= (7), s, q:= (9), sequence 7 9 (10), sequence 5 10 (11), inner loop (12), p, r:= (14), sequence 12 14 (15),
    # sequence 2 15 (16), outer loop (17). As above with r for x, but that the inner body begins with r:=0, so behind that r is public.
    whole(flat(T['nestedReset']), {17: '0001', 16: '1111', 2: '1111', 15: '0111', 12: '0111', 11: '1111', 5: '1111', 10: '1101', 7: '1101', 9: '1101', 14: '1111'})
    # 16 loops in each other, each with x_i:=0 first and x_i:=s last. All x are secret in the outermost one's settled pass; each x_i:=0 makes one more public, and
    # nothing further in makes it secret again. So loop i, node 8 * 16 - 5 * i, is entered with those from i up; the outermost one with none.
    deep = [(128 - 5 * i, j) for i in range(16) for j in range(16)]
    said(nested(16, 17), deep, [int(j >= i > 0) for i in range(16) for j in range(16)], remembering(model.replies))
    # 60 loops with 31 variables: x_j belongs to loops j and j + 31. Loops 0 to 29 have all 31 inside and settle at all, so loops 1 to 30 are entered with all but
    # the one just made public. From there on no variable comes back: loop i is entered with those from i - 31 to 28.
    def entered(i, j): return int(i > 0 and (j != i - 1 if i < 31 else i - 31 <= j <= 28))
    deep = [(480 - 5 * i, j) for i in range(60) for j in ((i - 1) % 31, i % 31, (i + 7) % 31)]
    said(nested(60, 32), deep, [entered((480 - c) // 5, j) for c, j in deep], remembering(model.replies))
    for d in range(1, 7):
        p = model.readTable(nested(d, 5)); pairs = [(c, x) for c in commands(nested(d, 5)) for x in range(5)]
        assert remembering(model.replies)(p, pairs) == model.replies(p, pairs)
# ---- other programs, every command of them
def programs():
    # nodes: s, 0, equal, true, 1, x:= (5), loop (6), skip (7), if (8), true, x, y:= (11), loop (12), sequence (13). The context makes x secret in the first loop, so
    # in its settled pass x is so before, too; the second loop is entered with what the first leaves
    whole(flat(T['loopAfterLoop']), {13: '100', 8: '100', 6: '100', 5: '110', 7: '100', 12: '110', 11: '111'})
    # nodes: c, 0, equal, s, x:= (4), s, y:= (6), if (7), skip (8), sequence (9). What one side gives does not enter the other; behind them they are joined
    whole(flat(T['sides']), {9: '0001', 7: '0001', 4: '0001', 6: '0001', 8: '0111'})
    # nodes: x, 3, less, 0, y:= (4), s, x:= (6), sequence (7), loop (8). In the settled pass the condition is secret, so y:=0 leaves y secret
    whole(flat(T['secretLoop']), {8: '001', 7: '111', 4: '111', 6: '111'})
    # nodes: 0, x:=a1 (1), 0, y:=a0 (3), 0, x, a0:= (6), 0, y:=a0 (8), skip (9), sequences 8 9 (10), 6 10 (11), 3 11 (12), 1 12 (13)
    whole(flat(T['arrays']), {13: '00', 1: '00', 12: '10', 3: '10', 11: '10', 6: '10', 10: '10', 8: '10', 9: '11'})
    # nodes: true, 0, x:=a0 (2), 0, s, a0:= (5), sequence (6), loop (7)
    whole(flat(T['arrayLoop']), {7: '01', 6: '11', 2: '11', 5: '11'})
    # nodes: i, x:=a0 (1), skip (2), sequence (3)
    whole(flat(T['secretIndex']), {3: '01', 1: '01', 2: '11'})
    # nodes in another order, commands first and last: skip, s, x:=s (2), skip (3), true, if 4 2 0 (5), sequence 5 3 (6)
    other = head(2, 0, 7) + labels(2) + node('skip') + node('var', 1) + node('assign', 0, 1) + node('skip') + node('const', 1) + node('if', 4, 2, 0) + node('seq', 5, 3)
    whole(other, {6: '01', 5: '01', 2: '01', 0: '01', 3: '11'})
    # one node and no variable: nothing can be asked; one variable, public and secret; and the last of version 1
    alone_skip = flat(table(0, 0, [], 0, skip))
    for pair in ((0, 0), (1, 0), (0, 65535)): bad(alone_skip, asks([pair]))
    questions(alone_skip, [], 0, want=[0, 0])
    for mask in (0, 1): whole(flat(table(1, mask, [], 0, skip)), {0: str(mask)})
    bad(flat(table(0, 0, [1], 1, skip)), asks([(0, 0)]))
    last = flat(table(32, 1 << 31, [], 0, skip))
    alone(last, [(0, 0), (0, 30), (0, 31)], [0, 0, 1]); bad(last, asks([(0, 32)])); bad(last, asks([(0, 31), (0, 63)]))
# ---- long tables: assignment k is x_(k mod 3) := s where k mod 6 < 3, else 0. Before it x0 x1 x2 s are, by k mod 6:
ROUND = ('0001', '1001', '1101', '1111', '0111', '0011')
def before(k, x): return int(ROUND[k % 6][x])
def long_tables():
    # 100 assignments: the k-th is node 2 k + 1, the sequence that begins with it is node 298 - k
    tab = flat(T['rounds']); assert tab[8:10] == le(2, 299)
    # the first 64 assignments: 256 pairs
    said(tab, [(2 * k + 1, x) for k in range(64) for x in range(4)], [before(k, x) for k in range(64) for x in range(4)])
    # above node 255: 256 is 42, where node 0 is no command; 257 is 41, before which x2 is secret, and before node 1 it is not
    said(tab, [(256, 0), (256, 3), (257, 2), (1, 2), (258, 1), (298, 3), (298, 2), (297, 0), (299 - 256, 0), (200, 1), (199, 0)], [0, 1, 1, 0, 1, 1, 0, 1, 1, 1, 1])
    for c in (198, 299, 512 + 1): bad(tab, asks([(257, 0), (c, 0)]))
    # 4,096 nodes: 1,365 assignments, a skip (node 2,730) behind them, and the sequence that begins with the k-th is node 4,095 - k
    tab = flat(rounds(1365, skip)); assert tab[8:10] == le(2, 4096)
    said(tab, [(4095, 0), (4095, 3), (4094, 0), (4094, 1), (2731, 1), (2731, 2), (2730, 2), (2729, 2), (255, 0), (255, 1), (257, 1), (3840, 0), (2305, 0), (2305, 3)],
         [0, 1, 1, 0, 1, 0, 1, 0, 1, 0, 1, 1, 0, 1])
# ---- 11: the list
def bad_lists():
    # nodes that are none, variables that are none, also where the low byte alone would do
    for pair in ((12, 0), (65535, 0), (256 + 11, 0), (11, 4), (11, 65535), (11, 256), (11, 259), (65535, 65535), (2, 4)): bad(LOOP, asks([pair]))
    # a list of which one pair is bad, the last, the first, one in between
    for pair in ((0, 0), (2, 0), (12, 0), (11, 4)):
        for at in (4, 0, 2): bad(LOOP, asks(FOUR[:at] + [pair] + FOUR[at:]))
    # lists that end inside a pair; 256 pairs, and more
    most = asks(FOUR * 64); said(LOOP, FOUR * 64, BYTES * 64)
    for length in (1, 2, 3, 5, 6, 7, 1023): bad(LOOP, most[:length])
    for length in (1025, 1028, 1030, 4096): bad(LOOP, (most * 4)[:length])
# ---- the buffer
def buffers():
    four = asks(FOUR)
    for room in (4, 5, 10): questions(LOOP, four, room, want=[0, 4], secret=BYTES)
    for room in (3, 2, 1, 0): questions(LOOP, four, room, want=[23, 0])
    most = asks(FOUR * 64)
    questions(LOOP, most, 260, want=[0, 256], secret=BYTES * 64)
    for room in (255, 0): questions(LOOP, most, room, want=[23, 0])
    # no pairs
    for room in (0, 1, 10): questions(LOOP, [], room, want=[0, 0], secret=[])
    # pairs twice, and in another order
    said(LOOP, [(4, 0), (4, 0)], [1, 1]); said(LOOP, [(11, 0), (4, 0), (11, 0), (11, 0)], [0, 1, 0, 0]); said(LOOP, FOUR[::-1], BYTES[::-1])
    # 11 comes before 23
    for asked in (four[:1], four + [0], asks(FOUR + [(2, 0)]), asks([(11, 4)]), asks(FOUR * 65)): bad(LOOP, asked, 0)
# ---- the table's refusals come first, with their places; and short answers
def refused():
    two = head(2, 2, 2) + labels() + array(2) + array(3)    # nodes from 32
    good = two + node('var', 0) + node('read', 1, 1, 0)
    said(good, [(1, 0), (1, 1)], [0, 0])
    for tab, number, place in (([], 1, 0), (good[:-1], 1, 38), (good[:40], 1, 38), (head(2, 2, 2) + labels() + node('skip'), 2, 20), (head(2, 2, 2, version=2) + good[10:], 2, 10),
            (two + node('var', 0) + node('read', 2, 1, 0), 4, 38), (two + node('skip') + node('read', 1, 1, 0), 5, 36),
            (two + node('skip') + node('skip'), 6, 32), (two + node('var', 0) + node('var', 1), 6, 32), (good + [9], 7, 48)):
        for asked, room in (([1], 0), (asks([(0, 2)]), 0), (asks([(1, 0)]), 0), (asks([(1, 0)]), 3), ([], 0)): questions(tab, asked, room, want=[number, place])
        if number > 5: questions(tab, asks([(1, 0)] * 257), 256, want=[number, place])
    for size in (0, 7, 8, 9, 15, 16, 17, 24, 64):
        questions(LOOP, asks(FOUR), 6, answer=size, want=[0, 4], secret=BYTES); questions(LOOP, asks([(2, 0)]), 6, answer=size, want=[11, 0])
        questions(LOOP, asks(FOUR), 3, answer=size, want=[23, 0]); questions(LOOP + [9], [1], 0, answer=size, want=[7, len(LOOP)])
def add_questions_cases():
    for group in (document, nested_loops, programs, long_tables, bad_lists, buffers, refused): group()
