# Calls of P7: "Version 2 tables and sheets carry 8-byte variable masks and declare up to 64 variables; record lengths grow by four where such a mask stands."
# So labels have 14 bytes in version 2, and sheet records 128, 129 and 131 have 18, 16 and 18. Answers, sheets, hardened tables, replies and runs are worked out by hand.
import model
from model import flat, table, words, le
from calls import *
from programs import seqs, v, n, skip
from remembered import remembering, nested
from machine_cases import FINISHED, OUT_OF_DIRECTIVES
from harden_cases import hand, skips as skips_of
from questions_cases import said, bad
from rollback_cases import places
from nought_cases import labelled, told, final, after, loop
SKIP, TRUE, FIVE = node('skip'), node('const', 1), node('num', 5)   # 4, 6 and 8 bytes
def hexed(text): return list(bytes.fromhex(text))
def bits(*numbers): return sum(1 << number for number in numbers)
def two(V, secret, counts, arrays, command): return flat(table(V, secret, counts, arrays, command, 2))
# records of a version 2 sheet; 130, 132 and 133 have no variable mask
def final2(nodes, variables, arrays=0): return le(2, 18) + le(2, 128) + le(2, 2) + le(2, nodes) + le(8, variables) + le(2, arrays)
def after2(at, variables, arrays=0): return le(2, 16) + le(2, 129) + le(2, at) + le(8, variables) + le(2, arrays)
def loop2(at, condition, variables, arrays=0): return le(2, 18) + le(2, 131) + le(2, at) + le(2, condition) + le(8, variables) + le(2, arrays)
def comes_out(entry, tab, out):
    """these bytes, into a buffer that has just the room; what lies beyond them is left alone, and one byte less is 23"""
    assert entry(tab, len(out), want=[0, len(out)])[1] == out, ('call', len(calls) - 1)
    assert entry(tab, len(out) + 3, want=[0, len(out)])[1] == out + filled(3)
    entry(tab, len(out) - 1, want=[23, 0])
def refused(tab, want): sheet(tab, 20, want=want)
def elsewhere(tab, want):
    """by the other five entries"""
    harden(tab, 30, want=want); questions(tab, asks([(0, 0)]), 2, want=want)
    run(tab, [], [], want=want); guess(tab, STEP, [], [], want=want); rollback(tab, STEP, [], [], saves=8, want=want)
def everywhere(tab, want): refused(tab, want); elsewhere(tab, want)
# ---- skip alone, V and the variable mask in hexadecimal: 24 bytes in version 1, 28 in version 2, and a sheet of 14 or 18 bytes
def skip1(V, mask): return hexed('0a0001000100' + V + '000100' '0a000300' + mask + '0000' '04003000')
def skip2(V, mask): return hexed('0a0001000200' + V + '000100' '0e000300' + mask + '0000' '04003000')
def sheet1(mask): return hexed('0e00800001000100' + mask + '0000')
def sheet2(mask): return hexed('1200800002000100' + mask + '0000')
NONE = '0000000000000000'
def skips():
    # version 2 stays, with 5 variables too; the masks: none, all, the last variable's
    for V, mask, more in (('00', NONE, '01'), ('05', '1f00000000000000', '06'), ('1f', '0000004000000000', '20'), ('20', '0000008000000000', '21'), ('21', '0000000001000000', '22'),
            ('21', 'ffffffff01000000', '22'), ('3f', '0000000000000040', '40'), ('3f', 'ffffffffffffff7f', '40')):
        comes_out(sheet, skip2(V, mask), sheet2(mask)); comes_out(harden, skip2(V, mask), skip2(more, mask))
    # 64 variables: no one is free for the flag, whatever the buffer
    for mask in ('0000000000000080', 'ffffffffffffffff'):
        comes_out(sheet, skip2('40', mask), sheet2(mask))
        for room in (0, 27, 28, 100): harden(skip2('40', mask), room, want=[9, 0])
    # version 1: 31 variables become 32, and it stays; 32 become 33, and it does not; the sheet does
    for mask in ('00000040', 'ffffff7f'): comes_out(sheet, skip1('1f', mask), sheet1(mask)); comes_out(harden, skip1('1f', mask), skip1('20', mask))
    for mask in ('00000000', '00000080', 'ffffffff'):
        comes_out(sheet, skip1('20', mask), sheet1(mask)); comes_out(harden, skip1('20', mask), skip2('21', mask + '00000000'))
    for room in (0, 23, 24, 26): harden(skip1('20', '00000080'), room, want=[23, 0])
    assert skip2('21', NONE) == hexed('0a00 0100 0200 21 00 0100  0e00 0300 0000000000000000 0000  0400 3000')
    # runs, and the words they want; nothing is shown
    for V, tab in ((0, skip2('00', NONE)), (31, skip2('1f', NONE)), (32, skip2('20', NONE)), (33, skip2('21', NONE)), (64, skip2('40', NONE)), (32, skip1('20', '00000000'))):
        before = [100 + k for k in range(V)]; ran = dict(want=[0, FINISHED, 1, 0, 0, 0, 0], variables_left=words(before), shown=[170] * 40)
        run(tab, before, [], **ran); guess(tab, [], before, [], **ran); rollback(tab, [], before, [], saves=32 * (V + 1) + 2, saves_left=[0] * (32 * (V + 1)) + [170] * 2, **ran)
# ---- 3 on the header; 8 before 9, 7 before both and 6 before 9
def limits():
    for tab in (skip2('41', NONE), skip2('ff', NONE), skip1('21', '00000000')): everywhere(tab, [3, 0])
    for tab in (skip1('40', '00000000'), head(33) + labels(version=2) + SKIP, head(65, version=2) + labels() + SKIP): refused(tab, [3, 0])
    for front in (head(5, 17, version=2), head(5, 0, 0, version=2), head(5, 0, 4097, version=2)): refused(front + labels(version=2) + SKIP, [3, 0])
    many = lambda V, nodes: head(V, 0, nodes, version=2) + labels(version=2) + skips_of(nodes)[20:]
    for room in (0, 50): harden(many(64, 513), room, want=[8, 0]); harden(many(64, 512), room, want=[9, 0]); harden(many(63, 513), room, want=[8, 0])
    harden(many(64, 513) + [0], 50, want=[7, 3100]); harden(skip2('40', NONE) + [1], 50, want=[7, 28])
    harden(head(64, 1, 3, version=2) + labels(version=2) + array(1) + SKIP + TRUE + SKIP, 0, want=[6, 30])
    # 512 nodes, which come out as they are: 255 skips, v0:=1 in 16 bytes and 255 sequences, behind 24 bytes
    comes_out(harden, many(63, 512), head(64, 0, 512, version=2) + many(63, 512)[10:]); assert len(many(63, 512)) == 3100
    comes_out(harden, head(32, 0, 512) + labels() + skips_of(512)[20:], head(33, 0, 512, version=2) + labels(version=2) + skips_of(512)[20:])
# ---- versions, and the labels record that goes with each
def versions():
    for version in (0, 3, 65535):
        for known in (1, 2): everywhere(head(version=version) + labels(version=known) + SKIP, [3, 0])
    # the low byte alone would do, or the high one
    for version in (256, 257, 258, 512, 513):
        for known in (1, 2): refused(head(version=version) + labels(version=known) + SKIP, [3, 0])
    # of the other version's length, with few variables and with as many as there can be
    everywhere(head() + labels(version=2) + SKIP, [2, 10]); everywhere(head(version=2) + labels() + SKIP, [2, 10])
    everywhere(head(32, 1) + labels(version=2) + array(1) + SKIP, [2, 10]); everywhere(head(64, 1, version=2) + labels() + array(1) + SKIP, [2, 10])
    # of no version's length, and of another kind
    for length in (0, 4, 6, 12, 13, 15, 16, 18, 14 + 256, 65535): sheet(head(5, version=2) + le(2, length) + le(2, 3) + [0] * 20, 20, want=[2, 10])
    for length in (6, 9, 11, 12, 13, 14 + 256): sheet(head(5) + le(2, length) + le(2, 3) + [0] * 20, 20, want=[2, 10])
    for kind in (0, 1, 2, 4, 14, 48, 128, 3 + 256): sheet(head(5, version=2) + le(2, 14) + le(2, kind) + [0] * 20, 20, want=[2, 10])
    # cut behind its head: the length is looked at first
    for version, length, want in ((1, 10, [1, 10]), (1, 14, [2, 10]), (2, 10, [2, 10]), (2, 14, [1, 10])): refused(head(version=version) + le(2, length) + le(2, 3), want)
# ---- masks, in hexadecimal: bits from V and from A up are 0
def mask_bits():
    for V, mask in (('28', '0000000000010000'), ('3f', '0000000000000080'), ('21', '0000000002000000'), ('21', '0000000000000080'), ('00', '0100000000000000')):
        everywhere(skip2(V, mask), [3, 10])
    everywhere(skip1('1f', '00000080'), [3, 10])
    for V, mask in (('3f', 'ffffffffffffffff'), ('20', '0000000001000000'), ('1f', '0000008000000000'), ('08', '0000000000010000'), ('00', '0000000000000080'), ('00', '0000000001000000')):
        refused(skip2(V, mask), [3, 10])
    # the last bits that are accepted; V 64 with bit 63 and V 33 with bit 32 alone are in `skips`
    comes_out(sheet, skip2('29', '0000000000010000'), sheet2('0000000000010000')); comes_out(sheet, skip2('40', '0000000080000080'), sheet2('0000000080000080'))
    # v0:=a0[0]: nodes 0, read (1); byte 8 of the record is variable 32's, the array's is byte 12
    def reads(V, A, secret): return hexed('0a0001000200' + V + A + '0200' '0e000300' + secret) + array(4) * int(A) + node('num', 0) + node('read', 0, 0, 0)
    labelled(reads('21', '01', '0000000001000000' '0000'), hexed('1200800002000200' '0000000001000000' '0000'), hexed('0a008400010000000000'))
    labelled(reads('21', '01', '0000000000000000' '0100'), hexed('1200800002000200' '0100000000000000' '0100'), hexed('0a008400010001000000'))
    labelled(reads('28', '02', '0000000080000000' '0200'), hexed('1200800002000200' '0000000080000000' '0200'), hexed('0a008400010000000000'))
    for V, A, secret in (('20', '01', '0000000001000000' '0000'), ('28', '00', '0000000000000000' '0100'), ('28', '01', '0000000000000000' '0200'), ('40', '02', '0000000000000000' '0400'),
            ('40', '02', '0000000000000000' '0080'), ('40', '02', '0000000000000000' '0001'), ('30', '01', '0000000000000100' '0000')):
        refused(reads(V, A, secret), [3, 10])
# ---- cut tables, and records behind the labels: arrays from 24, nodes behind them
def cut():
    tab = skip2('28', '0000000080000000')
    for length in range(28): refused(tab[:length], [1, 0 if length < 10 else 10 if length < 24 else 24])
    for length, place in ((9, 0), (10, 10), (20, 10), (23, 10), (24, 24), (27, 24)): elsewhere(tab[:length], [1, place])
    everywhere(tab + [0], [7, 28]); everywhere(tab + SKIP, [7, 28])
def records():
    front = head(40, 2, 2, version=2) + labels(bits(39), 2, version=2)     # arrays at 24 and 30
    nodes = front + array(5) + array(3)                                     # nodes from 36
    rest = FIVE + node('assign', 39, 0)
    everywhere(front + array(0) + array(3) + rest, [3, 24]); everywhere(nodes + FIVE + node('assign', 40, 0), [4, 44])
    everywhere(nodes + SKIP + node('assign', 39, 0), [5, 40]); everywhere(nodes + SKIP + SKIP, [6, 36]); everywhere(nodes + rest + [0], [7, 52])
    for more, want in ((array(5) + array(0) + rest, [3, 30]), (array(16385) + array(1), [3, 24]), (array(16384) + array(1), [3, 30]), (SKIP, [2, 24]), (array(5) + SKIP, [2, 30]),
            (array(5)[:5], [1, 24]), (array(5), [1, 30]), (array(5) + array(3)[:3], [1, 30])):
        refused(front + more, want)
    for more, want in (([], [1, 36]), (FIVE[:7], [1, 36]), (FIVE + node('assign', 39, 0)[:7], [1, 44]), ([4, 0, 55, 0], [2, 36]), (array(5), [2, 36]), (labels(version=2), [2, 36]),
            (node('var', 40), [4, 36]), (node('var', 64), [4, 36]), (node('var', 256 + 39), [4, 36]), (FIVE + node('read', 0, 2, 0), [4, 44]), (FIVE + node('read', 40, 1, 0), [4, 44]),
            (FIVE + node('write', 2, 0, 0), [4, 44]), (FIVE + node('assign', 39, 1), [4, 44]), (node('const', 2), [4, 36]), (FIVE + node('not', 0), [5, 44]),
            (TRUE + node('read', 39, 1, 0), [5, 42]), (TRUE + node('not', 0), [6, 42]), (SKIP + node('seq', 0, 0), [6, 36])):
        refused(nodes + more, want)
    # the last variable that there can be, and the next
    for V, x in ((33, 32), (64, 63)):
        copied = lambda source, to: head(V, 0, 2, version=2) + labels(version=2) + node('var', source) + node('assign', to, 0)
        labelled(copied(x, x), final2(2, 0)); refused(copied(x + 1, x), [4, 24]); refused(copied(x, x + 1), [4, 30])
# ---- document 01's chain: while x<3 do (x:=y; (y:=z; z:=s)), numbers 0 to 3; and through all variables: while v0<3 do (v0:=v1; (v1:=v2; ..)), the last one secret
def shift(V): return seqs([('assign', k, v(k + 1)) for k in range(V - 1)])
def around(V): return ('while', ('lt', v(0), n(3)), shift(V))
def less(at): return [('var', 0), ('num', 3), ('lt', at, at + 1)]
def hardened_chain(V):
    """the condition is masked, f is variable V; the assignments are 19, 21 .. and the first of their sequences is 2V + 16, the last 3V + 13"""
    masked = lambda at: [('var', V), ('num', 0), ('eq', at, at + 1)] + less(at + 3) + [('and', at + 2, at + 5)]
    copies = [part for k in range(V - 1) for part in (('var', k + 1), ('assign', k, 18 + 2 * k))]
    joins = [('seq', 2 * V + 13, 2 * V + 15)] + [('seq', 2 * V + 13 - 2 * k, 2 * V + 15 + k) for k in range(1, V - 2)]
    return (masked(0) + masked(7) + [('var', V), ('num', 1), ('choice', 13, 14, 15), ('assign', V, 16)] + copies + joins
            + [('seq', 17, 3 * V + 13), ('while', 6, 3 * V + 14)] + masked(3 * V + 16) + [('num', 1), ('var', V), ('choice', 3 * V + 22, 3 * V + 23, 3 * V + 24), ('assign', V, 3 * V + 25)]
            + [('seq', 3 * V + 15, 3 * V + 26)])
def chains():
    # four variables: nodes x, 3, less, y, x:= (4), z, y:= (6), s, z:= (8), sequence 6 8 (9), sequence 4 9 (10), loop (11); 18 + 16 + 16 + 18 bytes
    tab = two(4, 8, [], 0, around(4))
    comes_out(sheet, tab, hexed('1200800002000c00' '0f00000000000000' '0000' '100081000900' '0f00000000000000' '0000' '100081000a00' '0f00000000000000' '0000'
                                '120083000b000100' '0f00000000000000' '0000'))
    told(tab, {11: '0001', 10: '1111', 4: '1111', 9: '1111', 6: '1111', 8: '1111'})
    assert 326 == len(hand(tab, 5, 8, [], 0, hardened_chain(4), version=2)); harden(tab, 325, want=[23, 0])
    # y, x:= (1), z, y:= (3), s, z:= (5), sequence 3 5 (6), sequence 1 6 (7)
    labelled(two(4, 8, [], 0, shift(4)), final2(8, 12), after2(6, 8), after2(7, 8))
    # 64 variables: 63 assignments, 4, 6 .. 128, sequences 129 to 190, loop 191; 18 + 62 * 16 + 18 bytes, and every bit of every mask is set
    ALL = 18446744073709551615
    tab = two(64, bits(63), [], 0, around(64)); out = final2(192, ALL) + [b for at in range(129, 191) for b in after2(at, ALL)] + loop2(191, 1, ALL)
    assert len(out) == 1028 and out[:18] == hexed('120080000200c000' 'ffffffffffffffff' '0000'); comes_out(sheet, tab, out)
    said(tab, [(191, x) for x in range(64)] + [(190, x) for x in range(64)] + [(128, x) for x in range(64)], [0] * 63 + [1] + [1] * 128)
    for room in (0, 2000): harden(tab, room, want=[9, 0])
    # without the loop: assignments 1, 3 .. 125, sequences 126 to 187
    straight = two(64, bits(63), [], 0, shift(64))
    labelled(straight, final2(188, bits(62, 63)), *[after2(at, bits(63)) for at in range(126, 188)])
    # 63 variables: 189 nodes become 217 and 64 variables, 24 + 3 * 52 + 2 * 32 + 62 * 14 + 61 * 8 + 3 * 8 bytes; the flag of it becomes secret, too, and it does not harden again
    tab = two(63, bits(62), [], 0, around(63)); assert tab[8:10] == le(2, 189)
    hard = hand(tab, 64, bits(62), [], 0, hardened_chain(63), version=2); assert len(hard) == 1624 and hard[4:10] == [2, 0, 64, 0, 217, 0]
    harden(tab, 1623, want=[23, 0]); harden(hard, 10000, want=[9, 0])
    labelled(hard, final2(217, ALL), *[after2(at, ALL) for at in range(142, 204)], loop2(204, 1, ALL), after2(216, ALL))
    # 32 variables in version 1: the sheet has 4-byte masks; 96 nodes become 124 in version 2, 24 + 3 * 52 + 2 * 32 + 31 * 14 + 30 * 8 + 3 * 8 bytes
    tab = flat(table(32, bits(31), [], 0, around(32))); assert tab[4:10] == [1, 0, 32, 0, 96, 0]
    labelled(tab, final(96, 4294967295), *[after(at, 4294967295) for at in range(65, 95)], loop(95, 1, 4294967295))
    hard = hand(tab, 33, bits(31), [], 0, hardened_chain(32), version=2); assert len(hard) == 942 and hard[4:10] == [2, 0, 33, 0, 124, 0]
    harden(tab, 941, want=[23, 0])
    labelled(hard, final2(124, 8589934591), *[after2(at, 8589934591) for at in range(80, 111)], loop2(111, 1, 8589934591), after2(123, 8589934591))
# ---- large tables
def large():
    # 60 loops in each other, x_i:=0 first and x_i:=s last in loop i, s is variable 63: loop i is 480 - 5i, its sequences stand before it. Its settled pass has those from i up,
    # and with these it is entered but for the outermost, which is entered with none
    tab, held = nested(60, 64), lambda i: bits(63, *range(i, 60))
    out = final2(481, held(0)) + [b for i in range(59, -1, -1) for b in after2(478 - 5 * i, held(i + 1)) + after2(479 - 5 * i, held(i + 1)) + loop2(480 - 5 * i, 0, held(i))]
    assert sheet(tab, 3018, want=[0, 3018], make=remembering(model.sheet))[1] == out
    deep = [(480 - 5 * i, j) for i in range(60) for j in (max(i - 1, 0), i, 59, 63)]
    said(tab, deep, [int(j == 63 or j >= (480 - at) // 5 > 0) for at, j in deep], remembering(model.replies))
    # with 63 variables it hardens: 20 nodes of 152 bytes for each loop, and the skip
    _, out = harden(nested(60, 63), 9148, want=[0, 9148], make=remembering(model.hardened)); assert out[4:10] == [2, 0, 64, 0] + le(2, 1201)
    # 4,096 nodes
    deep = ('const', 0)
    for _ in range(4091): deep = ('not', deep)
    labelled(two(64, bits(63), [], 0, ('assign', 0, ('choice', deep, v(63), n(1)))), final2(4096, bits(0, 63)))
# ---- a command of each kind: 5 and 40 of 41 variables are secret, 8 = 40 - 32 is not, and the flag is variable 41
SECRETS = bits(5, 40)
def one(command, arrays=0): return two(41, SECRETS, [4, 4], arrays, command)
def is_labelled(command, *records, arrays=0): labelled(one(command, arrays), *[hexed(record) for record in records])
def accesses():
    # index, read (1): 33 by a secret index, by a public one; 8 by the other secret; 40, which becomes public; 33 from a secret array
    is_labelled(('read', 33, 1, v(40)), '1200 8000 0200 0200 2000000002010000 0000', '0a00 8400 0100 0100 0100')
    is_labelled(('read', 33, 1, v(8)), '1200 8000 0200 0200 2000000000010000 0000', '0a00 8400 0100 0000 0000')
    is_labelled(('read', 8, 1, v(5)), '1200 8000 0200 0200 2001000000010000 0000', '0a00 8400 0100 0100 0100')
    is_labelled(('read', 40, 1, v(8)), '1200 8000 0200 0200 2000000000000000 0000', '0a00 8400 0100 0000 0000')
    is_labelled(('read', 33, 1, v(8)), '1200 8000 0200 0200 2000000002010000 0200', '0a00 8400 0100 0100 0000', arrays=2)
    # index, value, write (2): a secret index, a secret value, neither
    is_labelled(('write', 1, v(40), v(8)), '1200 8000 0200 0300 2000000000010000 0200', '0800 8500 0200 0100')
    is_labelled(('write', 1, v(8), v(40)), '1200 8000 0200 0300 2000000000010000 0200', '0800 8500 0200 0000')
    is_labelled(('write', 1, v(8), v(32)), '1200 8000 0200 0300 2000000000010000 0000', '0800 8500 0200 0000')
    # hardened: a secret index is masked; behind a public read the value is
    flagged = [('var', 41), ('num', 1), ('eq', 0, 1), ('num', 0), ('var', 40), ('choice', 2, 3, 4)]
    hand(one(('read', 33, 1, v(40))), 42, SECRETS, [4, 4], 0, flagged + [('read', 33, 1, 5)], version=2)
    hand(one(('write', 1, v(40), v(8))), 42, SECRETS, [4, 4], 0, flagged + [('var', 8), ('write', 1, 5, 6)], version=2)
    hand(one(('read', 33, 1, v(8))), 42, SECRETS, [4, 4], 0, [('var', 8), ('read', 33, 1, 0), ('var', 41), ('num', 1), ('eq', 2, 3), ('num', 0), ('var', 33), ('choice', 4, 5, 6),
         ('assign', 33, 7), ('seq', 1, 8)], version=2)
def branches():
    # x, 0, equal, 1, 33:= (4), skip, if (6)
    on = lambda x: ('if', ('eq', v(x), n(0)), ('assign', 33, n(1)), skip)
    is_labelled(on(40), '1200 8000 0200 0700 2000000002010000 0000', '0800 8200 0600 0100')
    is_labelled(on(8), '1200 8000 0200 0700 2000000000010000 0000', '0800 8200 0600 0000')
    # 5, 0, equal, 1, 40:= (4), 1, 32:= (6), if (7); then with 8, and 40 is public on one side alone
    on_both = lambda x: ('if', ('eq', v(x), n(0)), ('assign', 40, n(1)), ('assign', 32, n(1)))
    is_labelled(on_both(5), '1200 8000 0200 0800 2000000001010000 0000', '0800 8200 0700 0100')
    is_labelled(on_both(8), '1200 8000 0200 0800 2000000000010000 0000', '0800 8200 0700 0000')
    # hardened, on 40 and on 8
    def masked(at): return [('var', 41), ('num', 0), ('eq', at, at + 1), ('var', 40), ('num', 0), ('eq', at + 3, at + 4), ('and', at + 2, at + 5)]
    hand(one(on(40)), 42, SECRETS, [4, 4], 0, masked(0)
         + masked(7) + [('var', 41), ('num', 1), ('choice', 13, 14, 15), ('assign', 41, 16), ('num', 1), ('assign', 33, 18), ('seq', 17, 19)]
         + masked(21) + [('num', 1), ('var', 41), ('choice', 27, 28, 29), ('assign', 41, 30), ('skip',), ('seq', 31, 32)] + [('if', 6, 20, 33)], version=2)
    def plain(at): return [('var', 8), ('num', 0), ('eq', at, at + 1)]
    hand(one(on(8)), 42, SECRETS, [4, 4], 0, plain(0)
         + plain(3) + [('var', 41), ('num', 1), ('choice', 5, 6, 7), ('assign', 41, 8), ('num', 1), ('assign', 33, 10), ('seq', 9, 11)]
         + plain(13) + [('num', 1), ('var', 41), ('choice', 15, 16, 17), ('assign', 41, 18), ('skip',), ('seq', 19, 20)] + [('if', 2, 12, 21)], version=2)
    # document 01's, 34 nodes: its 274 bytes and four more
    assert 278 == len(hand(two(41, SECRETS, [], 0, ('if', ('eq', v(40), n(0)), skip, skip)), 42, SECRETS, [], 0, masked(0)
         + masked(7) + [('var', 41), ('num', 1), ('choice', 13, 14, 15), ('assign', 41, 16), ('skip',), ('seq', 17, 18)]
         + masked(20) + [('num', 1), ('var', 41), ('choice', 26, 27, 28), ('assign', 41, 29), ('skip',), ('seq', 30, 31)] + [('if', 6, 19, 32)], version=2))
def loops_and_sequences():
    # x, 1, less, 1, 32:= (4), loop (5)
    on = lambda x: ('while', ('lt', v(x), n(1)), ('assign', 32, n(1)))
    is_labelled(on(40), '1200 8000 0200 0600 2000000001010000 0000', '1200 8300 0500 0100 2000000001010000 0000')
    is_labelled(on(5), '1200 8000 0200 0600 2000000001010000 0000', '1200 8300 0500 0100 2000000001010000 0000')
    is_labelled(on(8), '1200 8000 0200 0600 2000000000010000 0000', '1200 8300 0500 0000 2000000000010000 0000')
    def masked(at): return [('var', 41), ('num', 0), ('eq', at, at + 1), ('var', 40), ('num', 1), ('lt', at + 3, at + 4), ('and', at + 2, at + 5)]
    hand(one(on(40)), 42, SECRETS, [4, 4], 0, masked(0) + masked(7) + [('var', 41), ('num', 1), ('choice', 13, 14, 15), ('assign', 41, 16), ('num', 1), ('assign', 32, 18),
         ('seq', 17, 19), ('while', 6, 20)] + masked(22) + [('num', 1), ('var', 41), ('choice', 28, 29, 30), ('assign', 41, 31), ('seq', 21, 32)], version=2)
    # 40, 33:= (1), 0, 40:= (3), sequence (4); and 0, 40, write (2), skip, sequence (4)
    is_labelled(('seq', ('assign', 33, v(40)), ('assign', 40, n(0))), '1200 8000 0200 0500 2000000002000000 0000', '1000 8100 0400 2000000002010000 0000')
    is_labelled(('seq', ('write', 1, n(0), v(40)), skip), '1200 8000 0200 0500 2000000000010000 0200', '0800 8500 0200 0000', '1000 8100 0400 2000000000010000 0200')
# ---- questions: 32:=63; (33:=32; (63:=0; (0:=33; skip))), 1 and 63 of 64 variables secret
# nodes 63, 32:= (1), 32, 33:= (3), 0, 63:= (5), 33, 0:= (7), skip (8), sequences 7 8 (9), 5 9 (10), 3 10 (11), 1 11 (12)
def asked():
    tab = two(64, bits(1, 63), [], 0, seqs([('assign', 32, v(63)), ('assign', 33, v(32)), ('assign', 63, n(0)), ('assign', 0, v(33)), skip]))
    labelled(tab, final2(13, bits(0, 1, 32, 33)), after2(9, bits(0, 1, 32, 33)), after2(10, bits(1, 32, 33)), after2(11, bits(1, 32, 33, 63)), after2(12, bits(1, 32, 63)))
    before = {12: '010001', 1: '010001', 11: '010101', 3: '010101', 10: '010111', 5: '010111', 9: '010110', 7: '010110', 8: '110110'}      # of 0, 1, 31, 32, 33, 63
    said(tab, [(at, x) for at in before for x in (0, 1, 31, 32, 33, 63)], [int(b) for at in before for b in before[at]])
    for at, x, byte in ((12, 63, 1), (12, 32, 0), (8, 63, 0), (8, 33, 1), (5, 33, 1), (3, 32, 1), (1, 31, 0)): said(tab, [(at, x)], [byte])
    for x in (64, 65, 95, 96, 127, 256, 256 + 63, 65535): bad(tab, asks([(12, x)])); bad(tab, asks([(12, 63), (12, x)]))
    for at in (0, 2, 13, 65535): bad(tab, asks([(at, 63)]))
    # the last variable and the next, by V; what version 1 says with 32 it says in version 2
    for V, tab in ((33, skip2('21', '0000000001000000')), (40, skip2('28', '0000000080000000')), (63, skip2('3f', '0000000000000040')), (64, skip2('40', '0000000000000080')),
            (32, skip2('20', '0000008000000000')), (32, skip1('20', '00000080'))):
        said(tab, [(0, x) for x in range(V)], [0] * (V - 1) + [1]); bad(tab, asks([(0, V)]))
# ---- version 1 with all its variables, v31 and a1 secret: if v0<5 then (v1:=a0[v0]; v2:=a1[v31]) else skip
# nodes v0, 5, less, v0, read (4), v31, read (6), sequence (7), skip (8), if (9)
ONE = flat(table(32, bits(31), [5, 3], 2, ('if', ('lt', v(0), n(5)), ('seq', ('read', 1, 0, v(0)), ('read', 2, 1, v(31))), skip)))
FRONT = hexed('0a00 0100 0100 20 02 0a00  0a00 0300 00000080 0200  0600 0200 0500  0600 0200 0300')
def below_five(at): return [('var', 0), ('num', 5), ('lt', at, at + 1)]
# hardened, f is variable 32: the first read's value is masked (12 to 18), the second one's index (20 to 25)
ONCE = (below_five(0) + below_five(3) + [('var', 32), ('num', 1), ('choice', 5, 6, 7), ('assign', 32, 8)]
        + [('var', 0), ('read', 1, 0, 10), ('var', 32), ('num', 1), ('eq', 12, 13), ('num', 0), ('var', 1), ('choice', 14, 15, 16), ('assign', 1, 17), ('seq', 11, 18)]
        + [('var', 32), ('num', 1), ('eq', 20, 21), ('num', 0), ('var', 31), ('choice', 22, 23, 24), ('read', 2, 1, 25), ('seq', 19, 26), ('seq', 9, 27)]
        + below_five(29) + [('num', 1), ('var', 32), ('choice', 31, 32, 33), ('assign', 32, 34), ('skip',), ('seq', 35, 36)] + [('if', 2, 28, 37)])
ONCE_FRONT = hexed('0a00 0100 0200 21 02 2700  0e00 0300 0000008000000000 0200  0600 0200 0500  0600 0200 0300')
# and again, the flag of that is variable 33
TWICE = (below_five(0) + below_five(3) + [('var', 33), ('num', 1), ('choice', 5, 6, 7), ('assign', 33, 8)]
         + below_five(10) + [('var', 32), ('num', 1), ('choice', 12, 13, 14), ('assign', 32, 15)]
         + [('var', 0), ('read', 1, 0, 17), ('var', 33), ('num', 1), ('eq', 19, 20), ('num', 0), ('var', 1), ('choice', 21, 22, 23), ('assign', 1, 24), ('seq', 18, 25)]
         + [('var', 32), ('num', 1), ('eq', 27, 28), ('num', 0), ('var', 1), ('choice', 29, 30, 31), ('assign', 1, 32), ('seq', 26, 33)]
         + [('var', 33), ('num', 1), ('eq', 35, 36), ('num', 0), ('var', 32), ('num', 1), ('eq', 39, 40), ('num', 0), ('var', 31), ('choice', 41, 42, 43), ('choice', 37, 38, 44),
            ('read', 2, 1, 45), ('seq', 34, 46), ('seq', 16, 47), ('seq', 9, 48)]
         + below_five(50) + [('num', 1), ('var', 33), ('choice', 52, 53, 54), ('assign', 33, 55)]
         + below_five(57) + [('num', 1), ('var', 32), ('choice', 59, 60, 61), ('assign', 32, 62), ('skip',), ('seq', 63, 64), ('seq', 56, 65)] + [('if', 2, 49, 66)])
EIGHT = [4, 5, 6, 7, 8, 20, 21, 22]
def state(v0, v1, v2, v31, *flags): return [v0, v1, v2] + list(range(203, 231)) + [v31, *flags]
def as_it_stands():
    assert ONE[:32] == FRONT and saves_bytes(ONE) == 1600
    comes_out(sheet, ONE, hexed('0e00 8000 0100 0a00 04000080 0200  0a00 8400 0400 0000 0000  0a00 8400 0600 0100 0100  0c00 8100 0700 00000080 0200  0800 8200 0900 0000'))
    told(ONE, {at: '0' * 31 + '1' for at in (9, 7, 4, 6, 8)}); bad(ONE, asks([(9, 32)]))
    own, wrong = branch(1) + shown_read(0, 3) + shown_read(1, 2), FORCE + load(1, 1) + load(0, 4)
    run(ONE, state(3, 201, 202, 2), EIGHT, want=[0, FINISHED, 4, 0, 26, 0, 0], variables_left=words(state(3, 7, 22, 2)), cells_left=words(EIGHT), shown=own + [170])
    for size in (124, 127, 129, 132): run(ONE, bytes(size), EIGHT, want=[20, 0])
    # forced in with v0 = 7: v1 is a1[1]; the second load takes the own cell, or with v31 = 9 a0[4]
    for v31, v2 in ((2, 22), (9, 8)):
        seen, before = branch(0) + shown_read(0, 7) + shown_read(1, v31), state(7, 201, 202, v31)
        guess(ONE, wrong, before, EIGHT, want=[0, FINISHED, 4, 3, 26, 1, 0], variables_left=words(state(7, 21, v2, v31)), shown=seen + [170])
        rollback(ONE, wrong + BACK, before, EIGHT, want=[0, FINISHED, 6, 4, 30, 0, 0], variables_left=words(before), saves_left=places(ONE), shown=seen + SHOWN_BACK + [170])
    rollback(ONE, FORCE + load(1, 1), before, EIGHT, want=[0, OUT_OF_DIRECTIVES, 3, 2, 16, 1, 6], variables_left=words(state(7, 21, 202, 9)),
             saves_left=places(ONE, (before, EIGHT, [8])), shown=branch(0) + shown_read(0, 7) + [170])
    rollback(ONE, wrong, before, EIGHT, saves=1599, want=[24, 0])
def hardened_once():
    hard = hand(ONE, 33, bits(31), [5, 3], 2, ONCE, version=2); assert len(hard) == 338 and hard[:36] == ONCE_FRONT and saves_bytes(hard) == 2560
    harden(ONE, 337, want=[23, 0]); assert harden(ONE, 340, want=[0, 338])[1] == hard + filled(2)
    comes_out(sheet, hard, hexed('1200 8000 0200 2700 0400008000000000 0200  0a00 8400 0b00 0000 0000  1000 8100 1300 0000008000000000 0200  0a00 8400 1a00 0100 0100'
                                 '1000 8100 1b00 0000008000000000 0200  1000 8100 1c00 0000008000000000 0200  1000 8100 2500 0000008000000000 0200  0800 8200 2600 0000'))
    commands = (38, 28, 9, 27, 19, 11, 18, 26, 37, 35, 36)
    said(hard, [(at, x) for at in commands for x in (0, 2, 30, 31, 32)], [0, 0, 0, 1, 0] * 11); bad(hard, asks([(38, 33)])); bad(hard, asks([(38, 63)]))
    own, wrong = branch(1) + shown_read(0, 3) + shown_read(1, 2), FORCE + load(1, 1) + load(0, 4)
    run(hard, state(3, 201, 202, 2, 0), EIGHT, want=[0, FINISHED, 8, 0, 26, 0, 0], variables_left=words(state(3, 7, 22, 2, 0)), cells_left=words(EIGHT), shown=own + [170])
    run(hard, state(7, 201, 202, 2, 0), EIGHT, want=[0, FINISHED, 4, 0, 6, 0, 0], variables_left=words(state(7, 201, 202, 2, 0)), shown=branch(0) + [170])
    for size in (128, 131, 133, 136): run(hard, bytes(size), EIGHT, want=[20, 0]); guess(hard, STEP, bytes(size), EIGHT, want=[20, 0])
    # forced in: v1 is a1[1] and then 0; the index of a1 is 0, in bounds, whatever v31 is
    seen = branch(0) + shown_read(0, 7) + shown_read(1, 0)
    for v31 in (2, 9):
        before = state(7, 201, 202, v31, 0)
        guess(hard, wrong, before, EIGHT, want=[0, FINISHED, 8, 3, 26, 1, 0], variables_left=words(state(7, 0, 20, v31, 1)), shown=seen + [170])
        rollback(hard, wrong + BACK, before, EIGHT, want=[0, FINISHED, 12, 4, 30, 0, 0], variables_left=words(before), saves_left=places(hard), shown=seen + SHOWN_BACK + [170])
        rollback(hard, FORCE + load(1, 1), before, EIGHT, want=[0, OUT_OF_DIRECTIVES, 7, 2, 16, 1, 26], variables_left=words(state(7, 0, 202, v31, 1)),
                 saves_left=places(hard, (before, EIGHT, [37])), shown=branch(0) + shown_read(0, 7) + [170])
    rollback(hard, wrong, before, EIGHT, saves=2559, want=[24, 0])
    return hard
def hardened_twice(once):
    twice = hand(once, 34, bits(31), [5, 3], 2, TWICE, version=2)
    assert len(twice) == 564 and twice[:36] == hexed('0a00 0100 0200 22 02 4400  0e00 0300 0000008000000000 0200  0600 0200 0500  0600 0200 0300')
    harden(once, 563, want=[23, 0])
    run(twice, state(3, 201, 202, 2, 0, 0), EIGHT, want=[0, FINISHED, 12, 0, 26, 0, 0], variables_left=words(state(3, 7, 22, 2, 0, 0)),
        shown=branch(1) + shown_read(0, 3) + shown_read(1, 2) + [170])
def all_of_version_1(): as_it_stands(); hardened_twice(hardened_once())
# ---- runs with 40 and 64 variables: the last := 32 + 31; a0[33] := the last; nodes 32, 31, add, assign (3), 33, the last, write (6), sequence (7)
def program(V): return two(V, 0, [2], 0, ('seq', ('assign', V - 1, ('add', v(32), v(31))), ('write', 0, v(33), v(V - 1))))
def state_of(V, v33, last): return [100 + k for k in range(33)] + [v33] + [100 + k for k in range(34, V - 1)] + [last]
def wide_runs():
    for V, saves, wrong in ((40, 1600, (0, 128, 156, 159, 161, 164)), (64, 2368, (0, 128, 252, 255, 257, 260))):
        tab, before, left, seen = program(V), state_of(V, 1, 7), dict(variables_left=words(state_of(V, 1, 263)), cells_left=words([5, 263])), shown_write(0, 1) + [170]
        run(tab, before, [5, 6], want=[0, FINISHED, 3, 0, 10, 0, 0], shown=seen, **left); guess(tab, STEP, before, [5, 6], want=[0, FINISHED, 3, 1, 10, 0, 0], shown=seen, **left)
        for more in (0, 3): rollback(tab, STEP, before, [5, 6], saves=saves + more, want=[0, FINISHED, 3, 1, 10, 0, 0], shown=seen, saves_left=[0] * saves + [170] * more, **left)
        for size in wrong:
            run(tab, bytes(size), [5, 6], want=[20, 0]); guess(tab, STEP, bytes(size), [5, 6], want=[20, 0]); rollback(tab, STEP, bytes(size), [5, 6], saves=8, want=[20, 0])
        # 24: a byte short, and without the variables from 32 up
        for short in (saves - 1, saves - 4, saves - 32 * (V - 32)): rollback(tab, STEP, before, [5, 6], saves=short, want=[24, 0], saves_left=[170] * short, variables_left=words(before))
def saved_and_put_back():
    # if v63=0 then skip else (v0:=7; (.. (v63:=7; a0[1]:=v63))), forced: nodes v63, 0, equal, skip (3), assignments 5 to 131, write (134), sequences 135 to 198, if (199)
    tab = two(64, 0, [2], 0, ('if', ('eq', v(63), n(0)), skip, seqs([('assign', k, n(7)) for k in range(64)] + [('write', 0, n(1), v(63))])))
    before, more = [1000 + k for k in range(63)] + [0], dict(budget=200)
    rollback(tab, FORCE + STEP, before, [5, 6], want=[0, FINISHED, 130, 2, 16, 1, 0], variables_left=words([7] * 64), cells_left=words([5, 7]),
             saves_left=words(before + [5, 6, 3] + [0] * 199) + [0] * (7 * 4 * 266), shown=branch(1) + shown_write(0, 1) + [170], **more)
    rollback(tab, FORCE + STEP + BACK, before, [5, 6], want=[0, FINISHED, 132, 3, 20, 0, 0], variables_left=words(before), cells_left=words([5, 6]), saves_left=[0] * 8512,
             shown=branch(1) + shown_write(0, 1) + SHOWN_BACK + [170], **more)
    rollback(tab, FORCE + STEP, before, [5, 6], saves=8511, want=[24, 0], variables_left=words(before), **more)
    # while 0 do v63:=v63+1, eight times forced in: 64 variables and six nodes a place; then three are undone
    tab = two(64, 0, [], 0, ('while', ('const', 0), ('assign', 63, ('add', v(63), n(1)))))
    turn = lambda x: [1000 + k for k in range(63)] + [x]
    held = lambda count: words([w for x in range(count) for w in turn(x) + [0] * 6]) + [0] * (280 * (8 - count))
    rollback(tab, FORCE * 8, turn(0), [], room=48, want=[0, OUT_OF_DIRECTIVES, 16, 8, 48, 1, 5], variables_left=words(turn(8)), saves_left=held(8), shown=branch(0) * 8)
    rollback(tab, FORCE * 8 + BACK * 3, turn(0), [], room=60, want=[0, FINISHED, 18, 11, 60, 1, 0], variables_left=words(turn(5)), saves_left=held(5),
             shown=branch(0) * 8 + SHOWN_BACK * 3)
# ---- document 01's bounds check: if v33<4 then (v39:=a0[v33]; v32:=a1[v39]) else skip, 40 variables, array 2 secret, f is variable 40
def bounds_check():
    plain = two(40, 0, [4, 8, 1], 4, ('if', ('lt', v(33), n(4)), ('seq', ('read', 39, 0, v(33)), ('read', 32, 1, v(39))), skip))
    def below(at): return [('var', 33), ('num', 4), ('lt', at, at + 1)]
    def mask(at, x): return [('var', 40), ('num', 1), ('eq', at, at + 1), ('num', 0), ('var', x), ('choice', at + 2, at + 3, at + 4), ('assign', x, at + 5)]
    hard = hand(plain, 41, 0, [4, 8, 1], 4, below(0) + below(3) + [('var', 40), ('num', 1), ('choice', 5, 6, 7), ('assign', 40, 8)]
         + [('var', 33), ('read', 39, 0, 10)] + mask(12, 39) + [('seq', 11, 18)] + [('var', 39), ('read', 32, 1, 20)] + mask(22, 32) + [('seq', 21, 28), ('seq', 19, 29), ('seq', 9, 30)]
         + below(32) + [('num', 1), ('var', 40), ('choice', 34, 35, 36), ('assign', 40, 37), ('skip',), ('seq', 38, 39)] + [('if', 2, 31, 40)], version=2)
    assert len(hard) == 366
    cells, script = [5, 6, 7, 3] + [1000 + k for k in range(8)] + [7], FORCE + load(2, 0) + STEP
    values = lambda v32, v33, v39, *flag: [k for k in range(32)] + [v32, v33] + [k for k in range(34, 39)] + [v39, *flag]
    seen = branch(0) + shown_read(0, 4)
    guess(plain, script, values(0, 4, 0), cells, want=[0, FINISHED, 4, 3, 26, 1, 0], variables_left=words(values(1007, 4, 7)), shown=seen + shown_read(1, 7) + [170])
    guess(hard, script, values(0, 4, 0, 0), cells, want=[0, FINISHED, 10, 3, 26, 1, 0], variables_left=words(values(0, 4, 0, 1)), shown=seen + shown_read(1, 0) + [170])
    rollback(hard, script + BACK, values(0, 4, 0, 0), cells, want=[0, FINISHED, 13, 4, 30, 0, 0], variables_left=words(values(0, 4, 0, 0)), saves_left=places(hard),
             shown=seen + shown_read(1, 0) + SHOWN_BACK + [170])
    run(hard, values(0, 3, 0, 0), cells, want=[0, FINISHED, 10, 0, 26, 0, 0], variables_left=words(values(1003, 3, 3, 0)), shown=branch(1) + shown_read(0, 3) + shown_read(1, 3) + [170])
# ---- a secret condition on variable 40 behind a public one: if v0=0 then skip else (if v40=0 then v1:=1 else v1:=2), f is variable 41
def secret_condition():
    plain = two(41, bits(40), [], 0, ('if', ('eq', v(0), n(0)), skip, ('if', ('eq', v(40), n(0)), ('assign', 1, n(1)), ('assign', 1, n(2)))))
    def outer(at): return [('var', 0), ('num', 0), ('eq', at, at + 1)]
    def inner(at): return [('var', 41), ('num', 0), ('eq', at, at + 1), ('var', 40), ('num', 0), ('eq', at + 3, at + 4), ('and', at + 2, at + 5)]
    hard = hand(plain, 42, bits(40), [], 0, outer(0) + outer(3) + [('var', 41), ('num', 1), ('choice', 5, 6, 7), ('assign', 41, 8), ('skip',), ('seq', 9, 10)]
         + outer(12) + [('num', 1), ('var', 41), ('choice', 14, 15, 16), ('assign', 41, 17)] + inner(19)
         + inner(26) + [('var', 41), ('num', 1), ('choice', 32, 33, 34), ('assign', 41, 35), ('num', 1), ('assign', 1, 37), ('seq', 36, 38)]
         + inner(40) + [('num', 1), ('var', 41), ('choice', 46, 47, 48), ('assign', 41, 49), ('num', 2), ('assign', 1, 51), ('seq', 50, 52)]
         + [('if', 25, 39, 53), ('seq', 18, 54)] + [('if', 2, 11, 55)], version=2)
    values = lambda v0, v1, v40, *flag: [v0, v1] + [k for k in range(2, 40)] + [v40, *flag]
    for v40, value in ((0, 1), (5, 0)):
        # before hardening the wrong side shows which it is; hardened it does not, stepped or forced
        guess(plain, FORCE + STEP, values(0, 9, v40), [], want=[0, FINISHED, 3, 2, 12, 1, 0], variables_left=words(values(0, 2 - value, v40)), shown=branch(1) + branch(value) + [170])
        guess(hard, FORCE + STEP, values(0, 9, v40, 0), [], want=[0, FINISHED, 7, 2, 12, 1, 0], variables_left=words(values(0, 2, v40, 1)), shown=branch(1) + branch(0) + [170])
        guess(hard, FORCE * 2, values(0, 9, v40, 0), [], want=[0, FINISHED, 7, 2, 12, 1, 0], variables_left=words(values(0, 1, v40, 1)), shown=branch(1) + branch(0) + [170])
        rollback(hard, FORCE + STEP + BACK, values(0, 9, v40, 0), [], want=[0, FINISHED, 8, 3, 16, 0, 0], variables_left=words(values(0, 9, v40, 0)), saves_left=places(hard),
                 shown=branch(1) + branch(0) + SHOWN_BACK + [170])
        # without a guess the condition is the program's own
        guess(hard, STEP * 2, values(1, 9, v40, 0), [], want=[0, FINISHED, 7, 2, 12, 0, 0], variables_left=words(values(1, 2 - value, v40, 0)), shown=branch(0) + branch(value) + [170])
def add_version_cases():
    for group in (skips, limits, versions, mask_bits, cut, records, chains, large, accesses, branches, loops_and_sequences, asked, all_of_version_1, wide_runs, saved_and_put_back,
                  bounds_check, secret_condition): group()
