# Tables that are no tree, P1: "With refusal 6 the place must be the record of the lowest-numbered node that breaks the rule."
# Each is called by the four entries of document 01 (questions_cases and rollback_cases have the other two); the places are worked out by hand.
from calls import sheet, harden, run, guess, head, labels, array, node
SKIP, NUMBER, TRUE = node('skip'), node('num', 5), node('const', 1)   # 4, 8 and 6 bytes
def nodes(*records): return head(N=len(records)) + labels() + [b for r in records for b in r]
def sixth(table, place):
    want = (6, place)
    sheet(table, 40, 16, want); harden(table, 40, 16, want)
    run(table, [], [], want=want); guess(table, [], [], [], want=want)
def add_tree_cases():
    # all but the last are left over: 20, 24, 28
    sixth(nodes(SKIP, SKIP, SKIP, SKIP), 20)
    # a number left over before a skip: 24, 32; and a skip between nodes that are used: 36
    sixth(nodes(SKIP, NUMBER, SKIP, SKIP, node('seq', 0, 3)), 24)
    sixth(head(1, 0, 5) + labels() + NUMBER + node('assign', 0, 0) + SKIP + SKIP + node('seq', 1, 3), 36)
    # a last node that is no command: alone; behind one that is left over: 20, 28; behind one that is used: 26, 32
    sixth(nodes(NUMBER), 20)
    sixth(nodes(NUMBER, NUMBER), 20)
    sixth(nodes(TRUE, node('not', 0), TRUE), 26)
    # two left over, and bytes after the last node: 6, not 7
    sixth(nodes(NUMBER, NUMBER, SKIP) + [1], 20)
    # a child twice, 24, before one that is left over, 28; and after one: 24, 28
    sixth(nodes(SKIP, SKIP, SKIP, node('seq', 1, 1), node('seq', 0, 3)), 24)
    sixth(nodes(SKIP, SKIP, SKIP, node('seq', 2, 2), node('seq', 0, 3)), 24)
    # eleven left over: 24, 32 .. 104
    sixth(nodes(SKIP, *[NUMBER] * 11, SKIP, node('seq', 0, 12)), 24)
    # the nodes stand behind two arrays: 32, of 32, 36, 40
    sixth(head(1, 2, 3) + labels() + array(3) + array(2) + SKIP + SKIP + SKIP, 32)
    # 6 comes before 23, before 10 and before 20 to 22; version_cases has it before 9
    full = head(32, 1, 3) + labels() + array(1) + SKIP + TRUE + SKIP   # 26, 30, 36
    harden(full, 0, 16, (6, 26)); sheet(full, 0, 8, (6, 26)); run(full, [], [], pending=0, want=(6, 26)); guess(full, [1], [], [], pending=0, want=(6, 26))
