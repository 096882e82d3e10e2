# The calls that crates/cases plays, and what document 01 says that each leaves, by model.py.
# `sheet`, `harden`, `run`, `guess`, `questions` and `rollback` add a call and answer what the model gave. Worked out by hand, where given:
# `want`, the answer's numbers, `secret`, the bytes written for a list of questions, and `variables_left`, `cells_left`, `pending_left`,
# `saves_left` and `shown`, with which those slices begin at exit.
import model
from model import le, over, words
SHEET, HARDEN, RUN, GUESS, QUESTIONS, ROLLBACK = 1, 2, 3, 4, 5, 6
NAMES = {SHEET: 'sheet', HARDEN: 'harden', RUN: 'run', GUESS: 'guess', QUESTIONS: 'questions', ROLLBACK: 'rollback'}
calls = []
# what a slice holds at entry that an entry only writes
FILL = 170
def filled(length): return [FILL] * length
def given(lent): return len(bytes(lent).rstrip(bytes([FILL])))
def answered(numbers, lent):
    out = []
    for number in numbers:
        if len(lent) < len(out) + 8: break
        out += le(8, number)
    return over(lent, out)
def add(entry, budget, taken, lent, numbers, left, answer, want, saves=([], [])):
    """taken: table, directives or questions; lent and left: variables, cells, pending, output, before and after; saves: these before and after"""
    if want is not None: assert numbers == list(want), ('call', len(calls), 'gives', numbers, 'wanted', want)
    *before, output = lent; *after, written = left
    printed = [saves[1]] if entry == ROLLBACK else []    # the other entries have none
    calls.append((entry, budget, taken + before + [saves[0], output, filled(answer)], numbers[0],
                  [answered(numbers, filled(answer))] + after + printed + [written]))
def writes(entry, make, table, room, answer, want):
    numbers, out = model.writeEntry(make, list(table), filled(room), entry == HARDEN)
    add(entry, 0, [list(table), []], [[], [], [], filled(room)], numbers, [[], [], [], out], answer, want)
    return numbers, out
def sheet(table, room, answer=16, want=None, make=model.sheet): return writes(SHEET, make, table, room, answer, want)
def harden(table, room, answer=16, want=None, make=model.hardened): return writes(HARDEN, make, table, room, answer, want)
def questions(table, asked, room, answer=16, want=None, secret=None, make=model.replies):
    """the list goes where the other entries take directives"""
    ask = lambda asked, room: model.questionsEntry(list(table), list(asked), filled(room), make)
    numbers, out = ask(asked, room)
    add(QUESTIONS, 0, [list(table), list(asked)], [[], [], [], filled(room)], numbers, [[], [], [], out], answer, want)
    count = numbers[1] if numbers[0] == 0 else 0
    if secret is not None: assert out[:count] == secret, ('call', len(calls) - 1, 'writes', out[:count], 'wanted', secret)
    # P2: "A pair asked alone gets the byte it gets in a list"
    for at in range(count): assert ask(asked[4 * at:4 * at + 4], 1) == ([0, 1], out[at:at + 1])
    assert out[count:] == filled(room - count)   # beyond these, and after a refusal, nothing is written
    return numbers, out
def slot(given, size):
    """bytes as they are; a list of words; a number of bytes"""
    if isinstance(given, bytes): return list(given)
    if isinstance(given, list): return words(given)
    return filled(size if given is None else given)
def leaves_hold(left, leaves):
    for name, hand in leaves.items():
        at = ('variables_left', 'cells_left', 'pending_left', 'shown', 'saves_left').index(name)
        assert left[at][:len(hand)] == hand, ('call', len(calls) - 1, name, left[at], hand)
def runs(entry, table, directives, variables, cells, budget, room, pending, answer, want, leaves):
    nodes = model.un(table[8:10])
    lent = [slot(variables, 0), slot(cells, 0), slot(pending, 4 * nodes + 5), filled(room)]
    numbers, *left = model.runEntry(list(table), *lent, budget, None if entry == RUN else list(directives))
    add(entry, budget, [list(table), list(directives)], lent, numbers, left, answer, want)
    leaves_hold(left, leaves)
    return numbers, left
def run(table, variables, cells, budget=100, room=40, pending=None, answer=56, want=None, **leaves):
    return runs(RUN, table, [], variables, cells, budget, room, pending, answer, want, leaves)
def guess(table, directives, variables, cells, budget=100, room=40, pending=None, answer=56, want=None, **leaves):
    return runs(GUESS, table, directives, variables, cells, budget, room, pending, answer, want, leaves)
def saves_bytes(table):
    """of a table that is accepted: eight places, a word for each variable, cell and node"""
    V, A, N = table[6], table[7], model.un(table[8:10])
    first = 28 if table[4] == 2 else 24     # the first array's count, behind the header, the labels of its version and the record's head
    return 8 * 4 * (V + sum(model.un(table[first + 6 * a:first + 2 + 6 * a]) for a in range(A)) + N)
def rollback(table, directives, variables, cells, budget=100, room=40, pending=None, saves=None, answer=56, want=None, **leaves):
    """saves: as slot has it; if none are given, exactly as many bytes as the table needs"""
    nodes = model.un(table[8:10])
    lent = [slot(variables, 0), slot(cells, 0), slot(pending, 4 * nodes + 5), filled(room)]
    places = slot(saves, 0 if saves is not None else saves_bytes(table))
    numbers, *left = model.runEntry(list(table), *lent, budget, list(directives), places)
    add(ROLLBACK, budget, [list(table), list(directives)], lent, numbers, left[:4], answer, want, (places, left[4]))
    leaves_hold(left, leaves)
    return numbers, left
# pairs of a list of questions: node and variable
def asks(pairs): return [b for node, variable in pairs for b in le(2, node) + le(2, variable)]
# records: directives, and observations as they are expected
STEP, FORCE, BACK = le(2, 4) + le(2, 72), le(2, 4) + le(2, 73), le(2, 4) + le(2, 76)
def load(array, index): return le(2, 10) + le(2, 74) + le(2, array) + le(4, index)
def store(array, index): return le(2, 10) + le(2, 75) + le(2, array) + le(4, index)
def branch(value): return le(2, 6) + le(2, 64) + le(2, value)
def shown_read(array, index): return le(2, 10) + le(2, 65) + le(2, array) + le(4, index)
def shown_write(array, index): return le(2, 10) + le(2, 66) + le(2, array) + le(4, index)
SHOWN_BACK = le(2, 4) + le(2, 67)
# records of a table put together by hand
def head(V=0, A=0, N=1, version=1): return le(2, 10) + le(2, 1) + le(2, version) + [V, A] + le(2, N)
def labels(variables=0, arrays=0, version=1):
    if version == 2: return le(2, 14) + le(2, 3) + le(8, variables) + le(2, arrays)
    return le(2, 10) + le(2, 3) + le(4, variables) + le(2, arrays)
def array(count): return le(2, 6) + le(2, 2) + le(2, count)
def node(kind, *fields):
    body = [b for letter, field in zip(model.LAY[kind], fields) for b in le(4 if letter == 'n' else 2, field)]
    return le(2, 4 + len(body)) + le(2, model.KIND[kind]) + body
def write_files(folder):
    with open(folder + 'stdin', 'wb') as f:
        f.write(bytes(le(4, len(calls))))
        for entry, budget, before, _, _ in calls:
            f.write(bytes(le(4, entry) + le(4, budget)))
            for lent in before: f.write(bytes(le(4, len(lent)) + le(4, given(lent)) + lent[:given(lent)]))
    with open(folder + 'stdout', 'w') as f:
        for entry, _, _, result, after in calls:
            f.write('%s %d\n' % (NAMES[entry], result))
            for left in after: f.write(bytes(left).hex() + '\n')
