# A table of 512 nodes, the most that hardens: what crates/harden_long reads on standard input, and what it must write.
import model
from model import flat, readTable, table
from programs import seqs, v, n, skip
NODES = 512
SECRETS = 0b1000_0000          # variable 7 of eight
# One round: a public bounds check before two reads, a secret branch, a loop whose labels take three passes, writes and a cleared key.
def a_round(k):
    key, i, j, x, y, z = v(7), v(0), v(1), v(2), v(3), v(4)
    return [('if', ('lt', i, n(k + 4)), ('seq', ('read', 1, 0, i), ('read', 2, 1, j)), skip),
            ('if', ('eq', key, n(k)), ('assign', 5, n(1)), ('assign', 5, n(2))),
            ('while', ('lt', i, n(3)), seqs([('assign', 2, y), ('assign', 3, z), ('assign', 4, key), ('assign', 0, ('add', i, n(1)))])),
            ('write', 1, x, ('mul', key, n(k % 2))),
            ('read', 6, 2, v(5)),
            ('assign', 4, n(0)), ('assign', 3, n(0)), ('assign', 2, n(0))]
def nodes_of(commands): return len(table(8, 0, [4, 256, 1], 0, seqs(commands))) - 5     # header, labels and three arrays are no nodes
def program():
    commands, k = [], 0
    while nodes_of(commands + a_round(k)) <= NODES - 4:
        commands += a_round(k); k += 1
    # a skip that is joined on is two nodes, an assignment three: together they fill what is left
    while nodes_of(commands) < NODES:
        commands.append(skip if (NODES - nodes_of(commands)) % 2 == 0 else ('assign', 1, n(0)))
    return commands
def write_long_table(folder):
    """the table, and its hardened form by the model"""
    given = flat(table(8, SECRETS, [4, 256, 1], 0b100, seqs(program())))
    read = readTable(given)
    assert read['N'] == NODES and 3000 < len(given)
    hardened = flat(model.hardened(read))
    for name, contents in (('stdin', given), ('stdout', hardened)):
        with open(folder + name, 'wb') as file: file.write(bytes(contents))
    return len(given), len(hardened)
