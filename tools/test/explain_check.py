"""Decides by brute force whether what `explain_words` printed is true and complete.

Written from documents 01 and 02.  Every line that stands for a fault is parsed and its claim looked up in the bytes; the refusal
is found by a reader of our own; the faults of the refusal are counted out and must be the ones claimed, in their order.  Where a
wrong number or place was handed in, nothing untrue may be claimed.  A wording that is never met is a failure too.
"""
import re
import sys
from collections import Counter, defaultdict

# name and fields: n value, b constant, x variable, a array; N, T, C a child that is a numeric, a truth or a command
KINDS = {16: ("number", "n"), 17: ("variable", "x"), 18: ("add", "NN"), 19: ("subtract", "NN"), 20: ("multiply", "NN"),
         21: ("choice", "TNN"), 32: ("constant", "b"), 33: ("equal", "NN"), 34: ("less", "NN"), 35: ("not", "T"),
         36: ("and", "TT"), 48: ("skip", ""), 49: ("assign", "xN"), 50: ("sequence", "CC"), 51: ("if", "TCC"),
         52: ("while", "TC"), 53: ("read", "xaN"), 54: ("write", "aNN")}
LENGTHS = {kind: 4 + sum(4 if field == "n" else 2 for field in fields) for kind, (_, fields) in KINDS.items()}
SORTS = {kind: "N" if kind < 32 else "T" if kind < 48 else "C" for kind in KINDS}
WANTED = {"N": "number", "T": "truth", "C": "command"}
MASK_BYTES = {1: 4, 2: 8}  # of variables, by the version that the header says
MOST_VARIABLES = {1: 32, 2: 64}
MOST_NAMED = 8


def declaration(role, version):
    """Kind and length of a record that declares; of a version that is not known, nothing follows the header."""
    return {"header": (1, 10), "labels": (3, 6 + MASK_BYTES.get(version, 8)), "array": (2, 6)}[role]


class Table:
    """Bytes, taken apart by the records' lengths alone, as far as these lead."""

    def __init__(self, data):
        self.data = data
        self.variables, self.arrays, self.nodes = (data[6], data[7], self.u16(8)) if len(data) >= 10 else (0, 0, 0)
        self.version = self.u16(4) if len(data) >= 10 else 0
        self.places = [0]
        at = 0
        while len(data) - at >= 4 and 4 <= self.u16(at) <= len(data) - at:
            at += self.u16(at)
            self.places.append(at)
        self.indices = {place: index for index, place in enumerate(self.places)}
        self.fields_known, self.parents_known = {}, None

    def u16(self, at):
        return int.from_bytes(self.data[at:at + 2], "little")

    def role(self, place):
        """What stands at this byte: ("header", 0), ("array", 2), ("node", 5); None: nothing."""
        index = self.indices.get(place)
        if index is None:
            return None
        if index < 2:
            return ("header", "labels")[index], 0
        index -= 2
        if index < self.arrays:
            return "array", index
        return ("node", index - self.arrays) if index - self.arrays < self.nodes else None

    def place(self, role, number):
        index = {"header": 0, "labels": 1, "array": 2, "node": 2 + self.arrays}[role] + number
        return self.places[index] if index < len(self.places) else None

    def kind(self, node):
        place = self.place("node", node)
        return self.u16(place + 2) if place is not None and len(self.data) - place >= 4 else None

    def fields(self, node):
        """The fields of a node as pairs of letter and value; none where the record is not one that has them."""
        if node not in self.fields_known:
            self.fields_known[node] = self.find_fields(node)
        return self.fields_known[node]

    def find_fields(self, node):
        kind, place = self.kind(node), self.place("node", node)
        if kind not in KINDS or self.u16(place) != LENGTHS[kind] or place + LENGTHS[kind] > len(self.data):
            return []
        return [(letter, int.from_bytes(self.data[place + 4 + 2 * i:place + (8 if letter == "n" else 6) + 2 * i], "little"))
                for i, letter in enumerate(KINDS[kind][1])]

    def parents(self, child):
        """The nodes that name a node as their child, as often as they do."""
        if self.parents_known is None:
            self.parents_known = defaultdict(list)
            for node in range(min(self.nodes, len(self.places))):
                for letter, value in self.fields(node):
                    if letter in "NTC":
                        self.parents_known[value].append(node)
        return self.parents_known[child]

    def mask(self, what):
        """The marked numbers that are not declared."""
        variables = MASK_BYTES.get(self.version, 8)
        at, width, count = (14, variables, self.variables) if what == "variable" else (14 + variables, 2, self.arrays)
        mask = int.from_bytes(self.data[at:at + width], "little")
        return [bit for bit in range(count, 8 * width) if mask >> bit & 1]

    def cells(self, array):
        return self.u16(self.place("array", array) + 4)


# ---- The reader: which refusal, and where ----

def most_variables(table):
    """Of a version that is not known, as many as of any."""
    return MOST_VARIABLES.get(table.version, 64)


def header_faults(table):
    faults = (("version", table.version not in (1, 2)), ("variables", table.variables > most_variables(table)),
              ("arrays", table.arrays > 16), ("no nodes", table.nodes < 1), ("nodes", table.nodes > 4096))
    return [fault for fault, holds in faults if holds]


def array_faults(table, array):
    total = sum(table.cells(i) for i in range(array + 1))
    return [("cells", array)] * (table.cells(array) < 1) + [("sum", array)] * (total > 16384)


def limit_faults(table, role, number):
    if role == "header":
        return header_faults(table)
    if role == "labels":
        return [("mask", what) for what in ("variable", "array") if table.mask(what)]
    return array_faults(table, number) if role == "array" else []


def range_faults(table, node):
    limits = {"x": table.variables, "a": table.arrays, "b": 2, "N": node, "T": node, "C": node}
    names = {"x": "variable", "a": "array", "b": "constant"}
    return [(node, names.get(letter, "child"), value) for letter, value in table.fields(node)
            if letter != "n" and value >= limits[letter]]


def sort_faults(table, node):
    return [(node, value, WANTED[letter]) for letter, value in table.fields(node)
            if letter in WANTED and value < node and SORTS.get(table.kind(value)) not in (letter, None)]


def tree_faults(table):
    found = []
    for node in range(table.nodes - 1):
        times = len(table.parents(node))
        if times != 1:
            found.append(("orphan" if times == 0 else "parents", node))
    if SORTS.get(table.kind(table.nodes - 1)) != "C":
        found.append(("last", table.nodes - 1))
    return found


def record_refusal(table, place, role, number):
    """The first refusal that holds of one record, or 0."""
    left = len(table.data) - place
    if left < 4:
        return 1
    length, kind = table.u16(place), table.u16(place + 2)
    if role == "node":
        fits = kind in KINDS and length == LENGTHS[kind]
    else:
        fits = (kind, length) == declaration(role, table.version)
    if not fits:
        return 2
    if left < length:
        return 1
    if limit_faults(table, role, number):
        return 3
    if role == "node" and range_faults(table, number):
        return 4
    return 5 if role == "node" and sort_faults(table, number) else 0


def judge(table):
    """The refusal of hardening and its place; 0 where it accepts."""
    at = 0
    for role, count in (("header", 1), ("labels", 1), ("array", table.arrays), ("node", table.nodes)):
        for number in range(count):
            refusal = record_refusal(table, at, role, number)
            if refusal:
                return refusal, at
            at += table.u16(at)
    broken = tree_faults(table)
    if broken:
        return 6, table.place("node", broken[0][1])
    if at < len(table.data):
        return 7, at
    return (8, 0) if table.nodes > 512 else (9, 0) if table.variables == 64 else (0, None)


def record_faults(table, refusal, place, role):
    """All that breaks rule 1 or 2 in a record."""
    left = len(table.data) - place
    if left < 4:
        return [("head", place)] if refusal == 1 else []
    length, kind = table.u16(place), table.u16(place + 2)
    if refusal == 1:
        return [("body", place)] * (left < length)
    if role == "node":
        return [("kind", place)] if kind not in KINDS else [("length", place)] * (length != LENGTHS[kind])
    wanted = declaration(role, table.version)
    return [("kind", place)] * (kind != wanted[0]) + [("length", place)] * (length != wanted[1])


def all_faults(table, refusal, place):
    """Every fault that is to be told for this refusal and place."""
    role, number = table.role(place) or (None, None)
    if refusal <= 5 and role is None:
        return []
    if refusal <= 2:
        return record_faults(table, refusal, place, role)
    if refusal == 3:
        whole = not any(record_faults(table, before, place, role) for before in (1, 2))
        return limit_faults(table, role, number) if whole else []
    if refusal <= 5:
        return (range_faults if refusal == 4 else sort_faults)(table, number) if role == "node" else []
    if refusal == 6:
        return tree_faults(table)
    if refusal == 7:
        return ["extra"] * (table.indices.get(place) == 2 + table.arrays + table.nodes and place < len(table.data))
    if refusal == 8 and table.nodes <= 512:
        return []
    return ["too many nodes"] * (refusal == 8) + ["no free variable"] * (table.variables == 64)


# ---- The wordings: each claim is looked up in the bytes, and gives the fault that it names; None: it is not true ----

WORDINGS = []
met = Counter()


def wording(pattern):
    def add(function):
        WORDINGS.append((function.__name__, re.compile(pattern), function))
        return function
    return add


RECORD = r"(?P<record>the header record|the labels record|array record \d+|node \d+)"
NODE = r"node (?P<node>\d+) \((?P<kind>\w+), byte (?P<place>\d+)\)"
DECLARED = r"(?P<declared>none is|\d+ (?:is|are)) declared"


def named(text):
    """A record's name as role and number."""
    words = text.split()
    return (words[1], 0) if words[0] == "the" else (words[0], int(words[-1]))


def is_there(table, match):
    """Does the record of this name begin at this byte?"""
    role, number = named(match["record"])
    met["of " + role] += 1
    return table.role(int(match["place"])) == (role, number)


def is_node(table, match):
    """Is the node of this number at this byte and of this kind?"""
    node, place = int(match["node"]), int(match["place"])
    return node < table.nodes and table.place("node", node) == place and KINDS.get(table.kind(node), ("",))[0] == match["kind"]


def counted(count, noun):
    return noun if count == 1 else noun + "s"


def declared(count):
    met["declared: %s" % min(count, 2)] += 1
    return "none is" if count == 0 else "1 is" if count == 1 else "%d are" % count


def article(noun):
    found = "an" if noun in ("add", "and", "equal", "if", "assign") else "a"
    met["article " + found] += 1
    return found


def due_is_right(table, match):
    """Of a node or array that is cut: is it said how many of them the header declares?"""
    role = named(match["record"])[0]
    if role not in ("node", "array"):
        return match["due"] is None
    count = table.nodes if role == "node" else table.arrays
    met["due: %s %s" % (min(count, 2), role)] += 1
    return match["due"] == "%d %s" % (count, counted(count, role))


DUE = r"(?: \(the header declares (?P<due>\d+ \w+)\))?"


@wording(r"(?P<left>\d+) (?P<noun>bytes?) (?P<verb>remains?) at byte (?P<place>\d+), where " + RECORD +
         r" begins; its head takes 4" + DUE)
def cut_head(table, match):
    left = int(match["left"])
    met["left %d" % left] += 1
    true = is_there(table, match) and left == len(table.data) - int(match["place"]) < 4 and due_is_right(table, match)
    grammar = (match["noun"], match["verb"]) == (("byte", "remains") if left == 1 else ("bytes", "remain"))
    return ("head", int(match["place"])) if true and grammar else None


@wording(RECORD + r" \((?:(?P<kind>\w+), )?byte (?P<place>\d+)\) is (?P<length>\d+) bytes long, and (?P<left>\d+) remain" + DUE)
def cut_body(table, match):
    place, left = int(match["place"]), len(table.data) - int(match["place"])
    if not is_there(table, match) or left < 4:
        return None
    kind = KINDS.get(table.u16(place + 2), (None,))[0] if match["record"].startswith("node") else None
    true = int(match["length"]) == table.u16(place) > left == int(match["left"]) and match["kind"] == kind
    return ("body", place) if true and due_is_right(table, match) else None


@wording(RECORD + r" \(byte (?P<place>\d+)\) has kind (?P<kind>\d+)(?: \((?P<name>\w+)\))?, "
         r"and kind (?P<wanted>\d+) is wanted here")
def wrong_kind(table, match):
    place, kind, role = int(match["place"]), int(match["kind"]), named(match["record"])[0]
    met["kind named" if match["name"] else "kind not named"] += 1
    true = (is_there(table, match) and table.u16(place + 2) == kind != int(match["wanted"])
            and int(match["wanted"]) == declaration(role, table.version)[0]
            and match["name"] == KINDS.get(kind, (None,))[0])
    return ("kind", place) if true else None


def other_version(table, place, role, length):
    """What is said of a labels record that is as long as those of the other version."""
    others = [version for version in MASK_BYTES if version != table.version and table.u16(place + 2) == 3
              and role == "labels" and length == declaration(role, version)[1]]
    if not others:
        return None
    met["labels of version %d in version %d" % (others[0], table.version)] += 1
    return "%d belongs to version %d, and the header says %d" % (length, others[0], table.version)


@wording(RECORD + r" \(byte (?P<place>\d+)\) is (?P<length>\d+) (?P<noun>bytes?) long, and takes (?P<wanted>\d+)"
         r"(?:: (?P<other>.+))?")
def wrong_length(table, match):
    place, length, role = int(match["place"]), int(match["length"]), named(match["record"])[0]
    met["length %s" % min(length, 2)] += 1
    true = (is_there(table, match) and table.u16(place) == length != int(match["wanted"])
            and int(match["wanted"]) == declaration(role, table.version)[1] and match["noun"] == counted(length, "byte")
            and match["other"] == other_version(table, place, role, length))
    return ("length", place) if true else None


@wording(r"(?P<record>node \d+) \(byte (?P<place>\d+)\) has kind (?P<kind>\d+), which no node has")
def unknown_kind(table, match):
    place, kind = int(match["place"]), int(match["kind"])
    return ("kind", place) if is_there(table, match) and table.u16(place + 2) == kind and kind not in KINDS else None


@wording(NODE + r" is (?P<length>\d+) (?P<noun>bytes?) long, and (?P<article>an?) (?P<again>\w+) takes (?P<wanted>\d+)")
def wrong_node_length(table, match):
    place, length = int(match["place"]), int(match["length"])
    true = (is_node(table, match) and table.u16(place) == length != int(match["wanted"])
            and int(match["wanted"]) == LENGTHS[table.kind(int(match["node"]))] and match["again"] == match["kind"]
            and match["article"] == article(match["kind"]) and match["noun"] == counted(length, "byte"))
    return ("length", place) if true else None


@wording(r"version (?P<version>\d+), only 1 and 2 are known")
def version(table, match):
    met["version %s" % min(table.version, 3)] += 1
    return "version" if table.version == int(match["version"]) and table.version not in (1, 2) else None


@wording(r"(?P<count>\d+) (?P<what>arrays|nodes), at most (?P<most>\d+)")
def too_many(table, match):
    count, most = {"arrays": (table.arrays, 16), "nodes": (table.nodes, 4096)}[match["what"]]
    met["too many " + match["what"]] += 1
    return match["what"] if (int(match["count"]), int(match["most"])) == (count, most) and count > most else None


@wording(r"(?P<count>\d+) variables, at most (?P<most>32 in version 1(?:; version 2 declares up to 64)?|64(?: in version 2)?)")
def too_many_variables(table, match):
    if table.version != 1:
        most = "64 in version 2" if table.version == 2 else "64"
    else:
        most = "32 in version 1; version 2 declares up to 64" if table.variables <= 64 else "32 in version 1"
    met["too many variables: %s, version %d" % (most, min(table.version, 3))] += 1
    true = int(match["count"]) == table.variables > most_variables(table) and match["most"] == most
    return "variables" if true else None


@wording(r"0 nodes, at least 1")
def no_nodes(table, match):
    return "no nodes" if table.nodes == 0 and len(table.data) >= 10 else None


@wording(r"(?P<what>variable|array) (?P<bit>\d+)(?P<verb> is| and (?P<more>\d+) more are) marked secret, but " + DECLARED)
def marked(table, match):
    bits, count = table.mask(match["what"]), table.variables if match["what"] == "variable" else table.arrays
    met["marked %s%s" % (match["what"], " and more" if match["more"] else "")] += 1
    met["marked from 32 up"] += match["what"] == "variable" and int(match["bit"]) >= 32
    true = bits and bits[0] == int(match["bit"]) and int(match["more"] or 0) == len(bits) - 1 and (match["more"] or "1") != "0"
    return ("mask", match["what"]) if true and match["declared"] == declared(count) else None


@wording(r"array (?P<array>\d+) has 0 cells, at least 1")
def no_cells(table, match):
    array = int(match["array"])
    return ("cells", array) if array < table.arrays and table.place("array", array) and table.cells(array) == 0 else None


@wording(r"the cells sum to (?P<sum>\d+) at array (?P<array>\d+), at most 16384")
def cell_sum(table, match):
    array = int(match["array"])
    if array >= table.arrays or table.place("array", array) is None:
        return None
    return ("sum", array) if sum(table.cells(i) for i in range(array + 1)) == int(match["sum"]) > 16384 else None


@wording(NODE + r": (?P<what>variable|array) (?P<value>\d+), but " + DECLARED)
def not_declared(table, match):
    letter, count = ("x", table.variables) if match["what"] == "variable" else ("a", table.arrays)
    value = int(match["value"])
    met["not declared: " + match["what"]] += 1
    true = is_node(table, match) and (letter, value) in table.fields(int(match["node"])) and value >= count
    return (int(match["node"]), match["what"], value) if true and match["declared"] == declared(count) else None


@wording(NODE + r": child (?P<value>\d+) is not below the node itself")
def not_below(table, match):
    node, value = int(match["node"]), int(match["value"])
    children = [number for letter, number in table.fields(node) if letter in WANTED] if is_node(table, match) else []
    return (node, "child", value) if value in children and value >= node else None


@wording(NODE + r": constant (?P<value>\d+), at most 1")
def no_constant(table, match):
    node, value = int(match["node"]), int(match["value"])
    return (node, "constant", value) if is_node(table, match) and ("b", value) in table.fields(node) and value > 1 else None


@wording(NODE + r": node (?P<child>\d+) is (?P<article>an?) (?P<name>\w+) where a (?P<wanted>number|truth|command) is wanted")
def wrong_sort(table, match):
    node, child, wanted = int(match["node"]), int(match["child"]), match["wanted"]
    met["wanted " + wanted] += 1
    true = (is_node(table, match) and (wanted[0].upper(), child) in table.fields(node) and child < node
            and KINDS.get(table.kind(child), ("",))[0] == match["name"] and WANTED[SORTS[table.kind(child)]] != wanted)
    return (node, child, wanted) if true and match["article"] == article(match["name"]) else None


@wording(NODE + r" is a child of no node")
def orphan(table, match):
    node = int(match["node"])
    return ("orphan", node) if is_node(table, match) and table.parents(node) == [] and node != table.nodes - 1 else None


TIMES = {2: "twice", 3: "three times"}


@wording(NODE + r" is a child of node (?P<parent>\d+) (?P<times>twice|three times)")
def one_parent(table, match):
    node, parents = int(match["node"]), table.parents(int(match["node"]))
    met["one parent " + match["times"]] += 1
    true = is_node(table, match) and set(parents) == {int(match["parent"])} and TIMES.get(len(parents)) == match["times"]
    return ("parents", node) if true else None


@wording(NODE + r" is a child of nodes (?P<parents>\d.*)")
def parents(table, match):
    node, times = int(match["node"]), Counter(table.parents(int(match["node"])))
    if not is_node(table, match) or len(times) < 2:
        return None
    said, _, last = match["parents"].rpartition(" and ")
    said = said.split(", ") + [last]
    true = [str(parent) + (" (%s)" % TIMES[times[parent]] if times[parent] > 1 else "") for parent in sorted(times)]
    met["parents %s" % (min(len(true), 3) if len(true) <= MOST_NAMED else "beyond eight")] += 1
    for times_said in TIMES.values():
        met["one of several " + times_said] += any(times_said in one for one in said)
    if len(true) > MOST_NAMED:
        true = true[:MOST_NAMED] + ["%d more" % (len(true) - MOST_NAMED)]
    return ("parents", node) if said == true else None


@wording(NODE + r" is the last and no command")
def last(table, match):
    node = int(match["node"])
    return ("last", node) if is_node(table, match) and node == table.nodes - 1 and SORTS[table.kind(node)] != "C" else None


@wording(r"(?P<count>\d+) (?P<noun>bytes?) after the last node, from byte (?P<place>\d+) on")
def extra(table, match):
    count, place = int(match["count"]), int(match["place"])
    met["extra %s" % min(count, 2)] += 1
    index = 2 + table.arrays + table.nodes
    true = index < len(table.places) and table.places[index] == place and len(table.data) - place == count > 0
    return "extra" if true and match["noun"] == counted(count, "byte") else None


@wording(r"(?P<count>\d+) nodes, at most 512 can be hardened")
def too_many_to_harden(table, match):
    return "too many nodes" if table.nodes == int(match["count"]) > 512 else None


@wording(r"64 variables, at most 63 can be hardened: none is left for the flag")
def no_free_variable(table, match):
    return "no free variable" if table.variables == 64 else None


# What is counted besides the wordings: their forms.
FORMS = (["of header", "of labels", "of array", "of node"] + ["left %d" % left for left in range(4)] +
         ["due: %d %s" % (count, role) for count in (1, 2) for role in ("node", "array")] +
         ["declared: %d" % count for count in range(3)] + ["article a", "article an", "kind named", "kind not named"] +
         ["length %d" % length for length in range(3)] + ["too many arrays", "too many nodes", "version 0", "version 3"] +
         ["too many variables: 32 in version 1" + more + ", version 1" for more in ("", "; version 2 declares up to 64")] +
         ["too many variables: 64 in version 2, version 2"] + ["too many variables: 64, version %d" % version for version in (0, 3)] +
         ["labels of version 1 in version 2", "labels of version 2 in version 1", "marked from 32 up"] +
         ["marked variable", "marked variable and more", "marked array", "marked array and more"] +
         ["not declared: variable", "not declared: array", "wanted number", "wanted truth", "wanted command"] +
         ["parents 2", "parents 3", "parents beyond eight", "extra 1", "extra 2"] +
         [form + times for form in ("one parent ", "one of several ") for times in TIMES.values()] +
         ["refusal %d, several faults" % refusal for refusal in (2, 3, 4, 5, 6, 8)] +
         ["wrong: nothing found", "wrong: another first node", "wrong: true all the same", "wrong: from 10 up"] +
         ["accepted, version 1", "accepted, version 2", "accepted, version 1 with 32 variables"])

# ---- Lines ----

NOTHING = re.compile(r"no fault of this sort is found(?: at byte (\d+))?: please report this table")
ANOTHER = re.compile(r"the first such node stands at byte (\d+), not at byte (\d+): please report this table")
MEANINGS = {10: "directive list", 11: "list of questions", 20: "variables", 21: "cells", 22: "pending", 23: "buffer",
            24: "save words"}


class Wrong(Exception):
    pass


def require(condition, text):
    if not condition:
        raise Wrong(text)


def fault_claimed(table, line):
    """The fault that a line names, after its claim was looked up."""
    for name, pattern, look_up in WORDINGS:
        match = pattern.fullmatch(line)
        if match:
            met[name] += 1
            fault = look_up(table, match)
            require(fault is not None, "not true: " + line)
            return fault
    raise Wrong("no wording: " + line)


def check_refusal_line(line, refusal, place, faults):
    where = " at byte %d" % place if refusal <= 7 else ""
    more = " (and %d more: flow explain)" % (len(faults) - 1) if len(faults) > 1 else ""
    require(line == "standard input: refused by %d%s: %s%s" % (refusal, where, faults[0], more), "print_refusal: " + line)


def check_library(table, refusal, place, faults):
    """The library's answer must be the reader's, and all its faults be told."""
    if refusal == 0:
        met["accepted, version %d" % table.version] += 1
        met["accepted, version 1 with 32 variables"] += (table.version, table.variables) == (1, 32)
        require(faults == [""], "words for a table that is accepted")
        return
    claimed = [fault_claimed(table, line) for line in faults]
    wanted = all_faults(table, refusal, place)
    require(claimed == wanted, "faults %s are claimed, and there are %s" % (claimed, wanted))
    met["refusal %d, several faults" % refusal] += len(faults) > 1


def check_another(table, place, another, claimed):
    """Another node is the first that breaks rule 6: that is said, and then all of them."""
    met["wrong: another first node"] += 1
    require(claimed == tree_faults(table), "not all nodes that break the rule")
    require((int(another[1]), int(another[2])) == (table.place("node", claimed[0][1]), place) and another[1] != another[2],
            "not the first such node")


def check_wrong(table, refusal, place, faults, right):
    """A wrong answer was handed in: nothing may be claimed but what is true of that place, and all of this, or nothing where the
    reader does not come that far."""
    nothing, another = NOTHING.fullmatch(faults[0]), ANOTHER.fullmatch(faults[0])
    if not 1 <= refusal <= 9:
        met["wrong: from 10 up"] += 1
        require(len(faults) == 1 and MEANINGS.get(refusal, "no refusal") in faults[0], "not the meaning of the refusal")
        return
    claimed = [] if nothing else [fault_claimed(table, line) for line in faults[1 if another else 0:]]
    if another:
        require(refusal == 6, "another first node, but not for 6")
        check_another(table, place, another, claimed)
        return
    met["wrong: nothing found" if nothing else "wrong: true all the same"] += 1
    require(not nothing or len(faults) == 1 and nothing[1] == (str(place) if refusal <= 7 else None), "not said at which byte")
    beyond = right == (3, 0) and header_faults(table) != ["no nodes"]
    require(nothing or not beyond or refusal <= 5 and place == 0, "said of what stands behind a header that is beyond the limits")
    in_order = right[0] in (0, 6, 7, 8, 9) or refusal <= 5 and place <= right[1]
    require(nothing and not in_order or claimed == all_faults(table, refusal, place), "not the faults there: %s" % claimed)
    require(refusal != 6 or nothing or table.place("node", claimed[0][1]) == place, "another place for 6, and it is not said")


def check_line(table, right, columns):
    refusal, place, whose, refusal_line, faults = int(columns[1]), int(columns[2]), columns[3], columns[4], columns[5].split("|")
    if whose == "library":
        answer = refusal, place if refusal else None
        require(answer == right, "the library says %s, and the reader %s" % (answer, right))
        check_library(table, refusal, place, faults)
    else:
        require((refusal, place) != right, "not a wrong answer")
        check_wrong(table, refusal, place, faults, right)
    if refusal:
        check_refusal_line(refusal_line, refusal, place, faults)


def main():
    lines = failures = 0
    text, table, right, columns = None, None, None, []
    for line in sys.stdin:
        columns = line.rstrip("\n").split("\t")
        if len(columns) != 6:
            break
        if columns[0] != text:
            text = columns[0]
            table = Table(bytes.fromhex("" if text == "-" else text))
            right = judge(table)
        lines += 1
        try:
            check_line(table, right, columns)
        except Wrong as wrong:
            failures += 1
            if failures <= 5:
                print("%s\n  %s\n  %s\n" % (wrong, " ".join(columns[1:]), text[:400]))
    never = [name for name in [name for name, _, _ in WORDINGS] + FORMS if not met[name]]
    for name in never:
        print("never met: " + name)
    whole = columns == ["end", str(lines)]
    if not whole:
        print("the lines break off after %d" % lines)
    print("explain: %d lines checked, %d wrong; %d wordings and %d forms of them, %d never met"
          % (lines, failures, len(WORDINGS), len(FORMS), len(never)))
    return 1 if failures or never or not whole else 0


if __name__ == "__main__":
    sys.exit(main())
