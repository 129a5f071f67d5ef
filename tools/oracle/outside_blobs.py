# Blobs for tools/outside-reader: good ones in every layout that the reading takes, one by hand for each rule of
# outside_rules.py, and altered ones.
from collections import defaultdict
from itertools import zip_longest

from laid_out import laid_out as plain, padded, reserved, word as words
from readers import LETTERS, NODE, PROPERTY, some


def set_word(blob, index, value):
    """A blob with another word."""
    return blob[:4 * index] + words(value) + blob[4 * index + 4:]


def begin(name=""):
    """Word 1 and a name."""
    return words(1, padded(name.encode("latin-1") + b"\0"))


def root(*parts):
    """A root around parts, and word 9."""
    return words(begin(), *parts, 2, 9)


def a_property(name, value, names):
    """A property whose name stands in some strings."""
    return words(3, len(value), names.index(name + b"\0"), padded(value))


def with_properties(*given):
    """A blob whose root has properties, each a name and a value."""
    names = b"".join(dict.fromkeys(name + b"\0" for name, _ in given))
    return plain(root(*(a_property(name, value, names) for name, value in given)), names)


# ---- by hand


def headers_by_hand():
    """Blobs that differ in the header: the rule, the blob, our number, and what libfdt and dtc do."""
    empty = plain(root())
    yield "bytes after the total size", empty + b"\0", 21, "reads", "reads"
    yield "another version", plain(root(), version=18), 21, "reads", "reads"
    yield "another version", plain(root(), version=16), 21, "reads", "reads"
    yield "another last compatible version", plain(root(), last=17), 21, "reads", "reads"
    yield "another last compatible version", plain(root(), last=2), 21, "reads", "reads"
    yield "another last compatible version", plain(root(), last=18), 21, "refuses", "reads"
    yield "reservations at no multiple of 8", words(0xD00DFEED, 76, 60, 76, 44, 17, 16, 0, 0, 16, 0, reserved(()), root()), 21, "reads", "reads"
    yield "a structure at no multiple of 4", words(0xD00DFEED, 73, 57, 73, 40, 17, 16, 0, 0, 16, reserved(()), b"\0", root()), 21, "reads", "reads"
    yield None, set_word(empty, 0, 0xD00DFEEE), 21, "refuses", "refuses"
    yield None, empty[:-1], 21, "refuses", "refuses"
    yield None, set_word(empty, 9, 20), 21, "refuses", "refuses"
    yield None, set_word(empty, 8, 1), 21, "refuses", "refuses"
    yield None, b"", 21, "refuses", "refuses"
    in_header = "an area that starts in the header"
    yield in_header, set_word(set_word(empty, 3, 0), 8, 72), 0, "refuses", "reads"
    yield in_header, set_word(set_word(plain(root(words(3, 0, 45)), b"a\0"), 3, 39), 8, 47), 0, "refuses", "reads"
    yield None, set_word(set_word(plain(root(words(3, 0, 44)), b"a\0"), 3, 40), 8, 46), 0, "reads", "reads"
    yield None, set_word(empty, 4, 64), 22, "refuses", "refuses"
    yield None, set_word(empty, 4, 4096), 22, "refuses", "refuses"
    yield "reservations that end at a size of 0", set_word(empty, 11, 5), 22, "reads", "reads"
    yield "a reservation of size 0", plain(root(), pairs=[(5, 0), (6, 1)]), 0, "differs", "differs"


def structures_by_hand():
    """Blobs that differ in the structure."""
    yield "a property after a child", plain(root(begin("a"), words(2, 3, 0, 0)), b"a\0"), 23, "reads", "reads"
    yield "a property after a child", plain(root(begin("a"), words(2, 4, 3, 0, 0)), b"a\0"), 23, "reads", "reads"
    yield None, plain(words(begin(), 2, 3, 0, 0, 9), b"a\0"), 23, "refuses", "refuses"
    yield "words after word 9", plain(root() + words(9)), 23, "reads", "reads"
    yield "words after word 9", plain(root() + words(4)), 23, "reads", "reads"
    yield "words after word 9", plain(root() + b"\0"), 23, "reads", "reads"
    yield "a structure longer than its size", set_word(plain(root()), 9, 12), 23, "refuses", "reads"
    yield "a structure longer than its size", set_word(plain(root(begin("abcdefg"), words(2))), 9, 16), 23, "refuses", "reads"
    yield "a structure longer than its size", set_word(plain(root(words(3, 4, 0, 0)), b"a\0"), 9, 23), 23, "refuses", "reads"
    yield "a structure longer than its size", set_word(plain(root(words(4))), 9, 12), 23, "refuses", "reads"
    yield "a value length that wraps", plain(root(words(3, 0xFFFFFFFF, 0)), b"a\0"), 23, "reads", "refuses"
    yield "a value length that wraps", plain(root(words(3, 0xFFFFFFF9, 2, 9)), b"a\0b\0"), 23, "reads", "refuses"
    yield None, plain(root(words(3, 0xFFFFFFF4, 0)), b"a\0"), 23, "refuses", "refuses"
    yield None, plain(root(words(3, 1, 0)), b"a\0"), 23, "refuses", "refuses"
    yield None, plain(root(words(3, 0, 2)), b"a\0"), 24, "refuses", "refuses"
    yield None, plain(root(words(3, 0, 0)), b"a"), 24, "refuses", "refuses"
    yield None, plain(root(words(5))), 23, "refuses", "refuses"
    yield None, plain(words(begin(), 9)), 23, "refuses", "refuses"
    yield None, plain(words(2, 9)), 23, "refuses", "refuses"
    deep = lambda depth: plain(begin() + begin("a") * (depth - 1) + words(2) * depth + words(9))
    yield None, deep(64), 0, "reads", "reads"
    yield "depth 65", deep(65), 25, "reads", "reads"
    yield "depth 65", deep(90), 25, "reads", "reads"


def words_4_by_hand():
    """Blobs with words 4: before each token of a tree, outside the root, and with nothing after them."""
    a, b = words(3, 1, 0, padded(b"x")), words(3, 0, 2)
    parts = [begin(), a, b, begin("a"), a, words(2), begin("b"), words(2), words(2)]
    for k in range(1, len(parts)):
        yield None, plain(words(*parts[:k], 4, *parts[k:], 9), b"a\0b\0"), 0, "reads", "reads"
    yield None, plain(words(parts[0], *(part for token in parts[1:] for part in (4, 4, 4, token)), 9), b"a\0b\0"), 0, "reads", "reads"
    yield None, plain(root(a, words(*[4] * 1000), b), b"a\0b\0"), 0, "reads", "reads"
    yield None, plain(root(words(3, 8, 0, 4, 4)), b"a\0"), 0, "reads", "reads"
    for count in (1, 2):
        yield "a word 4 before the root", plain(words(*[4] * count, root(a)), b"a\0"), 0, "refuses", "refuses"
        yield "a word 4 after the root", plain(words(begin(), a, 2, *[4] * count, 9), b"a\0"), 0, "refuses", "refuses"
    yield None, plain(words(begin(), 2, 4)), 23, "refuses", "refuses"
    yield None, plain(words(begin(), 4)), 23, "refuses", "refuses"
    yield None, plain(words(4)), 23, "refuses", "refuses"


def trees_by_hand():
    """Blobs that are read, and differ in what they describe."""
    node = lambda name: words(begin(name), 2)
    yield None, plain(root()), 0, "reads", "reads"
    yield "no top node", plain(words(9)), 0, "refuses", "refuses"
    yield "several top nodes", plain(node("") + root()), 0, "refuses", "refuses"
    yield "a named top node", plain(words(node("a"), 9)), 0, "refuses", "reads"
    yield None, plain(root(node(""))), 0, "reads", "reads"
    yield None, plain(root(node("a@"))), 0, "reads", "reads"
    yield None, with_properties((b"", b"")), 0, "reads", "reads"
    yield None, with_properties((b"", b"a = b\0")), 0, "reads", "reads"
    for value in (b"a\0", b"ab\0\0", b"a\x001\0", b"a\x008\0", b"\\0\0\\\x007\0", b"\a\b\t\n\v\f\r\"\\\0", b"\xe9\0"):
        yield None, with_properties((b"a", value)), 0, "reads", "reads"
    yield "two siblings of one name", plain(root(node("a"), node("a"))), 0, "reads", "refuses"
    yield "a property twice in a node", with_properties((b"a", b""), (b"a", b"")), 0, "reads", "refuses"
    bad_node, bad_property = ("a byte that dtc does not take in a %s's name" % what for what in ("node", "property"))
    for odd in ("/", " ", "#", "\xe9", "\n"):
        yield bad_node, plain(root(node(odd))), 0, "reads", "refuses"
    for odd in (b"@", b"/", b" ", b"\xe9", b"\n"):
        yield bad_property, with_properties((odd, b"")), 0, "reads", "refuses"
    yield "two @ in a node's name", plain(root(node("a@1@2"))), 0, "reads", "refuses"
    for wrong in (b"", b"a\0", b"\0\0"):
        yield "a wrong property called name", with_properties((b"name", wrong)), 0, "reads", "refuses"
    yield "a property called name", with_properties((b"name", b"\0")), 0, "reads", "differs"
    for wrong in (words(0), words(-1), b"", b"\0\0\1", words(1, 1)):
        yield "a wrong phandle", with_properties((b"phandle", wrong)), 0, "reads", "refuses"
        yield "a wrong phandle", with_properties((b"linux,phandle", wrong)), 0, "reads", "refuses"
    yield "a wrong phandle", with_properties((b"phandle", words(1)), (b"linux,phandle", words(2))), 0, "reads", "refuses"
    yield None, with_properties((b"phandle", words(1)), (b"linux,phandle", words(1))), 0, "reads", "reads"
    one = a_property(b"phandle", words(1), b"phandle\0")
    yield "one phandle in two nodes", plain(root(one, begin("a"), one, words(2)), b"phandle\0"), 0, "reads", "refuses"


def endless_by_hand():
    """Blobs on which dtc aborts or never ends; no altered blob is made of them."""
    yield "an interrupt-parent that is no cell", with_properties((b"interrupts", b""), (b"interrupt-parent", b"")), 0, "reads", "refuses"
    yield "#clock-cells of 2^32 - 1", with_properties((b"phandle", words(1)), (b"#clock-cells", words(-1)), (b"clocks", words(1))), 0, "reads", "refuses"


# ---- good ones


def a_value(r):
    """A value: strings, cells, any bytes, or nothing."""
    texts = [some(r, r.choice([LETTERS, "01279 ", "\"\\\a\b\t\n\v\f\r\x1b", " -~={};/<>[]"]), 0, 6) for _ in range(r.randint(1, 4))]
    strings = "".join(text + "\0" for text in texts).encode("latin-1")
    cells = words(*(r.choice([0, 1, 0x61626300, r.randrange(1 << 32)]) for _ in range(r.randrange(4))))
    return r.choice([strings, strings, cells, r.randbytes(r.randrange(9)), b""])


def a_name(r, taken, letters, odd):
    """A name that its neighbours do not have; an odd one may be any."""
    if r.random() < odd:
        return r.choice(["", "a", "/", "\xff\xe9", "a b", "a@1@2", "name", some(r, "a@#?*{};", 1, 3)])
    name = some(r, LETTERS, 1, 1) + some(r, letters, 0, r.choice([0, 2, 9, 30]))
    return name if name not in taken else a_name(r, taken, letters, 0)


def a_node(r, name, budget, odd, depth=1):
    """A node with properties and children, as many as the budget lets."""
    node = [name, [], []]
    for _ in range(r.randrange(4)):
        node[1].append([a_name(r, [n for n, _ in node[1]], PROPERTY, odd), a_value(r)])
    if r.random() < 0.03:
        node[1].append(["name", name.partition("@")[0].encode("latin-1") + b"\0"])
    while budget[0] > 0 and depth < 64 and r.random() < 0.7:
        budget[0] -= 1
        taken = [child[0] for child in node[2]]
        below = a_name(r, taken, NODE, odd) + r.choice(["", "", "@" + some(r, NODE, 0, 3)])
        if odd or below not in taken:
            node[2].append(a_node(r, below, budget, odd, depth + 1))
    return node


def the_strings(r, names):
    """A strings area, and where each use of a name stands: each name once, tails shared, or each use apart."""
    habit, area, places = r.choice(["once", "tails", "apart"]), r.randbytes(r.choice([0, 0, 3])), []
    for name in sorted(names, key=len, reverse=True) if habit == "tails" else names:
        entry = name.encode("latin-1") + b"\0"
        at = -1 if habit == "apart" else area.find(entry)
        if at < 0 or (habit == "once" and at > 0 and area[at - 1]):
            at = len(area)
            area += entry
        places.append((name, at))
    r.shuffle(places)
    return area + r.randbytes(r.choice([0, 0, 2])), dict(places)


def tokens(r, node, places):
    """The tokens of a node, with any padding."""
    yield words(1, padded(node[0].encode("latin-1") + b"\0", r))
    for name, value in node[1]:
        yield words(3, len(value), places[name], padded(value, r))
    for child in node[2]:
        yield from tokens(r, child, places)
    yield words(2)


def structure_of(r, tops, places, skipped):
    """The structure of some top nodes, with so many words 4 before each token; none where that is not said."""
    found = [*(token for node in tops for token in tokens(r, node, places)), words(9)]
    return words(*(words(*[4] * count, token) for token, count in zip_longest(found, skipped, fillvalue=0)))


def some_skipped(r, tops):
    """How many words 4 come before each token of some top nodes: in half of the blobs none inside nodes; outside of them few."""
    count = sum(1 for node in tops for _ in tokens(None, node, defaultdict(int)))
    skipped = [r.choice([0, 0, 1, 3]) for _ in range(count + 1)] if r.random() < 0.5 else [0] * (count + 1)
    skipped[0], skipped[-1] = r.choice([(0, 0)] * 12 + [(1, 0), (0, 1), (2, 3)])
    return skipped


def all_names(nodes):
    """The properties' names in their order."""
    for node in nodes:
        yield from (name for name, _ in node[1])
        yield from all_names(node[2])


def laid_out(r, boot, reservations, tops, skipped=()):
    """A blob of a description: areas in any order, any bytes between them, a strings area that may lie over others, and words 4."""
    strings, places = the_strings(r, list(all_names(tops)))
    lengths = {"reservations": len(reserved(reservations)), "structure": len(structure_of(None, tops, places, skipped)), "strings": len(strings)}
    order, starts, at = list(lengths), {}, 40
    if r.random() < 0.7:
        r.shuffle(order)
    for area in order:
        unit = {"reservations": 8, "structure": 4, "strings": 1}[area]
        starts[area] = at = -(-(at + r.choice([0, 0, 0, 5, 16])) // unit) * unit
        at += lengths[area]
    total = at + r.choice([0, 0, 3])
    low = r.choice([starts["strings"]] * 6 + [40, 40, 0, 39])
    high = r.choice([starts["strings"] + len(strings)] * 3 + [total])
    structure = structure_of(r, tops, {name: at + starts["strings"] - low for name, at in places.items()}, skipped)
    blob = bytearray(r.randbytes(total))
    for area, data in (("reservations", reserved(reservations)), ("structure", structure), ("strings", strings)):
        blob[starts[area]:starts[area] + len(data)] = data
    blob[:40] = words(0xD00DFEED, total, starts["structure"], low, starts["reservations"], 17, 16, boot, high - low, len(structure))
    return bytes(blob)


def a_good_blob(r):
    """A blob that is read, of any layout; most describe what the specification takes."""
    odd = r.choice([0, 0, 0, 0.15])
    sizes = [1, 4096, (1 << 64) - 1] + [0] * (r.random() < 0.1)
    reservations = [(r.choice([r.randrange(1 << 64), 1]), r.choice(sizes)) for _ in range(r.choice([0, 0, 1, 3]))]
    names = r.choice([[""]] * 12 + [[], ["", "b"], ["a"], ["a@1", ""]])
    tops = [a_node(r, name, [r.choice([0, 2, 8])], odd) for name in names]
    return laid_out(r, r.choice([0, r.randrange(1 << 32)]), reservations, tops, some_skipped(r, tops))


# ---- altered ones

# Words that mean something somewhere, and tokens.
TELLING = [0, 1, 2, 3, 4, 5, 9, 12, 16, 17, 18, 40, 56, 72, 0x61000000, 0x80000000, 0xFFFFFFF9, 0xFFFFFFFC, 0xFFFFFFFF]
TOKENS = [words(4), words(2), words(9), words(1, 0), words(1, 0, 2), words(3, 0, 0), words(3, 0xFFFFFFFF, 0), words(5)]


def word_of(blob, index):
    """A word of a blob."""
    return int.from_bytes(blob[4 * index:4 * index + 4], "big")


def spliced(blob, at, out, part):
    """A blob with some bytes at a place of its structure taken out, a part put there, and a header that fits."""
    by = len(part) - out
    header = [word_of(blob, k) + (by if k in (1, 9) or (k in (2, 3, 4) and word_of(blob, k) > at) else 0) for k in range(10)]
    return words(*header, blob[40:at], part, blob[at + out:])


def token_place(r, blob):
    """The place of a word of the structure that may be a token."""
    start, size = word_of(blob, 2), word_of(blob, 9)
    places = [at for at in range(max(start, 40), min(start + size, len(blob)) - 3, 4) if blob[at:at + 3] == b"\0\0\0" and blob[at + 3] in (1, 2, 3, 9)]
    return r.choice(places or [40])


def altered(r, blob):
    """A blob with one alteration."""
    if len(blob) < 60:
        return blob + r.randbytes(r.randrange(30))
    length, at, how = len(blob), r.randrange(len(blob)), r.randrange(12)
    if how == 0:
        return blob[:at] + r.randbytes(1) + blob[at + 1:]
    if how == 1:
        return set_word(blob, r.randrange(10), r.choice(TELLING + [length, length - 1, length + 1]))
    if how == 2:
        k = r.randrange(1, 10)
        return set_word(blob, k, word_of(blob, k) + r.choice([-8, -4, -1, 1, 4, 8]))
    if how == 3:
        return blob[:length - r.randrange(1, 9)]
    if how == 4:
        longer = blob + r.randbytes(r.randrange(1, 9))
        return r.choice([longer, set_word(longer, 1, len(longer))])
    if how < 9:
        return spliced(blob, token_place(r, blob), r.choice([0, 0, 0, 4]), r.choice(TOKENS))
    return set_word(blob, token_place(r, blob) // 4 + r.randrange(3), r.choice(TELLING))


def an_altered_blob(r, blobs):
    """One of some blobs, altered once or twice."""
    blob = altered(r, r.choice(blobs))
    return altered(r, blob) if r.random() < 0.3 else blob
