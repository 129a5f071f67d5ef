# Where the reader and dtc or libfdt of the pinned version differ, by rules: each is judged on the blob alone, read here by
# documents 01 and 02 for itself. docs/DIFFERENCES.md has the table.
import re

HEADER = ("magic", "total size", "structure offset", "strings offset", "reservations offset", "version", "last compatible version",
          "boot number", "strings size", "structure size")
DEEPEST = 64


class Reading:
    """A blob by documents 01 and 02: the number and place of its first fault and the causes that have a rule, or its description, with
    the causes for others to refuse it that the description does not show.

    A node is [name, properties, children], a property [name, the value in hex]; a name has a letter for each byte."""

    def __init__(self, blob):
        self.blob, self.number, self.place, self.causes, self.skipped = blob, 0, 0, set(), 0
        self.boot, self.reservations, self.tops = 0, [], []
        self.header = {name: self.word(4 * k) for k, name in enumerate(HEADER)}
        _ = self.read_header() and self.read_reservations() and self.read_structure()

    def word(self, at):
        """A word of the blob."""
        return int.from_bytes(self.blob[at:at + 4], "big")

    def fault(self, number, place, *causes):
        """The first fault."""
        self.number, self.place, self.causes = number, place, {cause for cause in causes if cause}

    def read_header(self):
        """Refusal 21."""
        h, length = self.header, len(self.blob)
        named = {
            "bytes after the total size": length > h["total size"],
            "another version": h["version"] != 17,
            "another last compatible version": h["last compatible version"] != 16,
            "reservations at no multiple of 8": h["reservations offset"] % 8 != 0,
            "a structure at no multiple of 4": h["structure offset"] % 4 != 0,
        }
        inside = all(h[area + " offset"] + h[area + " size"] <= length for area in ("structure", "strings"))
        if any(named.values()) or length < max(40, h["total size"]) or h["magic"] != 0xD00DFEED or not inside:
            return self.fault(21, 0, *(cause for cause, holds in named.items() if holds))
        self.boot = h["boot number"]
        return True

    def read_reservations(self):
        """Refusal 22."""
        at = start = self.header["reservations offset"]
        while at + 16 <= len(self.blob):
            pair = [int.from_bytes(self.blob[k:k + 8], "big") for k in (at, at + 8)]
            if pair == [0, 0]:
                return True
            self.reservations.append(pair)
            at += 16
        return self.fault(22, start, "reservations that end at a size of 0" if any(size == 0 for _, size in self.reservations) else None)

    def read_structure(self):
        """Refusals 23 to 25."""
        at = self.header["structure offset"]
        self.end, self.around, self.ended = at + self.header["structure size"], [], False
        while at is not None and not (self.word(at) == 9 and not self.around and at + 4 == self.end):
            at = self.token(at)
        return at is not None

    def token(self, at):
        """Reads one token: the place after it, or nothing where it has a fault."""
        if at + 4 > self.end:
            return self.fault(23, at, "a structure longer than its size")
        kind = self.word(at)
        if kind == 1:
            return self.begin(at)
        if kind == 3:
            return self.property(at)
        if kind == 4:
            return self.skip(at)
        if kind != 2 or not self.around:
            return self.fault(23, at, kind == 9 and not self.around and "words after word 9")
        self.around.pop()
        self.ended = True
        return at + 4

    def begin(self, at):
        """A node begins."""
        zero = self.blob.find(0, at + 4, self.end)
        after = zero + 4 - zero % 4
        if zero < 0 or after > self.end:
            return self.fault(23, at, "a structure longer than its size")
        if len(self.around) == DEEPEST:
            return self.fault(25, at, "depth 65")
        node = [self.blob[at + 4:zero].decode("latin-1"), [], []]
        (self.around[-1][2] if self.around else self.tops).append(node)
        self.around.append(node)
        self.ended = False
        return after

    def skip(self, at):
        """A word 4, which describes nothing."""
        self.skipped += 1
        if not self.around:
            self.causes.add("a word 4 after the root" if self.tops else "a word 4 before the root")
        return at + 4

    def property(self, at):
        """A property of the open node."""
        length, value = self.word(at + 4), at + 12
        after = value + length + -length % 4
        wraps = value <= self.end and length > 0xFFFFFFF8
        late = self.ended and self.around
        if after > self.end or late or not self.around:
            return self.fault(23, at, after > self.end and "a structure longer than its size", wraps and "a value length that wraps",
                              late and "a property after a child")
        strings, size = self.header["strings offset"], self.header["strings size"]
        zero = self.blob.find(0, strings + self.word(at + 8), strings + size)
        if self.word(at + 8) >= size or zero < 0:
            return self.fault(24, at)
        name = self.blob[strings + self.word(at + 8):zero].decode("latin-1")
        self.around[-1][1].append([name, self.blob[value:value + length].hex()])
        return after

    def nodes(self):
        """All nodes in their order."""
        waiting = list(reversed(self.tops))
        while waiting:
            node = waiting.pop()
            yield node
            waiting += reversed(node[2])


# ---- what dtc judges in a tree


def twice(names):
    """Some name is there twice."""
    return len(set(names)) < len(names)


def value_of(node, name):
    """The value of the first property of a name, or nothing."""
    return next((bytes.fromhex(value) for found, value in node[1] if found == name), None)


def base(name):
    """A node's name up to its `@`."""
    return name.partition("@")[0]


def name_is_wrong(node):
    """A property `name` that is not the node's name without its unit address, as a string."""
    return value_of(node, "name") not in (None, base(node[0]).encode("latin-1") + b"\0")


def phandle_is_wrong(node):
    """A phandle that is no cell, or is 0 or 2^32 - 1, or two that differ."""
    both = [value for value in (value_of(node, "phandle"), value_of(node, "linux,phandle")) if value is not None]
    return any(len(v) != 4 or v in (b"\0\0\0\0", b"\xff\xff\xff\xff") for v in both) or len(set(both)) > 1


def phandle(node):
    """A node's phandle, or nothing."""
    return value_of(node, "phandle") or value_of(node, "linux,phandle")


def phandle_twice(reading):
    """Two nodes with one phandle."""
    return twice([phandle(node) for node in reading.nodes() if phandle(node) and not phandle_is_wrong(node)])


def parent_is_no_cell(node):
    """A node with interrupts whose own `interrupt-parent` is no cell."""
    parent = value_of(node, "interrupt-parent")
    return value_of(node, "interrupts") is not None and parent is not None and len(parent) != 4


def cells_wrap(reading):
    """A property `clocks` whose first provider has 2^32 - 1 as `#clock-cells`."""
    wrapping = {phandle(node) for node in reading.nodes() if value_of(node, "#clock-cells") == b"\xff\xff\xff\xff"} - {None}
    clocks = [value_of(node, "clocks") or b"" for node in reading.nodes()]
    return any(len(value) % 4 == 0 and value[:4] in wrapping for value in clocks)


# ---- the rules

WE_REFUSE, THEY_REFUSE, THEY_REPORT = "we refuse", "they refuse", "they report something else"


class Rule:
    """A way to differ: who refuses, or that the tools report something else; the tools; and when it is so."""

    def __init__(self, name, kind, tools, says, holds=None):
        self.name, self.kind, self.tools, self.says = name, kind, tools.split(), says
        self.holds = holds or (lambda reading: name in reading.causes)


def on_nodes(judged):
    """A rule that holds where it holds for some node."""
    return lambda reading: any(judged(node) for node in reading.nodes())


BAD_IN_NODE, BAD_IN_PROPERTY = re.compile(r"[^A-Za-z0-9,._+@-]"), re.compile(r"[^A-Za-z0-9,._+*#?-]")
RULES = [
    Rule("bytes after the total size", WE_REFUSE, "libfdt dtc", "we refuse 21; they read the front"),
    Rule("another version", WE_REFUSE, "libfdt dtc", "we refuse 21 all but 17; they read later ones and 16"),
    Rule("another last compatible version", WE_REFUSE, "libfdt dtc", "we refuse 21 all but 16; libfdt reads those up to 17, dtc any"),
    Rule("reservations at no multiple of 8", WE_REFUSE, "libfdt dtc", "we refuse 21; they do not look at it"),
    Rule("a structure at no multiple of 4", WE_REFUSE, "libfdt dtc", "we refuse 21; they do not look at it"),
    Rule("reservations that end at a size of 0", WE_REFUSE, "libfdt dtc", "we refuse 22 if no pair is all zero; to them a size of 0 ends the list"),
    Rule("a property after a child", WE_REFUSE, "libfdt dtc", "we refuse 23; libfdt passes over the property, dtc takes it"),
    Rule("words after word 9", WE_REFUSE, "libfdt dtc", "we refuse 23; they stop reading at word 9"),
    Rule("a structure longer than its size", WE_REFUSE, "dtc", "we and libfdt refuse, we 23; dtc reads on to the total size"),
    Rule("a value length that wraps", WE_REFUSE, "libfdt", "we refuse 23; with a length above fffffff8 libfdt's sum wraps, and it goes on in the same property; dtc crashes"),
    Rule("depth 65", WE_REFUSE, "libfdt dtc", "we refuse 25; they have no limit"),
    Rule("no top node", THEY_REFUSE, "libfdt dtc", "we read it; they ask for a root", lambda reading: not reading.tops),
    Rule("several top nodes", THEY_REFUSE, "libfdt dtc", "we read them; they ask for word 9 after the first", lambda reading: len(reading.tops) > 1),
    Rule("a word 4 before the root", THEY_REFUSE, "libfdt dtc", "we skip it; dtc asks for a root first of all, and libfdt for one at offset 0"),
    Rule("a word 4 after the root", THEY_REFUSE, "libfdt dtc", "we skip it; they ask for word 9 after the root"),
    Rule("a named top node", THEY_REFUSE, "libfdt", "we and dtc read it; libfdt refuses", lambda reading: any(node[0] for node in reading.tops[:1])),
    Rule("an area that starts in the header", THEY_REFUSE, "libfdt", "we and dtc read it; libfdt refuses",
         lambda reading: any(reading.header[area + " offset"] < 40 for area in ("structure", "strings", "reservations"))),
    Rule("two siblings of one name", THEY_REFUSE, "dtc", "we and libfdt read them; dtc refuses: duplicate_node_names",
         on_nodes(lambda node: twice([child[0] for child in node[2]]))),
    Rule("a property twice in a node", THEY_REFUSE, "dtc", "we and libfdt read both; dtc refuses: duplicate_property_names",
         on_nodes(lambda node: twice([name for name, _ in node[1]]))),
    Rule("a byte that dtc does not take in a node's name", THEY_REFUSE, "dtc", "we and libfdt read it; dtc refuses: node_name_chars",
         on_nodes(lambda node: BAD_IN_NODE.search(node[0]))),
    Rule("two @ in a node's name", THEY_REFUSE, "dtc", "we and libfdt read it; dtc refuses: node_name_format", on_nodes(lambda node: node[0].count("@") > 1)),
    Rule("a byte that dtc does not take in a property's name", THEY_REFUSE, "dtc", "we and libfdt read it; dtc refuses: property_name_chars",
         on_nodes(lambda node: any(BAD_IN_PROPERTY.search(name) for name, _ in node[1]))),
    Rule("a wrong property called name", THEY_REFUSE, "dtc", "we and libfdt read it; dtc refuses: name_is_string or name_properties", on_nodes(name_is_wrong)),
    Rule("a wrong phandle", THEY_REFUSE, "dtc", "we and libfdt read it; dtc refuses: explicit_phandles", on_nodes(phandle_is_wrong)),
    Rule("one phandle in two nodes", THEY_REFUSE, "dtc", "we and libfdt read it; dtc refuses: explicit_phandles", phandle_twice),
    Rule("an interrupt-parent that is no cell", THEY_REFUSE, "dtc", "we and libfdt read it; dtc aborts", on_nodes(parent_is_no_cell)),
    Rule("#clock-cells of 2^32 - 1", THEY_REFUSE, "dtc", "we and libfdt read it; dtc never ends", cells_wrap),
    Rule("a reservation of size 0", THEY_REPORT, "libfdt dtc", "we report it and those after it; to them it ends the list",
         lambda reading: any(size == 0 for _, size in reading.reservations)),
    Rule("a property called name", THEY_REPORT, "dtc", "we and libfdt report it; dtc omits it where it is the node's name",
         on_nodes(lambda node: value_of(node, "name") is not None and not name_is_wrong(node))),
]


def holding(reading, tool, kind):
    """The rules of a kind that hold for a tool: rules about what is reported or refused by others only where the reading takes the blob."""
    if (kind == WE_REFUSE) == (reading.number == 0):
        return []
    return [rule for rule in RULES if rule.kind == kind and tool in rule.tools and rule.holds(reading)]


def reported(description, tool):
    """What a tool reports of what we describe, by the rules about reports."""
    boot, reservations, tops = description
    sizes = [size for _, size in reservations] + [0]
    kept = lambda node: [pair for pair in node[1] if tool != "dtc" or pair[0] != "name"]
    told = lambda node: [node[0], kept(node), [told(child) for child in node[2]]]
    return [boot, reservations[:sizes.index(0)], [told(node) for node in tops]]
