# What tools/test-fdt-write, tools/test-fdt-read, tools/outside and tools/outside-reader share: blobs, laid out from document 01.


def word(*parts):
    """Numbers of 4 bytes, each modulo 2^32, and bytes as they are."""
    return b"".join(part if isinstance(part, bytes) else (part % (1 << 32)).to_bytes(4, "big") for part in parts)


def padded(data, r=None):
    """Bytes, and padding to a multiple of 4: zeros, or any bytes where a source of them is given."""
    return data + (r.randbytes(-len(data) % 4) if r else bytes(-len(data) % 4))


def reserved(pairs):
    """Reservations as bytes, with the pair of zeros."""
    return b"".join(n.to_bytes(8, "big") for pair in [*pairs, (0, 0)] for n in pair)


class Blob:
    """A blob as the writer lays it out."""

    def __init__(self, *pairs, boot=0):
        self.pairs, self.boot, self.body, self.names = pairs, boot, b"", b""

    def begin(self, name):
        """A node begins."""
        self.body += word(1) + padded(name + b"\0")
        return self

    def prop(self, name, value=b""):
        """A property."""
        at = (b"\0" + self.names).find(b"\0" + name + b"\0")
        if at < 0:
            at = len(self.names)
            self.names += name + b"\0"
        self.body += word(3, len(value), at) + padded(value)
        return self

    def end(self):
        """The node ends."""
        self.body += word(2)
        return self

    def bytes(self):
        """The whole blob."""
        return laid_out(self.body + word(9), self.names, self.pairs, self.boot)


def laid_out(structure, strings=b"", pairs=(), boot=0, version=17, last=16):
    """A blob of any structure and strings, in the layout of the writer."""
    start = 40 + len(reserved(pairs))
    end = start + len(structure)
    return word(0xD00DFEED, end + len(strings), start, end, 40, version, last, boot, len(strings), len(structure),
                reserved(pairs), structure, strings)
