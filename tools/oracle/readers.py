# What tools/outside and tools/outside-reader share: dtc and libfdt as readers of blobs, each with a limit of time. Run by
# itself it is the process that libfdt reads in, or blanks in where it has arguments.
import ctypes
import json
import os
import re
import resource
import shutil
import signal
import subprocess
import sys
import tempfile

from common import Trouble, run

# Limits for each blob: seconds of time, and of processor time. On some blobs dtc 1.6.1 never ends.
PATIENCE, PROCESSOR = 10, 1
# The version whose behaviour docs/DIFFERENCES.md has.
PINNED = "1.6.1"


class Refused(Exception):
    """A tool does not read a blob, and says why."""


# ---- lists and random names

LETTERS = "abcdefghijklmnopqrstuvwxyzABCDEFGHIJKLMNOPQRSTUVWXYZ"
NODE, PROPERTY = LETTERS + "0123456789,._+-", LETTERS + "0123456789,._+?#-"


def word(value):
    """Bytes as a word of a list."""
    return "".join(chr(b) if 33 <= b <= 126 and b not in (92, 126) else "~" if b == 0 else f"\\x{b:02x}" for b in value)


def some(r, letters, least, most):
    """Letters of a class."""
    return "".join(r.choice(letters) for _ in range(r.randint(least, most)))


# ---- running a tool


def output(command, given, name):
    """What a tool writes, or why it refuses; a signal is a refusal."""
    with subprocess.Popen(command, stdin=subprocess.PIPE, stdout=subprocess.PIPE, stderr=subprocess.PIPE) as process:
        resource.prlimit(process.pid, resource.RLIMIT_CPU, (PROCESSOR, PROCESSOR + 1))
        resource.prlimit(process.pid, resource.RLIMIT_CORE, (0, 0))
        try:
            written, said = process.communicate(given, PATIENCE)
        except subprocess.TimeoutExpired:
            process.kill()
            raise Refused(f"{name} has not ended after {PATIENCE} s") from None
    if process.returncode < 0:
        raise Refused(f"{name} was ended by {signal.Signals(-process.returncode).name}")
    if process.returncode != 0:
        raise Refused(said.decode("utf-8", "replace").strip().split("\n")[0])
    return written


# ---- dtc, and the source that it prints. A node is [name, properties, children], a property [name, the value in hex].

ESCAPES = {b"a": 7, b"b": 8, b"t": 9, b"n": 10, b"v": 11, b"f": 12, b"r": 13, b"\\": 92, b'"': 34, b"0": 0}


def text_value(quoted):
    """The bytes of a quoted string of dtc's, with its 0."""
    found = re.sub(rb"\\(x[0-9a-fA-F]{2}|.)", lambda m: bytes([int(m[1][1:], 16) if m[1][:1] == b"x" else ESCAPES[m[1]]]), quoted[1:-1], flags=re.S)
    return found + b"\0"


def source_lines(text):
    """The statements of dtc's source: each line's words, with what follows a `=` as bytes."""
    for line in text.split(b"\n"):
        line = line.strip(b"\t")
        if not line or line.startswith(b"//") or line == b"/dts-v1/;":
            continue
        head, equals, value = line.partition(b" = ")
        if not equals:
            yield line, None
            continue
        parts = re.findall(rb'"(?:[^"\\]|\\.)*"|<[^>]*>|\[[^\]]*\]', value)
        yield head, b"".join(
            text_value(p) if p[:1] == b'"' else b"".join(int(n, 16).to_bytes(4, "big") for n in p[1:-1].split()) if p[:1] == b"<" else bytes.fromhex(p[1:-1].decode())
            for p in parts)


def source_read(text):
    """What dtc's source describes: reservations and top nodes."""
    reservations, tops, opened = [], [], []
    for line, value in source_lines(text):
        if line.startswith(b"/memreserve/"):
            reservations.append([int(n, 16) for n in line[12:].rstrip(b";").split()])
        elif line.endswith(b"{"):
            name = line[:-1].strip().decode()
            node = ["" if name == "/" else name, [], []]
            (opened[-1][2] if opened else tops).append(node)
            opened.append(node)
        elif line == b"};":
            opened.pop()
        else:
            opened[-1][1].append([line.rstrip(b";").decode(), (value or b"").hex()])
    return reservations, tops


def dtc(form, blob):
    """A blob in another form, by dtc."""
    return output(["dtc", "-q", "-I", "dtb", "-O", form], blob, "dtc")


# ---- libfdt, in a process of its own: its crash or hang is a refusal of the blob that it had


def by_libfdt(blobs, python):
    """What libfdt reports of each blob: a description, or a text that says why not."""
    found = []
    while len(found) < len(blobs):
        given = "".join(blob.hex() + "\n" for blob in blobs[len(found):]).encode("ascii")
        done = subprocess.run([python, os.path.abspath(__file__)], input=given, stdout=subprocess.PIPE)
        found += [json.loads(line) for line in done.stdout.splitlines()]
        if done.returncode < 0:
            found.append(f"libfdt was ended by {signal.Signals(-done.returncode).name}")
        elif done.returncode != 0:
            raise Trouble(1, f"the process that libfdt reads in ended with status {done.returncode}")
    return found


def loaded():
    """The functions of libfdt, from the module that Python has of it."""
    import _libfdt

    library = ctypes.CDLL(_libfdt.__file__)
    library.fdt_get_name.restype = library.fdt_getprop_by_offset.restype = ctypes.c_void_p
    library.fdt_check_full.argtypes = [ctypes.c_void_p, ctypes.c_size_t]
    library.fdt_strerror.restype = ctypes.c_char_p
    return library


def good(library, answer):
    """An answer that is no error."""
    if answer < 0:
        raise Refused(library.fdt_strerror(answer).decode())
    return answer


def libfdt_properties(library, fdt, at):
    """The properties of a node; a value whose length is negative has no bytes."""
    place = library.fdt_first_property_offset(fdt, at)
    while place >= 0:
        name, length = ctypes.c_char_p(), ctypes.c_int()
        value = library.fdt_getprop_by_offset(fdt, place, ctypes.byref(name), ctypes.byref(length))
        if not value:
            raise Refused(library.fdt_strerror(length).decode())
        yield [name.value.decode("latin-1"), ctypes.string_at(value, max(length.value, 0)).hex()]
        place = library.fdt_next_property_offset(fdt, place)


def libfdt_nodes(library, fdt):
    """The root, with all nodes in it."""
    around, at, depth, length = [], 0, ctypes.c_int(0), ctypes.c_int()
    while at >= 0 and depth.value >= 0:
        name = library.fdt_get_name(fdt, at, ctypes.byref(length))
        good(library, length.value)
        node = [ctypes.string_at(name).decode("latin-1"), list(libfdt_properties(library, fdt, at)), []]
        del around[depth.value:]
        if around:
            around[-1][2].append(node)
        around.append(node)
        at = library.fdt_next_node(fdt, at, ctypes.byref(depth))
    return around[:1]


def lent(blob):
    """A blob at an address that is a multiple of 8, as libfdt wants it."""
    fdt = (ctypes.c_uint64 * (len(blob) // 8 + 1))()
    ctypes.memmove(fdt, blob, len(blob))
    return fdt


def libfdt_description(library, blob):
    """What libfdt reports of a blob: boot number, reservations and nodes."""
    fdt = lent(blob)
    good(library, library.fdt_check_full(fdt, len(blob)))
    address, size, reserved = ctypes.c_uint64(), ctypes.c_uint64(), []
    for k in range(good(library, library.fdt_num_mem_rsv(fdt))):
        good(library, library.fdt_get_mem_rsv(fdt, k, ctypes.byref(address), ctypes.byref(size)))
        reserved.append([address.value, size.value])
    return [int.from_bytes(blob[28:32], "big"), reserved, libfdt_nodes(library, fdt)]


def read_with_libfdt():
    """Reads the blobs on standard input with libfdt, and writes what each describes; a blob has a second of the processor."""
    library = loaded()
    for line in sys.stdin:
        signal.setitimer(signal.ITIMER_PROF, PROCESSOR)
        try:
            found = libfdt_description(library, bytes.fromhex(line))
        except Refused as why:
            found = str(why)
        print(json.dumps(found), flush=True)


def blanked(blob, parts, python):
    """A blob in which libfdt blanks some parts: a node by its path, or a property by its node's path, a space and its name."""
    written = run([python, os.path.abspath(__file__), *parts], blob.hex().encode("ascii"), "libfdt")
    return bytes.fromhex(written.decode("ascii"))


def deleted(blob, parts):
    """A blob from which fdtput deletes some parts, given as to `blanked`."""
    with tempfile.TemporaryDirectory() as room:
        name = os.path.join(room, "blob")
        with open(name, "wb") as file:
            file.write(blob)
        for part in parts:
            run(["fdtput", "-d" if " " in part else "-r", name, *part.split()])
        with open(name, "rb") as file:
            return file.read()


def got(blob, path, name):
    """A property's value in hex, as fdtget finds it by its name (fdt_getprop)."""
    with tempfile.TemporaryDirectory() as room:
        file = os.path.join(room, "blob")
        with open(file, "wb") as out:
            out.write(blob)
        return "".join(byte.zfill(2) for byte in run(["fdtget", "-t", "bx", file, path, name]).decode("ascii").split())


def blank_with_libfdt(parts):
    """Blanks parts of the blob on standard input with libfdt, and writes it."""
    library, blob = loaded(), bytes.fromhex(sys.stdin.read())
    fdt = lent(blob)
    for part in parts:
        path, _, name = part.partition(" ")
        at = good(library, library.fdt_path_offset(fdt, path.encode()))
        good(library, library.fdt_nop_property(fdt, at, name.encode()) if name else library.fdt_nop_node(fdt, at))
    print(bytes(fdt)[:len(blob)].hex())


# What a Python can run if it has libfdt.
HAS_LIBFDT = "import ctypes, _libfdt; ctypes.CDLL(_libfdt.__file__).fdt_check_full"


def pythons():
    """The Pythons that may have libfdt."""
    return [p for p in dict.fromkeys([sys.executable, shutil.which("python3"), "/usr/bin/python3"]) if p and os.access(p, os.X_OK)]


def needed():
    """The Python that has libfdt, and dtc's version; trouble where one is missing."""
    if not shutil.which("dtc"):
        raise Trouble(3, "dtc is not on the PATH (Debian: device-tree-compiler)")
    for python in pythons():
        if subprocess.run([python, "-c", HAS_LIBFDT], stderr=subprocess.DEVNULL).returncode == 0:
            return python, output(["dtc", "--version"], b"", "dtc").decode().split()[-1]
    raise Trouble(3, "no Python here has libfdt (Debian: python3-libfdt)")


if __name__ == "__main__":
    blank_with_libfdt(sys.argv[1:]) if sys.argv[1:] else read_with_libfdt()
