"""The shared library by ctypes: its calls, and memory that is lent to them."""
import copyreg
import ctypes as C
import operator
import os
from struct import Struct as Packing

from . import _header
from ._header import MAJOR, STRUCTS, VERSION, Status, size, u8, u16, u32, u64


class Error(ValueError):
    """The base class of this package's errors. Two errors are equal if they have the same type, text and fields. An
    error can be pickled, so a worker process can raise it to its caller."""

    def __reduce__(self):
        return copyreg.__newobj__, (type(self), *self.args), vars(self) or None

    def __eq__(self, other: object) -> bool:
        return isinstance(other, Error) and _content(self) == _content(other)

    def __hash__(self) -> int:
        return hash((type(self), self.args))


def _content(error):
    """The type, text and fields of an error, without the notes that a handler adds to it."""
    return type(error), error.args, {name: value for name, value in vars(error).items() if name != "__notes__"}


def load(path):
    """The library at a path, with the types of its calls. Raises an `ImportError` if it is not of this version."""
    lib = C.CDLL(path)
    declare(lib, "version", "sizeof")
    if lib.etherpeel_version() >> 16 != MAJOR or lib.etherpeel_version() < VERSION:
        raise ImportError(f"{path} is of version {lib.etherpeel_version():#08x}, and {VERSION:#08x} is needed")
    for number, one in enumerate(STRUCTS, 1):
        if lib.etherpeel_sizeof(number) != C.sizeof(one):
            raise ImportError(f"the struct {one.__name__} of {path} has another size")
    declare(lib, *_header.CALLS)
    return lib


def declare(lib, *names):
    for name in names:
        call = getattr(lib, "etherpeel_" + name)
        call.restype, call.argtypes = _header.CALLS[name]


lib = load(os.path.join(os.path.dirname(os.path.abspath(__file__)), "libetherpeel.so.3"))
CALLS = {name: getattr(lib, "etherpeel_" + name) for name in _header.CALLS}

# ---- words and results of calls


def number(name, value, bits):
    """The value, if it is an integer of at most `bits` bits; else raises a `ValueError`, or a `TypeError` if it is no
    integer."""
    return between(name, value, 0, (1 << bits) - 1)


def between(name, value, least, greatest):
    """The value, if it is an integer from the least to the greatest one; else raises as `number`."""
    try:
        value = operator.index(value)
    except TypeError:
        raise TypeError(f"{name} is an int, not {type(value).__name__}") from None
    if not least <= value <= greatest:
        raise ValueError(f"{name} is {least} to {greatest}, not {value}")
    return value


def instance(name, value, kind):
    """The value, if it is of this type; else raises a `TypeError`."""
    if not isinstance(value, kind):
        raise TypeError(f"{name} is a {kind.__name__}, not {type(value).__name__}")
    return value


class StatusError(Error):
    """A call returned a status that its caller did not expect."""

    def __init__(self, status):
        super().__init__(Status(status).name)
        self.status = status


def required(status):
    if status != Status.DONE:
        raise StatusError(status)


def written(call, *words, room=512):
    """The bytes that a call with these words writes. It is called again if there is not enough room."""
    target, count = C.create_string_buffer(room), C.c_size_t()
    status = call(*words, target, room, C.byref(count))
    if status == Status.NO_ROOM:
        return written(call, *words, room=count.value)
    required(status)
    return target.raw[:count.value]


def text(call, *words):
    """The text that a call with these words writes."""
    return written(call, *words).decode("ascii")


def filled(kind, room, call, *words):
    """The structs that a call with these words writes. It is called again if there is not enough room."""
    while True:
        structs, count = (kind * room)(), C.c_size_t()
        required(call(*words, structs, room, C.byref(count)))
        if count.value <= room:
            return structs[:count.value]
        room = count.value


CODES = {u8: "B", u16: "H", u32: "I", u64: "Q", size: "Q", C.c_void_p: "Q", u8 * 6: "6s", u8 * 8: "8s"}


def reader(kind, names):
    """A function that reads these fields of a struct, which are in this order, from an offset in memory on. `struct`
    reads all of them faster than `ctypes` reads one."""
    return _packing(kind, names).unpack_from


def writer(kind, names):
    """A function that writes these fields of a struct, as `reader` reads them."""
    return _packing(kind, names).pack_into


def _packing(kind, names):
    codes, end = "=", 0
    for name in names.split():
        at, what = getattr(kind, name).offset, dict(kind._fields_)[name]
        codes, end = f"{codes}{at - end}x{CODES[what]}", at + C.sizeof(what)
    return Packing(codes)


# ---- memory that is lent: `Py_buffer` of Python's C API


class Lent(C.Structure):
    _fields_ = [("buf", C.c_void_p), ("obj", C.c_void_p), ("len", C.c_ssize_t), ("itemsize", C.c_ssize_t),
                ("readonly", C.c_int), ("ndim", C.c_int), ("format", C.c_void_p), ("shape", C.c_void_p),
                ("strides", C.c_void_p), ("suboffsets", C.c_void_p), ("internal", C.c_void_p)]


get_buffer, release_buffer = C.pythonapi.PyObject_GetBuffer, C.pythonapi.PyBuffer_Release
get_buffer.restype, get_buffer.argtypes = C.c_int, [C.py_object, C.POINTER(Lent), C.c_int]
release_buffer.restype, release_buffer.argtypes = None, [C.POINTER(Lent)]
READ, WRITE = 0, 1  # PyBUF_SIMPLE, PyBUF_WRITABLE


class lent:
    """The address and the length of an object's memory, while a call has it: no copy is made, and meanwhile the object
    can't be resized. For `WRITE` the memory must be writable: Python raises a `BufferError` if it is not."""

    __slots__ = ("memory", "thing", "flags")

    def __init__(self, thing, flags=READ):
        self.memory, self.thing, self.flags = Lent(), thing, flags

    def __enter__(self):
        get_buffer(self.thing, C.byref(self.memory), self.flags)
        return self.memory.buf, self.memory.len

    def __exit__(self, *_):
        release_buffer(C.byref(self.memory))
