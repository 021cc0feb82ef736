"""Buffers lent to C as they stand: where each one is in memory, and how much of it there is. Nothing is copied."""
import ctypes

_api = ctypes.PyDLL(None)  # the interpreter itself; a handle of its own, since argtypes are set on it
_NOWHERE = (ctypes.c_uint64 * 1)()  # what an empty buffer points to: C wants no null pointer


class _PyBuffer(ctypes.Structure):
    _fields_ = [
        ("buf", ctypes.c_void_p),
        ("obj", ctypes.c_void_p),
        ("len", ctypes.c_ssize_t),
        ("itemsize", ctypes.c_ssize_t),
        ("readonly", ctypes.c_int),
        ("ndim", ctypes.c_int),
        ("format", ctypes.c_void_p),
        ("shape", ctypes.c_void_p),
        ("strides", ctypes.c_void_p),
        ("suboffsets", ctypes.c_void_p),
        ("internal", ctypes.c_void_p),
    ]


_api.PyObject_GetBuffer.argtypes = [ctypes.py_object, ctypes.POINTER(_PyBuffer), ctypes.c_int]
_api.PyBuffer_Release.argtypes = [ctypes.POINTER(_PyBuffer)]
_api.PyBuffer_Release.restype = None
_api.PyByteArray_FromStringAndSize.argtypes = [ctypes.c_char_p, ctypes.c_ssize_t]
_api.PyByteArray_FromStringAndSize.restype = ctypes.py_object


def _address(view):
    buffer = _PyBuffer()
    _api.PyObject_GetBuffer(view, buffer, 0)
    address = buffer.buf
    _api.PyBuffer_Release(buffer)
    return address


class Lent:
    """A contiguous buffer: the view keeps its owner from moving or freeing it while C has the address."""

    __slots__ = ("name", "value", "view", "address", "count", "written", "target")

    def __init__(self, name, value, view, written):
        self.name, self.value, self.view, self.written, self.target = name, value, view, written, None
        self.address = _address(view) if view.nbytes else ctypes.addressof(_NOWHERE)
        self.count = view.nbytes // view.itemsize

    def overlaps(self, other):
        return self.address < other.address + other.view.nbytes and other.address < self.address + self.view.nbytes

    def copied(self):
        """Numbers of their own, the same as these."""
        room = fresh(self.count, self.view.itemsize)
        copy = Lent(self.name, room, memoryview(room), True)
        ctypes.memmove(copy.address, self.address, self.view.nbytes)
        return copy

    def settle(self):
        """Hands what was written to the buffer that it is for, where that is another one."""
        if self.target is not None:
            ctypes.memmove(self.target.address, self.address, self.view.nbytes)
            self.value = self.target.value


def apart(lent):
    """A buffer that is written overlaps no other of the call."""
    for one in lent:
        if one.written:
            for other in lent:
                if other is not one and one.overlaps(other):
                    raise ValueError(f"{one.name}: it is written, and it overlaps {other.name}")


def fresh(count, size):
    """Room for `count` elements of `size` bytes, with any contents: C fills all of it, or the call is refused."""
    room = memoryview(_api.PyByteArray_FromStringAndSize(None, count * size))
    return room.cast("Q") if size == 8 else room


def zeros(count, size):
    """Room of zeros, of which C may leave parts as they are."""
    room = memoryview(bytearray(count * size))
    return room.cast("Q") if size == 8 else room
