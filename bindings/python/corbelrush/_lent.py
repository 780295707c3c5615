"""What is lent to a call: buffers with their addresses, and numbers that fit their types.

Two things that C leaves to the caller are checked here: that no number is cut (ctypes takes 2^32 as a 32-bit 0), and that
no buffer that a call writes overlaps another of its buffers.
"""
from __future__ import annotations

import array
import ctypes
import math
import operator
import struct
from typing import Any, Callable, Iterable, List, Optional, Tuple

Buffer = Any
"""Any object with the buffer protocol: a numpy array, a bytearray, a memoryview, an array.array, bytes where it is only read."""

Sides = Optional[Tuple[int, int]]
"""Width and height, given beside a buffer that has no shape."""

RANGES = {'u8': (0, 2**8 - 1), 'u16': (0, 2**16 - 1), 'u32': (0, 2**32 - 1), 'u64': (0, 2**64 - 1), 'i32': (-2**31, 2**31 - 1)}


def within(kind: str, name: str, value: Any) -> Any:
    """The number, where its type holds it; OverflowError where C would cut it."""
    if kind == 'f32':
        return binary32(name, value)
    whole = operator.index(value)
    least, most = RANGES[kind]
    if not least <= whole <= most:
        raise OverflowError('%s is %d, and must be from %d to %d' % (name, whole, least, most))
    return whole


def binary32(name: str, value: Any) -> float:
    """The nearest binary32; a finite number beyond the largest is an OverflowError, NaN and infinities are handed on."""
    try:
        return struct.unpack('<f', struct.pack('<f', value))[0]
    except OverflowError:
        raise OverflowError('%s is %r, which is beyond the largest binary32' % (name, value)) from None
    except struct.error:
        raise TypeError('%s is %r, which is no number' % (name, value)) from None


class _PyBuffer(ctypes.Structure):
    """CPython's Py_buffer."""

    _fields_ = [('buf', ctypes.c_void_p), ('obj', ctypes.c_void_p), ('len', ctypes.c_ssize_t), ('itemsize', ctypes.c_ssize_t),
                ('readonly', ctypes.c_int), ('ndim', ctypes.c_int), ('format', ctypes.c_char_p), ('shape', ctypes.c_void_p),
                ('strides', ctypes.c_void_p), ('suboffsets', ctypes.c_void_p), ('internal', ctypes.c_void_p)]


_get_buffer = ctypes.pythonapi.PyObject_GetBuffer
_get_buffer.argtypes = [ctypes.py_object, ctypes.POINTER(_PyBuffer), ctypes.c_int]
_get_buffer.restype = ctypes.c_int
_release = ctypes.pythonapi.PyBuffer_Release
_release.argtypes = [ctypes.POINTER(_PyBuffer)]
_release.restype = None


def _address(view: memoryview) -> Optional[int]:
    """Where a contiguous view's bytes are, also of one that is only read; None where it has none."""
    if view.nbytes == 0:
        return None
    raw = _PyBuffer()
    _get_buffer(view, ctypes.byref(raw), 0)
    address = raw.buf
    _release(ctypes.byref(raw))
    return address


class Lent:
    """A view that is held for a call, so that nobody can resize its buffer, and how many elements C sees in it."""

    def __init__(self, view: memoryview, count: int) -> None:
        self.view = view
        self.count = count
        self.address = _address(view)

    def part(self, offset: int, shape: Tuple[int, ...]) -> memoryview:
        """A part of the buffer's own bytes, under a shape."""
        return self.view.cast('B')[offset:offset + math.prod(shape)].cast('B', shape)


def refuse_overlaps(buffers: List[Tuple[Lent, bool]]) -> None:
    """ValueError where a buffer that is written shares bytes with another one."""
    spans = sorted((lent.address, lent.address + lent.view.nbytes, written) for lent, written in buffers if lent.address)
    reach, reach_written = 0, 0
    for start, end, written in spans:
        if start < (reach if written else reach_written):
            raise ValueError('two buffers of one call overlap, and one of them is written')
        reach = max(reach, end)
        reach_written = max(reach_written, end) if written else reach_written


_ALIKE = {'B': 'B', 'I': 'IL', 'Q': 'QL', 'f': 'f'}
_SIZES = {'B': 1, 'I': 4, 'Q': 8, 'f': 4}


def _is_of(view: memoryview, letter: str) -> bool:
    """Whether the view's elements are these, whatever C type of that size they are named by."""
    return view.format.lstrip('@=<') in tuple(_ALIKE[letter]) and view.itemsize == _SIZES[letter]


def viewed(buffer: Buffer, name: str, letter: str, written: bool) -> memoryview:
    """A contiguous view of elements of this struct letter, which can be written where that is asked."""
    view = memoryview(buffer)
    if not _is_of(view, letter):
        raise TypeError('%s has elements of format %r, and not %r' % (name, view.format, letter))
    if not view.c_contiguous:
        raise TypeError('%s is not contiguous: hand in a copy, and copy it back' % name)
    if written and view.readonly:
        raise TypeError('%s cannot be written' % name)
    return view


def flat(buffer: Buffer, name: str, letter: str, written: bool, each: int = 1) -> Lent:
    """A buffer whose shape does not matter; `each` elements are one entry for C."""
    view = viewed(buffer, name, letter, written)
    elements = view.nbytes // view.itemsize
    if elements % each:
        raise ValueError('%s has %d elements, which is no multiple of %d' % (name, elements, each))
    return Lent(view, elements // each)


def shaped(buffer: Buffer, sides: Sides, written: bool, name: str, letter: str,
           shape: Tuple[Any, ...]) -> Tuple[Lent, int, int]:
    """A buffer with its sides: those of its shape, which names 'w' and 'h', or those given beside a flat one."""
    view = viewed(buffer, name, letter, written)
    lent = Lent(view, view.nbytes // view.itemsize)
    if sides is not None:
        if view.ndim != 1:
            raise TypeError('%s has a shape, and needs no sides' % name)
        return lent, sides[0], sides[1]
    if view.ndim != len(shape) or any(axis not in ('w', 'h', size) for axis, size in zip(shape, view.shape)):
        wanted = ', '.join(map(str, shape))
        raise TypeError('%s has shape %r: it must be (%s), or flat with sides=(w, h)' % (name, view.shape, wanted))
    return lent, view.shape[shape.index('w')], view.shape[shape.index('h')]


def picture(buffer: Buffer, sides: Sides, written: bool, name: str = 'picture') -> Tuple[Lent, int, int]:
    """A picture, of shape (h, w, 4), and its sides."""
    return shaped(buffer, sides, written, name, 'B', ('h', 'w', 4))


def planes(buffer: Buffer, sides: Sides, written: bool, name: str = 'planes') -> Tuple[Lent, int, int]:
    """Four planes, of shape (4, h, w), and their sides."""
    return shaped(buffer, sides, written, name, 'B', (4, 'h', 'w'))


def work(buffer: Optional[Buffer], like: Lent, name: str) -> Lent:
    """A work buffer: the one lent, else one as long as the picture."""
    return flat(bytearray(like.count) if buffer is None else buffer, name, 'B', True)


def _elements(values: Iterable[Any], letter: str, each: Callable[[Any], Any]) -> Lent:
    """Numbers that are only read: a buffer of that format as it stands, else each one on its own."""
    try:
        view = memoryview(values)  # type: ignore[arg-type]
        if _is_of(view, letter) and view.c_contiguous:
            return Lent(view, view.nbytes // view.itemsize)
    except TypeError:
        pass
    view = memoryview(array.array(letter, [each(value) for value in values]))
    return Lent(view, len(view))


def weights(values: Iterable[float], name: str = 'weights') -> Lent:
    """Weights: float32 as they stand, else each rounded to the nearest binary32."""
    return _elements(values, 'f', lambda value: binary32('a number of ' + name, value))


def words(values: Iterable[int], name: str) -> Lent:
    """Numbers of 32 bits: uint32 as they stand, else each checked."""
    return _elements(values, 'I', lambda value: within('u32', 'a number of ' + name, value))
