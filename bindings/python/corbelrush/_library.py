"""The shared library: where it is found, what its functions take, and the one way in which they are called."""
from __future__ import annotations

import ctypes
import functools
import os
from typing import Any, List, NamedTuple, Tuple

from ._lent import Lent, refuse_overlaps, within

# What each function takes, in the order of include/corbelrush.h. A buffer is written (&) or only read (*) and is a pointer
# with its length; a number has its type after a colon; a number that is answered through a pointer has it after a >.
_BLUR = 'picture& w:u32 h:u32 scratch& weights* n:u32 strength:f32 edge:u32'
_SHIFT = 'picture& w:u32 h:u32 dx:f32 dy:f32'
_SHADOW = ('picture& w:u32 h:u32 scratch& copy& weights* n:u32 edge:u32 dx:f32 dy:f32 strength:f32 red:f32 green:f32 '
           'blue:f32 alpha:f32 composite:u32')
_CONVERT = 'source* w:u32 h:u32 into&'
TAKES = {
    'blur': _BLUR,
    'blur_whole': 'picture& w:u32 h:u32 scratch& numerators* n:u32 edge:u32',
    'shift': _SHIFT,
    'shadow': _SHADOW,
    'check': 'picture* w:u32 h:u32 found>u32 place>u64',
    'mend': 'picture& w:u32 h:u32 list& count>u64',
    'rebuild': 'picture& w:u32 h:u32 list*',
    'share': 'w:u32 h:u32 numerators* n:u32 edge:u32 out_place:u64 in_place:u64 share>u64',
    'shares': 'w:u32 h:u32 numerators* n:u32 edge:u32 out_place:u64 list& points>u64',
    'view': 'picture* w:u32 h:u32 edge:u32',
    'sample': 'picture* w:u32 h:u32 edge:u32 x:i32 y:i32',
    'spread': 'weights* n:u32 spread>u64',
    'area_build': 'picture* w:u32 h:u32 table&',
    'area_box': 'table* w:u32 h:u32 x:u32 y:u32 wide:u32 high:u32 sum>u64',
    'area_update': 'table& w:u32 h:u32 place:u64 old_alpha:u8 new_alpha:u8',
    'plate_picture': 'plate* index:u32 w>u32 h>u32 offset>u64 length>u64',
    'plate_label': 'plate* index:u32 unit>u32 sheet>u16',
    'plate_job': 'plate& scratch&',
    'plate_start': 'buffer& version:u32 used>u64',
    'plate_add': 'buffer& used:u64 picture* w:u32 h:u32 unit:u32 sheet:u16 new_used>u64',
    'pam_read': 'file* picture& w>u32 h>u32 written>u64',
    'pam_write': 'picture* w:u32 h:u32 file& written>u64 place>u64',
    'to_planes': _CONVERT,
    'from_planes': _CONVERT,
    'blur_planes': _BLUR,
    'shift_planes': _SHIFT,
    'shadow_planes': _SHADOW,
    'recipes': 'picture& w:u32 h:u32 scratch& copy& recipes* table* index>u64',
}

_TYPES = {
    'u8': ctypes.c_uint8,
    'u16': ctypes.c_uint16,
    'u32': ctypes.c_uint32,
    'u64': ctypes.c_uint64,
    'i32': ctypes.c_int32,
    'f32': ctypes.c_float,
}


class Parameter(NamedTuple):
    """One parameter: its name, its kind (one of & * : >) and the type of a number."""

    name: str
    kind: str
    type: str


def _parameter(text: str) -> Parameter:
    if text[-1] in '&*':
        return Parameter(text[:-1], text[-1], '')
    kind = '>' if '>' in text else ':'
    name, _, number = text.partition(kind)
    return Parameter(name, kind, number)


@functools.lru_cache(maxsize=None)
def parameters(name: str) -> Tuple[Parameter, ...]:
    """The parameters of a function, by its name without `corbelrush_`."""
    return tuple(_parameter(text) for text in TAKES[name].split())


@functools.lru_cache(maxsize=None)
def library() -> ctypes.CDLL:
    """The shared library: that which CORBELRUSH_SO names, else the one beside this file, else the loader's."""
    named = os.environ.get('CORBELRUSH_SO')
    if named:
        return ctypes.CDLL(named)
    beside = os.path.join(os.path.dirname(os.path.abspath(__file__)), 'libcorbelrush.so')
    if os.path.exists(beside):
        return ctypes.CDLL(beside)
    try:
        return ctypes.CDLL('libcorbelrush.so')
    except OSError as error:
        raise OSError('libcorbelrush.so was not found: set CORBELRUSH_SO to its path, put it beside %s, or where the loader '
                      'looks' % os.path.dirname(beside)) from error


def _c_types(parameter: Parameter) -> List[Any]:
    if parameter.kind in '&*':
        return [ctypes.c_void_p, ctypes.c_size_t]
    return [ctypes.c_void_p if parameter.kind == '>' else _TYPES[parameter.type]]


@functools.lru_cache(maxsize=None)
def _bound(name: str) -> Any:
    """The function, looked up at its first call, so that a library without it still serves the others."""
    try:
        function = getattr(library(), 'corbelrush_' + name)
    except AttributeError:
        raise NotImplementedError('this libcorbelrush.so has no corbelrush_%s' % name) from None
    function.argtypes = [kind for parameter in parameters(name) for kind in _c_types(parameter)]
    function.restype = ctypes.c_uint32
    return function


def missing() -> List[str]:
    """The functions of this module that the loaded library lacks."""
    return [name for name in TAKES if not hasattr(library(), 'corbelrush_' + name)]


def call(name: str, *given: Any) -> Tuple[int, List[int]]:
    """Calls a function with its parameters but those answered: the number returned, and what was answered."""
    function = _bound(name)
    values = iter(given)
    passed: List[Any] = []
    answers: List[Any] = []
    buffers: List[Tuple[Lent, bool]] = []
    for parameter in parameters(name):
        if parameter.kind == '>':
            answers.append(_TYPES[parameter.type]())
            passed.append(ctypes.addressof(answers[-1]))
        elif parameter.kind == ':':
            passed.append(within(parameter.type, parameter.name, next(values)))
        else:
            lent: Lent = next(values)
            buffers.append((lent, parameter.kind == '&'))
            passed += [lent.address, lent.count]
    refuse_overlaps(buffers)
    return function(*passed), [answer.value for answer in answers]
