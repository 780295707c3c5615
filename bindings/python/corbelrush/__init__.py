"""Corbelrush from Python: pictures of contact resistance, smoothed and graded by the proved library.

A picture is a contiguous buffer of bytes of shape (h, w, 4), premultiplied r, g, b, a: a numpy array of uint8, or any other
buffer; a flat one has `sides=(w, h)` given beside it. Pictures are changed in place. A call that the library refuses
raises `Refused`, with the number and the words, and has changed no byte. A number that C would cut is an OverflowError.
What is answered as a picture, planes or a table is a memoryview with a shape, which `numpy.asarray` takes as it is.
"""
from ._library import library, missing
from ._refusals import Edge, Operation, Refusal, Refused, Unit
from .files import Label, pam_read, pam_write, plate_add, plate_job, plate_label, plate_picture, plate_start
from .filters import Recipe, blur, blur_whole, kernel_table, recipes, shadow, shift
from .grading import (Change, Point, area_box, area_build, area_update, check, mend, rebuild, sample, share, shares, spread,
                      view)
from .planes import blur_planes, from_planes, shadow_planes, shift_planes, to_planes

__all__ = [
    'Change', 'Edge', 'Label', 'Operation', 'Point', 'Recipe', 'Refusal', 'Refused', 'Unit', 'area_box', 'area_build',
    'area_update', 'blur', 'blur_planes', 'blur_whole', 'check', 'from_planes', 'kernel_table', 'library', 'mend', 'missing', 'pam_read',
    'pam_write', 'plate_add', 'plate_job', 'plate_label', 'plate_picture', 'plate_start', 'rebuild', 'recipes', 'sample',
    'shadow', 'shadow_planes', 'share', 'shares', 'shift', 'shift_planes', 'spread', 'to_planes', 'view',
]
