"""The calls of pclmin for Python, by ctypes: of the library that PCLMIN_LIBRARY names, else of build/libpclmin.so (`make lib`), else of
libpclmin.so where the system has it (`make install-lib`).

    import pclmin
    answer = pclmin.shrink(open("job.pcl", "rb").read())
    if answer.fault == pclmin.DONE:
        open("small.pcl", "wb").write(answer.bytes)
    else:
        print(answer.line, end="")

A job is bytes, a bytearray or a memoryview. A resolution is 300 or 600 dots per inch, or 0 for the first of these at which the job is
accepted. A number that isn't from 0 to 4,294,967,295 is a ValueError; other wrong ones have the fault WRONG_ARGUMENT.
"""
import ctypes
import operator
import os
from typing import NamedTuple

DONE, REFUSED, NO_PAGE, WRONG_ARGUMENT, TOO_LONG, NO_MEMORY = range(6)
KINDS = (
    "", "Truncated", "BadSequence", "ValueRange", "UnsupportedCommand", "UnsupportedValue", "FontHeader", "CharacterData",
    "NoFont", "MacroOpen", "MacroControl", "MacroDepth", "TooManyCommands", "TooManyPages", "NotPcl",
)

_HERE = os.path.dirname(os.path.abspath(__file__))
_BUILT = os.path.abspath(os.path.join(_HERE, "..", "build", "libpclmin.so"))
LIBRARY = os.environ.get("PCLMIN_LIBRARY") or (_BUILT if os.path.exists(_BUILT) else "libpclmin.so")


class Answer(NamedTuple):
    """What a call answers, as lib/pclmin.h says, copied out of the library's memory."""

    bytes: bytes
    certificate: bytes
    line: str
    place: int
    pages: int
    fault: int
    kind: int
    job: int
    resolution: int
    holds: bool


class _Answer(ctypes.Structure):
    """`pclmin_answer` of lib/pclmin.h."""

    _fields_ = [
        ("bytes", ctypes.c_void_p),
        ("length", ctypes.c_size_t),
        ("certificate", ctypes.c_void_p),
        ("certificate_length", ctypes.c_size_t),
        ("line", ctypes.c_char_p),
        ("place", ctypes.c_size_t),
        ("pages", ctypes.c_size_t),
        ("fault", ctypes.c_int),
        ("kind", ctypes.c_int),
        ("job", ctypes.c_int),
        ("resolution", ctypes.c_int),
        ("holds", ctypes.c_int),
    ]


def _declared(name, jobs, numbers):
    """A call that takes this many jobs and then this many numbers."""
    call = getattr(_LIBRARY, name)
    call.argtypes = [ctypes.c_char_p, ctypes.c_size_t] * jobs + [ctypes.c_uint] * numbers + [ctypes.POINTER(_Answer)]
    call.restype = ctypes.c_int
    return call


def _number(value):
    """A number as the calls take it, which ctypes would cut to 32 bits."""
    number = operator.index(value)
    if not 0 <= number < 1 << 32:
        raise ValueError("%d isn't a number from 0 to 4294967295" % number)
    return number


def _asked(call, jobs, numbers):
    """What a call answers."""
    arguments = []
    for job in jobs:
        job = job if isinstance(job, bytes) else bytes(memoryview(job))
        arguments += [job, len(job)]
    numbers = [_number(number) for number in numbers]
    answer = _Answer()
    call(*arguments, *numbers, ctypes.byref(answer))
    try:
        return Answer(
            ctypes.string_at(answer.bytes, answer.length) if answer.length else b"",
            ctypes.string_at(answer.certificate, answer.certificate_length) if answer.certificate_length else b"",
            answer.line.decode("latin-1"), answer.place, answer.pages, answer.fault, answer.kind, answer.job,
            answer.resolution, bool(answer.holds),
        )
    finally:
        _FREE(ctypes.byref(answer))


_LIBRARY = ctypes.CDLL(LIBRARY)
_FREE = _LIBRARY.pclmin_free
_FREE.argtypes, _FREE.restype = [ctypes.POINTER(_Answer)], None
_VERSION = _LIBRARY.pclmin_version
_VERSION.argtypes, _VERSION.restype = [], ctypes.c_char_p
_PREVIEW = _declared("pclmin_preview", 1, 3)
_GREY = _declared("pclmin_grey", 1, 4)
_MIN = _declared("pclmin_min", 1, 2)
_SHRINK = _declared("pclmin_shrink", 1, 1)
_SAME = _declared("pclmin_same", 2, 1)
_SAME_ASKED = _declared("pclmin_same_asked", 2, 1)
_CHECK = _declared("pclmin_check", 3, 1)
_CHECK_PAGES = _declared("pclmin_check_pages", 3, 1)
_PAGE_COUNT = _declared("pclmin_page_count", 1, 1)
_PAGES = _declared("pclmin_pages", 1, 1)
_EXPLAIN = _declared("pclmin_explain", 1, 1)


def preview(job, resolution=300, first=0, last=0):
    """Pages first to last, counted from 1, as PBM images, one after the other; all pages by 0 and 0."""
    return _asked(_PREVIEW, [job], [resolution, first, last])


def grey(job, resolution=300, first=0, last=0, scale=8):
    """The same pages as PGM images (P5), one after the other: a byte for each square of scale by scale dots, the mean of these, where
    black is 0 and white 255. With a scale that isn't 1 to 32 the fault is WRONG_ARGUMENT; where a page is missing it is NO_PAGE."""
    return _asked(_GREY, [job], [resolution, first, last, scale])


def minimize(job, resolution=300, certificate_format=0):
    """The job as a least raster job, with a certificate of format 1 or 2, or with none by 0."""
    return _asked(_MIN, [job], [resolution, certificate_format])


def shrink(job, resolution=300):
    """The smallest job that is found with the same pages, which asks the printer for the same; by the resolution 0 at 300 and at 600
    where the job is accepted at both."""
    return _asked(_SHRINK, [job], [resolution])


def same(first, second, resolution=300):
    """Whether two jobs have the same pages; by the resolution 0 at 300 and at 600 where both are accepted at both."""
    return _asked(_SAME, [first, second], [resolution])


def same_asked(first, second, resolution=300):
    """Whether two jobs have the same pages and ask the printer for the same; by the resolution 0 at each, as same does."""
    return _asked(_SAME_ASKED, [first, second], [resolution])


def check(job, output, certificate, resolution=300):
    """Whether an output has a job's pages and is the shortest such job text, by a certificate."""
    return _asked(_CHECK, [job, output, certificate], [resolution])


def check_pages(images, output, certificate, resolution=300):
    """Whether an output prints PBM images, one after the other, and is the shortest such job text, by a certificate."""
    return _asked(_CHECK_PAGES, [images, output, certificate], [resolution])


def page_count(job, resolution=300):
    """How many pages the job has."""
    return _asked(_PAGE_COUNT, [job], [resolution])


def pages(job, resolution=300):
    """What the pages are, as the command `pages --json` writes it."""
    return _asked(_PAGES, [job], [resolution])


def explain(job, resolution=300):
    """All that is refused in the job, and what can be done, as text."""
    return _asked(_EXPLAIN, [job], [resolution])


def version():
    """The version, as the program says it."""
    return _VERSION().decode()
