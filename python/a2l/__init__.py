"""Which function, file and line of a program an address comes from, by its DWARF 5 debug information.

It stands on liba2l, by `ctypes`, and on Python's standard library alone. `make shared` builds the library, and
`make install` puts both in place. At the top of the repository:

>>> import a2l
>>> with a2l.open('samples/inlined.elf') as program:
...     for frame in program.frames(0x401004):
...         print(frame.function, frame.location)
leaf /w/a.c:4
mid /w/a.c:30
main /w/z.c:20

Many addresses are asked for in one call, which reads each unit of the program once. Each has an answer at its place:

>>> with a2l.open('samples/inlined.elf') as program:
...     for answer in program.frames_of([0x401004, 0]):
...         print([frame.function for frame in answer.frames])
['leaf', 'mid', 'main']
[]

A file that can't be answered is refused by an exception, which has the program's number and name for the reason:

>>> with a2l.open('README.md') as program:
...     pass
Traceback (most recent call last):
    ...
a2l.NotElf: README.md: file refused: 1 NotElf

Addresses   are those of the file, without the load address of a process.
Texts       Names and paths are bytes in the file, and `str` here: UTF-8, and each byte that isn't as a lone surrogate,
            so that `text.encode('utf-8', 'surrogateescape')` gives the bytes back. Names are not demangled.
Threads     A program may be used by any thread; its calls wait for one another. `beside` gives another handle over the
            same file, for calls that run at the same time: a question lets the other threads of Python run.
Processes   Open a program after a fork. What comes out of a call (frames, answers, pieces, exceptions) can be pickled.
The file    is mapped, so that what is asked for reads only the pages that it needs. A file that is changed in its place
            while it is open may end the process by SIGBUS; a file that is replaced or removed does no harm.
"""

from __future__ import annotations

import ctypes
import errno
import functools
import mmap
import operator
import os
import stat
import threading
import weakref
from array import array
from dataclasses import dataclass
from typing import Any, Callable, Dict, Iterable, List, Optional, Sequence, Tuple, Type, Union

__all__ = [
    'open', 'Program', 'Frame', 'Location', 'Piece', 'Answer', 'Fault', 'version', '__version__',
    'Error', 'OutOfMemory', 'Closed', 'LibraryMissing', 'UnitFault', 'Refused', 'NotElf', 'NotElf64Little',
    'Relocatable', 'SectionTable', 'SectionRange', 'Compressed', 'UnitHeader', 'AddressSize', 'Root', 'RootRanges',
]

# The version of this module.
__version__ = '0.1.0'

# How many units a program keeps, where nothing else is said.
CAPACITY = 1024
# How many addresses are asked for at once. The library holds the answers of one question, some 30 MB for so many.
BLOCK = 16384
# How long the longest path is for which no second call is made.
_ROOM = 4096


class Error(Exception):
    """All that goes wrong here, but for what the operating system says of a file (`OSError`)."""


class OutOfMemory(Error, MemoryError):
    """Out of memory. Nothing has changed, and the same call may be made again."""

    def __str__(self) -> str:
        return 'out of memory'


class Closed(Error, ValueError):
    """The program is closed."""

    def __str__(self) -> str:
        return 'the program is closed'


class LibraryMissing(Error, ImportError):
    """liba2l.so is not there, or is of another version."""


class UnitFault(Error):
    """The unit of an address can't be read: its offset in .debug_info, and the number of the fault.

    1 is an entry, 2 entries too deep, 3 the ranges of a function, 4 the line table.
    """

    def __init__(self, unit: int, number: int) -> None:
        super().__init__(unit, number)
        self.unit, self.number = unit, number

    def __str__(self) -> str:
        return f'unit {self.unit:#x} fault {self.number}'


class Refused(Error):
    """The file can't be answered. Each reason is a class of its own.

    `number` and `name` are the program's. `section` is the section of which the reason speaks, and `offset` the offset
    in .debug_info of the unit of which it speaks, each None where it speaks of none.
    """

    def __init__(self, path: str, number: int, name: str, section: Optional[str], offset: Optional[int]) -> None:
        super().__init__(path, number, name, section, offset)
        self.path, self.number, self.name, self.section, self.offset = path, number, name, section, offset

    def __str__(self) -> str:
        place = '' if self.section is None else f' {self.section}'
        if self.offset is not None:
            place = f' {self.offset:#x}'
        return f'{self.path}: file refused: {self.number} {self.name}{place}'


class NotElf(Refused):
    """1: it is no ELF file."""


class NotElf64Little(Refused):
    """2: it is an ELF file, but not of 64 bits and little-endian."""


class Relocatable(Refused):
    """3: it is a relocatable object. Link it first."""


class SectionTable(Refused):
    """4: its table of sections can't be read."""


class SectionRange(Refused):
    """5: a section runs past the end of the file, which may be cut off."""


class Compressed(Refused):
    """6: a section is compressed. Use `objcopy --decompress-debug-sections`."""


class UnitHeader(Refused):
    """7: the header of a unit can't be read."""


class AddressSize(Refused):
    """9: the addresses of a unit don't have 8 bytes."""


class Root(Refused):
    """10: the first entry of a unit can't be read."""


class RootRanges(Refused):
    """11: the ranges of the first entry of a unit can't be read."""


# The first number whose reason speaks of a unit.
_OF_UNITS = 7
_REASONS: Dict[int, Type[Refused]] = {
    1: NotElf, 2: NotElf64Little, 3: Relocatable, 4: SectionTable, 5: SectionRange, 6: Compressed, 7: UnitHeader,
    9: AddressSize, 10: Root, 11: RootRanges,
}


@dataclass(frozen=True)
class Location:
    """Where in the source an address comes from. What isn't known is None. Column 0 is the left edge of the line."""

    path: Optional[str]
    line: Optional[int]
    column: Optional[int]

    def __str__(self) -> str:
        """The location as the program writes it."""
        if self.path is None:
            return f'??:{self.line or 0}'
        return f'{self.path}:{"?" if self.line is None else self.line}'


@dataclass(frozen=True)
class Frame:
    """A function at an address. Its name is as it stands in the file, or None where it isn't known."""

    function: Optional[str]
    location: Location


@dataclass(frozen=True)
class Piece:
    """Addresses from `begin` on and below `end`, which have one location."""

    begin: int
    end: int
    location: Location


@dataclass(frozen=True)
class Fault:
    """Why a unit can't be read; the numbers are those of `UnitFault`."""

    unit: int
    number: int


@dataclass(frozen=True)
class Answer:
    """What an address means: its frames, innermost first.

    No frames are there where no unit covers it, or where its unit can't be read, which `fault` then says. `unit` is the
    offset of its unit in .debug_info.
    """

    frames: Tuple[Frame, ...]
    unit: Optional[int] = None
    fault: Optional[Fault] = None


# The structs of include/a2l.h. The tests compare them with what a C compiler makes of it.


class _Handle(ctypes.Structure):
    _fields_ = [('open', ctypes.c_bool), ('session', ctypes.c_void_p)]


class _Refusal(ctypes.Structure):
    _fields_ = [
        ('name', ctypes.c_void_p), ('name_length', ctypes.c_size_t),
        ('section', ctypes.c_void_p), ('section_length', ctypes.c_size_t),
        ('offset', ctypes.c_uint64), ('number', ctypes.c_uint32),
    ]


class _Answer(ctypes.Structure):
    _fields_ = [
        ('kind', ctypes.c_uint32), ('fault', ctypes.c_uint32), ('unit', ctypes.c_uint64), ('count', ctypes.c_size_t),
    ]


class _Location(ctypes.Structure):
    _fields_ = [
        ('path_length', ctypes.c_size_t), ('line', ctypes.c_uint64), ('column', ctypes.c_uint64),
        ('path_known', ctypes.c_bool), ('line_known', ctypes.c_bool), ('column_known', ctypes.c_bool),
    ]


class _Frame(ctypes.Structure):
    _fields_ = [
        ('name', ctypes.c_void_p), ('name_length', ctypes.c_size_t), ('location', _Location),
        ('name_known', ctypes.c_bool),
    ]


class _Piece(ctypes.Structure):
    _fields_ = [('begin', ctypes.c_uint64), ('end', ctypes.c_uint64), ('location', _Location)]


_DONE, _MEMORY, _REFUSED, _SHORT = 0, 1, 2, 7
_NOT_COVERED, _FAULT = 0, 2
# First and second number of the interface's version.
_VERSION = tuple(map(int, __version__.split('.')[:2]))

_TO_HANDLE, _SIZE, _ADDRESS, _TO = ctypes.POINTER(_Handle), ctypes.c_size_t, ctypes.c_uint64, ctypes.c_void_p
# Calls that may take long: other threads of Python run meanwhile.
_QUESTIONS: Dict[str, Tuple[Any, ...]] = {
    'a2l_open': (_TO, _SIZE, _SIZE, _TO_HANDLE, ctypes.POINTER(_Refusal)),
    'a2l_find_frames': (_TO_HANDLE, _TO, _SIZE),
    'a2l_find_locations': (_TO_HANDLE, _TO, _SIZE),
    'a2l_find_pieces': (_TO_HANDLE, _ADDRESS, _ADDRESS),
    'a2l_close': (_TO_HANDLE,),
}
# Calls that are shorter than it takes to let other threads run.
_TELLINGS: Dict[str, Tuple[Any, ...]] = {
    'a2l_beside': (_TO_HANDLE, _SIZE, _TO_HANDLE),
    'a2l_answer_at': (_TO_HANDLE, _SIZE, ctypes.POINTER(_Answer)),
    'a2l_frame_at': (_TO_HANDLE, _SIZE, _SIZE, _TO, _SIZE, ctypes.POINTER(_Frame)),
    'a2l_piece_at': (_TO_HANDLE, _SIZE, _TO, _SIZE, ctypes.POINTER(_Piece)),
    'a2l_version': (),
}


class _Library:
    """The functions of the library, each by the name that it has after `a2l_`."""

    def __init__(self, path: str) -> None:
        for loaded, calls in ((ctypes.CDLL(path), _QUESTIONS), (ctypes.PyDLL(path), _TELLINGS)):
            for name, kinds in calls.items():
                call = getattr(loaded, name)
                call.argtypes, call.restype = kinds, ctypes.c_uint32
                setattr(self, name[len('a2l_'):], call)
        told = self.version()
        if (told >> 16, told >> 8 & 255) != _VERSION:
            wanted = '.'.join(map(str, _VERSION))
            raise LibraryMissing(f'{path} has version {told >> 16}.{told >> 8 & 255}, wanted is {wanted}')

    def __getattr__(self, name: str) -> Callable[..., int]:
        raise AttributeError(name)


def _places() -> List[str]:
    """Where the library may be: where A2L_LIBRARY says, or beside this file, or built in its repository, or where the
    system looks for libraries."""
    named = os.environ.get('A2L_LIBRARY')
    here = os.path.dirname(os.path.abspath(__file__))
    near = [os.path.join(here, 'liba2l.so'), os.path.join(here, os.pardir, os.pardir, 'out', 'liba2l.so')]
    return [named] if named else [place for place in near if os.path.exists(place)] + ['liba2l.so']


@functools.lru_cache(maxsize=None)
def _library() -> _Library:
    """The library, which is loaded when it is first needed."""
    place = _places()[0]
    try:
        return _Library(place)
    except (OSError, AttributeError) as why:
        raise LibraryMissing(f'{why}; build it by `make shared`, or name it in A2L_LIBRARY') from why


@functools.lru_cache(maxsize=None)
def _system() -> ctypes.CDLL:
    """The C library's calls that map a file. Python's own mapping tells where it is only if it may be written to."""
    system = ctypes.CDLL(None, use_errno=True)
    system.mmap.restype = ctypes.c_void_p
    system.mmap.argtypes = (_TO, _SIZE, ctypes.c_int, ctypes.c_int, ctypes.c_int, ctypes.c_long)
    system.munmap.argtypes = (_TO, _SIZE)
    return system


class _File:
    """The bytes of a file, mapped for reading. They stay until nothing refers to this."""

    def __init__(self, path: Union[str, bytes, os.PathLike[Any]]) -> None:
        self.name = os.fsdecode(path)
        # not to wait for the other end of a pipe, which is no regular file
        number = os.open(path, os.O_RDONLY | os.O_CLOEXEC | os.O_NONBLOCK)
        try:
            about = os.fstat(number)
            if not stat.S_ISREG(about.st_mode):
                reason = errno.EISDIR if stat.S_ISDIR(about.st_mode) else errno.EINVAL
                raise OSError(reason, os.strerror(reason), self.name)
            self.length = about.st_size
            self.address = self._map(number)
        finally:
            os.close(number)

    def _map(self, number: int) -> int:
        """Where the bytes are."""
        if self.length == 0:
            # a mapping has a byte at least
            return ctypes.addressof(_NO_BYTES)
        address = _system().mmap(None, self.length, mmap.PROT_READ, mmap.MAP_PRIVATE, number, 0)
        if address is None or address == ctypes.c_void_p(-1).value:
            raise OSError(ctypes.get_errno(), os.strerror(ctypes.get_errno()), self.name)
        weakref.finalize(self, _system().munmap, address, self.length).atexit = False
        return int(address)


_NO_BYTES = ctypes.create_string_buffer(1)


def _text(raw: bytes) -> str:
    return raw.decode('utf-8', 'surrogateescape')


class _Teller:
    """Tells what the last question of a handle has found. What was told before, byte for byte, is made once."""

    def __init__(self, library: _Library, handle: _Handle) -> None:
        self._library, self._handle = library, ctypes.byref(handle)
        self._answer, self._frame, self._piece = _Answer(), _Frame(), _Piece()
        self._to_answer, self._to_frame, self._to_piece = map(ctypes.byref, (self._answer, self._frame, self._piece))
        self._frames: Dict[Tuple[bytes, bytes], Frame] = {}
        self._texts: Dict[bytes, str] = {}
        self._make_room(_ROOM)

    def answer(self, i: int) -> Answer:
        """Answer i."""
        told = self._answer
        _check(self._library.answer_at(self._handle, i, self._to_answer))
        if told.kind == _NOT_COVERED:
            return _NOTHING
        if told.kind == _FAULT:
            return Answer((), told.unit, Fault(told.unit, told.fault))
        return Answer(tuple([self._tell_frame(i, j) for j in range(told.count)]), told.unit)

    def pieces(self) -> List[Piece]:
        """The pieces of answer 0."""
        told = self._answer
        _check(self._library.answer_at(self._handle, 0, self._to_answer))
        if told.kind == _FAULT:
            raise UnitFault(told.unit, told.fault)
        return [self._tell_piece(j) for j in range(told.count)]

    def _make_room(self, size: int) -> None:
        """Makes the buffer for paths."""
        self._room = bytearray(size)
        self._path = ctypes.addressof((ctypes.c_char * size).from_buffer(self._room))

    def _tell_frame(self, i: int, j: int) -> Frame:
        frame, call = self._frame, self._library.frame_at
        while (status := call(self._handle, i, j, self._path, len(self._room), self._to_frame)) == _SHORT:
            self._make_room(frame.location.path_length)
        _check(status)
        # the name's bytes are the file's and stay, so its place tells it
        key = (bytes(frame), bytes(self._room[:frame.location.path_length]))
        made = self._frames.get(key)
        if made is None:
            name = self._text(ctypes.string_at(frame.name, frame.name_length)) if frame.name_known else None
            made = self._frames[key] = Frame(name, self._location(frame.location))
        return made

    def _tell_piece(self, j: int) -> Piece:
        piece, call = self._piece, self._library.piece_at
        while (status := call(self._handle, j, self._path, len(self._room), self._to_piece)) == _SHORT:
            self._make_room(piece.location.path_length)
        _check(status)
        return Piece(piece.begin, piece.end, self._location(piece.location))

    def _location(self, told: _Location) -> Location:
        """A location, whose path is in the buffer."""
        return Location(
            self._text(bytes(self._room[:told.path_length])) if told.path_known else None,
            told.line if told.line_known else None,
            told.column if told.column_known else None,
        )

    def _text(self, raw: bytes) -> str:
        text = self._texts.get(raw)
        if text is None:
            text = self._texts[raw] = _text(raw)
        return text


_NOTHING = Answer(())


def _check(status: int) -> None:
    """Raises what a call returned, where that isn't that all is well."""
    if status == _MEMORY:
        raise OutOfMemory
    if status != _DONE:
        raise Error(f'the library returns {status}')


def _numbers(addresses: Iterable[int]) -> List[int]:
    """Addresses as numbers of Python. An array, also one of numpy, is read as a whole."""
    if isinstance(addresses, (str, bytes, bytearray)):
        raise TypeError('addresses are numbers, no text')
    try:
        view = memoryview(addresses)  # type: ignore[arg-type]
        if view.format in ('B', 'H', 'I', 'L', 'Q', 'b', 'h', 'i', 'l', 'q') and view.ndim == 1:
            return view.tolist()
    except TypeError:
        pass
    return [operator.index(address) for address in addresses]


def _distinct(addresses: Sequence[int]) -> List[int]:
    """The different ones among addresses, in order."""
    distinct = sorted(set(addresses))
    for address in distinct[:1] + distinct[-1:]:
        if not 0 <= address < 1 << 64:
            raise ValueError(f'{address:#x} is no address of 64 bits')
    return distinct


def _close(library: _Library, handle: _Handle, _file: _File) -> None:
    """Closes a handle. The file is named so that it stays until then."""
    library.close(ctypes.byref(handle))


class Program:
    """An open file. `open` makes it; `with`, `close` or the end of the last reference to it closes it."""

    def __init__(self, library: _Library, handle: _Handle, file: _File) -> None:
        self.name = file.name
        self._library, self._handle, self._file = library, handle, file
        self._lock = threading.Lock()
        self._end = weakref.finalize(self, _close, library, handle, file)
        # at the end of the process its memory goes anyway, and a thread may still be asking
        self._end.atexit = False

    def frames(self, address: int) -> List[Frame]:
        """The functions at an address, innermost first, with where in the source each stands.

        The innermost stands where the line table says, each other one where it calls the one before. No frames are
        there where no unit covers the address. The first address of a unit reads the unit, which may take milliseconds.
        To ask for many at once, `frames_of` takes less time for each.

        Raises `UnitFault`, `OutOfMemory`, `Closed`, or ValueError for a number that is no address.
        """
        return list(self._one(self._library.find_frames, address))

    def frames_of(self, addresses: Iterable[int]) -> List[Answer]:
        """What each of many addresses means, in their order, whichever that is.

        Addresses are a list, an array, also one of numpy, or whatever gives numbers. Each different one is asked for
        once, and equal ones share an answer. A unit that can't be read is no exception here: it is the `fault` of the
        answers that it concerns, and the others are as ever.

        Raises `OutOfMemory`, `Closed`, or ValueError for a number that is no address.
        """
        return self._many(self._library.find_frames, addresses)

    def location(self, address: int) -> Optional[Location]:
        """Where in the source an address comes from, by the line table alone, which is faster than its frames.

        None where no unit covers it. Raises as `frames`.
        """
        frames = self._one(self._library.find_locations, address)
        return frames[0].location if frames else None

    def locations_of(self, addresses: Iterable[int]) -> List[Answer]:
        """As `frames_of`, by line tables alone: each answer that is covered has one frame, without a name."""
        return self._many(self._library.find_locations, addresses)

    def pieces(self, low: int, high: int) -> List[Piece]:
        """The locations of all addresses from `low` on and below `high`, in order of address.

        Raises as `frames`, for the first address whose unit can't be read.
        """
        _distinct(_numbers([low, high]))
        with self._lock:
            try:
                _check(self._library.find_pieces(self._to_handle(), low, high))
                return _Teller(self._library, self._handle).pieces()
            finally:
                self._forget()

    def beside(self, capacity: int = CAPACITY) -> Program:
        """Another handle over the same file, for another thread, which keeps units of its own.

        It reads nothing, and either may be closed first.
        """
        other = _Handle()
        with self._lock:
            _check(self._library.beside(self._to_handle(), _capacity(capacity), ctypes.byref(other)))
            return Program(self._library, other, self._file)

    def close(self) -> None:
        """Closes it, after a call that is under way. To close it again does nothing."""
        with self._lock:
            if not self.closed:
                self._end()
                del self._file

    @property
    def closed(self) -> bool:
        """Whether it is closed."""
        return not self._end.alive

    def __enter__(self) -> Program:
        self._to_handle()
        return self

    def __exit__(self, *_: Any) -> None:
        self.close()

    def __repr__(self) -> str:
        return f'<a2l.Program {self.name!r}{", closed" if self.closed else ""}>'

    def _to_handle(self) -> Any:
        """A reference to the handle, which is open."""
        if self.closed:
            raise Closed
        return ctypes.byref(self._handle)

    def _one(self, question: Callable[..., int], address: int) -> Tuple[Frame, ...]:
        answer = self._many(question, [address])[0]
        if answer.fault is not None:
            raise UnitFault(answer.fault.unit, answer.fault.number)
        return answer.frames

    def _many(self, question: Callable[..., int], addresses: Iterable[int]) -> List[Answer]:
        asked = _numbers(addresses)
        distinct = _distinct(asked)
        answers: Dict[int, Answer] = {}
        with self._lock:
            self._to_handle()
            teller = _Teller(self._library, self._handle)
            for begin in range(0, len(distinct), BLOCK):
                block = array('Q', distinct[begin:begin + BLOCK])
                answers.update(zip(block, self._block(question, block, teller)))
        return [answers[address] for address in asked]

    def _block(self, question: Callable[..., int], block: array[int], teller: _Teller) -> List[Answer]:
        """The answers of one question."""
        try:
            _check(question(self._to_handle(), block.buffer_info()[0], len(block)))
            return [teller.answer(i) for i in range(len(block))]
        finally:
            self._forget()

    def _forget(self) -> None:
        """Frees the answers of the last question, by one about no addresses. Should that fail, the next one does."""
        self._library.find_locations(ctypes.byref(self._handle), ctypes.addressof(_NO_BYTES), 0)


def _capacity(capacity: int) -> int:
    if not 0 < operator.index(capacity) < 1 << 32:
        raise ValueError('the capacity is a number of units, from 1 on')
    return capacity


def open(path: Union[str, bytes, os.PathLike[Any]], capacity: int = CAPACITY) -> Program:
    """Opens a program, a library or a file of debug information by its path.

    The program keeps the functions of as many units as the capacity says, those that were asked for last, and line
    tables that are together no longer than .debug_line, and reads the others again. The addresses of one call are asked
    for in order, so that 1 is enough for calls about many, where the units of a program lie one after the other.

    Raises one of the classes of `Refused`, `OutOfMemory`, `LibraryMissing`, or OSError where the file can't be read.
    """
    _capacity(capacity)
    library = _library()
    file, handle, why = _File(path), _Handle(), _Refusal()
    status = library.open(file.address, file.length, capacity, ctypes.byref(handle), ctypes.byref(why))
    if status == _REFUSED:
        section = _text(ctypes.string_at(why.section, why.section_length)) if why.section_length else None
        offset = why.offset if why.number >= _OF_UNITS else None
        name = _text(ctypes.string_at(why.name, why.name_length))
        raise _REASONS.get(why.number, Refused)(file.name, why.number, name, section, offset)
    _check(status)
    return Program(library, handle, file)


def version() -> str:
    """The version of the library's interface."""
    told = _library().version()
    return f'{told >> 16}.{told >> 8 & 255}.{told & 255}'
