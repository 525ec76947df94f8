"""Twelve faces for regional maps: the calls of the proved library, over ctypes.

    import a5_faces

    faces = a5_faces.Set()
    place = faces.place(-0.1278, 51.5074)  # Place(origin=4, x=-0.5852177768157802, y=-0.08927914048748557)
    faces.unplace(*place)                  # LonLat(longitude=-0.12779999999997926, latitude=51.5074)

A call answers, or raises `Refused`, which has the refusal's number and name and leaves everything as it was. Every number may be
passed. Longitude and latitude are degrees, theta and phi radians.

`Set` has the calls on a set, `Table` is a table of twelve other origins, `Window` keeps three hours of strikes, `CaptionBox` grows round
the points of a face, `Panel` is a block of 32 registers. A set, a window, a box and a panel are each used by one thread at a time.

The shared library is liba5faces.so: in the folder that the variable A5_LIBRARY names, or in lib of the PREFIX that the module was installed
in, or in the repository where `bindings/shared` writes it, or where the system looks.
"""

from __future__ import annotations

import array
import ctypes
import enum
import operator
import os
import pathlib
import struct
from collections.abc import Iterable, Iterator, Sequence
from ctypes import POINTER, c_bool, c_double, c_size_t, c_uint8, c_uint16, c_uint32
from typing import Any, NamedTuple, Union, cast

__all__ = [
    "CaptionBox", "Face", "LonLat", "Panel", "Place", "Places", "Refusal", "Refused", "Region", "Set", "Sides", "Spherical", "Store", "Table",
    "Window", "fair_turns", "from_lon_lat", "nearest", "sqrt", "sqrt_rounds", "to_lon_lat",
]

FRAME, FACE_STORE, SPHERE_STORE = 186, 210, 3120
FACE_SLOTS, SPHERE_SLOTS = 30, 240
CHANNELS, PAGE, TABLE, TABLE_FILE, REGISTERS = 16, 4860, 84, 677, 32


class Refusal(enum.IntEnum):
    """Why a call was refused, by its number."""

    FRAME_LENGTH = 1
    FACE_STORE_LENGTH = 2
    SPHERE_STORE_LENGTH = 3
    UNKNOWN_ORIGIN = 4
    NOT_FINITE = 5
    OUT_OF_RANGE = 6
    FRAME_ROWS = 7
    NO_VERTEX = 8
    ANSWER_NOT_FINITE = 9
    UNKNOWN_SLOT = 10
    HEADER = 11
    RECORD_KIND = 12
    CUT_OFF = 13
    RESULT_COUNT = 14
    POSITION_COUNT = 15
    ORIGINS_DIFFER = 16
    EARLIER_MINUTE = 17
    WINDOW_FULL = 18
    ANGLE_OUTSIDE = 19
    TABLE_FILE = 20
    TABLE_NUMBER = 21
    TABLE_QUATERNION = 22
    BLOCK_LENGTH = 23
    WISH_COUNT = 24
    GRANT_COUNT = 25
    PAGE_LENGTH = 26


class Refused(ValueError):
    """A call that was refused: nothing has changed. `refusal` is the reason, `number` its number and `name` its name."""

    def __init__(self, refusal: int) -> None:
        self.refusal = Refusal(refusal)
        super().__init__(f"refused with {self.number}, {self.name}")

    def __reduce__(self) -> tuple[type[Refused], tuple[int]]:
        return type(self), (self.number,)

    @property
    def number(self) -> int:
        return int(self.refusal)

    @property
    def name(self) -> str:
        return self.refusal.name


class LonLat(NamedTuple):
    """Longitude (-360 to 360) and latitude (-90 to 90), in degrees."""

    longitude: float
    latitude: float


class Spherical(NamedTuple):
    """A position on the authalic sphere: theta and phi (-8 to 8), in radians."""

    theta: float
    phi: float


class Face(NamedTuple):
    """A point on a face, from its centre."""

    x: float
    y: float


class Place(NamedTuple):
    """A point on the face of an origin (0 to 11)."""

    origin: int
    x: float
    y: float


class Sides(NamedTuple):
    """The least and greatest coordinates of a caption box."""

    least_x: float
    greatest_x: float
    least_y: float
    greatest_y: float


class Region(NamedTuple):
    """An outline on one face: the face's origin, a point for each position, and the sides of the outline's box."""

    origin: int
    points: list[Face]
    sides: Sides


class Store(enum.IntEnum):
    """The store that show looks at."""

    FACE = 0
    SPHERE = 1


class _Position(ctypes.Structure):
    _fields_ = [("longitude", c_double), ("latitude", c_double)]


class _Result(ctypes.Structure):
    _fields_ = [("refusal", c_uint8), ("origin", c_uint8), ("x", c_double), ("y", c_double)]


class _Point(ctypes.Structure):
    _fields_ = [("x", c_double), ("y", c_double)]


class _Box(ctypes.Structure):
    _fields_ = [("least_x", c_double), ("greatest_x", c_double), ("least_y", c_double), ("greatest_y", c_double), ("empty", c_bool)]


class _Window(ctypes.Structure):
    # its fields are the library's
    _fields_ = [("numbers", c_uint32 * 5135)]


_Numbers, _Bytes, _Two = POINTER(c_double), POINTER(c_uint8), POINTER(c_double * 2)
_SET = [_Numbers, c_size_t] * 3
_STORES = [_Numbers, c_size_t] * 2
_NUMBERS = [c_double, c_double]

# The functions of bindings/a5.h with a status, and what each takes; those on a set are there with a table before it too.
_ON_A_SET: dict[str, list[Any]] = {
    "open": [],
    "forward": [*_NUMBERS, c_uint8, _Two],
    "inverse": [*_NUMBERS, c_uint8, _Two],
    "place": [*_NUMBERS, _Bytes, _Two],
    "unplace": [*_NUMBERS, c_uint8, _Two],
    "place_list": [POINTER(_Position), c_size_t, POINTER(_Result), c_size_t],
    "region": [POINTER(_Position), c_size_t, POINTER(_Point), c_size_t, _Bytes, POINTER(_Box)],
    "panel_step": [_Bytes, c_size_t],
}
_OTHERS: dict[str, list[Any]] = {
    "show": [*_STORES, c_uint8, c_size_t, POINTER(c_size_t * 2)],
    "slot_state": [*_STORES, c_uint8, c_size_t, _Bytes],
    "nearest": [*_NUMBERS, _Bytes],
    "nearest_with": [_Numbers, c_size_t, *_NUMBERS, _Bytes],
    "from_lon_lat": [*_NUMBERS, _Two],
    "to_lon_lat": [*_NUMBERS, _Two],
    "table_load": [_Bytes, c_size_t, POINTER(c_double * TABLE)],
    "table_save": [_Numbers, c_size_t, _Bytes, c_size_t],
    "box_take": [POINTER(_Box), *_NUMBERS],
    "fair_turns": [POINTER(c_uint16), c_size_t, POINTER(c_uint16), c_size_t],
    "window_add": [POINTER(_Window), c_uint32, c_uint8],
    "sheet": [POINTER(_Window), _Bytes, c_size_t],
}
# Those that are never refused, and what each returns.
_NEVER_REFUSED: dict[str, tuple[list[Any], Any]] = {
    "box_new": ([POINTER(_Box)], None),
    "window_new": ([POINTER(_Window)], None),
    "window_counts": ([POINTER(_Window), POINTER(c_uint32 * 12)], None),
    "window_kept": ([POINTER(_Window)], c_uint32),
    "sqrt": ([c_double], c_double),
    "sqrt_rounds": ([c_double], c_uint32),
}


def _library() -> ctypes.CDLL:
    name = "liba5faces.so"
    # three folders up lies PREFIX/lib or the repository; a module that lies less deep has neither
    above = list(pathlib.Path(__file__).resolve().parents)[2:3]
    for folder in [os.environ.get("A5_LIBRARY"), *above, *(up / "target" / "sharedlib" for up in above)]:
        if folder and (path := pathlib.Path(folder, name)).is_file():
            return ctypes.CDLL(str(path))
    return ctypes.CDLL(name)


def _declare(library: ctypes.CDLL) -> None:
    def declare(name: str, arguments: list[Any], result: Any) -> None:
        function = getattr(library, "a5_" + name)
        function.argtypes, function.restype = arguments, result

    for name, arguments in _ON_A_SET.items():
        declare(name, [*_SET, *arguments], c_uint8)
        declare(name + "_with", [_Numbers, c_size_t, *_SET, *arguments], c_uint8)
    for name, arguments in _OTHERS.items():
        declare(name, arguments, c_uint8)
    for name, (arguments, result) in _NEVER_REFUSED.items():
        declare(name, arguments, result)


_lib = _library()
_declare(_lib)


def _run(name: str, *arguments: Any) -> Any:
    """What a function of the library returns. A number of a wrong type is a TypeError, and one too large for a double an OverflowError: ctypes
    has an error of its own for both."""
    function = getattr(_lib, "a5_" + name)
    try:
        return function(*arguments)
    except ctypes.ArgumentError:
        for kind, argument in zip(function.argtypes, arguments):
            if kind is c_double and not isinstance(argument, c_double):
                c_double(argument)
        raise


def _answered(name: str, *arguments: Any) -> None:
    status = _run(name, *arguments)
    if status:
        raise Refused(status)


def _whole(value: int, bits: int) -> int:
    """A whole number that a C argument of so many bits holds: ctypes would cut it off."""
    value = operator.index(value)
    if not 0 <= value < 1 << bits:
        raise OverflowError(f"{value} is no unsigned number of {bits} bits")
    return value


Positions = Union[Iterable[Sequence[float]], "array.array[float]", memoryview]


def _buffer(data: Any) -> memoryview | None:
    """The bytes of a buffer of doubles, or none where the data is no buffer."""
    try:
        view = memoryview(data)
    except TypeError:
        return None
    if view.format not in ("d", "@d", "=d", "<d"):
        raise TypeError(f"a buffer of positions holds doubles, format d, and this one has {view.format}")
    if view.ndim > 2 or view.ndim == 2 and view.shape is not None and view.shape[1] != 2:
        raise ValueError("a buffer of positions is flat or has two columns")
    if view.nbytes == 0:
        return memoryview(b"")  # no rows, which can't be cast
    return view.cast("B") if view.c_contiguous else memoryview(view.tobytes())


def _positions(data: Positions) -> tuple[ctypes.Array[_Position], int]:
    """Positions as the library takes them, and how many: a buffer of doubles, longitude and latitude in turn, or pairs."""
    view = _buffer(data)
    if view is None:
        pairs = cast(Iterable[Sequence[float]], data)
        numbers = [number for longitude, latitude in pairs for number in (longitude, latitude)]
        view = memoryview(array.array("d", numbers)).cast("B")
    count, rest = divmod(view.nbytes, ctypes.sizeof(_Position))
    if rest:
        raise ValueError("a buffer of positions has a longitude and a latitude for each")
    if count == 0:
        return (_Position * 1)(), 0
    if not view.readonly:
        lent = (_Position * count).from_buffer(view)
        if ctypes.addressof(lent) % ctypes.alignment(_Position) == 0:
            return lent, count
    return (_Position * count).from_buffer_copy(view), count


class Places(Sequence["Place | Refusal"]):
    """What a list of positions gave: for each a `Place`, or the `Refusal` that it got. `array` is the library's own array of results, a
    buffer with refusal, origin (a byte each), six bytes of padding, x and y."""

    def __init__(self, array: ctypes.Array[_Result]) -> None:
        self.array = array

    def __len__(self) -> int:
        return len(self.array)

    def __getitem__(self, index: Any) -> Any:
        if isinstance(index, slice):
            return [self._given(result) for result in self.array[index]]
        return self._given(self.array[index])

    def __iter__(self) -> Iterator[Place | Refusal]:
        return map(self._given, self.array)

    @staticmethod
    def _given(result: _Result) -> Place | Refusal:
        return Refusal(result.refusal) if result.refusal else Place(result.origin, result.x, result.y)

    def __repr__(self) -> str:
        return f"Places({list(self)!r})"


class Table:
    """Twelve origins, for a dodecahedron that is turned: a row of axis theta, axis phi, quaternion x, y, z, w and angle for each. Another
    length gives 20, a number not finite or out of its range 21, a quaternion off unit length 22."""

    __slots__ = ("_numbers",)

    def __init__(self, numbers: Iterable[float]) -> None:
        values = list(numbers)
        array = (c_double * max(len(values), 1))(*values)
        file = (c_uint8 * TABLE_FILE)()
        _answered("table_save", array, len(values), file, TABLE_FILE)
        self._numbers = (c_double * TABLE)(*values)

    @classmethod
    def load(cls, file: bytes | bytearray | memoryview) -> Table:
        """The table of a table file's bytes."""
        data = bytes(memoryview(file))
        table = cls.__new__(cls)
        table._numbers = (c_double * TABLE)()
        _answered("table_load", (c_uint8 * max(len(data), 1)).from_buffer_copy(data or b"\0"), len(data), table._numbers)
        return table

    @classmethod
    def read(cls, path: str | os.PathLike[str]) -> Table:
        """The table of the file at a path."""
        return cls.load(pathlib.Path(path).read_bytes())

    def save(self) -> bytes:
        """The table's file, 677 bytes, from which `load` gives the table back."""
        file = (c_uint8 * TABLE_FILE)()
        _answered("table_save", self._numbers, TABLE, file, TABLE_FILE)
        return bytes(file)

    @property
    def numbers(self) -> tuple[float, ...]:
        """The 84 numbers."""
        return tuple(self._numbers)

    def nearest(self, theta: float, phi: float) -> int:
        """The number of this table's origin nearest to a position on the authalic sphere."""
        origin = c_uint8()
        _answered("nearest_with", self._numbers, TABLE, theta, phi, origin)
        return origin.value

    def __eq__(self, other: object) -> bool:
        return isinstance(other, Table) and bytes(self._numbers) == bytes(other._numbers)

    def __hash__(self) -> int:
        return hash(bytes(self._numbers))

    def __repr__(self) -> str:
        return f"Table({list(self._numbers)!r})"


class Set:
    """The frame, the face store and the sphere store, open from the start, with the built-in table or another. The calls fill slots of the
    stores, which makes later ones quicker; an answer never depends on the calls before it."""

    def __init__(self, table: Table | None = None) -> None:
        self._frame, self._face, self._sphere = (c_double * FRAME)(), (c_double * FACE_STORE)(), (c_double * SPHERE_STORE)()
        self._table: Table | None = None
        self.open(table)

    @property
    def table(self) -> Table | None:
        """The table that the set was opened with; none is the built-in one."""
        return self._table

    def open(self, table: Table | None = None) -> None:
        """Writes the frame and empties every slot: with a table, which the set then has, or without one with that which it has."""
        table = self._table if table is None else table
        self._call("open", table)
        self._table = table

    def _call(self, name: str, table: Table | None, *arguments: Any) -> None:
        lent = (self._frame, FRAME, self._face, FACE_STORE, self._sphere, SPHERE_STORE)
        if table is None:
            _answered(name, *lent, *arguments)
        else:
            _answered(name + "_with", table._numbers, TABLE, *lent, *arguments)

    def forward(self, theta: float, phi: float, origin: int) -> Face:
        """The point of a position on the face of an origin."""
        to = (c_double * 2)()
        self._call("forward", self._table, theta, phi, _whole(origin, 8), to)
        return Face(*to)

    def inverse(self, origin: int, x: float, y: float) -> Spherical:
        """The position of a point on the face of an origin."""
        to = (c_double * 2)()
        self._call("inverse", self._table, x, y, _whole(origin, 8), to)
        return Spherical(*to)

    def place(self, longitude: float, latitude: float) -> Place:
        """The nearest origin of a longitude and latitude, and the point on its face."""
        origin, to = c_uint8(), (c_double * 2)()
        self._call("place", self._table, longitude, latitude, origin, to)
        return Place(origin.value, *to)

    def unplace(self, origin: int, x: float, y: float) -> LonLat:
        """The longitude and latitude of a point on the face of an origin: `faces.unplace(*place)`."""
        to = (c_double * 2)()
        self._call("unplace", self._table, x, y, _whole(origin, 8), to)
        return LonLat(*to)

    def place_list(self, positions: Positions) -> Places:
        """Places all positions in one call: pairs of longitude and latitude, or a buffer of doubles, longitude and latitude in turn (an
        `array('d')`, a `memoryview`, a numpy array of two columns). A refused one doesn't stop the list: it gives its `Refusal`."""
        lent, count = _positions(positions)
        results = (_Result * count)()
        self._call("place_list", self._table, lent, count, results, count)
        return Places(results)

    def region(self, positions: Positions) -> Region:
        """An outline of 1 to 256 positions that all have the same nearest face: that face, every point and the box round them."""
        lent, count = _positions(positions)
        points, origin, box = (_Point * count)(), c_uint8(), _Box()
        self._call("region", self._table, lent, count, points, count, origin, box)
        sides = Sides(box.least_x, box.greatest_x, box.least_y, box.greatest_y)
        return Region(origin.value, [Face(point.x, point.y) for point in points], sides)

    def show(self, store: Store, slot: int) -> tuple[float, ...] | None:
        """The coordinates of a filled slot, six or nine; none where the slot is empty."""
        part = (c_size_t * 2)()
        lent = (self._face, FACE_STORE, self._sphere, SPHERE_STORE)
        _answered("show", *lent, Store(store), _whole(slot, 64), part)
        offset, length = part
        numbers = self._face if store == Store.FACE else self._sphere
        return tuple(numbers[offset : offset + length]) if length else None

    def slot_state(self, store: Store, slot: int) -> bool:
        """Show's companion: whether the slot is filled."""
        filled = c_uint8()
        lent = (self._face, FACE_STORE, self._sphere, SPHERE_STORE)
        _answered("slot_state", *lent, Store(store), _whole(slot, 64), filled)
        return filled.value == 1

    def buffers(self) -> tuple[bytes, bytes, bytes]:
        """The bytes of the frame, the face store and the sphere store, as they stand."""
        return bytes(self._frame), bytes(self._face), bytes(self._sphere)


class CaptionBox:
    """The smallest upright rectangle round the points of one face taken in so far."""

    def __init__(self, points: Iterable[Sequence[float]] = ()) -> None:
        self._box = _Box()
        _lib.a5_box_new(self._box)
        for x, y in points:
            self.take_in(x, y)

    def take_in(self, x: float, y: float) -> None:
        """Takes one more point in (-4 to 4). A coordinate replaces a side exactly when it is strictly beyond it."""
        _answered("box_take", self._box, x, y)

    @property
    def sides(self) -> Sides | None:
        """The four sides; none while no point was taken in."""
        box = self._box
        return None if box.empty else Sides(box.least_x, box.greatest_x, box.least_y, box.greatest_y)

    def __bool__(self) -> bool:
        """Whether a point was taken in."""
        return not self._box.empty

    def __repr__(self) -> str:
        return f"<CaptionBox {self.sides}>"


class Window:
    """The last 180 minutes of strikes, at most 4,096: those accepted whose minute is less than 180 behind the last accepted one."""

    MOST = 4096
    MINUTES = 180

    def __init__(self) -> None:
        self._window = _Window()
        self.clear()

    def clear(self) -> None:
        """Empties the window."""
        _lib.a5_window_new(self._window)

    def add(self, minute: int, origin: int) -> None:
        """Adds a strike; those that are 180 minutes or more behind it are dropped first. Refused: 4, 17, 18, and nothing is dropped."""
        _answered("window_add", self._window, _whole(minute, 32), _whole(origin, 8))

    @property
    def counts(self) -> tuple[int, ...]:
        """How many of the kept strikes each of the twelve origins has."""
        counts = (c_uint32 * 12)()
        _lib.a5_window_counts(self._window, counts)
        return tuple(counts)

    def __len__(self) -> int:
        """How many strikes are kept."""
        return int(_lib.a5_window_kept(self._window))

    def sheet(self) -> str:
        """The as-run sheet: 60 lines of 80 columns, each ended by a newline."""
        page = (c_uint8 * PAGE)()
        _answered("sheet", self._window, page, PAGE)
        return bytes(page).decode("ascii")

    def __repr__(self) -> str:
        return f"<Window of {len(self)} strikes, counts {self.counts}>"


class Panel:
    """The caption panel: 32 bytes of registers, which a step on a set reads and writes. The registers are named here; `block` has all bytes,
    to read and to write."""

    NOTHING, PLACE, UNPLACE = 0, 1, 2
    DONE, REFUSED = 1, 2

    def __init__(self, block: bytes | bytearray | memoryview | None = None) -> None:
        self.block = bytearray(REGISTERS) if block is None else bytearray(memoryview(block))

    def step(self, set: Set) -> None:
        """Carries out the command that stands in the registers. Refused with 23 where the block isn't 32 bytes, and with 21 or 22 for a
        table; what a command is refused with stands in the registers."""
        size = len(self.block)
        lent = (c_uint8 * max(size, 1)).from_buffer_copy(self.block or b"\0")
        set._call("panel_step", set._table, lent, size)
        self.block[:] = bytes(lent)

    def command(self, command: int, first: int = 0, second: int = 0, origin: int | None = None) -> None:
        """Writes a command's registers: 1 places a longitude and latitude in 1e-7 degree, 2 takes a point in 1e-9 back from an origin."""
        inputs = struct.pack(">ii", first, second)
        command, origin = _whole(command, 8), self.origin if origin is None else _whole(origin, 8)
        self.block[0], self.block[4], self.block[8:16] = command, origin, inputs

    @property
    def status(self) -> int:
        return self.block[1]

    @property
    def mask(self) -> int:
        return self.block[2]

    @mask.setter
    def mask(self, mask: int) -> None:
        self.block[2] = mask

    @property
    def interrupt(self) -> bool:
        return self.block[3] == 1

    @property
    def origin(self) -> int:
        return self.block[4]

    @property
    def refusal(self) -> Refusal | None:
        return Refusal(self.block[5]) if self.block[5] else None

    @property
    def result(self) -> tuple[float, float]:
        """The two result doubles."""
        first, second = struct.unpack_from(">dd", self.block, 16)
        return first, second


def nearest(theta: float, phi: float) -> int:
    """The number of the built-in origin nearest to a position on the authalic sphere."""
    origin = c_uint8()
    _answered("nearest", theta, phi, origin)
    return origin.value


def from_lon_lat(longitude: float, latitude: float) -> Spherical:
    """From longitude and latitude to the authalic sphere."""
    to = (c_double * 2)()
    _answered("from_lon_lat", longitude, latitude, to)
    return Spherical(*to)


def to_lon_lat(theta: float, phi: float) -> LonLat:
    """From the authalic sphere to longitude and latitude."""
    to = (c_double * 2)()
    _answered("to_lon_lat", theta, phi, to)
    return LonLat(*to)


def fair_turns(wishes: Iterable[int]) -> list[int]:
    """What each of sixteen channels gets of a turn's 256 place calls, by what each wishes for (0 to 65,535)."""
    values = [_whole(wish, 16) for wish in wishes]
    grants = (c_uint16 * CHANNELS)()
    _answered("fair_turns", (c_uint16 * max(len(values), 1))(*values), len(values), grants, CHANNELS)
    return list(grants)


def sqrt(x: float) -> float:
    """The square root that the calls take, to nearest."""
    return float(_run("sqrt", x))


def sqrt_rounds(x: float) -> int:
    """How many rounds that root takes, a binary digit a round; 0 for all but a finite number above 0."""
    return int(_run("sqrt_rounds", x))
