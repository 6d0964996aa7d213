"""cc, a page compositor, from Python: the C library through ctypes, with nothing else needed.

    page = cc.Compositor(160, 120)
    page.add_layer(1, 0, w=160, h=120)
    page.insert_rect(1, 0, (20, 20, 80, 60), 0x3060c0ff)
    page.commit()
    page.draw()
    page.pixels()            # bytes: red, green, blue and alpha of each pixel

The library is that of the path CC_LIBRARY, or else the one that came with this module, or else the system's. A call that
the library refuses raises `Refused`, one that runs out of memory MemoryError, numbers that are wrong by themselves
ValueError. A compositor is used by one thread, the one that made it, until it is closed: another thread, and any call
afterwards, gets a RuntimeError. docs/EMBEDDING.md says what the calls do.
"""
import ctypes
import operator
import os
import pathlib
import threading

VERSION = 2
SONAME = f"libcc.so.{VERSION}"
DONE, BAD, UNKNOWN, REFUSED, SHORT, NONE, TAKEN, MEMORY = 0, 1, 2, 3, 4, 5, 6, 11
RGBA, BGRA = 0, 1
FAULTS = {1: "a layer or node is not there", 2: "the id is taken", 3: "a place past the end of the list",
          4: "one more than {limit}", 5: "{value} passes {limit}",
          6: "the layers of an effect would not stand together", 7: "no command has the number {value}",
          8: "{value} fields, and the command takes {limit}", 9: "field {field} is {value}, and may not be below 0",
          10: "a colour is not premultiplied", 11: "a side of a bitmap is not 1 to 256",
          12: "{value} bytes, and the bitmap takes {limit}"}
STATUSES = {BAD: "a number is wrong", UNKNOWN: "the active page has no such scroller",
            SHORT: "the buffer is too small, or the frame has no such row", NONE: "there is no compositor",
            TAKEN: "there is a compositor already"}

RANGES = {ctypes.c_int32: range(-(1 << 31), 1 << 31), ctypes.c_uint32: range(1 << 32), ctypes.c_size_t: range(1 << 63)}


def within(kinds, words):
    """Raises ValueError where a number does not fit its type of C, to which ctypes would cut it."""
    for kind, word in zip(kinds, words):
        if kind in RANGES and operator.index(word) not in RANGES[kind]:
            raise ValueError(STATUSES[BAD])


class Handle(ctypes.Structure):
    """What a program keeps of a compositor; of none at first."""
    _fields_ = [("at", ctypes.c_void_p)]


class Fault(ctypes.Structure):
    _fields_ = [("why", ctypes.c_uint32), ("field", ctypes.c_uint32), ("value", ctypes.c_int64), ("limit", ctypes.c_int64)]

    def text(self):
        """The fault in words."""
        return FAULTS[self.why].format(field=self.field, value=self.value, limit=self.limit)


class Rect(ctypes.Structure):
    _fields_ = [(name, ctypes.c_int32) for name in "xywh"]


class Refused(Exception):
    """The page refuses a command. `why` is the number of the fault, `value` and `limit` say more of it."""

    def __init__(self, fault):
        super().__init__(fault.text())
        self.why, self.value, self.limit = fault.why, fault.value, fault.limit


def library_path():
    """Where the library is looked for: CC_LIBRARY, beside this module as a wheel has it, among those of the system."""
    beside = pathlib.Path(__file__).resolve().parent / "cc_compositor.libs" / SONAME
    return os.environ.get("CC_LIBRARY") or (str(beside) if beside.is_file() else SONAME)


def load(path=None):
    """The library, with the types of its functions."""
    library = ctypes.CDLL(path or library_path())
    u32, i32, size, octets, to = ctypes.c_uint32, ctypes.c_int32, ctypes.c_size_t, ctypes.c_char_p, ctypes.POINTER
    page = to(Handle)
    types = {
        "cc_version": (u32,),
        "cc_new": (u32, page, u32, u32, u32, u32, size),
        "cc_free": (None, page),
        "cc_reset": (u32, page, u32, u32, u32),
        "cc_edit": (u32, page, u32, to(i32), size, u32, octets, size, to(Fault)),
        "cc_commit": (u32, page),
        "cc_scroll": (u32, page, u32, i32, i32, to(i32), to(i32)),
        "cc_wheel": (u32, page, i32, i32, i32, i32, to(i32), to(i32)),
        "cc_offset": (u32, page, u32, to(i32), to(i32)),
        "cc_target": (u32, page, i32, i32, to(u32)),
        "cc_is_changed": (u32, page, to(u32)),
        "cc_draw": (u32, page, to(u32), to(u32)),
        "cc_damage": (u32, page, to(Rect), size, to(size)),
        "cc_size": (u32, page, to(u32), to(u32)),
        "cc_copy": (u32, page, u32, u32, u32, size, ctypes.c_void_p, size),
        "cc_trim": (u32, page),
    }
    if library.cc_version() != VERSION:
        raise OSError(f"libcc has version {library.cc_version()}, this module is for {VERSION}")
    for name, (answer, *parameters) in types.items():
        function = getattr(library, name)
        function.restype, function.argtypes = answer, parameters
    return library


class Compositor:
    """A main page, which commands change, an active page, which is shown, and a frame."""

    def __init__(self, w, h, tile=256, background=0xFFFFFFFF, budget=64 << 20, library=None):
        self._handle = Handle()
        self._thread = threading.get_ident()
        self._library = library or load()
        self._answer(self._status("cc_new", w, h, tile, background, budget))

    def close(self):
        """Ends the compositor, once."""
        if self._handle.at:
            self._look_at_thread()
            self._library.cc_free(ctypes.byref(self._handle))

    def _look_at_thread(self):
        """Raises RuntimeError on another thread: ctypes lets threads run side by side in the library, which has no lock."""
        if threading.get_ident() != self._thread:
            raise RuntimeError("a compositor is used by the thread that made it")

    def __enter__(self):
        return self

    def __exit__(self, *_):
        self.close()

    def __del__(self):
        if getattr(self, "_library", None) and self._handle.at:
            self._library.cc_free(ctypes.byref(self._handle))

    def _status(self, name, *words):
        """What a call answers; a number that its type of C lacks is a ValueError."""
        function = getattr(self._library, name)
        within(function.argtypes[1:], words)
        return function(ctypes.byref(self._handle), *words)

    def _call(self, name, *words, fault=None):
        """A call of a compositor, on its thread: any status but DONE is an exception."""
        if not self._handle.at:
            raise RuntimeError("the compositor is closed")
        self._look_at_thread()
        self._answer(self._status(name, *words), fault)

    @staticmethod
    def _answer(status, fault=None):
        if status == REFUSED:
            raise Refused(fault)
        if status == MEMORY:
            raise MemoryError
        if status == BAD and fault:
            raise ValueError(fault.text())
        if status != DONE:
            raise ValueError(STATUSES[status])

    def _edit(self, op, *fields, colour=0, pixels=b""):
        within((ctypes.c_int32,) * len(fields), fields)
        fault, list_of = Fault(), (ctypes.c_int32 * len(fields))(*fields)
        self._call("cc_edit", op, list_of, len(fields), colour, pixels, len(pixels), ctypes.byref(fault), fault=fault)

    def reset(self, w, h, tile=256):
        """Starts the main page anew, so that all ids are free."""
        self._call("cc_reset", w, h, tile)

    def commit(self):
        """Shows what the commands made of the main page."""
        self._call("cc_commit")

    def scroll(self, scroller, dx, dy):
        """Scrolls the active page, and tells how far."""
        x, y = ctypes.c_int32(), ctypes.c_int32()
        self._call("cc_scroll", scroller, dx, dy, ctypes.byref(x), ctypes.byref(y))
        return x.value, y.value

    def wheel(self, x, y, dx, dy):
        """Scrolls what lies under a point, and tells what none of the scrollers took."""
        rest_x, rest_y = ctypes.c_int32(), ctypes.c_int32()
        self._call("cc_wheel", x, y, dx, dy, ctypes.byref(rest_x), ctypes.byref(rest_y))
        return rest_x.value, rest_y.value

    def offset(self, scroller):
        """Where a scroller of the active page stands; (0, 0) where there is none."""
        x, y = ctypes.c_int32(), ctypes.c_int32()
        self._call("cc_offset", scroller, ctypes.byref(x), ctypes.byref(y))
        return x.value, y.value

    def target(self, x, y):
        """The topmost layer at a point; 0 where there is none."""
        layer = ctypes.c_uint32()
        self._call("cc_target", x, y, ctypes.byref(layer))
        return layer.value

    @property
    def is_changed(self):
        """Whether a draw may change the frame."""
        changed = ctypes.c_uint32()
        self._call("cc_is_changed", ctypes.byref(changed))
        return changed.value != 0

    def draw(self):
        """Draws the active page. The rows outside of (top, bottom) are as they were."""
        top, bottom = ctypes.c_uint32(), ctypes.c_uint32()
        self._call("cc_draw", ctypes.byref(top), ctypes.byref(bottom))
        return top.value, bottom.value

    def damage(self):
        """The rects (x, y, w, h) of the frame outside of which the last draw left it as it was."""
        count = ctypes.c_size_t()
        self._call("cc_damage", (Rect * 1)(), 0, ctypes.byref(count))
        rects = (Rect * max(count.value, 1))()
        self._call("cc_damage", rects, count.value, ctypes.byref(count))
        return [(r.x, r.y, r.w, r.h) for r in rects[:count.value]]

    def trim(self):
        """Frees the images of tiles that the last draw did not use."""
        self._call("cc_trim")

    def size(self):
        """The frame's width and height."""
        w, h = ctypes.c_uint32(), ctypes.c_uint32()
        self._call("cc_size", ctypes.byref(w), ctypes.byref(h))
        return w.value, h.value

    def pixels(self, order=RGBA):
        """The frame's bytes, four a pixel, row by row from the top."""
        w, h = self.size()
        return bytes(self.copy_into(bytearray(4 * w * h), 4 * w, 0, h, order))

    def copy_into(self, buffer, stride, top, bottom, order=RGBA):
        """Copies rows of the frame into a writable buffer whose rows begin `stride` bytes apart; answers the buffer."""
        room = (ctypes.c_uint8 * len(buffer)).from_buffer(buffer)
        self._call("cc_copy", order, top, bottom, stride, ctypes.addressof(room), len(buffer))
        return buffer

    # The commands, which change the main page: made by tools/command_fields.py.
    def add_transform(self, id, parent=0, x=0, y=0, scroller=0):
        self._edit(1, id, parent, x, y, scroller)

    def set_transform(self, id, x, y):
        self._edit(2, id, x, y)

    def add_clip(self, id, rect, parent=0, transform=0):
        self._edit(3, id, parent, transform, *rect)

    def set_clip(self, id, rect):
        self._edit(4, id, *rect)

    def add_effect(self, id, opacity, parent=0):
        self._edit(5, id, parent, opacity)

    def set_opacity(self, id, opacity):
        self._edit(6, id, opacity)

    def add_scroller(self, id, max_x, max_y, parent=0):
        self._edit(7, id, parent, max_x, max_y)

    def set_range(self, id, max_x, max_y):
        self._edit(8, id, max_x, max_y)

    def scroll_by(self, id, dx, dy):
        self._edit(9, id, dx, dy)

    def scroll_to(self, id, x, y):
        self._edit(10, id, x, y)

    def add_layer(self, id, at, transform=0, clip=0, effect=0, w=1, h=1, colour=0):
        self._edit(11, id, at, transform, clip, effect, w, h, colour=colour)

    def remove_layer(self, id):
        self._edit(12, id)

    def resize_layer(self, id, w, h):
        self._edit(13, id, w, h)

    def set_colour(self, id, colour):
        self._edit(14, id, colour=colour)

    def move_layer(self, id, at):
        self._edit(15, id, at)

    def set_view(self, w, h, tile):
        self._edit(16, w, h, tile)

    def remove_item(self, layer, at):
        self._edit(17, layer, at)

    def insert_rect(self, layer, at, rect, colour):
        self._edit(18, layer, at, *rect, colour=colour)

    def replace_rect(self, layer, at, rect, colour):
        self._edit(19, layer, at, *rect, colour=colour)

    def insert_bitmap(self, layer, at, rect, pixels):
        self._edit(20, layer, at, *rect, pixels=bytes(pixels))

    def replace_bitmap(self, layer, at, rect, pixels):
        self._edit(21, layer, at, *rect, pixels=bytes(pixels))
    # The end of what is made.
