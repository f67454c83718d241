"""Plays the session examples/silent-window.json by hand, over a shared object made of the static library, and prints what
`winproxy play` prints.

    python3 session.py ./libwinproxy.so
"""

import ctypes
import sys
from ctypes import POINTER, Structure, byref, c_bool, c_char_p, c_size_t, c_uint16, c_uint32, c_void_p

VERSION, OK, MOST_REPLY, USUAL_LINE = 1, 0, 65542, 16384

# Frames: a version, a kind, the length of the body in four bytes, the body.
NEXT = bytes([2, 0x01, 0, 0, 0, 0])
TASK, NOTHING, BODY = 0x45, 0x46, 6


class Desk(Structure):
    """A desk of the library: closed where it is made."""

    _fields_ = [("at", c_void_p)]


def declare(library):
    desk, text, length = POINTER(Desk), (c_char_p, c_size_t), POINTER(c_size_t)
    for name, result, *arguments in [
        ("version", c_uint32),
        ("desk_open", c_uint32, desk, c_uint16, *text),
        ("desk_start", c_uint32, desk, *text, POINTER(c_uint32)),
        ("desk_serve", c_uint32, desk, c_uint16, *text, c_char_p, c_size_t, length),
        ("desk_told", c_uint32, desk, c_uint16),
        ("desk_is_lost", c_bool, desk, c_uint16),
        ("desk_entries", c_uint32, desk),
        ("desk_line", c_uint32, desk, c_uint32, c_char_p, c_size_t, length),
        ("desk_free", None, desk),
    ]:
        function = getattr(library, "winproxy_" + name)
        function.restype, function.argtypes = result, arguments


class Coordinator:
    """The coordinator of a number of renderers."""

    def __init__(self, library, renderers, suffixes=b""):
        self.library, self.desk = library, Desk()
        self.must(library.winproxy_desk_open(byref(self.desk), renderers, suffixes, len(suffixes)))

    def __enter__(self):
        return self

    def __exit__(self, *_error):
        self.library.winproxy_desk_free(byref(self.desk))

    def must(self, result):
        if result != OK:
            raise RuntimeError(f"winproxy: result {result}")

    def start(self, url):
        navigable = c_uint32()
        self.must(self.library.winproxy_desk_start(byref(self.desk), url, len(url), byref(navigable)))
        return navigable.value

    def serve(self, renderer, request):
        reply, length = ctypes.create_string_buffer(MOST_REPLY), c_size_t()
        self.must(
            self.library.winproxy_desk_serve(
                byref(self.desk), renderer, request, len(request), reply, MOST_REPLY, byref(length)
            )
        )
        return reply.raw[: length.value]

    def told(self, renderer):
        return self.library.winproxy_desk_told(byref(self.desk), renderer)

    def lines(self):
        line, length = ctypes.create_string_buffer(USUAL_LINE), c_size_t()
        for place in range(self.library.winproxy_desk_entries(byref(self.desk))):
            self.must(self.library.winproxy_desk_line(byref(self.desk), place, line, USUAL_LINE, byref(length)))
            yield line.raw[: length.value].decode()


def main():
    library = ctypes.CDLL(sys.argv[1])
    declare(library)
    assert library.winproxy_version() == VERSION
    with Coordinator(library, 1) as coordinator:
        coordinator.start(b"https://a.test/")
        record = []
        # The renderer takes tasks until it finds none.
        while (reply := coordinator.serve(0, NEXT))[1] != NOTHING:
            assert reply[1] == TASK
            place = int.from_bytes(reply[BODY : BODY + 4], "big")
            kind = list(coordinator.lines())[place].split(" ")[3]
            record.append(f"{coordinator.told(0)} task {kind} {place}")
        log = list(coordinator.lines())
    print(f"log {len(log)}", *log, f"record 0 {len(record)}", *record, "status 0 done", sep="\n")


main()
