"""libzstd through ctypes, where the machine has it: frames by any of its parameters, at once or in pieces, and the content of a file."""
import ctypes

# The numbers of zstd.h, which stay as they are.
PARAMETERS = {
    "level": 100, "window": 101, "hash": 102, "chain": 103, "search": 104, "shortest": 105, "target": 106, "strategy": 107, "long": 160,
    "says_size": 200, "checksum": 201,
}
CONTINUE, FLUSH, END = 0, 1, 2
ALL = 3  # of ZSTD_CCtx_reset: the session and the parameters


class _Buffer(ctypes.Structure):
    _fields_ = [("at", ctypes.c_void_p), ("size", ctypes.c_size_t), ("position", ctypes.c_size_t)]


def _loaded():
    try:
        library = ctypes.CDLL("libzstd.so.1")
    except OSError:
        return None
    size, pointer, number = ctypes.c_size_t, ctypes.c_void_p, ctypes.c_int
    calls = {
        "ZSTD_createCCtx": (pointer, []), "ZSTD_createDCtx": (pointer, []), "ZSTD_CCtx_reset": (size, [pointer, number]),
        "ZSTD_CCtx_setParameter": (size, [pointer, number, number]), "ZSTD_compress2": (size, [pointer, pointer, size, pointer, size]),
        "ZSTD_compressStream2": (size, [pointer, pointer, pointer, number]), "ZSTD_compressBound": (size, [size]),
        "ZSTD_decompressDCtx": (size, [pointer, pointer, size, pointer, size]), "ZSTD_isError": (ctypes.c_uint, [size]),
        "ZSTD_getErrorName": (ctypes.c_char_p, [size]), "ZSTD_versionString": (ctypes.c_char_p, []),
    }
    for name, (result, given) in calls.items():
        call = getattr(library, name)
        call.restype, call.argtypes = result, given
    return library


class Refused(Exception):
    """What libzstd says of a file that it does not take."""


class Libzstd:
    """The library, with a context for frames and one for contents."""

    def __init__(self, library):
        self._library, self.version = library, library.ZSTD_versionString().decode()
        self._makes, self._reads = library.ZSTD_createCCtx(), library.ZSTD_createDCtx()

    def _size(self, size):
        if self._library.ZSTD_isError(size):
            raise Refused(self._library.ZSTD_getErrorName(size).decode())
        return size

    def _prepare(self, parameters):
        self._size(self._library.ZSTD_CCtx_reset(self._makes, ALL))
        for name, value in parameters.items():
            self._size(self._library.ZSTD_CCtx_setParameter(self._makes, PARAMETERS[name], value))

    def frame(self, content, **parameters):
        """A frame of a content, made at once, so that it says its size if it is not told not to."""
        self._prepare(parameters)
        room = ctypes.create_string_buffer(self._library.ZSTD_compressBound(len(content)))
        size = self._size(self._library.ZSTD_compress2(self._makes, room, len(room), content, len(content)))
        return ctypes.string_at(room, size)

    def streamed(self, pieces, **parameters):
        """A frame of pieces, each of which is flushed, so that each ends a block."""
        self._prepare(parameters)
        room = ctypes.create_string_buffer(1 << 18)
        made = b""
        for number, piece in enumerate([*pieces, b""]):
            source = _Buffer(ctypes.cast(ctypes.c_char_p(piece), ctypes.c_void_p), len(piece), 0)
            left = 1
            while left or source.position < source.size:
                to = _Buffer(ctypes.addressof(room), len(room), 0)
                how = END if number == len(pieces) else FLUSH
                left = self._size(self._library.ZSTD_compressStream2(self._makes, ctypes.byref(to), ctypes.byref(source), how))
                made += ctypes.string_at(room, to.position)
        return made

    def content(self, file, most):
        """The content of a file, of at most so many bytes. Refused with the words of libzstd."""
        room = ctypes.create_string_buffer(max(most, 1))
        size = self._size(self._library.ZSTD_decompressDCtx(self._reads, room, most, file, len(file)))
        return ctypes.string_at(room, size)


def libzstd():
    """The library, or None where the machine has none."""
    library = _loaded()
    return None if library is None else Libzstd(library)
