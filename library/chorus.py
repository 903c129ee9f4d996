"""The functions of chorus.h for Python, over the shared object that library/check makes. Each is described there."""
import ctypes as c


class Exchange(c.Structure):
    _fields_ = ([(n, c.c_uint64) for n in ("address", "copies")]
                + [(n, c.c_uint32) for n in ("call", "actor", "cache", "page", "pages", "to_cache", "to_page", "region",
                                             "write", "locked", "length", "live", "working")]
                + [("bytes", c.c_uint8 * 64)])


class Refused(Exception):
    """A call wasn't carried out: `number` says why, by the numbers of chorus.h."""

    def __init__(self, number):
        super().__init__(f"chorus {number}")
        self.number = number


class Machine:
    """A machine; close it, or use it in a `with`."""

    def __init__(self, library, frames, page, swap):
        library = c.CDLL(library)
        library.chorus_size.restype = c.c_size_t
        library.chorus_begin.argtypes = [c.c_void_p, c.c_uint32, c.c_uint32, c.c_uint32]
        library.chorus_begin.restype = None
        library.chorus_call.argtypes = [c.c_void_p, c.POINTER(Exchange)]
        library.chorus_call.restype = c.c_uint32
        self._call = library.chorus_call
        self.page = page
        size = library.chorus_size()
        # room for the machine, at an address that 16 divides
        self._room = c.create_string_buffer(size + 15)
        self._at = (c.addressof(self._room) + 15) & ~15
        library.chorus_begin(self._at, frames, page, swap)
        self.stat()

    def close(self):
        """A closed machine refuses each call, as number 300."""
        self._call(self._at, Exchange(call=18))

    def __enter__(self):
        return self

    def __exit__(self, *_):
        self.close()

    def _asks(self, call, **fields):
        exchange = Exchange(call=call, **fields)
        number = self._call(self._at, exchange)
        if number:
            raise Refused(number)
        return exchange

    def actor(self):
        return self._asks(0).actor

    def exit(self, actor):
        self._asks(1, actor=actor)

    def temp(self, pages):
        return self._asks(2, pages=pages).cache

    def destroy(self, cache):
        self._asks(3, cache=cache)

    def copy(self, source, first, to, to_page, pages):
        self._asks(4, cache=source, page=first, to_cache=to, to_page=to_page, pages=pages)

    def move(self, source, first, to, to_page, pages):
        self._asks(5, cache=source, page=first, to_cache=to, to_page=to_page, pages=pages)

    def map(self, actor, cache, first, pages, address, write):
        return self._asks(6, actor=actor, cache=cache, page=first, pages=pages, address=address, write=int(write)).region

    def split(self, region, pages):
        return self._asks(7, region=region, pages=pages).region

    def protect(self, region, write):
        self._asks(8, region=region, write=int(write))

    def lock(self, region):
        self._asks(9, region=region)

    def unlock(self, region):
        self._asks(10, region=region)

    def unmap(self, region):
        self._asks(11, region=region)

    def find(self, actor, address):
        return self._asks(12, actor=actor, address=address).region

    def status(self, region):
        e = self._asks(13, region=region)
        return dict(actor=e.actor, cache=e.cache, first=e.page, pages=e.pages, address=e.address, write=bool(e.write),
                    locked=bool(e.locked))

    def load(self, actor, address, n):
        return bytes(self._asks(14, actor=actor, address=address, length=min(n, 65)).bytes[:n])

    def store(self, actor, address, data):
        asked = Exchange(call=15, actor=actor, address=address, length=min(len(data), 65))
        if len(data) <= 64:
            c.memmove(asked.bytes, bytes(data), len(data))
        number = self._call(self._at, asked)
        if number:
            raise Refused(number)

    def page_out(self, frames):
        self._asks(16, pages=frames)

    def stat(self):
        e = self._asks(17)
        return dict(live=e.live, working=e.working, copies=e.copies)

    def _part(self, address, n):
        return min(n, 64, self.page - address % self.page)

    def read(self, actor, address, n):
        """Several loads, one behind the other."""
        data = b""
        while len(data) < n:
            data += self.load(actor, address + len(data), self._part(address + len(data), n - len(data)))
        return data

    def write(self, actor, address, data):
        """Several stores, one behind the other."""
        at = 0
        while at < len(data):
            part = self._part(address + at, len(data) - at)
            self.store(actor, address + at, data[at:at + part])
            at += part
