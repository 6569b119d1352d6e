"""Other readers of PEM, timed. `bench peers` starts this, and asks it line by line.

First it tells of each peer in a line whether it is `there`, with its version behind a tab, or `missing`, with the reason.
Then it takes from its standard input

    text LENGTH         and so many bytes behind the line, one message: it tells of each peer in a line whether it has
                        `taken` the text, with the data that base 64 gives, or `refused` it;
    time NUMBER CALLS   the number of a peer: it tells the microseconds that each of so many calls has taken.
"""
import base64
import ctypes
import ctypes.util
import platform
import sys
import time
from itertools import repeat

LIBRARIES = "libcrypto.so.3", "libcrypto.so.1.1", "libcrypto.so"


class Missing(Exception):
    pass


def libcrypto():
    """OpenSSL's library. Its calls are too short to be worth giving up the interpreter's lock for them."""
    for name in filter(None, (ctypes.util.find_library("crypto"), *LIBRARIES)):
        try:
            return ctypes.PyDLL(name)
        except OSError:
            pass
    raise Missing("libcrypto is not installed")


def declared(library, name, answer, *given):
    try:
        call = getattr(library, name)
    except AttributeError:
        raise Missing(f"libcrypto has no {name}") from None
    call.restype, call.argtypes = answer, given
    return call


class Openssl:
    """A memory BIO is made of the text, PEM_read_bio reads the message, and what came of both is freed."""

    def __init__(self):
        library, pointer, number = libcrypto(), ctypes.c_void_p, ctypes.c_int
        self.new = declared(library, "BIO_new_mem_buf", pointer, ctypes.c_char_p, number)
        self.read = declared(library, "PEM_read_bio", number, *[pointer] * 5)
        self.free = declared(library, "CRYPTO_free", None, pointer, pointer, number)
        self.close = declared(library, "BIO_free", number, pointer)
        version = declared(library, "OpenSSL_version", ctypes.c_char_p, number)
        self.version = " ".join(version(0).decode().split()[:2])

    def reader(self, text):
        new, read, free, close, size = self.new, self.read, self.free, self.close, len(text)
        label, header, data, length = (kind() for kind in (*[ctypes.c_void_p] * 3, ctypes.c_long))
        places = [ctypes.byref(place) for place in (label, header, data, length)]

        def once(wanted=False):
            bio = new(text, size)
            taken = read(bio, *places)
            close(bio)
            if not taken:
                raise ValueError("PEM_read_bio refuses the text")
            result = ctypes.string_at(data, length.value) if wanted else None
            free(label, None, 0)
            free(header, None, 0)
            free(data, None, 0)
            return result

        return once


class Ssl:
    """ssl.PEM_cert_to_DER_cert of the text as a string."""

    def __init__(self):
        try:
            import ssl
        except ImportError:
            raise Missing("this Python has no ssl") from None
        self.read, self.version = ssl.PEM_cert_to_DER_cert, f"Python {platform.python_version()}"

    def reader(self, text):
        read, text = self.read, text.decode("ascii")
        return lambda wanted=False: read(text)


def tell(line):
    print(line, flush=True)


def present(kinds):
    """The peers, None in the place of one that is missing."""
    peers = []
    for kind in kinds:
        try:
            peers.append(kind())
            tell(f"there\t{peers[-1].version}")
        except Missing as why:
            peers.append(None)
            tell(f"missing\t{why}")
    return peers


def takes(reader, data):
    try:
        return reader is not None and reader(wanted=True) == data
    except ValueError:
        return False


def microseconds(reader, calls):
    start = time.perf_counter_ns()
    for _ in repeat(None, calls):
        reader()
    return (time.perf_counter_ns() - start) / calls / 1000


def main():
    peers, readers, given = present([Openssl, Ssl]), [], sys.stdin.buffer
    for line in iter(given.readline, b""):
        word, number, *more = line.split()
        if word == b"text":
            text = given.read(int(number))
            data = base64.b64decode(b"".join(text.splitlines()[1:-1]))
            readers = [peer and peer.reader(text) for peer in peers]
            for reader in readers:
                tell("taken" if takes(reader, data) else "refused")
        else:
            tell(microseconds(readers[int(number)], int(more[0])))


if __name__ == "__main__":
    main()
