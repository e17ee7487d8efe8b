"""Windows through the library intelhex, for tests/hextools.

    hexintel.py words COUNT > WORDS
    hexintel.py read START COUNT < TEXT > WORDS
    hexintel.py write START BYTES EOL [ENTRY] < WORDS > TEXT

Words are any, the same for each count. START and ENTRY, an address to
begin at, are hexadecimal. Addresses go on at zero behind FFFFFFFF. A text
that lacks a byte of the window, or has another one, can't be read: status 1.
"""
import io
import random
import sys

from intelhex import IntelHex


def words(count):
    sys.stdout.buffer.write(random.Random(count).randbytes(4 * count))


def read(start, count):
    held = IntelHex(io.StringIO(sys.stdin.read())).todict()
    window = [(start + i) % 2**32 for i in range(4 * count)]
    if set(window) != set(held):
        sys.exit("other addresses than the window's")
    sys.stdout.buffer.write(bytes(held[a] for a in window))


def write(start, size, eol, entry=None):
    hexfile = IntelHex()
    for i, byte in enumerate(sys.stdin.buffer.read()):
        hexfile[(start + i) % 2**32] = byte
    if entry is not None:
        hexfile.start_addr = {"EIP": entry}
    text = io.StringIO(newline="")
    hexfile.write_hex_file(text, byte_count=size, eolstyle=eol)
    sys.stdout.buffer.write(text.getvalue().encode())


if sys.argv[1] == "words":
    words(int(sys.argv[2]))
elif sys.argv[1] == "read":
    read(int(sys.argv[2], 16), int(sys.argv[3]))
else:
    write(int(sys.argv[2], 16), int(sys.argv[3]), sys.argv[4],
          *(int(entry, 16) for entry in sys.argv[5:]))
