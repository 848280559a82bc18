"""A canvas of coloured pixels with lines and letters, written as PNG by the standard library alone."""

import struct
import zlib

# Letters of 5 by 7 pixels: for each column from the left a byte, its lowest bit on top.
GLYPHS = {
    " ": "0000000000", "(": "001C224100", ")": "0041221C00", "+": "08083E0808", ",": "0050300000", "-": "0808080808", ".": "0060600000", "/": "2010080402",
    "0": "3E5149453E", "1": "00427F4000", "2": "4261514946", "3": "2141454B31", "4": "1814127F10", "5": "2745454539", "6": "3C4A494930", "7": "0171090503",
    "8": "3649494936", "9": "064949291E", ":": "0036360000", "=": "1414141414", "a": "2054545478", "b": "7F48444438", "c": "3844444420", "d": "384444487F",
    "e": "3854545418", "f": "087E090102", "g": "0C5252523E", "h": "7F08040478", "i": "00447D4000", "j": "2040443D00", "k": "7F10284400", "l": "00417F4000",
    "m": "7C04180478", "n": "7C08040478", "o": "3844444438", "p": "7C14141408", "q": "081414187C", "r": "7C08040408", "s": "4854545420", "t": "043F444020",
    "u": "3C4040207C", "v": "1C2040201C", "w": "3C4030403C", "x": "4428102844", "y": "0C5050503C", "z": "4464544C44",
}  # fmt: skip

# Colours from low to high, between which the scale goes in straight lines: dark to bright, so that it reads in grey too.
SCALE = [(68, 1, 84), (59, 82, 139), (33, 145, 140), (94, 201, 98), (253, 231, 37)]


def colour(share):
    """The colour of a share from 0 to 1 of the scale."""
    place = min(max(share, 0.0), 1.0) * (len(SCALE) - 1)
    low = min(int(place), len(SCALE) - 2)
    return tuple(round(a + (b - a) * (place - low)) for a, b in zip(SCALE[low], SCALE[low + 1]))


class Canvas:
    """So many pixels wide and high, white at first; places count from the upper left."""

    def __init__(self, width, height):
        self.width, self.height = width, height
        self.pixels = bytearray(b"\xff" * (3 * width * height))

    def dot(self, x, y, paint):
        if 0 <= x < self.width and 0 <= y < self.height:
            self.pixels[3 * (y * self.width + x) : 3 * (y * self.width + x) + 3] = bytes(paint)

    def box(self, left, top, width, height, paint):
        for y in range(top, top + height):
            for x in range(left, left + width):
                self.dot(x, y, paint)

    def line(self, start, end, paint, thick=1):
        (x, y), (u, v) = start, end
        steps = max(abs(u - x), abs(v - y), 1)
        for k in range(steps + 1):
            self.box(round(x + (u - x) * k / steps), round(y + (v - y) * k / steps), thick, thick, paint)

    def text(self, left, top, words, paint=(40, 40, 40), size=2):
        for number, letter in enumerate(words.lower()):
            for column, bits in enumerate(bytes.fromhex(GLYPHS[letter])):
                for row in range(7):
                    if bits >> row & 1:
                        self.box(left + (6 * number + column) * size, top + row * size, size, size, paint)

    def write(self, file):
        """The canvas as a PNG file."""

        def chunk(kind, data):
            return struct.pack(">I", len(data)) + kind + data + struct.pack(">I", zlib.crc32(kind + data))

        stride = 3 * self.width
        lines = b"".join(b"\0" + bytes(self.pixels[y * stride : (y + 1) * stride]) for y in range(self.height))
        head = struct.pack(">IIBBBBB", self.width, self.height, 8, 2, 0, 0, 0)
        with open(file, "wb") as out:
            out.write(b"\x89PNG\r\n\x1a\n" + chunk(b"IHDR", head) + chunk(b"IDAT", zlib.compress(lines, 9)) + chunk(b"IEND", b""))
