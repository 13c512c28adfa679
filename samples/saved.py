#!/usr/bin/env python3
"""Shows what a link saves: saved.py OM FILE..

Links the objects at both levels and prints a table: words of code, bytes of the image, slots of address tables, tables, loads from
them and halves of GP settings that are left, and the steps of a run without input. What a word was is read from the objects'
relocations, what became of it from the map in the image; the steps are found by runs of ever fewer steps.
"""
import os
import struct
import subprocess
import sys
import tempfile

LITERAL, GPDISP, LDQ = 4, 6, 0x29
TEXT, MAP = b".text", b".ommap"


def sections(file):
    """Name, address, size, and offsets of bytes and relocations with their number, of each section."""
    for k in range(struct.unpack_from("<H", file, 2)[0]):
        head = 104 + 64 * k
        name = file[head : head + 8].rstrip(b"\0")
        yield name, struct.unpack_from("<QQQQ", file, head + 16), struct.unpack_from("<H", file, head + 56)[0]


def text_relocations(file):
    """The relocations of a text: offset, index and type."""
    for name, (address, _, _, place), count in sections(file):
        for k in range(count if name == TEXT else 0):
            at, index, kind = struct.unpack_from("<QIB", file, place + 16 * k)
            yield at - address, index, kind


class Image:
    """The words of an image and what its map says."""

    def __init__(self, file):
        self.size = len(file)
        places = {name: spot for name, spot, _ in sections(file)}
        _, size, place, _ = places[TEXT]
        self.words = struct.unpack_from("<%dI" % (size // 4), file, place)
        at = places[MAP][2]
        objects, self.tables, regions, words = struct.unpack_from("<IIII", file, at + 8)
        at += 24
        self.counts = [struct.unpack_from("<I", file, at + 8 * k)[0] for k in range(objects)]
        at += 8 * objects
        self.slots = sum(struct.unpack_from("<I", file, at + 16 * k + 8)[0] for k in range(self.tables))
        at += 16 * self.tables + 24 * self.slots + 32 * regions
        self.map = [struct.unpack_from("<II", file, at + 8 * k) for k in range(words)]

    def word(self, obj, off):
        """The image's word for one of an object's, or None where it is gone."""
        place = self.map[sum(self.counts[:obj]) + off // 4][1]
        return self.words[place & 0x7FFFFFFF] if place >> 31 else None


def left(image, files):
    """How many loads from tables and how many halves of GP settings are left."""
    loads = halves = 0
    for obj, file in enumerate(files):
        for off, index, kind in text_relocations(file):
            if kind == LITERAL:
                word = image.word(obj, off)
                loads += word is not None and word >> 26 == LDQ
            if kind == GPDISP:
                halves += (image.word(obj, off) is not None) + (image.word(obj, off + index) is not None)
    return loads, halves


def steps(om, image):
    """The steps of a run: the fewest with which it ends."""

    def ends(n):
        run = subprocess.run([om, "run", "-n", str(n), image], stdin=subprocess.DEVNULL, capture_output=True)
        return run.returncode != 5

    most = 1
    while not ends(most):
        most *= 2
    least = most // 2
    while most - least > 1:
        half = (least + most) // 2
        least, most = (least, half) if ends(half) else (half, most)
    return most


def figures(om, level, names, files, folder):
    made = os.path.join(folder, "image")
    subprocess.run([om, "link", *level, "-o", made, *names], check=True)
    with open(made, "rb") as source:
        image = Image(source.read())
    loads, halves = left(image, files)
    return len(image.words), image.size, image.slots, image.tables, loads, halves, steps(om, made)


def main():
    om, names = os.path.abspath(sys.argv[1]), sys.argv[2:]
    files = []
    for name in names:
        with open(name, "rb") as source:
            files.append(source.read())
    with tempfile.TemporaryDirectory() as folder:
        plain = figures(om, ["-O0"], names, files, folder)
        full = figures(om, [], names, files, folder)
    titles = ["words", "bytes of the image", "slots", "tables", "loads from tables", "halves of GP settings", "steps of a run"]
    print("|  | `link -O0` | `link` |\n|---|---|---|")
    for title, before, after in zip(titles, plain, full):
        print("| %s | %s | %s |" % (title, format(before, ","), format(after, ",")))


if __name__ == "__main__":
    main()
