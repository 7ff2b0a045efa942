#!/usr/bin/python3
"""Makes images of the example: copies of it under other IDs and UIDs.

    images.py EXAMPLE FOLDER COUNT     writes FOLDER/1000.dcm and so on, of three patients

Each new value has as many bytes as the one that it replaces. Every fifth image has 100,000 bytes of pixel data, so
that its copy takes more than one write.
"""
import pathlib
import struct
import sys

PIXELS = bytes(range(250)) * 400


def image(example, number, is_large=False):
    """The bytes of the image of this number, from 0 to 999, which also chooses its patient, study and series."""
    values = {
        b"1.2.3.4.5\0": f"1.2.3.{1000 + number}",
        b"LO\x02\0P1": f"LO\x02\0P{1 + number % 3}",
        b"UI\x06\x001.2.3\0": f"UI\x06\x001.2.{10 + number % 6}",
        b"UI\x08\x001.2.3.4\0": f"UI\x08\x001.2.3.{10 + number % 6}",
    }
    made = example
    for old, new in values.items():
        if old not in made or len(old) != len(new):
            raise ValueError(f"the example has not the value {old}")
        made = made.replace(old, new.encode())
    if is_large:
        made += struct.pack("<HH2sHI", 0x7FE0, 0x0010, b"OW", 0, len(PIXELS)) + PIXELS
    return made


def main(example, folder, count):
    folder = pathlib.Path(folder)
    folder.mkdir()
    for number in range(int(count)):
        path = folder / f"{1000 + number}.dcm"
        path.write_bytes(image(pathlib.Path(example).read_bytes(), number, number % 5 == 4))


if __name__ == "__main__":
    main(*sys.argv[1:])
