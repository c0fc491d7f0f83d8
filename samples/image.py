#!/usr/bin/env python3
"""Writes the file image that the program `images` must make, to crates/images/data/five_kinds.image.

An image has the mark MDO, the version 1 and the count of entries in two bytes each, a head of 17 bytes for each entry of its
capacity (a letter and two numbers of eight bytes), then the messages in order. Unused heads and the bytes behind the messages
are zero. All numbers are big-endian.
"""
from pathlib import Path
from struct import pack

CAPACITY = 6
SIZE = 160

# letter, number or first number, last number, message
ENTRIES = [
    (b'M', 7, None, b'a message'),
    (b'G', 8, 10, b''),
    (b'U', 8, None, b'a message made up'),
    (b'L', 9, 10, b''),
    (b'Z', 10, 0, b''),
]


def head(letter, first, last, message):
    return pack('>cQQ', letter, first, len(message) if last is None else last)


image = pack('>3sHH', b'MDO', 1, len(ENTRIES))
image += b''.join(head(*entry) for entry in ENTRIES).ljust(17 * CAPACITY, b'\0')
image += b''.join(entry[3] for entry in ENTRIES)
target = Path(__file__).resolve().parent.parent / 'crates' / 'images' / 'data' / 'five_kinds.image'
target.parent.mkdir(exist_ok=True)
target.write_bytes(image.ljust(SIZE, b'\0'))
