#!/usr/bin/env python3
"""Damages an image: damage.py IMAGE EDIT... An edit is PAGE:PLACE=HEX, the bytes that stand from this place of the page
on, or PAGE:PLACE:BYTES=NUMBER, a number of so many bytes, the lowest first. Each page that is edited gets the checksum
that holds then; behind a `!` an edit leaves it as it is."""
import sys

PAGE = 4096
POLYNOMIAL = 0x82F63B78


def table():
    found = []
    for value in range(256):
        for _ in range(8):
            value = value >> 1 ^ (POLYNOMIAL if value & 1 else 0)
        found.append(value)
    return found


TABLE = table()


def checksum(data):
    """The CRC-32C."""
    value = 0xFFFFFFFF
    for byte in data:
        value = value >> 8 ^ TABLE[(value ^ byte) & 0xFF]
    return value ^ 0xFFFFFFFF


def put(image, edit):
    """Makes an edit."""
    place, _, value = edit.lstrip("!").partition("=")
    page, at, *size = map(int, place.split(":"))
    data = int(value, 0).to_bytes(size[0], "little") if size else bytes.fromhex(value)
    begin = page * PAGE
    image[begin + at : begin + at + len(data)] = data
    if not edit.startswith("!"):
        summed = checksum(image[begin : begin + PAGE - 4])
        image[begin + PAGE - 4 : begin + PAGE] = summed.to_bytes(4, "little")


def main():
    _, path, *edits = sys.argv
    with open(path, "r+b") as file:
        image = bytearray(file.read())
        for edit in edits:
            put(image, edit)
        file.seek(0)
        file.write(image)


if __name__ == "__main__":
    main()
