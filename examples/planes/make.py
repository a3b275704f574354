#!/usr/bin/env python3
"""Prints what the program test_planes must print, from document 02's text alone: `python3 examples/planes/make.py > crates/test_planes/stdout`."""


def to_planes(payload, width):
    """First byte 0 of every reading, then byte 1, and so on."""
    readings = [payload[k : k + width] for k in range(0, len(payload), width)]
    return bytes(reading[j] for j in range(width) for reading in readings)


def from_planes(payload, width):
    """The inverse: byte j of each reading comes from plane j."""
    count = len(payload) // width
    planes = [payload[k * count : (k + 1) * count] for k in range(width)]
    return bytes(plane[i] for i in range(count) for plane in planes)


def answer(way, payload, width, target):
    """18 when the width is outside 1 to 64 or doesn't divide the payload's length, or the target's length isn't the payload's."""
    if not 1 <= width <= 64 or len(payload) % width or target != len(payload):
        return "18 as before"
    return f"0 [{way(payload, width).hex()}]"


for width, reading in [(0, 1), (1, 1), (2, 2), (63, 63), (64, 64), (65, 65), (2**64 - 1, 64)]:
    for length in [0, reading, 64 * reading, 64 * reading + 1]:
        payload = bytes(k % 251 for k in range(length))
        for target in [length, length + 1] + ([length - 1] if length else []):
            for way in [to_planes, from_planes]:
                print(f"{way.__name__} width {width} payload {length} target {target}: {answer(way, payload, width, target)}")
