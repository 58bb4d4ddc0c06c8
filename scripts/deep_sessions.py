#!/usr/bin/env python3
"""Writes session files of the deepest valid programs into a folder: deep_sessions.py FOLDER."""
import os
import sys


def eight(n):
    return n.to_bytes(8, 'big')


def load(variables, arrays, body):
    program = bytes([variables]) + eight(len(arrays)) + b''.join(eight(n) for n in arrays) + body
    assert len(program) <= 32768, len(program)
    return b'\x01' + program


def command(text):
    return eight(len(text)) + text


def numbered(tag, number):
    return bytes([tag]) + eight(number)


LEFT = load(0, [], b'\x05' * 16379 + b'\x00' * 16380)
RIGHT = load(0, [], b'\x05\x00' * 16379 + b'\x00')
ELEMENTS = load(1, [8], numbered(1, 1) + b'\x00' + b'\x03\x00' * 16369 + b'\x01\x00')
SUMS = load(1, [], numbered(1, 1) + b'\x00' + b'\x02\x00' * 8186 + b'\x01\x00' * 8187)
INDEX = load(1, [8], numbered(2, 1) + b'\x00' + b'\x03\x00' * 8000 + b'\x01\x00' + b'\x03\x00' * 8000 + b'\x01\x00')


def under_loops(levels):
    """Three loops and choices up to depth 32, below them as many sequences as fit."""
    body = b''
    number = 1
    for depth in range(32):
        test = b'\x00\x01\x00\x00' + eight(5)
        body += numbered(7 if depth < 3 else 6, number) + test
        number += 1
    body += b'\x05' * levels + b'\x00' * (levels + 1)
    return load(1, [], body + b'\x00' * 29)


def conditions():
    """A test of 63 at the bottom of 32 choices, each with a deep expression."""
    test = b'\x03' * 31 + (b'\x00\x01\x00' + b'\x00' + eight(7)) * 32
    body = b''
    for depth in range(32):
        body += numbered(6, depth + 1) + test
    return load(1, [], body + b'\x00' * 33)


PROGRAMS = [LEFT, RIGHT, ELEMENTS, SUMS, INDEX, under_loops(15800), conditions()]

folder = sys.argv[1]
os.makedirs(folder, exist_ok=True)
with open(os.path.join(folder, 'deep.bin'), 'wb') as out:
    for program in PROGRAMS:
        out.write(command(program) + command(b'\x02') + command(b'\x03\x00'))
