#!/usr/bin/env python3
"""Writes two session files that replay answers in the gate: make_sessions.py FOLDER.

worked.bin: six small programs, with all that can be asked of them.
limits.bin: each limit of a valid program, at it and one past it, and damaged encodings.
"""
import os
import sys


def eight(n):
    return n.to_bytes(8, 'big')


def num(n):
    return b'\x00' + eight(n)


def var(x):
    return bytes([1, x])


def op(k, a, b):
    return bytes([2, k]) + a + b


def element(r, a):
    return bytes([3, r]) + a


def less(a, b):
    return b'\x00' + a + b


def equal(a, b):
    return b'\x01' + a + b


def negate(t):
    return b'\x02' + t


class Body:
    """Statements in order; each call takes the next number."""

    def __init__(self, first=1):
        self.number = first

    def head(self, tag):
        self.number += 1
        return bytes([tag]) + eight(self.number - 1)

    def assign(self, x, e):
        return self.head(1) + bytes([x]) + e

    def store(self, r, a, e):
        return self.head(2) + bytes([r]) + a + e

    def input(self, x, a, b):
        return self.head(3) + bytes([x]) + eight(a) + eight(b)

    def check(self, t):
        return self.head(4) + t

    def branch(self, t, first, second):
        return self.head(6) + t + first() + second()

    def loop(self, t, body):
        return self.head(7) + t + body()


SKIP = b'\x00'


def seq(*parts):
    out = parts[-1]
    for part in reversed(parts[:-1]):
        out = b'\x05' + part + out
    return out


def program(variables, arrays, body):
    return bytes([variables]) + eight(len(arrays)) + b''.join(eight(n) for n in arrays) + body


def load(variables, arrays, body):
    return b'\x01' + program(variables, arrays, body)


def command(text):
    return eight(len(text)) + text


def worked():
    i, x, s = 0, 1, 2
    b = Body()
    first = seq(
        b.loop(less(var(i), num(8)), lambda: seq(b.input(x, 0, 100), b.store(0, var(i), var(x)), b.assign(i, op(0, var(i), num(1))))),
        b.assign(i, num(0)),
        b.loop(less(var(i), num(8)), lambda: seq(b.assign(s, op(0, var(s), element(0, var(i)))), b.assign(i, op(0, var(i), num(1))))))
    yield load(3, [8], first), 3
    b = Body()
    second = b.loop(negate(less(num(8), var(i))), lambda: seq(b.store(0, var(i), num(1)), b.assign(i, op(0, var(i), num(1)))))
    yield load(1, [8], second), 1
    b = Body()
    third = seq(b.input(0, 0, 9), b.branch(equal(var(0), num(0)), lambda: b.assign(1, num(0)), lambda: b.assign(1, op(3, num(100), var(0)))))
    yield load(2, [], third), 2
    b = Body()
    fourth = seq(b.input(0, 0, 9), b.branch(less(num(0), var(0)), lambda: b.assign(1, op(3, num(100), var(0))), lambda: SKIP))
    yield load(2, [], fourth), 2
    b = Body()
    fifth = seq(b.input(0, 3, 7), b.check(less(var(0), num(8))), b.check(less(var(0), num(5))), b.assign(0, op(1, var(0), num(3))))
    yield load(1, [], fifth), 1
    b = Body()
    yield load(1, [], b.loop(less(var(0), num(5)), lambda: SKIP)), 1


def nested(depth, loops):
    """Choices and loops in each other, the loops innermost."""
    b = Body()

    def inside(left):
        if left == 0:
            return SKIP
        if left <= loops:
            return b.loop(less(var(0), num(1)), lambda: inside(left - 1))
        return b.branch(less(var(0), num(1)), lambda: inside(left - 1), lambda: SKIP)

    return load(1, [], inside(depth))


def test_of(size):
    return load(1, [], Body().check(b'\x02' * (size - 1) + less(var(0), num(1))))


def long(size):
    """A program of this many bytes."""
    assign = Body().assign(0, num(0))
    rest = size - len(program(1, [], assign))
    pairs, odd = divmod(rest, 2)
    body = b'\x05' * pairs + (assign if odd == 0 else Body().assign(0, op(0, var(0), num(0)))) + b'\x00' * pairs
    return load(1, [], body)


def limits():
    yield load(64, [], Body().assign(63, num(1)))
    yield load(65, [], SKIP)
    yield load(64, [], Body().assign(64, num(1)))
    yield load(0, [1] * 16, Body().store(15, num(0), num(1)))
    yield load(0, [1] * 17, SKIP)
    yield load(0, [1] * 16, Body().store(16, num(0), num(1)))
    for n in (0, 1, 65536, 65537):
        yield load(0, [n], SKIP)
    for n in (2 ** 32 - 1, 2 ** 32, 2 ** 64 - 1):
        yield load(1, [], Body().assign(0, num(n)))
    for a, b in ((5, 5), (6, 5), (0, 2 ** 32 - 1), (0, 2 ** 32)):
        yield load(1, [], Body().input(0, a, b))
    for depth in (32, 33):
        yield nested(depth, 0)
        yield nested(depth, 2)
    for loops in (3, 4):
        yield nested(loops, loops)
    for size in (63, 64):
        yield test_of(size)
    for first in (0, 1, 2):
        yield load(1, [], Body(first).assign(0, num(1)))
    b = Body()
    yield load(1, [], seq(b.assign(0, num(1)), Body(1).assign(0, num(1))))
    yield load(1, [], Body().assign(0, op(4, num(1), num(1))))
    yield load(1, [], Body().assign(0, op(5, num(1), num(1))))
    for size in (32768, 32770):
        yield long(size)
    good = load(1, [2], Body().assign(0, num(1)))
    yield good
    yield good[:-1]
    yield good + b'\x00'
    yield b''
    yield b'\x00'
    yield b'\x02\x00'
    yield b'\x03'
    yield b'\x04'
    for x in (0, 1, 63, 64, 255):
        yield bytes([3, x])


folder = sys.argv[1]
os.makedirs(folder, exist_ok=True)
with open(os.path.join(folder, 'worked.bin'), 'wb') as out:
    for text, variables in worked():
        out.write(command(text) + command(b'\x02') + b''.join(command(bytes([3, x])) for x in range(variables)))
with open(os.path.join(folder, 'limits.bin'), 'wb') as out:
    for text in limits():
        out.write(command(text) + command(b'\x02') + command(b'\x03\x00'))
