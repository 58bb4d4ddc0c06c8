#!/usr/bin/env python3
"""Writes six worked programs, encoded, into crates/keyboard/data: worked-1.bin to worked-6.bin.

The bytes are those of docs/LANGUAGE.md. Statements are numbered as they stand.
"""
import itertools
import pathlib

SUM, DIFFERENCE, QUOTIENT = 0, 1, 3


def eight(n):
    return n.to_bytes(8, "big")


def num(n):
    return bytes([0]) + eight(n)


def var(x):
    return bytes([1, x])


def op(k, a, b):
    return bytes([2, k]) + a + b


def element(r, a):
    return bytes([3, r]) + a


def less(a, b):
    return bytes([0]) + a + b


def equal(a, b):
    return bytes([1]) + a + b


def negated(t):
    return bytes([2]) + t


# A statement is a function from the numbers still to be given to its bytes.
def nothing(numbers):
    return bytes([0])


def assign(x, e):
    return lambda numbers: bytes([1]) + eight(next(numbers)) + bytes([x]) + e


def store(r, a, e):
    return lambda numbers: bytes([2]) + eight(next(numbers)) + bytes([r]) + a + e


def takes(x, low, high):
    return lambda numbers: bytes([3]) + eight(next(numbers)) + bytes([x]) + eight(low) + eight(high)


def check(t):
    return lambda numbers: bytes([4]) + eight(next(numbers)) + t


def seq(*statements):
    first, *rest = statements
    if not rest:
        return first
    return lambda numbers: bytes([5]) + first(numbers) + seq(*rest)(numbers)


def branch(t, a, b):
    return lambda numbers: bytes([6]) + eight(next(numbers)) + t + a(numbers) + b(numbers)


def loop(t, a):
    return lambda numbers: bytes([7]) + eight(next(numbers)) + t + a(numbers)


def program(variables, arrays, body):
    lengths = b"".join(eight(n) for n in arrays)
    return bytes([variables]) + eight(len(arrays)) + lengths + body(itertools.count(1))


def counted(x):
    return assign(x, op(SUM, var(x), num(1)))


I, X, S, Y = 0, 1, 2, 1
WORKED = [
    # fill a row from inputs, then add it up: variables i, x, s
    program(3, [8], seq(
        loop(less(var(I), num(8)), seq(takes(X, 0, 100), store(0, var(I), var(X)), counted(I))),
        assign(I, num(0)),
        loop(less(var(I), num(8)), seq(assign(S, op(SUM, var(S), element(0, var(I)))), counted(I))))),
    # one entry too far
    program(1, [8], loop(negated(less(num(8), var(I))), seq(store(0, var(I), num(1)), counted(I)))),
    # a quotient by what is not 0, told by the other branch: variables x, y
    program(2, [], seq(takes(0, 0, 9), branch(equal(var(0), num(0)), assign(Y, num(0)), assign(Y, op(QUOTIENT, num(100), var(0)))))),
    # the same, told by this branch
    program(2, [], seq(takes(0, 0, 9), branch(less(num(0), var(0)), assign(Y, op(QUOTIENT, num(100), var(0))), nothing))),
    # checks
    program(1, [], seq(takes(0, 3, 7), check(less(var(0), num(8))), check(less(var(0), num(5))), assign(0, op(DIFFERENCE, var(0), num(3))))),
    # a loop without end
    program(1, [], loop(less(var(0), num(5)), nothing)),
]


def main():
    folder = pathlib.Path(__file__).resolve().parent.parent / "crates" / "keyboard" / "data"
    folder.mkdir(exist_ok=True)
    for i, text in enumerate(WORKED, 1):
        (folder / f"worked-{i}.bin").write_bytes(text)


if __name__ == "__main__":
    main()
