#!/usr/bin/env python3
"""Writes what the program test_checks must print, from values that this repository's code did not make.

The check values of 123456789 are the published ones of the two sequences, the good values those that RFC 1662 names.
The tables come from Python's binascii: crc32 is the 32-bit sequence; crc_hqx is the 16-bit polynomial with the most
significant bit first and no complement, so its table is turned round bit by bit.
"""
import binascii


def turned(n, bits):
    return int(format(n, f'0{bits}b')[::-1], 2)


def entry16(i):
    return turned(binascii.crc_hqx(bytes([turned(i, 8)]), 0), 16)


def entry32(i):
    # crc32 complements before and after; with a start of all ones complemented the register begins at 0
    return binascii.crc32(bytes([i]), 0xFFFFFFFF) ^ 0xFFFFFFFF


def table(entry, width, columns):
    for row in range(0, 256, columns):
        print(' '.join(f'0x{entry(i):0{width}x}' for i in range(row, row + columns)))


print('123456789: 0x906e 0xcbf43926')
print('nothing: 0x0000 0x00000000')
print('123456789 and its check: 0xf0b8 0xdebb20e3')
print('nothing and its check: 0xf0b8 0xdebb20e3')
print("RFC 1662's tables:")
table(entry16, 4, 8)
table(entry32, 8, 4)
