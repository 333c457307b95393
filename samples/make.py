#!/usr/bin/env python3
# Makes the scenes of the stored tests, crates/scene_tests/stdin: how many there are, then for each a title and the scene, both with their u32
# length before them. What they must print, crates/scene_tests/stdout, is what oracle/model says of them, a plain Rust reading of docs/SCOPE.md
# over the unchanged source:  samples/make.py && oracle/target/release/host expected crates/scene_tests/stdin >crates/scene_tests/stdout
import math
import os
import struct


def record(kind, body):
    return struct.pack('<IH', len(body), kind) + body


def position(p):
    return struct.pack('<3d', *p)


def area(number, positions):
    return record(1, struct.pack('<H', number) + b''.join(map(position, positions)))


def place(number, p):
    return record(2, struct.pack('<H', number) + position(p))


def far(number, p):
    return record(4, struct.pack('<H', number) + position(p))


def pair(a, b):
    return record(3, struct.pack('<HH', a, b))


def join(parts):
    return b''.join(parts)


def unit(x, y, z):
    n = math.sqrt(x * x + y * y + z * z)
    return (x / n, y / n, z / n)


# n corners round the pole, at a distance r of its tangent plane
def round_pole(n, r, z=1.0):
    return [unit(r * math.cos(2 * math.pi * k / n), r * math.sin(2 * math.pi * k / n), z) for k in range(n)]


X, Y, Z, W = (1.0, 0.0, 0.0), (0.0, 1.0, 0.0), (0.0, 0.0, 1.0), (0.0, 0.0, -1.0)
A = area(1, [X, Y, Z])
NAN = (float('nan'), 0.0, 0.0)
FAR = (2.0, 0.0, 0.0)
SQUARE = [(0.6, 0.0, 0.8), (0.0, 0.6, 0.8), (-0.6, 0.0, 0.8), (0.0, -0.6, 0.8)]
FULL = [X, (0.6, 0.8, 0.0), Y]
EIGHT = [unit(1, 0.5, 0.5), unit(1, -0.5, -0.5), unit(1, -0.5, 0.5), unit(1, 0.5, -0.5)]
STAR = [unit(r * math.cos(k * math.pi / 5), r * math.sin(k * math.pi / 5), 1) for k in range(10) for r in [0.5 if k % 2 else 0.1]]
BESIDE = [unit(a + 0.3, b, 1) for a, b in ((-0.4, -0.4), (0.4, -0.4), (0.4, 0.4), (-0.4, 0.4))]
# rings at corners of cubes, with and without insides, some of which run out of ears
D, T = 0.7071067811865475, 0.5773502691896258
MUTES = [
    [(-D, D, 0.0), (D, 0.0, -D), (0.0, -D, -D), (-T, -T, -T), Y],
    [(-T, T, -T), X, (-T, -T, T), (T, -T, T)],
    [(T, T, T), (T, T, T), W, Z],
    [X, (0.0, -D, D), (-D, 0.0, D), (D, 0.0, -D)],
    [(0.0, -D, D), (T, T, -T), (-D, 0.0, -D), (-D, 0.0, -D), (-D, D, 0.0), (D, -D, 0.0)],
    [(-T, -T, T), (T, -T, T), (-D, 0.0, D), (T, -T, T), (D, -D, 0.0), W],
]
SEVEN = area(1, [(-0.8, 0.0, -0.6), X, (0.64, -0.48, 0.6)]) + area(2, [(0.0, -1.0, 0.0), Z, X]) + pair(1, 2)
# 80 + 2,043 * 32 + 8 * 10 bytes
LONGEST = A + join(place(1, unit(1, 1, 1)) for _ in range(2043)) + join(pair(1, 1) for _ in range(8))
assert len(LONGEST) == 65536
SIXTEEN = join(area(k, []) for k in range(1, 17))
# A has three of the 1,024 positions
TOO_MANY = [NAN] * 1022

scenes = [
    ('empty input', b''),
    ('the worked example', A + area(2, [X, Y, W]) + place(1, (0.48, 0.6, 0.64)) + place(1, (0.6, 0.0, 0.8)) + pair(1, 2)),
    ('states and marks, and places in them', area(7, SQUARE) + area(8, []) + area(9, [X, Y]) + area(10, FULL) + area(11, [X] * 4)
     + area(12, EIGHT) + area(13, STAR) + area(65535, SQUARE[::-1] + [SQUARE[-1]])
     + join(place(n, p) for n in (7, 8, 10, 11, 12, 13, 65535) for p in (Z, W, unit(1, 0.1, 0.1)))),
    ('mute rings, and rings that cannot be cut', join(area(k + 1, l) for k, l in enumerate(MUTES))
     + join(place(k + 1, p) for k in range(len(MUTES)) for p in (unit(1, 2, 3), unit(-3, 1, -2)))),
    ('mute areas to others, and others to them', area(1, MUTES[0]) + area(2, [X, X, Z, W]) + area(3, FULL) + area(4, []) + area(5, [X, Y, Z])
     + join(pair(a, b) + pair(b, a) for a in (1, 2) for b in (3, 4, 5)) + pair(1, 1) + pair(1, 2)),
    ('relations, each area with each', area(1, round_pole(8, 0.5)) + area(2, round_pole(8, 0.2)) + area(3, round_pole(8, 0.5)[::-1])
     + area(4, round_pole(5, 0.5, -1)) + area(5, BESIDE) + area(6, [X, Y, Z]) + area(7, [X, Y, W]) + area(8, []) + area(9, FULL)
     + join(pair(a, b) for a in range(1, 10) for b in range(1, 10))),
    ('refusal 7 of a pair', SEVEN),
    ('refusal 2: 513 positions, before their NaN', A + area(2, [NAN] * 513) + pair(1, 1)),
    ('refusal 3 of an area, before 4 of a later position', A + pair(1, 1) + area(2, [X, NAN, FAR]) + pair(1, 1)),
    ('refusal 4 of an area, before 3 of a later position', area(2, [X, FAR, NAN])),
    ('refusal 3 of a place', A + place(1, (float('inf'), 0.0, 0.0))),
    ('refusal 4 of a place', A + place(1, FAR)),
    ('cut short in its length and kind', A + b'\x04\x00\x00\x00\x03'),
    ('cut short in its body', A + pair(1, 1)[:-1]),
    ('cut short: a length near 2^32', A + struct.pack('<IH', 0xFFFFFFFF, 3) + b'\x01\x00\x01\x00'),
    ('kind 0', A + record(0, b'')),
    ('kind 9', A + record(9, b'\x01\x00')),
    ('kind 257', record(257, b'\x01\x00')),
    ('an area without its number', record(1, b'')),
    ('an area with 23 bytes of a position', record(1, bytes(25))),
    ('a place with 23 bytes of a position', A + record(2, bytes(25))),
    ('a place with 25 bytes of a position', A + record(2, bytes(27))),
    ('a pair of 3 bytes', A + record(3, b'\x01\x00\x01')),
    ('a pair of 5 bytes', A + record(3, b'\x01\x00\x01\x00\x01')),
    ('area number 0', area(0, [X, Y, Z])),
    ('an area repeated', A + A),
    ('a place in area 0', A + place(0, Z)),
    ('a place in an area not yet met, before its NaN', A + place(2, NAN)),
    ('a pair whose first area is not yet met', A + pair(2, 1)),
    ('a pair whose second area is not yet met', A + pair(1, 2)),
    ('16 areas', join(area(k, []) for k in range(1, 17)) + pair(1, 16)),
    ('17 areas', join(area(k, []) for k in range(1, 18))),
    ('1,024 positions: places do not count', area(1, [X] * 512) + area(2, [X] * 511) + place(1, X) + place(2, X) + area(3, [X]) + pair(1, 3)),
    ('1,025 positions', area(1, [X] * 512) + area(2, [X] * 512) + area(3, [X])),
    ('1,025 positions of one area, before refusal 2', area(1, [NAN] * 1025)),
    ('512 positions in a list', area(1, round_pole(512, 0.5))),
    ('513 positions in a list', area(1, round_pole(513, 0.5))),
    ('65,537 bytes', LONGEST + b'\x00'),
    ('65,536 bytes', LONGEST),
    # which number comes first, and its field (SCOPE 46 and 47)
    ('65,537 bytes that make no record: 28 before 20', b'\xff' * 65537),
    ('cut short at the last byte that a scene may have', struct.pack('<IH', 65531, 1) + bytes(65530)),
    ('cut short: one byte', A + b'\x00'),
    ('cut short: five bytes', b'\xff' * 5),
    ('cut short: a length that comes round to its own record', A + struct.pack('<IH', 2**32 - 6, 3) + b'\x01\x00\x01\x00'),
    ('cut short, of an unknown kind: 20 before 21', A + record(9, b'\x01\x00')[:-1]),
    ('cut short, of a wrong length: 20 before 22', A + record(3, b'\x01\x00\x01')[:-1]),
    ('cut short, its number 0: 20 before 23', A + pair(0, 1)[:-1]),
    ('an unknown kind of a length that no kind has: 21 before 22', A + record(9, bytes(3))),
    ('an area of 1 byte', A + record(1, b'\x02')),
    ('a pair of 0 and 1, a byte too long: 22 before 23', A + record(3, bytes([0, 0, 1, 0, 0]))),
    ('an area repeated, a byte too long: 22 before 24', A + record(1, b'\x01\x00\x00')),
    ('a place in an area not yet met, a byte too short: 22 before 25', A + record(2, b'\x02' + bytes(24))),
    ('a 17th area, a byte too long: 22 before 26', SIXTEEN + record(1, bytes([17, 0, 0]))),
    ('a place in area 0, before its NaN', A + place(0, NAN)),
    ('a pair whose first number is 0', A + pair(0, 1)),
    ('a pair whose second number is 0', A + pair(1, 0)),
    ('a pair of 0 and 0: the first', A + pair(0, 0)),
    ('a pair of one not yet met and 0: 23 of the second before 25 of the first', A + pair(9, 0)),
    ('a pair of 0 and one not yet met', A + pair(0, 9)),
    ('a 17th area with number 0: 23 before 26', SIXTEEN + area(0, [])),
    ('area number 0 and 1,025 positions: 23 before 27', A + area(0, TOO_MANY)),
    ('an area repeated, before its NaN', A + area(1, [NAN])),
    ('a 17th area with the number of the 16th: 24 before 26', SIXTEEN + area(16, [])),
    ('an area repeated, 1,025 positions: 24 before 27', A + area(1, TOO_MANY)),
    ('a pair of two not yet met: the first', A + pair(3, 2)),
    ('a place in an area that comes later', place(1, Z) + A),
    ('an area to itself', A + pair(1, 1)),
    ('a 17th area, before its NaN', SIXTEEN + area(17, [NAN])),
    ('a 17th area, 1,025 positions: 26 before 27', SIXTEEN + area(17, [NAN] * 1025)),
    ('1,025 positions of two areas, before 2 and 3 of the second', A + area(2, TOO_MANY)),
    ('1,025 positions, a closing one among them', area(1, [X, Y, Z, X]) + area(2, [NAN] * 1021)),
    ('1,024 positions in a list: refusal 2', area(1, [NAN] * 1024)),
    ('513 positions in a list, the last one closing', area(1, round_pole(512, 0.5) + round_pole(512, 0.5)[:1])),
    ('refusal 4 of the third position: index 2', A + area(2, [X, Y, FAR, Z])),
    ('refusal 3 of the first position: index 0', area(2, [NAN, X, Y])),
    ('refusal 3 of the last of 512 positions: index 511', A + area(2, [X] * 511 + [NAN])),
    ('several faulty positions: the first of them', A + area(2, [X, Y, NAN, X, FAR, NAN]) + pair(1, 2)),
    ('a position with a NaN and a great component: 3 before 4', A + area(2, [X, (2.0, 0.0, float('nan'))])),
    ('a closing position that equals a faulty first one: index 0', A + area(2, [FAR, X, Y, FAR])),
    ('refusal 4 of a position behind the closing one', A + area(2, [X, Y, Z, X, (0.0, 0.0, 0.0)])),
    ('nothing is read after a refusal', A + pair(1, 9) + area(9, [X, Y, Z]) + record(9, b'') + b'\x00'),
    # how far a position is from an area's border (SCOPE 52)
    ('how far from three corners: inside, outside, on an edge, at a corner, behind', A
     + join(far(1, p) for p in ((0.48, 0.6, 0.64), (0.6, 0.0, 0.8), (0.6, 0.8, 0.0), X, Y, Z, W, unit(1, 1, 1), unit(-1, -1, -1), unit(1, 1, -0.1)))),
    ('how far from rings: each corner, and others', area(7, SQUARE) + area(13, STAR) + area(12, EIGHT) + area(65535, SQUARE[::-1])
     + join(far(n, p) for n in (7, 13, 12, 65535) for p in (Z, W, X, unit(1, 0.1, 0.1), unit(0.1, 0.2, 1)))
     + join(far(7, p) for p in SQUARE) + join(far(13, p) for p in STAR)),
    ('how far from mute rings', join(area(k + 1, l) for k, l in enumerate(MUTES))
     + join(far(k + 1, p) for k in range(len(MUTES)) for p in (unit(1, 2, 3), unit(-3, 1, -2), X))),
    ('how far from an empty and a full area: 0', area(7, []) + area(8, [X, Y]) + area(9, FULL) + area(10, [X] * 4)
     + join(far(n, p) for n in (7, 8, 9, 10) for p in (X, W))),
    ('how far from 512 corners', area(1, round_pole(512, 0.5)) + far(1, Z) + far(1, W) + far(1, unit(0.5, 0.001, 1)) + place(1, Z)),
    ('a far of 24 bytes', A + record(4, position(Z))),
    ('a far of 27 bytes', A + record(4, b'\x01\x00' + position(Z) + b'\x00')),
    ('a far of 2 bytes, its number 0: 22 before 23', A + record(4, bytes(2))),
    ('a far cut short', A + far(1, Z)[:-1]),
    ('a far from area 0, before its NaN', A + far(0, NAN)),
    ('a far from an area not yet met, before its NaN', A + far(2, NAN)),
    ('a far from an area that comes later', far(1, Z) + A),
    ('refusal 3 of a far', A + far(1, Z) + far(1, (0.0, float('-inf'), 0.0)) + pair(1, 1)),
    ('refusal 4 of a far', A + far(1, FAR)),
    ('1,024 positions: fars do not count', area(1, [X] * 512) + area(2, [X] * 511) + far(1, X) + far(2, X) + area(3, [X]) + far(3, Y)),
    ('kind 5, of a length that a far has', A + record(5, b'\x01\x00' + position(Z))),
    ('kind 260', A + record(260, b'\x01\x00' + position(Z))),
]


def part(b):
    return struct.pack('<I', len(b)) + b


# `scene_tests` has room for no more
assert all(len(title) <= 97 and len(scene) <= 65537 for title, scene in scenes)
here = os.path.dirname(os.path.abspath(__file__))
with open(os.path.join(here, '..', 'crates', 'scene_tests', 'stdin'), 'wb') as f:
    f.write(struct.pack('<I', len(scenes)) + join(part(f'# {title}\n'.encode()) + part(scene) for title, scene in scenes))
