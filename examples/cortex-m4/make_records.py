#!/usr/bin/env python3
"""Writes records.h, the epochs of examples/drive as carrier records of 59 bytes, with the receiver's place and an odometer's pulses.

    examples/cortex-m4/make_records.py >examples/cortex-m4/records.h
"""
import pathlib
import struct

PER_KM = 8000
drive = pathlib.Path(__file__).resolve().parent.parent / "drive"


def record(line):
    """A carrier as the hexadecimal digits of its 59 bytes."""
    f = line.split(",")[1:]
    bits = [int(f[i], 16) for i in (3, 5, 6, 7, 8, 9)]
    return struct.pack("<BHIQi5Q", int(f[0]), int(f[1]), int(f[2]), bits[0], int(f[4]), *bits[1:]).hex().upper()


texts = [path.read_text().splitlines() for path in sorted(drive.glob("[0-9]*.txt"))]
truth = [[float(x) for x in line.split()[1:]] for line in (drive / "truth").read_text().splitlines()]
epochs = [[record(line) for line in texts[0] if line[0] == "P"]]
epochs += [[record(line) for line in text if line[0] == "C"] for text in texts]
assert all(epochs[i] == [record(line) for line in text if line[0] == "P"] for i, text in enumerate(texts))
places = [text[0].split(",")[2:5] for text in texts]

print("/* The drive of examples/drive as carrier records; made by make_records.py. */")
print("#include <stdint.h>\n")
print(f"#define EPOCHS {len(epochs)}")
print(f"#define MOST_RECORDS {max(map(len, epochs))}")
print(f"#define PULSES_PER_KM {PER_KM}\n")
print("/* How many records each epoch has. */")
print(f"static const uint8_t counts[EPOCHS] = {{{', '.join(str(len(e)) for e in epochs)}}};\n")
print("/* Pulses of the odometer since the epoch before. */")
total, before, pulses = 0.0, 0, [0]
for dx, dy, dz in truth:
    total += (dx * dx + dy * dy + dz * dz) ** 0.5
    now = int(total * PER_KM / 1000)
    pulses.append(now - before)
    before = now
print(f"static const uint16_t pulses[EPOCHS] = {{{', '.join(map(str, pulses))}}};\n")
print("/* Where the receiver was at each epoch but the last, x, y, z in metres. */")
print("static const double places[EPOCHS - 1][3] = {")
for place in places:
    print(f"    {{{', '.join(repr(struct.unpack('>d', bytes.fromhex(x))[0]) for x in place)}}},")
print("};\n")
print("/* The bytes of each record in hexadecimal, epoch after epoch. */")
print("static const char *const records[] = {")
for epoch in epochs:
    for digits in epoch:
        print(f'    "{digits}",')
print("};")
