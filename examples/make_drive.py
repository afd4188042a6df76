#!/usr/bin/env python3
"""Writes the texts of a drive, and the true displacements beside them.

A van drives ten seconds through Leipzig, with an epoch at each second from 0 to 10: it goes at town
speed, brakes, passes under a railway bridge, turns to the right and speeds up. Satellites of GPS (1),
GLONASS (3) and Galileo (6) move on circular orbits. What the receiver meets on the way:

  epoch 2   GLONASS 7 slips by five wavelengths, and no state bit tells of it
  epoch 4   Galileo 11 is lost behind a house; it is back at epoch 6, marked as reset
  epoch 7   the bridge: six signals are left, two of each constellation
  epoch 8   the others are back
  epoch 9   GPS 31 is marked as slipped by the receiver
  always    GPS 20 stands below the mask

Each text is one pair of epochs in the line form: drive/NN.txt, NN from 01 to 10. drive/truth has a
line for each: its name and the true displacement in metres, x, y, z.

The noise has a fixed seed. Python 3, standard library alone.
"""

import math
import os
import random
import struct

LIGHT = 299792458.0
EARTH_RATE = 7.2921151467e-5
GRAVITY = 3.986005e14

GPS, GLONASS, GALILEO = 1, 3, 6
# Radius in metres, inclination in degrees, band in MHz.
ORBITS = {
    GPS: (26560e3, 55.0, 1575),
    GLONASS: (25508e3, 64.8, 1602),
    GALILEO: (29600e3, 56.0, 1575),
}

LATITUDE, LONGITUDE, HEIGHT = 51.34, 12.37, 160.0

# Settings of line S: the reference's defaults.
SCREEN, SIGMA_A, SIGMA_B, HUBER, MASK, ROUNDS = 0.5, 0.008, 0.002, 1.5, 10.0, 4

VALID, SLIP, RESET = 1, 2, 4
EPOCHS = 11
BRIDGE = 7


def frame(latitude, longitude):
    """East, north and up at a place, as columns of the earth's axes."""
    lat, lon = math.radians(latitude), math.radians(longitude)
    east = (-math.sin(lon), math.cos(lon), 0.0)
    north = (-math.sin(lat) * math.cos(lon), -math.sin(lat) * math.sin(lon), math.cos(lat))
    up = (math.cos(lat) * math.cos(lon), math.cos(lat) * math.sin(lon), math.sin(lat))
    return east, north, up


def place(latitude, longitude, height):
    """Coordinates of a place on the ellipsoid of WGS 84."""
    a, f = 6378137.0, 1 / 298.257223563
    e2 = f * (2 - f)
    lat, lon = math.radians(latitude), math.radians(longitude)
    n = a / math.sqrt(1 - e2 * math.sin(lat) ** 2)
    return (
        (n + height) * math.cos(lat) * math.cos(lon),
        (n + height) * math.cos(lat) * math.sin(lon),
        (n * (1 - e2) + height) * math.sin(lat),
    )


AXES = frame(LATITUDE, LONGITUDE)
START = place(LATITUDE, LONGITUDE, HEIGHT)


def speed(t):
    """Metres per second: 50 km/h, braking to 30 for the turn, then 45."""
    if t < 4.0:
        return 13.9
    if t < 6.0:
        return 13.9 - 2.8 * (t - 4.0)
    if t < 9.0:
        return 8.3
    return 8.3 + 2.1 * (t - 9.0)


def heading(t):
    """Radians from north to the east: a turn to the right between the seconds 8 and 10."""
    return math.radians(35.0 + 60.0 * min(max((t - 8.0) / 2.0, 0.0), 1.0))


STEPS = 1000


def driven():
    """Metres to the east and the north at each thousandth of a second from -1 to the end."""
    out = {}
    east = north = 0.0
    for k in range(-STEPS, EPOCHS * STEPS):
        out[k] = (east, north)
        t = (k + 0.5) / STEPS
        east += speed(t) * math.sin(heading(t)) / STEPS
        north += speed(t) * math.cos(heading(t)) / STEPS
    return out


DRIVEN = driven()


def van(t):
    """The antenna's true coordinates; the road rises by one in fifty."""
    e, n = DRIVEN[round(t * STEPS)]
    u = 0.02 * math.hypot(e, n)
    return tuple(START[i] + e * AXES[0][i] + n * AXES[1][i] + u * AXES[2][i] for i in range(3))


class Satellite:
    """A satellite on a circular orbit that passes over a direction seen from the start."""

    def __init__(self, constellation, svid, azimuth, elevation, eastwards):
        self.constellation, self.svid = constellation, svid
        radius, inclination, self.band = ORBITS[constellation]
        az, el = math.radians(azimuth), math.radians(elevation)
        east, north, up = math.cos(el) * math.sin(az), math.cos(el) * math.cos(az), math.sin(el)
        d = [east * AXES[0][i] + north * AXES[1][i] + up * AXES[2][i] for i in range(3)]
        # Where the line of sight meets the sphere of the orbit.
        along = sum(d[i] * START[i] for i in range(3))
        length = math.sqrt(along * along + radius * radius - sum(x * x for x in START)) - along
        at = [(START[i] + length * d[i]) / radius for i in range(3)]
        # Two orbits of an inclination pass there: one goes north, the other south.
        lat = math.asin(at[2])
        course = math.asin(math.cos(math.radians(inclination)) / math.cos(lat))
        if not eastwards:
            course = math.pi - course
        lon = math.atan2(at[1], at[0])
        e, n, _ = frame(math.degrees(lat), math.degrees(lon))
        self.radius = radius
        self.first = at
        self.second = [math.sin(course) * e[i] + math.cos(course) * n[i] for i in range(3)]
        self.rate = math.sqrt(GRAVITY / radius**3)

    def at(self, t):
        """Coordinates in the turning earth's axes."""
        c, s = math.cos(self.rate * t), math.sin(self.rate * t)
        x, y, z = (self.radius * (c * self.first[i] + s * self.second[i]) for i in range(3))
        c, s = math.cos(EARTH_RATE * t), math.sin(EARTH_RATE * t)
        return (c * x + s * y, c * y - s * x, z)

    def seen(self, t, receiver):
        """Coordinates at transmission, and the distance that the signal travels."""
        travel = 0.075
        for _ in range(6):
            satellite = self.at(t - travel)
            c, s = math.cos(EARTH_RATE * travel), math.sin(EARTH_RATE * travel)
            x, y, z = satellite
            turned = (c * x + s * y, c * y - s * x, z)
            distance = math.dist(turned, receiver)
            travel = distance / LIGHT
        return satellite, distance

    def elevation(self, t, receiver):
        """Degrees above the horizon."""
        satellite, distance = self.seen(t, receiver)
        d = sum((satellite[i] - receiver[i]) * AXES[2][i] for i in range(3))
        return math.degrees(math.asin(d / distance))


# Constellation, svid, azimuth and elevation at the first epoch, direction of the pass.
SATELLITES = [
    Satellite(*s)
    for s in [
        (GPS, 5, 48.0, 22.0, True),
        (GPS, 13, 292.0, 61.0, False),
        (GPS, 15, 208.0, 74.0, True),
        (GPS, 20, 335.0, 7.3, True),
        (GPS, 24, 96.0, 41.0, False),
        (GPS, 31, 231.0, 28.0, True),
        (GLONASS, 7, 44.0, 34.0, True),
        (GLONASS, 8, 318.0, 33.0, True),
        (GLONASS, 22, 201.0, 30.0, False),
        (GLONASS, 23, 140.0, 52.0, False),
        (GALILEO, 2, 124.0, 66.0, True),
        (GALILEO, 11, 55.0, 38.0, False),
        (GALILEO, 25, 301.0, 24.0, True),
        (GALILEO, 36, 192.0, 31.0, True),
    ]
]

# What is still seen under the bridge: along the road, fore and aft.
UNDER_BRIDGE = {(GPS, 5), (GPS, 31), (GLONASS, 7), (GLONASS, 22), (GALILEO, 11), (GALILEO, 36)}
# The epochs without a satellite, but for the bridge.
LOST = {(GALILEO, 11): {4, 5}}
# What the receiver marks beside the valid carrier.
MARKED = {(GALILEO, 11, 6): RESET, (GPS, 31, 9): SLIP}
# The slip that it does not mark, in metres.
UNMARKED = {(GLONASS, 7, 2): 5 * LIGHT / 1602e6}


def clock(constellation, t):
    """The receiver's clock against a constellation's time, in metres."""
    return 4200.0 + 17.3 * constellation + (23.7 + 0.04 * constellation) * t


def tracked(name, k):
    """Whether a satellite is tracked at an epoch."""
    return k not in LOST.get(name, ()) and (k != BRIDGE or name in UNDER_BRIDGE)


def range_rate(s, k):
    """Metres per second, from the ranges a hundredth of a second before and after."""
    step = 0.01
    before = s.seen(k - step, van(k - step))[1]
    after = s.seen(k + step, van(k + step))[1]
    return (after - before) / (2 * step)


def measured(chance):
    """The carrier records of each epoch."""
    epochs = [[] for _ in range(EPOCHS)]
    for s in SATELLITES:
        name = (s.constellation, s.svid)
        drift = clock(s.constellation, 1.0) - clock(s.constellation, 0.0)
        for k in range(EPOCHS):
            noise, rate_noise = chance.gauss(0.0, 0.003), chance.gauss(0.0, 0.03)
            if not tracked(name, k):
                continue
            mark = MARKED.get((*name, k), 0)
            if k == 0 or mark or not tracked(name, k - 1):
                ambiguity = chance.uniform(-2e5, 2e5)
            ambiguity += UNMARKED.get((*name, k), 0.0)
            satellite, distance = s.seen(k, van(k))
            adr = distance - 2e7 + clock(s.constellation, k) + ambiguity + noise
            rate = range_rate(s, k) + drift + rate_noise
            elevation = s.elevation(k, van(k))
            epochs[k].append((s, adr, VALID | mark, satellite, elevation, rate))
    return epochs


def bits(x):
    """A float of the line form."""
    return "%016X" % struct.unpack(">Q", struct.pack(">d", x))


def line(letter, record):
    s, adr, state, satellite, elevation, rate = record
    fields = [letter, s.constellation, s.svid, s.band, bits(adr), state]
    fields += [bits(x) for x in (*satellite, elevation, rate)]
    return ",".join(map(str, fields))


def main():
    folder = os.path.join(os.path.dirname(os.path.abspath(__file__)), "drive")
    os.makedirs(folder, exist_ok=True)
    chance = random.Random("a van in Leipzig")
    epochs = measured(chance)
    truth = []
    for k in range(1, EPOCHS):
        before, now = van(k - 1), van(k)
        # A fix from pseudoranges is some metres off.
        receiver = [x + chance.gauss(0.0, 3.0) for x in before]
        settings = (1.0, *receiver, SCREEN, SIGMA_A, SIGMA_B, HUBER, MASK)
        lines = [",".join(["S", *map(bits, settings), str(ROUNDS)])]
        lines += [line("P", r) for r in epochs[k - 1]]
        lines += [line("C", r) for r in epochs[k]]
        name = "%02d" % k
        with open(os.path.join(folder, name + ".txt"), "w", newline="\n") as file:
            file.write("".join(text + "\n" for text in lines))
        moved = [now[i] - before[i] for i in range(3)]
        truth.append("%s %.3f %.3f %.3f" % (name, *moved))
        print(truth[-1])
    with open(os.path.join(folder, "truth"), "w", newline="\n") as file:
        file.write("".join(text + "\n" for text in truth))


if __name__ == "__main__":
    main()
