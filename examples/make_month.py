#!/usr/bin/env python3
"""Writes a small month: three depots, two vans each, two days each, and the fuel that they burnt.

Each drive takes 90 seconds, with an epoch every 2: the van sets off, waits at a light, and turns once. Eight satellites of
GPS (1) and Galileo (6) move on circular orbits.

  leipzig   the sky is open throughout
  halle     a railway bridge on each drive: three satellites are left for two epochs
  dresden   a tunnel on each drive: no satellites for three tenths of the way, rows with the odometer alone

month/DEPOT-VAN-DAY.csv has the rows, with the odometer's running count. month/fuel.csv has what each van burnt in the month,
month/truth.csv the true length of each drive: every kilometre burnt what RATES says, but for whole millilitres.

The noise has a fixed seed. Python 3, standard library alone.
"""

import datetime
import math
import os
import random

from make_drive import AXES, GALILEO, GPS, START, Satellite

PER_KM = 8000
# Millilitres to the kilometre.
RATES = {"leipzig": 98.0, "halle": 96.0, "dresden": 101.0}
VANS = {"leipzig": ("07", "12"), "halle": ("03", "04"), "dresden": ("21", "22")}
DAYS = ("2026-11-03", "2026-11-17")

STEP, END = 2, 90
FINE = 100

# Constellation, svid, azimuth and elevation at the first drive, direction of the pass.
SKY = [
    (GPS, 5, 48.0, 22.0, True),
    (GPS, 13, 292.0, 61.0, False),
    (GPS, 15, 208.0, 74.0, True),
    (GPS, 24, 96.0, 41.0, False),
    (GALILEO, 2, 124.0, 66.0, True),
    (GALILEO, 11, 55.0, 38.0, False),
    (GALILEO, 25, 301.0, 24.0, True),
    (GALILEO, 36, 192.0, 31.0, True),
]
SATELLITES = [Satellite(*s) for s in SKY]
UNDER_BRIDGE = {(GPS, 5), (GPS, 24), (GALILEO, 36)}
BANDS = {GPS: 1575, GALILEO: 1575}


def speed(t, top):
    """Metres per second: setting off, a red light from 38 to 46 s, and on. The kinks are at epochs."""
    knots = [(0, 0.0), (8, top), (30, top), (38, 0.0), (46, 0.0), (54, top), (84, top), (90, 0.0)]
    for (a, v), (b, w) in zip(knots, knots[1:]):
        if t <= b:
            return v + (w - v) * (t - a) / (b - a)
    return 0.0


def heading(t, start):
    """Radians from north to the east, with a turn of 60 degrees between the seconds 56 and 80."""
    return math.radians(start + 60.0 * min(max((t - 56.0) / 24.0, 0.0), 1.0))


class Drive:
    """A van under way, in hundredths of a second from one second before the start; the sky moves on from drive to drive."""

    def __init__(self, top, start, sky_time):
        self.points = {}
        self.sky_time = sky_time
        east = north = length = 0.0
        for k in range(-FINE, (END + 1) * FINE):
            self.points[k] = (east, north, length)
            t = (k + 0.5) / FINE
            v = speed(t, top) if 0 <= t <= END else 0.0
            east += v * math.sin(heading(t, start)) / FINE
            north += v * math.cos(heading(t, start)) / FINE
            length += v / FINE

    def at(self, t):
        e, n, _ = self.points[round(t * FINE)]
        return tuple(START[i] + e * AXES[0][i] + n * AXES[1][i] for i in range(3))

    def length(self, t):
        return self.points[round(t * FINE)][2]

    def seen(self, s, t):
        """A satellite at transmission, and its distance."""
        return s.seen(self.sky_time + t, self.at(t))


def hidden(depot, drive, t):
    """The satellites that are hidden at a time: 'some' under the bridge, 'all' in the tunnel."""
    part = drive.length(t) / drive.length(END)
    if depot == "halle" and t in (22, 24):
        return "some"
    if depot == "dresden" and 0.62 < part < 0.885:
        return "all"
    return "none"


def row(s, t, drive, chance, ambiguity):
    """The fields of a satellite, from its constellation to its rate."""
    satellite, distance = drive.seen(s, t)
    step = 0.01
    before, after = (drive.seen(s, u)[1] for u in (t - step, t + step))
    rate = (after - before) / (2 * step) + 23.7 + 0.04 * s.constellation + chance.gauss(0.0, 0.03)
    clock = (23.7 + 0.04 * s.constellation) * t
    adr = distance - 2e7 + clock + ambiguity + chance.gauss(0.0, 0.003)
    fields = [s.constellation, s.svid, BANDS[s.constellation], "%.4f" % adr, *("%.3f" % x for x in satellite)]
    return fields + ["%.2f" % s.elevation(drive.sky_time + t, drive.at(t)), "%.2f" % rate]


HEADER = "week,tow,constellation,svid,band,adr,x,y,z,elevation,rate,rx,ry,rz,odometer"


def lines(depot, drive, week, tow, count, chance):
    """The rows of a drive; the place of the receiver is in the first row of an epoch alone."""
    yield HEADER
    # Ambiguities that keep the numbers short.
    constant = {s: 2e7 - drive.seen(s, 0)[1] + round(chance.uniform(-5e2, 5e2)) for s in SATELLITES}
    for t in range(0, END + 1, STEP):
        odometer = count + int(drive.length(t) * PER_KM / 1000)
        place = ["%.0f" % (x + chance.gauss(0.0, 1.5)) for x in drive.at(t)]
        cover = hidden(depot, drive, t)
        seen = [s for s in SATELLITES if cover == "none" or (cover == "some" and (s.constellation, s.svid) in UNDER_BRIDGE)]
        if not seen:
            yield ",".join(map(str, [week, tow + t] + [""] * 12 + [odometer]))
        for s in seen:
            fields = [week, tow + t, *row(s, t, drive, chance, constant[s]), *place, odometer]
            yield ",".join(map(str, fields))
            place = ["", "", ""]


def gps(day):
    """Week and second of 08:00 on a day, in GPS time."""
    days = (datetime.date.fromisoformat(day) - datetime.date(1980, 1, 6)).days
    return days // 7, days % 7 * 86400 + 8 * 3600


def write(folder, name, text):
    with open(os.path.join(folder, name), "w", newline="\n") as file:
        file.write("".join(line + "\n" for line in text))


def main():
    folder = os.path.join(os.path.dirname(os.path.abspath(__file__)), "month")
    os.makedirs(folder, exist_ok=True)
    truth, fuel, number = ["file,depot,true_m"], ["depot,van,millilitres"], 0
    for depot, vans in VANS.items():
        for van in vans:
            total = 0.0
            for day in DAYS:
                name = "%s-%s-%s.csv" % (depot, van, day)
                chance = random.Random("a month, " + name)
                drive = Drive(13.0 + 0.4 * number, 30.0 * number, 150.0 * number)
                week, tow = gps(day)
                write(folder, name, lines(depot, drive, week, tow, 1000 * number, chance))
                truth.append("%s,%s,%.3f" % (name, depot, drive.length(END)))
                total += drive.length(END)
                number += 1
            fuel.append("%s,%s,%d" % (depot, van, round(RATES[depot] * total / 1000)))
    write(folder, "truth.csv", truth)
    write(folder, "fuel.csv", fuel)


if __name__ == "__main__":
    main()
