"""Tests of the package, run from the root of the repository: python3 -m unittest bindings/python/tests/test_zaqnuti.py.

ZAQNUTI_LIBRARY or the installed package gives the library; the command `zaqnuti` is compared with where it was built.
"""

import doctest
import glob
import importlib
import os
import pickle
import random
import re
import shutil
import signal
import subprocess
import sys
import tempfile
import threading
import time
import unittest
import warnings
from array import array
from pathlib import Path

with warnings.catch_warnings():
    warnings.simplefilter("ignore", RuntimeWarning)
    import zaqnuti
    from zaqnuti import _columns, _library, _loop

try:
    import numpy
except ImportError:
    numpy = None
try:
    import pandas
except ImportError:
    pandas = None
try:
    import distributed
except ImportError:
    distributed = None

ROOT = Path(__file__).resolve().parents[3]
SOURCES = ROOT / "bindings/python"
COMMAND = ROOT / "bindings/rust/target/release/zaqnuti"
FILES = sorted(glob.glob(str(ROOT / "examples/month/*-2026-*.csv")))
HALLE = str(ROOT / "examples/month/halle-03-2026-11-03.csv")
ROVER = str(ROOT / "examples/geonet/rover.csv")
DRESDEN = str(ROOT / "examples/month/dresden-21-2026-11-03.csv")

# Fields that a reader of decimals may take in its own way.
ODD = (
    "|NaN|inf|-inf|1e10|-1|256|65536|4294967296|0|1|6|7|90.5|-90|abc|1_0| 5 |+5|1e3|0x10|1.5|-0|\u0661|1e400|2e7|"
    "NaN:7FF8000000000001|1.|.5|infinity|nan|-NaN|00005|1e-320"
).split("|")

LINES = """
import glob, sys, warnings
warnings.simplefilter("ignore")
{before}
import zaqnuti
{check}
rover = zaqnuti.Drive.from_csv({rover!r}, at=(-3976219.5, 3382372.6, 3652513.0))
for settings in (zaqnuti.FixSettings(), zaqnuti.FixSettings.geodetic()):
    fixed, numbers = zaqnuti.fix(rover, settings=settings)
    print([[float(x).hex() for x in row] for row in fixed], list(map(int, numbers)))
city, numbers = zaqnuti.displacements(rover, zaqnuti.Settings.geodetic(), city=0)
print([[float(x).hex() for x in row] for row in city], list(map(int, numbers)))
for file in sys.argv[1:]:
    moved, numbers = zaqnuti.displacements(zaqnuti.Drive.from_csv(file))
    print(zaqnuti.trip(zaqnuti.Drive.from_csv(file), pulses_per_km=8000).line(file))
    print([[float(x).hex() for x in row] for row in moved], list(map(int, numbers)))
"""


def answers(before="", check="", sources=False, files=FILES):
    """Trip lines and displacements of files, from a process of its own."""
    where = {"ZAQNUTI_LIBRARY": _library.PATH}
    where["PYTHONPATH"] = str(SOURCES) if sources else str(Path(zaqnuti.__file__).parents[1])
    text = LINES.format(before=before, check=check, rover=ROVER)
    done = subprocess.run([sys.executable, "-c", text, *files], env={**os.environ, **where}, capture_output=True, text=True)
    if done.returncode != 0:
        raise AssertionError(done.stderr)
    return done.stdout.splitlines()


def two_epochs(**changed):
    """Columns of a drive of two epochs with a carrier each."""
    columns = {
        "tow": [0.0, 1.0], "constellation": [1, 1], "svid": [5, 5], "adr": [0.0, 0.1], "x": [2e7, 2e7], "y": [0.0, 0.0],
        "z": [0.0, 0.0], "elevation": [40.0, 40.0], "rate": [0.0, 0.0], "odometer": [0, 4],
    }
    return {**columns, **changed}


class Month(unittest.TestCase):
    """Totals of examples/month."""

    @unittest.skipUnless(COMMAND.exists(), "the command is not built")
    def test_totals_are_the_commands(self):
        command = [str(COMMAND), "trip", "--pulses-per-km", "8000", "--csv", *FILES]
        lines = subprocess.run(command, capture_output=True, text=True, check=True).stdout.splitlines()
        self.assertEqual(lines[0], zaqnuti.COLUMNS)
        self.assertEqual(len(lines), 13)
        have = [zaqnuti.trip(zaqnuti.Drive.from_csv(file), pulses_per_km=8000).line(file) for file in FILES]
        self.assertEqual(have, lines[1:])
        self.assertEqual(answers("sys.modules['numpy'] = None")[3::2], lines[1:])

    def variants(self, folder):
        """Files with pulses, a count that wraps, a gap, no week and no satellite, with the options for each."""
        rows = [row.split(",") for row in Path(HALLE).read_text().splitlines()]
        header, rows = rows[0], rows[1:]
        times = sorted({row[1] for row in rows}, key=float)
        counts = {row[1]: int(row[-1]) for row in rows}
        since = {now: counts[now] - counts[before] for before, now in zip(times, times[1:])}
        pulses = [[*row[:-1], str(since.get(row[1], 7))] for row in rows]
        gone = [row for row in rows if row[1] not in times[20:24]]
        forms = {
            "pulses": ([*header[:-1], "pulses"], pulses, None),
            "lost": ([*header[:-1], "pulses"], [row for row in pulses if row[1] not in times[20:24]], None),
            "gap": (header, gone, None),
            "wrap": (header, [[*row[:-1], str((int(row[-1]) + 60_000) % 65_536)] for row in rows], 16),
            "wide": (header, [[*row[:-1], str((int(row[-1]) + 2**32 - 6_000) % 2**32)] for row in gone], 32),
            "weekless": (header[1:], [row[1:] for row in rows], None),
            "late": (header, [[row[0], str(float(row[1]) + 604_000.0), *row[2:]] for row in rows], None),
            "bare": (header, [[*row[:2], *[""] * (len(row) - 3), row[-1]] for row in rows], None),
        }
        for name, (first, lines, wrap) in forms.items():
            path = Path(folder) / f"{name}.csv"
            path.write_text("\r\n".join(map(",".join, [first, *lines])))
            yield str(path), wrap

    @unittest.skipUnless(COMMAND.exists(), "the command is not built")
    def test_forms_of_a_drive(self):
        settings = zaqnuti.Settings()
        form = _loop.Form(settings.floats(), settings.rounds, None)
        _, quality, numbers = _loop.displaced(zaqnuti.Drive.from_csv(HALLE), [(0, form)], True)
        errors = [quality[2 * i + 1] * max(quality[2 * i], 1.0) * 0.01 for i in range(len(numbers)) if numbers[i] == 0]
        middle = float(sorted(errors)[len(errors) // 2])
        with tempfile.TemporaryDirectory() as folder:
            for path, wrap in self.variants(folder):
                for limit in (0.2, middle, 0.02):
                    options = ["--max-error", str(limit), *(["--wrap", str(wrap)] if wrap else [])]
                    command = [str(COMMAND), "trip", "--pulses-per-km", "8000", "--csv", *options, path]
                    lines = subprocess.run(command, capture_output=True, text=True).stdout.splitlines()
                    trip = zaqnuti.trip(zaqnuti.Drive.from_csv(path), 8000, wrap=wrap, max_error=limit)
                    self.assertEqual([trip.line(path)], lines[1:])

    def told(self, *words):
        """Give the lines of CSV that the command writes."""
        return subprocess.run([str(COMMAND), *words, "--csv"], capture_output=True, text=True).stdout.splitlines()

    @unittest.skipUnless(COMMAND.exists(), "the command is not built")
    def test_city_and_changing_settings(self):
        with tempfile.TemporaryDirectory() as folder:
            path = Path(folder) / "settings.csv"
            header = "week,tow,screen,sigma_a,sigma_b,huber,mask,rounds"
            for lines in ([], ["2443,201610.5,0.5,0.008,0.002,1.5,35,4", "2443,201622,0.02,0.008,0.002,1.5,10,4", "2443,201622.5,0.5,0.01,0.1,3,20,0"],
                          ["1,5,0.5,0.008,0.002,1.5,30,4", "2500,0,0.5,0.008,0.002,1.5,90,4"]):
                path.write_text("\n".join([header, *lines]))
                for city in (None, 1575, 1176):
                    for file in (HALLE, DRESDEN):
                        words = [*(["--city", str(city)] if city else []), "--settings", str(path)]
                        line = self.told("trip", "--pulses-per-km", "8000", *words, file)[1]
                        drive = zaqnuti.Drive.from_csv(file)
                        trip = zaqnuti.trip(drive, 8000, city=city, changes=path)
                        self.assertEqual(trip.line(file), line)
                        given = [(int(w), float(t), zaqnuti.Settings(*map(float, f), int(r))) for w, t, *f, r in (x.split(",") for x in lines)]
                        self.assertEqual(zaqnuti.trip(drive, 8000, city=city, changes=given), trip)
            path.write_text(f"{header}\n2443,5,0.5,0.008,0.002,1.5,30,51")
            with self.assertRaisesRegex(ValueError, "settings at 5.000 s are refused by 3"):
                zaqnuti.displacements(zaqnuti.Drive.from_csv(HALLE), changes=path)
            with self.assertRaisesRegex(ValueError, "^city: -1; expected a band"):
                zaqnuti.displacements(zaqnuti.Drive.from_csv(HALLE), city=-1)

    @unittest.skipUnless(COMMAND.exists(), "the command is not built")
    def test_an_odometer_of_its_own(self):
        rows = [row.split(",") for row in Path(HALLE).read_text().splitlines()]
        counts = {row[1]: int(row[-1]) for row in rows[1:]}
        some = random.Random(7)
        with tempfile.TemporaryDirectory() as folder:
            path, odometer = Path(folder) / "drive.csv", Path(folder) / "odometer.csv"
            path.write_text("\n".join(",".join(row[:-1]) for row in rows))
            drive = zaqnuti.Drive.from_csv(path)
            for late, keep, wrap, more in ((0.0, 1.0, None, 0), (-0.3, 0.7, None, 0), (0.4, 0.5, 16, 60_000), (7.0, 0.9, 32, 2**32 - 4_100), (500.0, 1.0, None, 0)):
                times = [(float(t) + late, c) for t, c in counts.items() if some.random() <= keep]
                times = [(t, c + more if wrap is None else (c + more) % 2**wrap) for t, c in times]
                odometer.write_text("\n".join(["week,tow,odometer", *(f"2443,{t!r},{c}" for t, c in times)]))
                words = ["--odometer", str(odometer), *(["--wrap", str(wrap)] if wrap else [])]
                line = self.told("trip", "--pulses-per-km", "8000", *words, str(path))[1]
                trip = zaqnuti.trip(drive, 8000, odometer=odometer, wrap=wrap)
                self.assertEqual(trip.line(str(path)), line)
                columns = {"week": [2443] * len(times), "tow": [t for t, _ in times], "odometer": [c for _, c in times]}
                self.assertEqual(zaqnuti.trip(drive, 8000, odometer=columns, wrap=wrap), trip)
            for bad, why in (({"tow": [1.0], "odometer": [3]}, "both have weeks"), ({"week": [1, 1], "tow": [1.0, 2.0], "odometer": [3, 2]}, "runs backwards"),
                             ({"week": [1]}, "tow: the column is missing"), ({"week": [], "tow": [], "odometer": []}, "has no counts")):
                with self.assertRaisesRegex(ValueError, why):
                    zaqnuti.trip(drive, 8000, odometer=bad)
            with self.assertRaisesRegex(ValueError, "one form only"):
                zaqnuti.trip(zaqnuti.Drive.from_csv(HALLE), 8000, odometer=odometer)

    @unittest.skipUnless(COMMAND.exists(), "the command is not built")
    def test_fixes_are_the_commands(self):
        base = ROOT / "examples/geonet/base.csv"
        with tempfile.TemporaryDirectory() as folder:
            corrected = Path(folder) / "corrected.csv"
            lines = self.told("corrections", "--base", str(base), "--base-at=-3978242.4348,3382841.1715,3649902.7667", ROVER)
            corrected.write_text("\n".join(lines))
            for file in (ROVER, str(corrected)):
                for kind, settings in (("phone", zaqnuti.FixSettings()), ("geodetic", zaqnuti.FixSettings.geodetic())):
                    want = [line.split(",") for line in self.told("fix", "--receiver", kind, file)[1:]]
                    drive = zaqnuti.Drive.from_csv(file, at=(0, 0, 0))
                    fixed, numbers = zaqnuti.fix(drive, settings=settings)
                    self.assertEqual([int(n) for n in numbers], [int(line[-1]) for line in want])
                    for have, line in zip(fixed, want):
                        self.assertEqual(["" if x != x else float(x) for x in have], [float(x) if x else "" for x in line[2:5]])
                    if pandas is not None:
                        again, same = zaqnuti.fix(zaqnuti.Drive.from_columns(pandas.read_csv(file), at=(0, 0, 0)), settings=settings)
                        self.assertEqual([list(map(repr, row)) for row in again], [list(map(repr, row)) for row in fixed])
                        self.assertEqual(list(same), list(numbers))
            self.assertIn(8, [int(n) for n in zaqnuti.fix(drive, settings=settings)[1]])

    def test_a_drive_without_pseudoranges(self):
        with self.assertRaisesRegex(ValueError, "^pseudorange: the column is missing$"):
            zaqnuti.fix(zaqnuti.Drive.from_csv(HALLE))
        with self.assertRaisesRegex(ValueError, "^y: has 1 elements"):
            zaqnuti.fix([1, 1], [2e7, 2e7], [2e7, 2e7], [0.0], [0.0, 0.0], [45.0, 45.0])
        drive = zaqnuti.Drive.from_columns(two_epochs(pseudorange=[2e7, float("nan")]), at=(6.4e6, 0, 0))
        self.assertEqual([int(n) for n in zaqnuti.fix(drive)[1]], [8, 4])
        with self.assertRaises(zaqnuti.Refused) as caught:
            zaqnuti.fix(drive, settings=zaqnuti.FixSettings(rounds=51))
        self.assertEqual(caught.exception.number, 3)

    def damaged(self, some, rows):
        """Give the lines of a drive with a few of them changed, doubled or left out."""
        for _ in range(some.choice([1, 1, 2, 5])):
            i = some.randrange(1, len(rows))
            match some.choice(["field", "field", "field", "column", "gone", "again", "bare", "longer"]):
                case "field":
                    rows[i][some.randrange(len(rows[i]))] = some.choice(ODD)
                case "column":
                    column, value = some.randrange(2, len(rows[0])), some.choice(ODD)
                    for row in rows[1:]:
                        row[column] = value
                case "gone" if len(rows) > 50:
                    del rows[i : i + some.randrange(1, 40)]
                case "again":
                    rows.insert(i, list(rows[some.randrange(1, len(rows))]))
                case "bare":
                    rows[i][2:-1] = [""] * (len(rows[i]) - 3)
                case "longer":
                    rows[i].append("1")
        return rows

    @unittest.skipUnless(COMMAND.exists(), "the command is not built")
    def test_damaged_files(self):
        some = random.Random(44)
        with tempfile.TemporaryDirectory() as folder:
            path = str(Path(folder) / "damaged.csv")
            for case in range(300):
                rows = [row.split(",") for row in Path(some.choice(FILES)).read_text().splitlines()]
                Path(path).write_text("\n".join(map(",".join, self.damaged(some, rows))))
                command = [str(COMMAND), "trip", "--pulses-per-km", "8000", "--csv", path]
                done = subprocess.run(command, capture_output=True, text=True)
                want = None if done.returncode == 2 else done.stdout.splitlines()[1]
                try:
                    have = zaqnuti.trip(zaqnuti.Drive.from_csv(path), 8000).line(path)
                except ValueError:
                    have = None
                self.assertEqual(have, want, f"case {case}: {done.stderr}")

    @unittest.skipUnless(COMMAND.exists(), "the command is not built")
    def test_more_than_one_trip_of_the_library(self):
        with tempfile.TemporaryDirectory() as folder:
            rows = Path(HALLE).read_text().splitlines()
            header, rows = rows[0], [row.split(",") for row in rows[1:]]
            path = Path(folder) / "long.csv"
            with open(path, "w") as file:
                file.write(header + "\n")
                for second in range(0, 65_600 - 92, 2):
                    file.write(f"2443,{second},{',' * (header.count(',') - 2)}{second // 4}\n")
                start, count = 65_600 - 92, 65_600 // 4
                for row in rows:
                    row[1] = str(float(row[1]) - 201_600 + start)
                    row[-1] = str(int(row[-1]) - 4000 + count)
                    file.write(",".join(row) + "\n")
                for second in range(65_600, 131_300):
                    file.write(f"2443,{second},{',' * (header.count(',') - 2)}{count + 9000}\n")
                last = 131_300
                for row in rows:
                    row[1] = str(float(row[1]) - start + last)
                    row[-1] = str(int(row[-1]) + 9000)
                    file.write(",".join(row) + "\n")
            command = [str(COMMAND), "trip", "--pulses-per-km", "8000", "--csv", str(path)]
            lines = subprocess.run(command, capture_output=True, text=True, check=True).stdout.splitlines()
            trip = zaqnuti.trip(zaqnuti.Drive.from_csv(path), pulses_per_km=8000)
            self.assertEqual(trip.line(str(path)), lines[1])
            self.assertEqual(trip.trips, 2)

    def test_every_way_gives_the_same(self):
        there = answers(check="from zaqnuti import _loop")
        self.assertEqual(there, answers("sys.modules['numpy'] = None"))
        slow = "from zaqnuti import _loop; assert _loop.LOOP is None"
        if not glob.glob(str(SOURCES / "zaqnuti/_epochs*.so")):
            self.assertEqual(there, answers(check=slow, sources=True))
            self.assertEqual(there, answers("sys.modules['numpy'] = None", slow, True))

    def test_the_loop_was_compiled(self):
        if Path(zaqnuti.__file__).parents[1] != SOURCES and shutil.which("cc"):
            self.assertIsNotNone(_loop.LOOP)

    def test_threads_share_a_drive(self):
        drive, found = zaqnuti.Drive.from_csv(HALLE), []
        work = [threading.Thread(target=lambda: found.append(zaqnuti.trip(drive, 8000))) for _ in range(8)]
        for thread in work:
            thread.start()
        for thread in work:
            thread.join()
        self.assertEqual(found, [zaqnuti.trip(drive, 8000)] * 8)


@unittest.skipUnless(distributed, "python3-distributed is not present")
class Cluster(unittest.TestCase):
    """examples/month/cluster.py."""

    def months(self, folder, copies):
        """Copy the month so many times under later days."""
        for file in FILES:
            for copy in range(copies):
                name = Path(file).stem.replace("2026", str(2026 + copy)) + ".csv"
                os.symlink(file, Path(folder) / name)
        return sorted(Path(folder).glob("*.csv"))

    def run_on(self, folder, cluster):
        command = [sys.executable, str(ROOT / "examples/month/cluster.py"), str(folder), "--pulses-per-km", "8000"]
        where = {"ZAQNUTI_LIBRARY": _library.PATH, "PYTHONPATH": str(Path(zaqnuti.__file__).parents[1])}
        options = ["--scheduler", cluster.scheduler_address]
        return subprocess.Popen(command + options, env={**os.environ, **where}, stdout=subprocess.PIPE, stderr=subprocess.PIPE, text=True)

    def expected(self, files):
        lines = [zaqnuti.COLUMNS]
        for file in files:
            depot, van, day = file.stem.split("-", 2)
            lines.append(zaqnuti.trip(zaqnuti.Drive.from_csv(file), pulses_per_km=8000).line(str(file), depot, van, day))
        return lines

    def test_a_killed_worker_changes_nothing(self):
        with tempfile.TemporaryDirectory() as folder:
            files = self.months(folder, 40)
            expected = self.expected(files)
            for workers, kill in ((1, False), (2, True)):
                with distributed.LocalCluster(n_workers=workers, threads_per_worker=1, dashboard_address=None) as cluster:
                    with distributed.Client(cluster) as client:
                        pids = list(client.run(os.getpid).values())
                        running = self.run_on(folder, cluster)
                        if kill:
                            done = lambda dask_scheduler: sum(t.state == "memory" for t in dask_scheduler.tasks.values())
                            while not 20 <= client.run_on_scheduler(done) < len(files) and running.poll() is None:
                                time.sleep(0.01)
                            self.assertIsNone(running.poll(), "the drives were done before a worker could be killed")
                            os.kill(pids[0], signal.SIGKILL)
                        out, said = running.communicate(timeout=120)
                        self.assertEqual(running.returncode, 0, said)
                        self.assertEqual(out.splitlines(), expected)

    def test_a_drive_that_fails_does_not_lose_the_others(self):
        with tempfile.TemporaryDirectory() as folder:
            files = self.months(folder, 1)
            bad = Path(folder) / "halle-99-2026-11-04.csv"
            bad.write_text("tow\n")
            with distributed.LocalCluster(n_workers=1, threads_per_worker=1, dashboard_address=None) as cluster:
                out, said = (running := self.run_on(folder, cluster)).communicate(timeout=120)
            self.assertEqual(running.returncode, 1)
            self.assertEqual(out.splitlines(), self.expected(files))
            self.assertIn(f"{bad}: ", said)


class Columns(unittest.TestCase):
    """Drives from arrays, lists and frames."""

    @unittest.skipUnless(pandas, "pandas is not present")
    def test_a_frame_is_the_file(self):
        for file in (HALLE, DRESDEN):
            drive = zaqnuti.Drive.from_columns(pandas.read_csv(file))
            self.assertEqual(zaqnuti.trip(drive, 8000), zaqnuti.trip(zaqnuti.Drive.from_csv(file), 8000))

    @unittest.skipUnless(numpy, "NumPy is not present")
    def test_right_arrays_are_not_copied(self):
        given = {name: numpy.array(values, dtype="d") for name, values in two_epochs().items()}
        given.update(constellation=numpy.array([1, 1], "B"), svid=numpy.array([5, 5], "H"), odometer=numpy.array([0, 4], "Q"))
        given.update(band=numpy.array([0, 0], "I"), state=numpy.array([1, 1], "i"))
        drive = zaqnuti.Drive.from_columns(given, at=(6.4e6, 0, 0))
        for name, column in drive.carriers.items():
            self.assertTrue(numpy.shares_memory(column, given[name]), name)
        strided = zaqnuti.Drive.from_columns({**given, "x": numpy.array([2e7, 0, 2e7, 0])[::2]}, at=(6.4e6, 0, 0))
        self.assertEqual(list(strided.carriers["x"]), [2e7, 2e7])

    def test_arrays_of_the_standard_library(self):
        drive = zaqnuti.Drive.from_columns(two_epochs(svid=array("H", [5, 5])), at=(6.4e6, 0, 0))
        self.assertEqual(zaqnuti.trip(drive, 4000).refused, {7: 1})

    def test_wrong_length(self):
        with self.assertRaisesRegex(ValueError, "^y: has 1 elements, tow has 2$"):
            zaqnuti.Drive.from_columns(two_epochs(y=[0.0]), at=(6.4e6, 0, 0))

    @unittest.skipUnless(numpy, "NumPy is not present")
    def test_wrong_dtype(self):
        for name, values in (("svid", [5.0, 5.0]), ("constellation", [True, True]), ("x", [True, True]), ("band", ["a", "b"])):
            with self.assertRaisesRegex(ValueError, f"^{name}: the dtype is "):
                zaqnuti.Drive.from_columns(two_epochs(**{name: numpy.array(values)}), at=(6.4e6, 0, 0))

    def test_nothing_wraps(self):
        wrong = {"constellation": (256, -1), "svid": (65_536, -1), "band": (2**32, -1), "state": (2**31, -(2**31) - 1), "odometer": (2**64, -1)}
        for name, values in wrong.items():
            for value in values:
                with self.assertRaisesRegex(ValueError, f"^{name}: "):
                    zaqnuti.Drive.from_columns(two_epochs(**{name: [0, value]}), at=(6.4e6, 0, 0))
                if numpy is not None and -(2**63) <= value < 2**63:
                    with self.assertRaisesRegex(ValueError, f"^{name}: "):
                        zaqnuti.Drive.from_columns(two_epochs(**{name: numpy.array([0, value])}), at=(6.4e6, 0, 0))

    def test_an_empty_drive(self):
        with self.assertRaisesRegex(ValueError, "empty"):
            zaqnuti.Drive.from_columns({name: [] for name in two_epochs()}, at=(6.4e6, 0, 0))
        with self.assertRaisesRegex(ValueError, "one epoch"):
            zaqnuti.displacements(zaqnuti.Drive.from_columns({n: v[:1] for n, v in two_epochs().items()}, at=(6.4e6, 0, 0)))

    def test_65_carriers(self):
        columns = {name: 65 * values[:1] for name, values in two_epochs().items()}
        with self.assertRaisesRegex(ValueError, "^constellation: 65 carriers in the epoch at 0.0 s; at most 64$"):
            zaqnuti.Drive.from_columns(columns, at=(6.4e6, 0, 0))
        rows = Path(HALLE).read_text().splitlines()
        with tempfile.NamedTemporaryFile("w", suffix=".csv") as file:
            file.write("\n".join([rows[0], *(65 * [rows[1]]), rows[-1]]))
            file.flush()
            with self.assertRaisesRegex(ValueError, re.escape(file.name) + ": constellation: 65 carriers in the epoch at .* s; at most 64$"):
                zaqnuti.Drive.from_csv(file.name)

    def test_bad_files(self):
        rows = Path(HALLE).read_text().splitlines()
        bad = {
            '4: svid: "far" is not a whole number from 0 to 65535': rows[:3] + [rows[3].replace(",15,", ",far,")],
            "3: 3 fields": rows[:2] + ["1,2,3"],
            "1: the column 'colour'": ["colour"],
            "is empty": [],
            "odometer: 3 differs from": rows[:-1] + [rows[-1].rpartition(",")[0] + ",3"],
        }
        for why, lines in bad.items():
            with tempfile.NamedTemporaryFile("w", suffix=".csv") as file:
                file.write("\n".join(lines))
                file.flush()
                with self.assertRaisesRegex(ValueError, re.escape(why)):
                    zaqnuti.trip(zaqnuti.Drive.from_csv(file.name), 8000)

    def test_refused_as_a_whole(self):
        with self.assertRaises(zaqnuti.Refused) as caught:
            zaqnuti.trip(zaqnuti.Drive.from_csv(HALLE), 8000, settings=zaqnuti.Settings(rounds=51))
        self.assertEqual((caught.exception.number, pickle.loads(pickle.dumps(caught.exception)).text), (3, caught.exception.text))
        with self.assertRaises(zaqnuti.Refused):
            zaqnuti.fix(*(65 * [x] for x in (1, 2e7, 2e7, 0.0, 0.0, 45.0)))


class Library(unittest.TestCase):
    """The library that is loaded."""

    def imported(self, path):
        environment = {**os.environ, "ZAQNUTI_LIBRARY": path, "PYTHONPATH": str(Path(zaqnuti.__file__).parents[1])}
        done = subprocess.run([sys.executable, "-W", "ignore", "-c", "import zaqnuti"], env=environment, capture_output=True, text=True)
        return done.stderr.strip().splitlines()[-1:]

    def test_a_missing_library(self):
        (said,) = self.imported("/nowhere/libzaqnuti.so")
        self.assertRegex(said, "^ImportError: zaqnuti: the library /nowhere/libzaqnuti.so cannot be loaded")

    @unittest.skipUnless(shutil.which("cc"), "cc is not on this machine")
    def test_a_library_of_another_version(self):
        with tempfile.TemporaryDirectory() as folder:
            source, library = Path(folder) / "old.c", Path(folder) / "old.so"
            source.write_text("unsigned zaqnuti_version(void) { return 50007; }\n")
            subprocess.run(["cc", "-shared", "-fPIC", str(source), "-o", str(library)], check=True)
            (said,) = self.imported(str(library))
        self.assertEqual(said, f"ImportError: zaqnuti: {library} is of version 5.0.7, this package of {zaqnuti.__version__}")

    def test_the_calls_are_the_headers(self):
        header = re.sub(r"/\*.*?\*/", "", (ROOT / "include/zaqnuti.h").read_text(), flags=re.DOTALL)
        kinds = {
            "zaqnuti_size": _library.SIZE, "uint64_t": _library.U64, "uint32_t": _library.U32, "uint16_t": _library.U16,
            "uint8_t": _library.U8, "double": _library.DOUBLE, "bool": _library.BOOL,
        }
        for name, have in _library._CALLS.items():
            found = re.search(rf"^uint8_t zaqnuti_{name}\(([^)]*)\);", header, re.MULTILINE)
            self.assertIsNotNone(found, name)
            arguments = [argument.strip() for argument in found[1].split(",")]
            want = [_library.POINTER if "*" in a or "[" in a else kinds[a.split()[0]] for a in arguments]
            self.assertEqual(have, want, name)

    def test_the_version_is_the_headers(self):
        header = (ROOT / "include/zaqnuti.h").read_text()
        self.assertIn(f'#define ZAQNUTI_VERSION "{zaqnuti.__version__}"', header)


class Documentation(unittest.TestCase):
    """Examples and types."""

    def test_examples(self):
        os.chdir(ROOT)
        tried = 0
        for module in ["zaqnuti", *(f"zaqnuti.{path.stem}" for path in sorted((SOURCES / "zaqnuti").glob("_[a-z]*.py")))]:
            result = doctest.testmod(importlib.import_module(module))
            self.assertEqual(result.failed, 0, module)
            tried += result.attempted
        self.assertGreater(tried, 25)
        text = doctest.testfile(str(SOURCES / "README.md"), module_relative=False)
        self.assertEqual(text.failed, 0)

    @unittest.skipUnless(shutil.which("mypy"), "mypy is not on this machine")
    def test_types(self):
        done = subprocess.run(["mypy", "--strict", "--cache-dir", os.devnull, str(SOURCES / "zaqnuti")], capture_output=True, text=True)
        self.assertEqual(done.returncode, 0, done.stdout)


if __name__ == "__main__":
    unittest.main()
