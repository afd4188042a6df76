#!/usr/bin/python3
"""The drives of a month on a cluster: one task a drive on Dask distributed (Debian's python3-distributed).

    cluster.py FOLDER --pulses-per-km 8000 >trips.csv
    zaqnuti rank --fuel fuel.csv trips.csv

Trip lines go to standard output as `zaqnuti trip --csv` writes them, in the order of the files' names; the totals of each
depot and drives that fail go to standard error. A drive that fails does not lose the others, and the exit status is then 1.
The drives of a worker that is killed are run again. The files are read by the workers, so each has to see FOLDER.
"""

import argparse
import re
import sys
from pathlib import Path


def drive(path, pulses_per_km):
    """Give a drive's totals, on a worker."""
    import zaqnuti

    return zaqnuti.trip(zaqnuti.Drive.from_csv(path), pulses_per_km=pulses_per_km)


def labels(path):
    """Read depot, van and day from a name such as halle-03-2026-11-03.csv."""
    found = re.fullmatch(r"(.+)-([^-]+)-(\d{4}-\d{2}-\d{2})", path.stem)
    return found.groups() if found else None


def run(client, files, pulses_per_km, out, told):
    """Run every drive, write the lines that could be had, and give how many drives failed."""
    import zaqnuti

    futures = {path: client.submit(drive, str(path.absolute()), pulses_per_km, pure=False) for path in files}
    depots, failed = {}, 0
    print(zaqnuti.COLUMNS, file=out)
    for path, future in futures.items():
        try:
            trip = future.result()
            line = trip.line(str(path), *labels(path))
        except Exception as why:
            failed += 1
            print(f"{path}: {why}", file=told)
            continue
        print(line, file=out)
        sums = depots.setdefault(labels(path)[0], [0, 0, 0, 0, 0])
        for i, more in enumerate((1, trip.carrier_mm, trip.distance_mm or 0, trip.pulses_counted, trip.pulses_all)):
            sums[i] += more
    for depot, (drives, carrier, distance, counted, everything) in sorted(depots.items()):
        coverage = f"coverage {counted / everything:.4f}" if everything else "no pulses"
        print(f"{depot}: {drives} drives, carrier {carrier} mm, distance {distance} mm, {coverage}", file=told)
    return failed


def main():
    """Read the options and run."""
    parser = argparse.ArgumentParser(description="Trip lines of a folder's drives (DEPOT-VAN-DAY.csv), one task a drive on Dask distributed.")
    parser.add_argument("folder", type=Path)
    parser.add_argument("--pulses-per-km", type=int, required=True)
    parser.add_argument("--scheduler", help="its address; without it a cluster on this machine")
    parser.add_argument("--workers", type=int, help="workers on this machine")
    args = parser.parse_args()
    files = [path for path in sorted(args.folder.glob("*.csv")) if labels(path)]
    if not files:
        parser.error(f"{args.folder}: has no file DEPOT-VAN-DAY.csv")
    from distributed import Client, LocalCluster

    if args.scheduler:
        with Client(args.scheduler) as client:
            failed = run(client, files, args.pulses_per_km, sys.stdout, sys.stderr)
    else:
        with LocalCluster(n_workers=args.workers, threads_per_worker=1, dashboard_address=None) as cluster, Client(cluster) as client:
            failed = run(client, files, args.pulses_per_km, sys.stdout, sys.stderr)
    if failed:
        print(f"{failed} of {len(files)} drives failed", file=sys.stderr)
    return 1 if failed else 0


if __name__ == "__main__":
    sys.exit(main())
