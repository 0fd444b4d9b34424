#!/usr/bin/env python3
"""A disk's speed through one NBD connection, beside nbdkit's servers: `bench/disk/run.py [--csv] PROGRAM`, a built `raid_disk`.

Reads and writes of 4 and 64 KiB at random, with 1 and 16 requests under way, and writes of 4 KiB with a flush after each hundred
and with FUA; on `raid_disk serve`, `nbdkit memory` and `nbdkit file`, in turn, ROUNDS times (3). Prints the medians, and ours by
the others': above 1 ours is faster. Then the peak memory of `raid_disk serve` by the bytes of its drives. It needs gcc, nbdkit and
libnbd-dev of Debian, and takes about three minutes. --csv appends the rows to bench/disk.csv."""

import csv
import datetime
import os
import pathlib
import statistics
import subprocess
import sys
import tempfile

HERE = pathlib.Path(__file__).resolve().parent
ROUNDS = int(os.environ.get("ROUNDS", "3"))
SECONDS, MIB, SIZE = "1", "40", "96M"
JOBS = [(operation, size, depth, 0) for operation in "wr" for size in (4096, 65536) for depth in (1, 16)]
JOBS += [("w", 4096, 1, 100), ("w", 4096, 1, -1)]
NAMES = {0: "", 100: ", a flush after each hundred", -1: ", FUA"}


def measure(client, job, command):
    operation, size, depth, flush = job
    words = [client, operation, str(size), str(depth), SECONDS, MIB, str(flush), "--", *map(str, command)]
    done = subprocess.run(words, capture_output=True, text=True, timeout=300)
    if done.returncode:
        raise SystemExit(f"{command[0]}: {done.stderr}")
    return float(done.stdout)


def peak_memory(client, program, disk):
    """The most memory that the server took while a client wrote, in bytes."""
    words = ["/usr/bin/time", "-f", "%M", "-o", str(disk) + ".peak", program, "serve", disk]
    measure(client, ("w", 4096, 1, 0), words)
    return int(pathlib.Path(str(disk) + ".peak").read_text().split()[-1]) * 1024


def main():
    words = [word for word in sys.argv[1:] if word != "--csv"]
    if len(words) != 1:
        raise SystemExit(__doc__)
    program = pathlib.Path(words[0]).resolve()
    with tempfile.TemporaryDirectory() as folder:
        folder = pathlib.Path(folder)
        client, disk, flat = folder / "client", folder / "disk", folder / "flat"
        subprocess.run(["gcc", "-O2", "-o", client, HERE / "client.c", "-lnbd"], check=True)
        subprocess.run([program, "create", disk, "--size", SIZE], check=True)
        flat.write_bytes(b"")
        os.truncate(flat, 96 << 20)
        servers = {
            "raid_disk": [program, "serve", disk],
            "memory": ["nbdkit", "-s", "--exit-with-parent", "memory", SIZE],
            "file": ["nbdkit", "-s", "--exit-with-parent", "file", flat],
        }
        found = {job: {name: [] for name in servers} for job in JOBS}
        for _ in range(ROUNDS):
            for job in JOBS:
                for name, command in servers.items():
                    found[job][name].append(measure(client, job, command))
        rows = []
        print(f"{'requests a second':48}{'raid_disk':>10}{'memory':>10}{'file':>10}{'by memory':>11}{'by file':>9}")
        for job in JOBS:
            operation, size, depth, flush = job
            name = f"{'reads' if operation == 'r' else 'writes'} of {size // 1024} KiB, {depth} under way{NAMES[flush]}"
            ours, memory, file = (statistics.median(found[job][it]) for it in servers)
            print(f"{name:48}{ours:10.0f}{memory:10.0f}{file:10.0f}{ours / memory:11.2f}{ours / file:9.2f}")
            rows.append([name, f"{ours:.0f}", f"{memory:.0f}", f"{file:.0f}"])
        units = sum(path.stat().st_size for path in disk.glob("drive*"))
        if pathlib.Path("/usr/bin/time").exists():
            share = peak_memory(client, program, disk) / units
            print(f"peak memory by the bytes of the drives: {share:.2f}")
            rows.append(["peak memory by the bytes of the drives", f"{share:.2f}", "", ""])
    if "--csv" in sys.argv:
        commit = subprocess.run(["git", "-C", HERE, "rev-parse", "--short", "HEAD"], capture_output=True, text=True).stdout.strip()
        table = HERE.parent / "disk.csv"
        fresh = not table.exists()
        with table.open("a", newline="") as file:
            writer = csv.writer(file)
            if fresh:
                writer.writerow(["date", "commit", "work", "raid_disk", "nbdkit memory", "nbdkit file"])
            writer.writerows([datetime.date.today().isoformat(), commit, *row] for row in rows)


if __name__ == "__main__":
    main()
