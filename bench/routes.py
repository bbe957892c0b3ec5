#!/usr/bin/env python3
"""Counts the routings of a run under the lottery, pressure, the greedy policy and each route script, on the benchmark's workloads where the order
of joins matters. A route script takes one order for all rows, and claims in turn; under the lottery and the greedy policy claims go by
a survey. So this tells how near a policy, which knows nothing beforehand, comes to the best order, or how far it goes below it.

    bench/routes.py [--program PROGRAM] [--scale SCALE] [WORKLOAD..]

A routing is a call of `Core::go`, which the kernel counts by a probe at its first instruction: it needs perf, nm and readelf,
and the right to set such a probe (root's, mostly). Status 1 where answers differ or nothing could be counted.
"""
import argparse
import os
import subprocess
import sys
import tempfile

TOP = os.path.dirname(os.path.dirname(os.path.realpath(__file__)))
sys.path.insert(0, f"{TOP}/bench/engines")
sys.dont_write_bytecode = True
import workloads  # noqa: E402 (behind the path that it stands in)

NAME = "eddyql_routes"


def told(*words):
    return subprocess.run(words, check=True, stdout=subprocess.PIPE, stderr=subprocess.PIPE, text=True).stdout


def place_of_go(program):
    """The place of the first instruction of `Core::go` in the program's file."""
    found = [line.split() for line in told("nm", "-C", program).splitlines() if "eddy_core::eddy::Core::go" in line]
    if len(found) != 1:
        raise ValueError("the program has no symbol of `Core::go`, or several")
    address = int(found[0][0], 16)
    for line in told("readelf", "-lW", program).splitlines():
        part = line.split()
        if part[:1] == ["LOAD"]:
            offset, start, size = (int(it, 16) for it in (part[1], part[2], part[4]))
            if start <= address < start + size:
                return address - start + offset
    raise ValueError("no part of the program holds `Core::go`")


def routings(program, words, files, folder):
    """The routings of one run, and its answer."""
    counted = f"{folder}/counted"
    run = ["perf", "stat", "-x,", "-e", f"probe_{NAME}:go", "-o", counted, program, *words, f"{folder}/script.sql"]
    answer = subprocess.run([*run, *(f"{name}={file}" for name, file in files.items())], check=True, stdout=subprocess.PIPE).stdout
    with open(counted, encoding="utf-8") as file:
        lines = [line.split(",") for line in file if f"probe_{NAME}:go" in line]
    return int(lines[0][0]), sorted(answer.splitlines())


def count(program, workload, folder):
    files = {it.name: f"{folder}/{it.name}.csv" for it in workload.tables}
    for table in workload.tables:
        workloads.write_table(table, files[table.name], 1)
    with open(f"{folder}/script.sql", "w", encoding="utf-8") as file:
        file.write(";\n".join(workload.statements) + ";\n")
    scripts = [routings(program, ["--policy", "script", "--route", it], files, folder) for it in workload.routes]
    lottery, pressure, greedy = (routings(program, ["--policy", it], files, folder) for it in ("lottery", "pressure", "greedy"))
    if any(it[1] != lottery[1] for it in [pressure, greedy, *scripts]):
        raise ValueError(f"{workload.name}: answers differ")
    best, worst = (choose(it[0] for it in scripts) for choose in (min, max))
    print(f"| {workload.name} | {best:,} | ×{lottery[0] / best:.2f} | ×{pressure[0] / best:.2f} | ×{greedy[0] / best:.2f} | ×{worst / best:.2f} |", flush=True)


def main():
    parser = argparse.ArgumentParser(description=__doc__, formatter_class=argparse.RawDescriptionHelpFormatter)
    parser.add_argument("--program", default=f"{TOP}/crates/eddyql/out/eddyql", help="the built program")
    parser.add_argument("--scale", type=float, default=1.0, help="a factor of all numbers of rows")
    parser.add_argument("only", nargs="*", metavar="WORKLOAD", help="the workloads whose names begin so")
    given = parser.parse_args()
    program = os.path.realpath(given.program)
    at = None
    try:
        # perf names a probe's group by the program's file
        with tempfile.TemporaryDirectory(prefix="bench-routes-") as folder:
            at = f"{folder}/{NAME}"
            told("cp", program, at)
            told("perf", "probe", "-q", "-x", at, "--add", f"go=0x{place_of_go(at):x}")
            print("| routings | best script | lottery | pressure | greedy | worst script |\n|---|---:|---:|---:|---:|---:|")
            for workload in workloads.all_workloads(given.scale):
                if workload.routes and (not given.only or any(workload.name.startswith(it) for it in given.only)):
                    count(at, workload, folder)
    except (OSError, ValueError, subprocess.CalledProcessError) as error:
        print(f"bench/routes.py: {getattr(error, 'stderr', None) or error}", file=sys.stderr)
        return 1
    finally:
        subprocess.run(["perf", "probe", "-q", "-d", f"probe_{NAME}:*"], stderr=subprocess.DEVNULL, check=False)
    return 0


if __name__ == "__main__":
    sys.exit(main())
