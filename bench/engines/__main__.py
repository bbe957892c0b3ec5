"""Measures engines beside each other, from CSV files to CSV answers: `python3 bench/engines --help`."""
import argparse
import json
import math
import os
import shlex
import statistics
import subprocess
import sys
import tempfile

sys.dont_write_bytecode = True
HERE = os.path.dirname(os.path.abspath(__file__))
TOP = os.path.dirname(os.path.dirname(HERE))
sys.path.insert(0, HERE)

import peers  # noqa: E402
import report  # noqa: E402
import workloads  # noqa: E402


def say(what):
    print(what, file=sys.stderr, flush=True)


def measured(run, folder, limit):
    """Runs a command once. Gives what measure.py says, with the files of the answers."""
    given, out, errors = (f"{folder}/{it}" for it in ("input", "output", "errors"))
    with open(given, "w", encoding="utf-8") as file:
        file.write(run.text)
    words = [sys.executable, "-S", "-E", f"{HERE}/measure.py", str(limit), given, out, errors]
    words += ["--as", str(run.user)] if run.user else []
    ran = subprocess.run([*words, "--", *run.words], capture_output=True, text=True, check=False, cwd="/")
    if ran.returncode:
        raise SystemExit(f"bench/engines: measure.py failed: {ran.stderr.strip()}")
    said = json.loads(ran.stdout)
    with open(errors, encoding="utf-8", errors="replace") as file:
        said["said"] = file.read(4000).strip()
    return said, run.answers or [out]


def rows_of(files, heading):
    """The rows of answers, without headings and empty lines."""
    for path in files:
        with open(path, "rb") as file:
            for line in file:
                line = line.rstrip(b"\r\n")
                if b'"' in line:
                    # SQLite quotes a field with a blank, too. No field has a comma.
                    line = line.replace(b'"', b"")
                if line and line.lower() != heading:
                    yield line


def digest(files, workload):
    """How many rows there are, and a sum over them: two bags of rows, or lists where they are ordered, are one where these are."""
    count, total = 0, 0
    for line in rows_of(files, workload.heading().lower().encode()):
        count += 1
        total = hash((total, line)) if workload.is_ordered else (total + hash(line)) % 2**64
    return count, total


def outcome(said, files, workload):
    """What became of a run: a word, and the digest of its answer."""
    if said["late"]:
        return "late", None
    if said["status"]:
        return "failed", None
    return "done", digest(files, workload)


def judge(results, digests):
    """The answer that most engines give is taken as right; of equal ones the peers' goes first. The others differ."""
    known = [digests[name] for name in results if digests.get(name)]
    if not known:
        return 0
    right = max(known, key=known.count)
    for name, one in digests.items():
        if one and one != right:
            results[name]["what"] = "differs"
    return right[0]


def run_engines(engines, workload, files, folder, given):
    """All engines on one workload, one after another, as often as was asked. Gives a dict by engine, and how many rows came."""
    results, digests, runs = {}, {}, {}
    for turn in range(given.repeat):
        for engine in engines:
            run = engine.run(workload, files, folder)
            if run is None or results.get(engine.name, {}).get("what", "done") != "done":
                continue
            said, answers = measured(run, folder, given.limit)
            what, digests[engine.name] = outcome(said, answers, workload)
            runs.setdefault(engine.name, []).append(said)
            took = runs[engine.name]
            results[engine.name] = {"what": what, "processor": statistics.median(it["processor"] for it in took),
                                    "memory": max(it["memory"] for it in took), "clock": statistics.median(it["clock"] for it in took)}
            note = f" (status {said['status']}: {said['said'][:200]})" if what == "failed" else ""
            say(f"  {workload.name}, {engine.name}: {what}, {said['processor']:.2f} s, {said['memory'] // 1024} MB{note}")
    order = sorted(results, key=lambda name: name.startswith("eddyql"))
    return results, judge({name: results[name] for name in order}, digests)


def seconds_under(words, workload, files, folder, given):
    """The program's processor seconds with these words, or None where it isn't done."""
    engine = peers.Eddyql(given.program, words=words)
    said, _ = measured(engine.run(workload, files, folder), folder, given.limit)
    return None if said["status"] or said["late"] else said["processor"]


def time_policies(workload, files, folder, given):
    """Seconds under the lottery, pressure, the greedy policy, and each route script of a workload that has some."""
    if not (given.policies and workload.routes and os.access(given.program, os.X_OK)):
        return {}
    scripts = [seconds_under(["--policy", "script", "--route", route], workload, files, folder, given) for route in workload.routes]
    scripts = [it if it is not None else float(given.limit) for it in scripts]
    names = ("lottery", "pressure", "greedy")
    took = {it: seconds_under(["--policy", it], workload, files, folder, given) for it in names}
    if None in took.values():
        return {}
    policies = ", ".join(f"{it} {took[it]:.2f} s" for it in names)
    say(f"  {workload.name}: {policies}, {len(scripts)} route scripts {min(scripts):.2f} to {max(scripts):.2f} s")
    return {**took, "best": min(scripts), "worst": max(scripts)}


def exponent(points):
    """The slope of the logarithm of seconds over that of rows."""
    xs, ys = ([math.log(it) for it in column] for column in zip(*points))
    x, y = statistics.fmean(xs), statistics.fmean(ys)
    return sum((a - x) * (b - y) for a, b in zip(xs, ys)) / sum((a - x) ** 2 for a in xs)


def growth(measured_all):
    """For each engine that did at least three of the equality joins, the exponent by which its time grows."""
    points = {}
    for one in measured_all:
        for name, it in one["engines"].items():
            if one["group"] == "equality" and it["what"] == "done":
                points.setdefault(name, []).append((one["rows"], max(it["processor"], 1e-3)))
    return {name: exponent(it) for name, it in points.items() if len({rows for rows, _ in it}) >= 3}


def measure_all(given):
    engines = [peers.Eddyql(given.program)] if os.access(given.program, os.X_OK) else []
    if not engines:
        say(f"bench/engines: {given.program} isn't there; tools/prove builds it")
    for more in given.also:
        name, _, words = more.partition("=")
        engines += [peers.Eddyql(given.program, f"eddyql {name}", shlex.split(words))] if engines else []
    for other in given.beside:
        name, _, program = other.partition("=")
        engines += [peers.Eddyql(program, f"eddyql {name}")] if os.access(program, os.X_OK) else []
    engines += [it for it in peers.peers() if it.find() and not any(it.name.lower().startswith(no.lower()) for no in given.without)]
    say("bench/engines: " + ", ".join(it.name for it in engines))
    done = []
    with tempfile.TemporaryDirectory(prefix="bench-engines-", dir=given.folder) as work:
        for engine in engines:
            if hasattr(engine, "prepare"):
                engine.prepare(work)
        for workload in workloads.all_workloads(given.scale):
            if given.only and not any(workload.name == it[1:] if it.startswith("=") else workload.name.startswith(it) for it in given.only):
                continue
            files = {it.name: f"{work}/{it.name}.csv" for it in workload.tables}
            for table in workload.tables:
                workloads.write_table(table, files[table.name], given.seed)
            results, rows = run_engines(engines, workload, files, work, given)
            done.append({"name": workload.name, "asks": workload.asks, "group": workload.group, "rows": workload.tables[0].rows,
                         "answer": rows, "statistics": workload.has_statistics, "engines": results})
            done[-1]["policies"] = time_policies(workload, files, work, given)
            for file in files.values():
                os.remove(file)
    return {"engines": [it.name for it in engines], "workloads": done, "growth": growth(done), "repeat": given.repeat, "limit": given.limit, "scale": given.scale}


def words():
    parser = argparse.ArgumentParser(
        prog="bench/engines", description="Measures eddyql beside sqlite3, PostgreSQL, Miller and awk, from CSV files to CSV answers, on one "
        "processor each: processor seconds and the peak of memory. Peers that aren't there are passed over; answers are compared. "
        "Status 1 where an answer differs.")
    parser.add_argument("--program", default=f"{TOP}/crates/eddyql/out/eddyql", help="the built program (default: where tools/prove leaves it)")
    parser.add_argument("--also", action="append", default=[], metavar="NAME=WORDS",
                        help="measures it with more words, too: 'lottery=--policy lottery'")
    parser.add_argument("--beside", action="append", default=[], metavar="NAME=PROGRAM",
                        help="measures another built program, too, such as an earlier one: 'before=/path/to/eddyql'")
    parser.add_argument("--scale", type=float, default=1.0, help="a factor of all numbers of rows")
    parser.add_argument("--only", nargs="+", default=[], metavar="WORKLOAD", help="the workloads whose names begin so; '=NAME' is a whole name")
    parser.add_argument("--without", nargs="+", default=[], metavar="ENGINE", help="peers to pass over")
    parser.add_argument("--seed", type=int, default=1, help="of the tables")
    parser.add_argument("--repeat", type=int, default=3, help="runs of each, of which the median counts")
    parser.add_argument("--limit", type=int, default=120, help="processor seconds after which a run is given up")
    parser.add_argument("--policies", action="store_true",
                        help="measures the lottery, pressure, the greedy policy and each route script, too, where the order of joins matters")
    parser.add_argument("--folder", default=None, help="where the tables are made (some 400 MB; default: the system's)")
    parser.add_argument("--raw", metavar="FILE", help="keeps what was measured")
    parser.add_argument("--again", metavar="FILE", help="measures nothing, and writes the table and the plot of what --raw kept")
    parser.add_argument("--into", metavar="FILE", help="puts the table between this page's two marks, and the plot beside it")
    return parser.parse_args()


def main():
    given = words()
    if given.again:
        with open(given.again, encoding="utf-8") as file:
            said = json.load(file)
    else:
        said = measure_all(given)
    if given.raw:
        with open(given.raw, "w", encoding="utf-8") as file:
            json.dump(said, file, indent=1)
    if given.into:
        report.put_into(given.into, said)
    print(report.table(said))
    return int(any(it["what"] == "differs" for one in said["workloads"] for it in one["engines"].values()))


if __name__ == "__main__":
    sys.exit(main())
