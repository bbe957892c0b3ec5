"""The tables of what was measured, in Markdown, and their place in a page."""
import os

import plot

BEGIN, END = "<!-- bench/engines: begin -->", "<!-- bench/engines: end -->"


def seconds_of(it):
    """A time that a run took, where it ended with the right answer."""
    return max(it["processor"], 1e-3) if it and it["what"] == "done" else None


def cell(it, own, limit):
    """What stands for an engine: its seconds, or how often the program's they are, and its memory."""
    if it is None:
        return "–"
    if it["what"] != "done":
        return {"late": f"> {limit} s", "failed": "failed", "differs": "another answer"}[it["what"]]
    many = seconds_of(it) / own if own else 0
    time = f"×{many:,.0f}" if many >= 10 else f"×{many:.2g}" if own else f"{seconds_of(it):.2f} s"
    return f"{time}, {it['memory'] / 1024:.0f} MB"


def times(said):
    """A row a workload, a column an engine."""
    engines = said["engines"]
    rows = ["| workload | rows answered | " + " | ".join(engines) + " |", "|---|---:|" + "---:|" * len(engines)]
    for one in said["workloads"]:
        own = seconds_of(one["engines"].get("eddyql"))
        cells = [cell(one["engines"].get(name), None if name == "eddyql" else own, said["limit"]) for name in engines]
        rows.append(f"| {one['name']} | {one['answer']:,} | " + " | ".join(cells) + " |")
    return "\n".join(rows)


def policies(said):
    """Seconds over those of the best route script."""
    rows = ["| policy | best script | lottery | pressure | greedy | worst script |", "|---|---:|---:|---:|---:|---:|"]
    for one in said["workloads"]:
        it = one.get("policies")
        if it:
            best = max(it["best"], 0.01)
            rest = (f"×{it[name] / best:.2f}" for name in ("lottery", "pressure", "greedy", "worst"))
            rows.append(f"| {one['name']} | {it['best']:.2f} s | " + " | ".join(rest) + " |")
    return "\n".join(rows)


def table(said):
    parts = [
        "Processor seconds (user and system) and the peak of memory; a peer's seconds as a multiple of eddyql's, and plain where it "
        f"has none. Each is the median of {said['repeat']} runs, all engines in turn.",
        times(said),
        "\n".join(f"- **{one['name']}**: {one['asks']}." for one in said["workloads"]),
    ]
    if any(one.get("policies") for one in said["workloads"]):
        parts.append(policies(said))
    if said["growth"]:
        grows = ", ".join(f"{name} {power:.2f}" for name, power in said["growth"].items())
        parts.append(f"Over the equality joins the time grows with these powers of the rows a side: {grows}.")
    return "\n\n".join(parts) + "\n"


def put_into(page, said):
    """Puts the tables and the plot's picture between the marks of a page, which are added where they lack."""
    name = os.path.splitext(os.path.basename(page))[0].lower() + ".svg"
    shown = ("done", "late")
    groups = [(one["name"], [(engine, seconds_of(it)) for engine, it in one["engines"].items() if it["what"] in shown])
              for one in said["workloads"]]
    with open(os.path.join(os.path.dirname(page) or ".", name), "w", encoding="utf-8") as file:
        file.write(plot.plot(said["engines"], [it for it in groups if it[1]]))
    text = ""
    if os.path.exists(page):
        with open(page, encoding="utf-8") as file:
            text = file.read()
    if BEGIN not in text or END not in text:
        text += f"\n{BEGIN}\n{END}\n"
    before, after = text.split(BEGIN)[0], text.split(END, 1)[1]
    with open(page, "w", encoding="utf-8") as file:
        file.write(f"{before}{BEGIN}\n\n{table(said)}\n![Processor seconds of each engine]({name})\n\n{END}{after}")
