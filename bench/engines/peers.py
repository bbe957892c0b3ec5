"""The engines: where each is found, and the command by which it goes from the tables' files to the answer's file."""
import glob
import os
import pwd
import shutil
import subprocess
from dataclasses import dataclass

KINDS = {"int": "INTEGER", "text": "TEXT"}


@dataclass
class Run:
    words: list
    text: str = ""  # for standard input
    answers: list = None  # the files of the answers, where it isn't standard output
    user: int = 0


def columns_of(table):
    return ", ".join(f"{name} {KINDS[kind]}" for name, kind in map(str.split, table.columns))


class Eddyql:
    """The program itself, with more words where they are given."""

    def __init__(self, program, name="eddyql", words=()):
        self.program, self.name, self.more = program, name, list(words)

    def find(self):
        return bool(self.program) and os.access(self.program, os.X_OK)

    def run(self, workload, files, folder):
        script = f"{folder}/script.sql"
        with open(script, "w", encoding="utf-8") as file:
            file.write(";\n".join(workload.statements) + ";\n")
        return Run([self.program, *self.more, script, *(f"{name}={file}" for name, file in files.items())])


class Sqlite:
    """sqlite3 over tables in memory, with the index of a workload or without."""

    def __init__(self, with_index=False):
        self.with_index = with_index
        self.name = "sqlite3, index" if with_index else "sqlite3"

    def find(self):
        return bool(shutil.which("sqlite3"))

    def run(self, workload, files, folder):
        if self.with_index and not workload.index:
            return None
        says = [".mode csv"]
        for table in workload.tables:
            says += [f"CREATE TABLE {table.name}({columns_of(table)});", f".import --skip 1 {files[table.name]} {table.name}"]
        says += [f"{workload.index};"] * self.with_index
        says += [f"{it};" for it in workload.sqlite or workload.statements]
        return Run(["sqlite3", "-batch", ":memory:"], "\n".join(says) + "\n")


class Postgres:
    """PostgreSQL as one process without a server (its single-user mode), over unlogged tables. What it takes to make its folder
    isn't measured; statistics are, where a workload has them."""

    name = "PostgreSQL"

    def __init__(self):
        found = sorted(glob.glob("/usr/lib/postgresql/*/bin/postgres")) + [shutil.which("postgres")]
        self.program = next((it for it in reversed(found) if it), None)
        self.data, self.user = None, 0

    def find(self):
        return bool(self.program)

    def prepare(self, work):
        """Makes the folder of the database. PostgreSQL refuses to run as root, so it then runs as another user."""
        if os.geteuid() == 0:
            names = {it.pw_name: it.pw_uid for it in pwd.getpwall()}
            self.user = names.get("postgres", names.get("nobody", 0))
        self.data = f"{work}/postgres"
        os.makedirs(self.data)
        os.chmod(work, 0o755)
        if self.user:
            os.chown(self.data, self.user, self.user)
        made = [f"{os.path.dirname(self.program)}/initdb", "-D", f"{self.data}/base", "--locale=C", "-E", "UTF8", "-U", "bench", "-N"]
        subprocess.run(made, check=True, stdout=subprocess.DEVNULL, stderr=subprocess.DEVNULL, user=self.user or None, group=self.user or None,
                       extra_groups=[] if self.user else None, cwd="/")

    def run(self, workload, files, _folder):
        answers = [f"{self.data}/answer-{i}.csv" for i in range(len(workload.statements))]
        says = []
        for table in workload.tables:
            says += [f"DROP TABLE IF EXISTS {table.name}", f"CREATE UNLOGGED TABLE {table.name}({columns_of(table)})",
                     f"COPY {table.name} FROM '{files[table.name]}' WITH (FORMAT csv, HEADER)"]
            says += [f"ANALYZE {table.name}"] * workload.has_statistics
        says += [f"COPY ({it}) TO '{file}' WITH (FORMAT csv)" for it, file in zip(workload.statements, answers)]
        says += [f"DROP TABLE {it.name}" for it in workload.tables]
        settings = ["fsync=off", "synchronous_commit=off", "work_mem=256MB", "shared_buffers=256MB", "autovacuum=off", "max_wal_size=8GB"]
        words = [self.program, "--single", "-D", f"{self.data}/base", *(it for one in settings for it in ("-c", one)), "template1"]
        return Run(words, "\n".join(says) + "\n", answers, self.user)


class Miller:
    name = "Miller"

    def find(self):
        return bool(shutil.which("mlr"))

    def run(self, workload, files, _folder):
        return Run(["mlr", *workload.miller(files)]) if workload.miller else None


class Awk:
    name = "awk"

    def find(self):
        return bool(shutil.which("awk"))

    def run(self, workload, files, _folder):
        return Run(["awk", *workload.awk(files)]) if workload.awk else None


def peers():
    return [Sqlite(), Sqlite(with_index=True), Postgres(), Miller(), Awk()]
