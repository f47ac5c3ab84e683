"""What the benches that compare stores share: the stores with their drivers, the program, and numbers that are drawn."""

import dataclasses
import json
import os
import pathlib
import shutil
import subprocess
import sys

ROOT = pathlib.Path(__file__).resolve().parent.parent
DRIVERS = ROOT / "bench" / "compare.d"
PROGRAM = ROOT / "crates" / "pagemem" / "out" / "pagemem"

# The drivers, each with its source, its package and its library. A plain map is what the others are measured by.
PLAIN, OURS = "plain map", "pagemem"
# What the launcher sets for the program.
LAUNCHED = {"GLIBC_TUNABLES": "glibc.malloc.hugetlb=1"}
# The larger settings of the program: frames for a quarter of a GiB of pages, and a GiB of log between two checkpoints.
LARGER = {"frames": 65_536, "checkpoint_bytes": 2**30}
STORES = [
    (PLAIN, "plain_map.cc", None, None),
    ("RocksDB", "rocksdb.cc", "librocksdb-dev", "rocksdb"),
    ("LevelDB", "leveldb.cc", "libleveldb-dev", "leveldb"),
    ("LMDB", "lmdb.cc", "liblmdb-dev", "lmdb"),
    ("SQLite", "sqlite.cc", "libsqlite3-dev", "sqlite3"),
]


@dataclasses.dataclass
class Store:
    """A store, its version, and the program that runs a script over a folder, with this configuration there and these variables."""

    name: str
    version: str
    command: list
    config: dict | None = None
    variables: dict = dataclasses.field(default_factory=dict)

    def start(self, folder, before=(), **how):
        """A process that runs the script on its standard input over a folder."""
        return subprocess.Popen([*before, *self.command, folder], env={**os.environ, **self.variables}, **how)

    def make(self, folder):
        """An empty folder for the store in the place of what was there, with its configuration."""
        fresh(folder)
        if self.config is not None:
            (folder / "config.json").write_text(json.dumps(self.config))
        return folder


class Draws:
    """Numbers below 2^30 from a linear generator, the same in each run."""

    def __init__(self, seed):
        self.state = seed

    def half(self):
        self.state = (self.state * 1103515245 + 12345) % 2**31
        return self.state >> 16

    def below(self, limit):
        return ((self.half() << 15) + self.half()) % limit


def fresh(folder):
    """An empty folder in the place of what was there."""
    shutil.rmtree(folder, ignore_errors=True)
    folder.mkdir()
    return folder


def printed(*command):
    """What a command prints, or nothing where it isn't there or fails."""
    try:
        done = subprocess.run(command, cwd=ROOT, capture_output=True, text=True)
    except FileNotFoundError:
        return ""
    return done.stdout.strip() if done.returncode == 0 else ""


def build_driver(folder, name, source, package, library):
    """A store by its driver, or nothing where its package isn't installed."""
    version = ""
    if package is not None:
        status = "${db:Status-Status} ${Version}"
        state, _, version = printed("dpkg-query", "-W", "-f", status, package).partition(" ")
        if state != "installed":
            return None
    program = folder / source.removesuffix(".cc")
    libraries = [] if library is None else [f"-l{library}"]
    command = ["g++", "-std=c++17", "-O2", "-Wall", "-Wextra", "-o", program]
    subprocess.run([*command, DRIVERS / source, *libraries], check=True)
    return Store(name, version, [program])


def build_program(folder):
    """The program, which its launcher builds where it is older than its sources."""
    first = [ROOT / "pagemem", "run", fresh(folder / "first")]
    built = subprocess.run(first, stdin=subprocess.DEVNULL)
    if built.returncode != 0:
        sys.exit(f"the program ended with {built.returncode} at an empty script")
    return Store(OURS, printed("git", "describe", "--always", "--dirty"), [PROGRAM, "run"], variables=LAUNCHED)


def gather(folder, with_program, names=None):
    """The stores that are there, of these names or of all, the plain map first, and the names of those that aren't."""
    stores, missing = [], []
    for driver in STORES:
        if names is not None and driver[0] not in names:
            continue
        store = build_driver(folder, *driver)
        if store is None:
            missing.append(f"{driver[0]} (no package {driver[2]})")
        else:
            stores.append(store)
    if with_program:
        stores.insert(1, build_program(folder))
    else:
        missing.append(f"{OURS} (as asked)")
    return stores, missing


def row(cells):
    print("| " + " | ".join(cells) + " |")
