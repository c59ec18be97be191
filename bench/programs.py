"""Programs that are measured and stand in no crate: bench/NAME has their files, each ending in .txt, since the gate takes no .rt or .antt file
outside a crate."""

import os
import shutil
import subprocess
import sys

TOP = os.path.dirname(os.path.dirname(os.path.abspath(__file__)))
sys.path.append(f"{TOP}/tools")

import needs  # noqa: E402


def copied(name, libraries, room):
    """The folder of the crate bench_NAME in a copy of the repository, which stands on these libraries."""
    shutil.copytree(f"{TOP}/crates", f"{room}/crates", ignore=shutil.ignore_patterns("incremental", "must-fail"))
    for it in ["HANDLES", "crates.txt"]:
        shutil.copy(f"{TOP}/{it}", room)
    with open(f"{room}/crates.txt", "a") as it:
        it.write(f"bench_{name}: {libraries}\n")
    crate = f"{room}/crates/bench_{name}"
    shutil.copytree(f"{TOP}/bench/{name}", crate, ignore=shutil.ignore_patterns("must-fail"))
    for folder, _, files in os.walk(crate):
        for it in files:
            if it.endswith(".txt"):
                os.rename(f"{folder}/{it}", f"{folder}/{it.removesuffix('.txt')}")
    return crate


def build(name, libraries, room):
    """The program of bench/NAME, proved and built in a copy of the repository."""
    needs.toolchain()
    crate = copied(name, libraries, room)
    done = subprocess.run(["rt", "run"], cwd=crate, capture_output=True, text=True)
    if done.returncode != 0:
        sys.exit(f"rt run: status {done.returncode}\n{done.stdout}{done.stderr}")
    return f"{crate}/out/bench_{name}"
