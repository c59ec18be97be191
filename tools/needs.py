"""What a tool needs of the machine. Each call ends the tool with one line and status 2 where that is lacking."""

import importlib.util
import os
import shutil
import sys


def stop(why):
    print(f"{os.path.basename(sys.modules['__main__'].__file__)}: {why}", file=sys.stderr)
    sys.exit(2)


def toolchain():
    """The path of `rt`."""
    return shutil.which("rt") or stop("there is no rt here: it needs the toolchain's command rt")


def programs(*names):
    lacking = [it for it in names if shutil.which(it) is None]
    if lacking:
        stop(f"it needs {' and '.join(lacking)}, which {'is' if len(lacking) == 1 else 'are'} not installed")


def dnspython():
    if importlib.util.find_spec("dns") is None:
        stop("it needs dnspython: apt-get update && apt-get install -y python3-dnspython, and /usr/bin/python3")


def file(path, how):
    """A file that another command makes."""
    if not os.path.isfile(path):
        stop(f"there is no {os.path.relpath(path)}: {how}")
