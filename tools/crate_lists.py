"""The crates of crates.txt, and which stand below which."""

import os
import re

TOP = os.path.dirname(os.path.dirname(os.path.abspath(__file__)))


def below():
    """The crates that crates.txt lists, each with those on its line."""
    with open(f"{TOP}/crates.txt", encoding="utf-8") as it:
        rows = [re.sub("#.*", "", line).partition(":") for line in it]
    return {row[0].split()[0]: row[2].split() for row in rows if row[0].strip()}


def needed(names, lists):
    """All crates below these."""
    found, left = set(), list(names)
    while left:
        more = {it for it in lists[left.pop()] if it in lists} - found
        found |= more
        left += more
    return found
