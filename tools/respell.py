#!/usr/bin/env python3
"""Brings the repository's own names in specs/, proofs/, clauses and must-fail edits to today's spelling.

Run once, at the top, after port.py: a definition, a lemma or a variable in camel case becomes snake case, and
a definition that is a type becomes upper camel case. Names of src/ have no camel case, so they stay.
"""
import re
import sys
from pathlib import Path

# these two are relations between two states
TYPES = {"givenAt": "GivenAt", "slotGiven": "SlotGiven"}

# what port.py left between two spellings: records, and a premise
MIXED = {"Side-good": "SideGood", "Blocked-at": "BlockedAt", "Room-for": "RoomFor", "Slot-ok": "slot-ok"}

NAME = re.compile(r"(?<![A-Za-z0-9_'·])[a-z][A-Za-z0-9_']*")
HUMP = re.compile(r"(?<=[a-z0-9_])([A-Z]+)(?=[a-z0-9_'-]|\b)")


def respell(match):
    word = match.group(0)
    if word in TYPES:
        return TYPES[word]
    return HUMP.sub(lambda hump: "_" + hump.group(1).lower(), word).replace("__", "_")


def main(top):
    for path in sorted(top.glob("crates/*/**/*")):
        if path.suffix not in (".antt", ".rt", ".edit") or "out" in path.relative_to(top).parts:
            continue
        text = path.read_text()
        turned = NAME.sub(respell, text)
        for name, spelling in MIXED.items():
            turned = re.sub(rf"(?<![A-Za-z0-9_'·.-]){name}(?![A-Za-z0-9_'-])", spelling, turned)
        if turned != text:
            path.write_text(turned)
            print(path.relative_to(top))


main(Path(sys.argv[1] if len(sys.argv) > 1 else "."))
