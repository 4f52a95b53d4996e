#!/usr/bin/env python3
"""Brings the names of this repository's definitions and lemmas to the spelling of today's Rattle: words in snake case, types and modules in camel
case. Run once, at the top, after the toolchain's own script; docs/PORT.md names the commit.

Renamed is what specs/ and proofs/ declare: `crcStep` and `shift-lt` are `crc_step` and `shift_lt` from here on. Functions of src/, exported names,
strings, inputs and outputs keep their names, and so do the goals that a check makes (`loop-preserved`), which are no names of ours.
"""

import os
import re

# Two names of ours that would fall together, and the one that gives way.
APART = {
    "ask-fault": "ask_fault_lem",
    "by-counts": "by_counts_lem",
    "by-kind": "by_kind_lem",
    "by-setting": "by_setting_lem",
    "by-sort": "by_sort_lem",
    "bytes-at": "bytes_at_lem",
    "goes-out": "goes_out_lem",
    "held-phase": "held_phase_lem",
    "in-range": "in_range_lem",
    "is-first": "is_first_lem",
    "is-in": "is_in_lem",
    "is-setting": "is_setting_lem",
    "of-found": "of_found_lem",
    "of-kind": "of_kind_lem",
    "parsed-set": "parsed_set_lem",
    "payload-of": "payload_of_lem",
    "real-time": "real_time_lem",
}
# The same where the toolchain's script had turned one of them already: (crate, name, name from here on).
APART_IN = [
    ("frames_written_pace", "head_bytes", "head_bytes_lem"),
    ("restore_order", "in_order", "in_order_lem"),
    ("restore_pathfinder", "in_order", "in_order_lem"),
    ("restore_order", "in_pair", "in_pair_lem"),
    ("restore_order", "left_in", "left_in_lem"),
    ("lists_pathfinder", "row_read", "row_read_lem"),
    ("restore_bytes", "row_read", "row_read_lem"),
]

DECLARED = re.compile(r"^ *(?:(?:abbrev|unfoldable|pub|data|record|let) +)*([A-Za-z][\w'-]*)(?: +[({][^:=\n]*:[^=\n]*)? *:(?!=)", re.M)
EDGE = r"[\w'→←≤<≡∷₀-₉-]"


def snake(name):
    if name in APART:
        return APART[name]
    parts = name.split("-")
    if len(parts) == 1 and name[0].isupper():
        return name
    return "_".join(re.sub(r"(?<=[a-z0-9])[A-Z]", lambda m: "_" + m.group().lower(), p) for p in parts)


def files(ending, *folders):
    for crate in sorted(os.listdir("crates")):
        for folder in folders:
            for at, inner, names in os.walk(os.path.join("crates", crate, folder)):
                inner[:] = sorted(d for d in inner if d != "out")
                for name in sorted(names):
                    if name.endswith(ending):
                        yield crate, os.path.join(at, name)


def read(path):
    with open(path, encoding="utf-8") as f:
        return f.read()


def write(path, text):
    with open(path, "w", encoding="utf-8") as f:
        f.write(text)


def replace(text, names):
    if not names:
        return text
    words = "|".join(re.escape(n) for n in sorted(names, key=len, reverse=True))
    return re.sub(rf"(?<!{EDGE})(?:{words})(?!{EDGE})", lambda m: names[m.group()], text)


def main():
    declared = set()
    for _, path in files(".antt", "specs", "proofs"):
        if not path.endswith("/Proof.antt"):
            declared |= set(DECLARED.findall(read(path)))
    names = {n: snake(n) for n in declared if snake(n) != n}
    seen = {}
    for old, new in sorted(names.items()):
        other = seen.setdefault(new, old)
        if other != old or new in declared and new not in {old for _, old, _ in APART_IN}:
            raise SystemExit(f"{old} and {new if new in declared else other} would fall together as {new}")
    paths = [*files(".antt", "specs", "proofs"), *files(".rt", "src"), *files(".edit", "must-fail")]
    for crate, path in paths:
        text = read(path)
        new = text
        for where, old, to in APART_IN:
            if crate == where and path.endswith(".antt"):
                new = replace(new, {old: to})
        new = replace(new, names)
        if new != text:
            write(path, new)
    print(f"{len(names)} names, {len(paths)} files looked at")


main()
