#!/usr/bin/env python3
"""Brings the repository's own definitions and lemmas to snake case, once, after port.py: tools/port_names.txt has the old and the new
name of each. Run at the top of the repository. Names of Rust code, strings, comments' other words, inputs and outputs stay."""
import os
import re

HERE = os.path.dirname(os.path.abspath(__file__))
# lemmas that would fall together with a definition of their file, and are in snake case already
ONLY_IN = {
    "crates/base/proofs/HexLaws.antt": {"digit_value": "digit_value_lem"},
    "crates/reader/proofs/RoomLaws.antt": {"bytes_read": "bytes_read_lem"},
    "crates/program/proofs/PrintsLaws.antt": {"bytes_read": "bytes_read_lem"},
    "crates/text/proofs/TextBack.antt": {"goes_on": "goes_on_lem"},
    "crates/reader/proofs/SymbolLaws.antt": {"is_address": "is_address_lem"},
    "crates/reader/proofs/said/Proof.antt": {"is_address": "is_address_lem"},
    "crates/guarantees/proofs/Carried.antt": {"word_count": "word_count_lem"},
}
TOKEN = re.compile(r"[^\W\d][\w'-]*[\w']|[^\W\d]")


def turned(text, names):
    return TOKEN.sub(lambda m: names.get(m.group(0), m.group(0)), text)


def main():
    names = dict(line.split() for line in open(os.path.join(HERE, "port_names.txt"), encoding="utf-8") if line.strip())
    camel = {old: new for old, new in names.items() if "-" not in old}
    for folder, folders, files in os.walk("crates"):
        folders[:] = sorted(f for f in folders if f != "out")
        for name in sorted(files):
            path = os.path.join(folder, name)
            if name.endswith(".antt"):
                here = {**names, **ONLY_IN.get(path, {})}
            elif name.endswith((".rt", ".edit")):
                here = camel
            else:
                continue
            with open(path, encoding="utf-8") as f:
                old = f.read()
            new = turned(old, here)
            if new != old:
                with open(path, "w", encoding="utf-8") as f:
                    f.write(new)


main()
