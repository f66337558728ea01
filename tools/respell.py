#!/usr/bin/env python3
"""Respells the repository's own definitions and lemmas: words of the definitions and proofs are in snake case.

Run once at the top of the repository, after the kit's own script for older repositories. `respell.txt` beside this
file has a name and its new spelling on each line, so that the same names come out wherever it is run; a name that
would fall together with another one ends in `_lem`. Strings keep their text. In source files only names with a
capital or a dash are respelled, which no Rust name has, so that functions and variables keep theirs.
"""

import os
import re

NAME = re.compile(r"\"(?:[^\"\\\n]|\\.)*\"|(?:--|//)[^\n]*|[A-Za-z_][A-Za-z0-9_']*(?:-[A-Za-z0-9_'+]+)*")


def main():
    top = os.path.dirname(os.path.dirname(os.path.realpath(__file__)))
    with open(os.path.join(top, "tools", "respell.txt"), encoding="utf-8") as f:
        names = dict(line.split() for line in f)

    def spelled(name, source):
        if source and not re.search("[A-Z-]", name):
            return name
        return names.get(name, name)

    def turned(text, source):
        def turn(m):
            part = m.group(0)
            if part.startswith('"'):
                return part
            if part.startswith(("--", "//")):
                return re.sub(r"[A-Za-z_][A-Za-z0-9_']*[A-Z][A-Za-z0-9_']*", lambda w: names.get(w.group(0), w.group(0)), part)
            return spelled(part, source)

        return NAME.sub(turn, text)

    for folder, dirs, files in os.walk(os.path.join(top, "crates")):
        dirs[:] = sorted(d for d in dirs if d != "out")
        for name in sorted(files):
            if name.endswith((".rt", ".antt")):
                path = os.path.join(folder, name)
                with open(path, encoding="utf-8") as f:
                    was = f.read()
                now = turned(was, name.endswith(".rt"))
                if now != was:
                    with open(path, "w", encoding="utf-8") as f:
                        f.write(now)


main()
