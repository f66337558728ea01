#!/usr/bin/env python3
"""Lists, in the sources below crates/*/src, the places that the page docs/DESIGN-PASS.md counts, a line each.

usage, at the top of the repository: python3 tools/places.py [FOLDER]    (FOLDER: another checkout; here by default)

It goes by text, so a line is a place to look at, and the page says what became of each.
"""

import glob
import os
import re
import sys
from collections import defaultdict
from difflib import SequenceMatcher


def strip(text):
    """The text with comments and the insides of strings blanked, line for line."""
    text = re.sub(r"//[^\n]*", "", text)
    return re.sub(r'"(?:[^"\\\n]|\\.)*"', '""', text)


def body_at(text, start):
    """The braces that open at or after start, with their end."""
    depth, i = 0, text.index("{", start)
    begin = i
    while i < len(text):
        if text[i] == "{":
            depth += 1
        elif text[i] == "}":
            depth -= 1
            if depth == 0:
                return begin, i + 1
        i += 1
    return begin, len(text)


class Source:
    def __init__(self, root, path):
        self.path = os.path.relpath(path, root).replace("crates/", "", 1)
        with open(path, encoding="utf-8") as file:
            self.text = strip(file.read())
        self.lines = self.text.split("\n")

    def line(self, at):
        return self.text.count("\n", 0, at) + 1

    def found(self, pattern):
        return [(self.line(m.start()), self.lines[self.line(m.start()) - 1].strip()) for m in re.finditer(pattern, self.text, re.M)]


def functions(source):
    """Each function with its name, its parameters, its clauses and its body."""
    for m in re.finditer(r"^ *(?:pub(?:\(crate\))? )?fn (\w+)(?:<[^>(]*>)?\(", source.text, re.M):
        depth, i = 1, m.end()
        while depth:
            depth += {"(": 1, ")": -1}.get(source.text[i], 0)
            i += 1
        params = [p.strip() for p in re.split(r",\s*(?![^<(\[]*[>)\]])", source.text[m.end() : i - 1]) if p.strip()]
        head = re.split(r" \{\n|\n *\{\n|;\n|\}\n\n", source.text[i:], maxsplit=1)[0] + "}"
        clauses = re.findall(r"^ *(?:requires|ensures)(?: \w+)? \{(.*(?:\n {12,}.*)*?)\}+$", head, re.M)
        yield m.group(1), source.line(m.start()), params, [re.sub(r"\s+", " ", c).strip() for c in clauses]


def bodies(source):
    """Each function with the text of its body."""
    for m in re.finditer(r"^ *(?:pub(?:\(crate\))? )?fn (\w+)[^;{]*?(?=\n *(?:requires|ensures)|\{)", source.text, re.M):
        start = re.compile(r"(?: |\n) *\{\n").search(source.text, m.start())
        if start:
            begin, end = body_at(source.text, start.start())
            yield m.group(1), source.line(m.start()), source.text[begin:end]


def shape(body):
    """The tokens of a body, with one name for every name and one number for every number."""
    words = {"let", "mut", "if", "else", "match", "for", "in", "while", "loop", "return", "self", "Ok", "Err", "Some", "None"}
    tokens = re.findall(r"\w+|[^\w\s]", body)
    return [t if t in words or not re.match(r"\w", t) else "0" if t[0].isdigit() else "name" for t in tokens]


# Forms that one line shows, with the point that each belongs to.
LINES = [
    ("1 refusals without a Result", r"-> Option<Fault>|-> \(u32, usize\)"),
    ("1 results passed on by a match", r"Err\(\w+\) => (?:return )?(?:Err|Answer::Refused)\(|None => (?:return )?Err\(|=> unreachable|None => return None|^ *return Err\(AllocError|is_err\(\)"),
    ("3 loops by an index", r"^ *while |\.enumerate\(\)| \+= 1;|\.wrapping_mul\(2\)| \+= \w+\.len\(\);"),
    ("6 arrays that are filled in part", r"\[(?:u8|u32|u64|T); \w+\]|let mut \w+ = \[\w+; \w+\];"),
    ("6 searches by hand, as chains of tests", r"^ *if is_word\(|^ *if \w+\.accept\("),
    ("7 arms that choose a step", r"^ *(?:(?:Call|Edit|Ending|Record|Kind)::\w+|[A-Z]+)(?:\([^)]*\)| \{[^}]*\})? => \W*(?:Ok\()?(?:self\.|draft\.|\w+\()"),
]


def main():
    root = sys.argv[1] if len(sys.argv) > 1 else "."
    sources = [Source(root, p) for p in sorted(glob.glob(os.path.join(root, "crates/*/src/*.rt")))]
    found = defaultdict(list)

    def add(point, source, line, text):
        found[point].append("%s:%d: %s" % (source.path, line, text))

    for s in sources:
        for point, pattern in LINES:
            for line, text in s.found(pattern):
                add(point, s, line, text)
        for m in re.finditer(r"^(?:pub(?:\(crate\))? )?enum (\w+)[^{]*", s.text, re.M):
            begin, end = body_at(s.text, m.start())
            cases = re.findall(r"^    \w+[^,\n]*", s.text[begin:end], re.M)
            if len(cases) == 2 and any("(" in c or "{" in c for c in cases):
                add("1 enums of two cases, one with a value", s, s.line(m.start()), m.group(0).strip())
        for m in re.finditer(r"^(?:pub(?:\(crate\))? )?struct \w+[^{;]*\{", s.text, re.M):
            begin, end = body_at(s.text, m.start())
            for flag in re.finditer(r"^    (?:pub(?:\(crate\))? )?\w+: bool,$", s.text[begin:end], re.M):
                add("1 flags in structs", s, s.line(begin + flag.start()), flag.group(0).strip())
        for m in re.finditer(r"(?:^(?:pub(?:\(crate\))? )?const \w+: \w+ = \d+;\n\n?){3,}", s.text, re.M):
            add("1 numbers for kinds, as runs of constants", s, s.line(m.start()), m.group(0).split("\n")[0] + " ..")
        for name, line, body in bodies(s):
            if re.search(r"^ *(?:\w+::\w+(?:\([^)]*\)| \{[^}]*\})?)(?: \| .*)? => \d[^,\n]*,$", body, re.M):
                add("1 functions that number the cases of an enum by a match", s, line, name)
        for m in re.finditer(r"^ *for (\w+) in [^\n]*\.\.[^\n]*\{$", s.text, re.M):
            begin, end = body_at(s.text, m.start())
            if re.search(r"\[[^\]]*\b%s\b" % m.group(1), s.text[begin:end]):
                add("3 loops by an index", s, s.line(m.start()), m.group(0).strip())
        for name, line, _, _ in functions(s):
            if re.fullmatch(r"push_\w+|tell|show|name_of|is|place|pin|from_pin|pin_of|placement_of|placed|keyword_of|part_word_of|number_of|is_word|with_digit|told", name):
                add("4 equality, conversion and printing by functions", s, line, name)

    twins = []
    together = defaultdict(list)
    clauses = defaultdict(list)
    for s in sources:
        for name, line, params, said in functions(s):
            plain = [p for p in params if ":" in p and not re.search(r": (?:&mut )?(?:Global|HostRuntime|&HostRuntime|&mut String|String)$", p)]
            kinds = [p.replace("mut ", "", 1) if p.startswith("mut ") else p for p in plain]
            for i, a in enumerate(kinds):
                for b in kinds[i + 1 :]:
                    together[(a, b)].append("%s:%d %s" % (s.path, line, name))
            for c in said:
                clauses[c[:30]].append("%s:%d %s" % (s.path, line, name))
        for name, line, body in bodies(s):
            twins.append(("%s:%d %s" % (s.path, line, name), shape(body)))
    for i, (a, one) in enumerate(twins):
        for b, other in twins[i + 1 :]:
            if min(len(one), len(other)) >= 10 and SequenceMatcher(None, one, other, autojunk=False).ratio() >= 0.9:
                found["2 pairs of functions of one shape"].append("%s ~ %s" % (a, b))
    for (a, b), places in sorted(together.items()):
        if len(places) >= 3:
            found["5 parameters of three functions or more"].append("%s, %s: %d, as %s" % (a, b, len(places), places[0]))
    for c, places in sorted(clauses.items()):
        if len(places) >= 3:
            found["5 clauses of three functions or more, by their first 30 characters"].append("%s: %d, as %s" % (c, len(places), places[0]))
    for point in sorted(found):
        print("%s: %d" % (point, len(found[point])))
        for text in found[point]:
            print("    " + text)


main()
