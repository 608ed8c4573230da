#!/usr/bin/env python3
"""Respells the repository's own definitions and lemmas: facts in camel case, all other names in snake case.

usage: python3 tools/respell_names.py      once, at the top of the repository, right after the toolchain's port.py

Names of src/ (functions, fields, strings), the goals and steps that Rattle names, and the library's names stay as they are.
"""
import collections
import glob
import re

# Names that would fall together with another: lemmas named as the definition that they speak of.
CHOSEN = {
    "agent-fits": "agent_fits_true",
    "place-fits": "place_fits_true",
    "node-fits": "node_fits_true",
    "question-fits": "question_fits_true",
    "sizes-fit": "sizes_fit_true",
    "orders-fit": "orders_fit_true",
    "parent-fits": "parent_fits_true",
    "is-node": "is_node_true",
    "at-place": "at_place_found",
    "agents-in": "agents_in_range",
    "places-in": "places_in_range",
    "contents-line": "contents_line_formed",
    "sizes-line": "sizes_line_formed",
    "no-orders": "no_orders_at_first",
    "numbers-at": "numbers_at_line",
    "on-cycle": "on_cycle_found",
    "phase-at": "phase_at_either",
    "pile-made": "pile_made_is",
    "same-node": "same_node_at",
    "set-at": "set_at_index",
    "tenant-claims": "tenant_claims_holds",
    "trade-refusal": "trade_refusal_is",
}
DEFINED = re.compile(r"^(\s*)(?:unfoldable |abbrev )?(?:pub )?(?:(?:record|data) )?([A-Za-z][\w'-]*)((?: \(.*?\)| \{.*?\})*) : (.*)$")
TOKEN = re.compile(r"(?<![\w'-])[A-Za-z][\w'-]*")
STD = re.compile(r"use Rattle\.std\.[\w.]*\.\{(.*?)\}")


def old(n):
    return re.search(r"-|[a-z0-9][A-Z]", n) is not None


def spelled(n):
    if n in CHOSEN:
        return CHOSEN[n]
    if n[0].isupper():
        return "".join(p[:1].upper() + p[1:] for p in re.split(r"[-_]", n))
    return re.sub(r"(?<=[a-z0-9])([A-Z])", lambda k: "_" + k.group(1).lower(), n).replace("-", "_")


def text_of(f):
    with open(f, encoding="utf-8") as h:
        return h.read()


proofs = sorted(glob.glob("crates/*/specs/**/*.antt", recursive=True) + glob.glob("crates/*/proofs/**/*.antt", recursive=True))
sources = sorted(glob.glob("crates/*/src/**/*.rt", recursive=True) + glob.glob("crates/*/must-fail/*.edit"))
names, fields, files, std = {}, set(), collections.defaultdict(set), set()
for f in proofs:
    t = text_of(f)
    for m in STD.finditer(t):
        std.update(x.strip().split(" as ")[-1] for x in m.group(1).split(","))
    inside = False  # the fields of a record, or the constructors of a data
    for line in t.split("\n"):
        if line and not line[0].isspace():
            inside = re.match(r"(pub )?(record|data) ", line) is not None
        m = DEFINED.match(line)
        if not m or m.group(4).startswith(("goal.", "given.")):
            continue
        n = m.group(2)
        files[n].add(f)
        if old(n):
            names[n] = spelled(n)
            if inside and m.group(1):
                fields.add(n)

fell = collections.defaultdict(set)
for n in files:
    fell[names.get(n, n)].add(n)
for k, v in sorted(fell.items()):
    if len(v) > 1:
        print("look:", k, "from", ", ".join(sorted(v)))


def turn(t, f):
    def one(m):
        n = m.group(0)
        if n not in names or (n in std and f not in files[n]):
            return n
        if m.start() and t[m.start() - 1] == "." and n not in fields:
            return n
        return names[n]

    return TOKEN.sub(one, t)


for f in proofs + sources:
    t = text_of(f)
    u = turn(t, f)
    if u != t:
        with open(f, "w", encoding="utf-8") as h:
            h.write(u)
print(len(names), "names respelled")
