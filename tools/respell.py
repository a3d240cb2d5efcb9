#!/usr/bin/env python3
"""Brings the definitions and lemmas of this repository to one spelling: snake case, with a dash only between two names.

usage: python3 tools/respell.py    at the top of the repository, once, right after /opt/rattle/port/port.py

A name that begins in lower case loses its humps (keptAs: kept_as). Of its dashes those stay that join two names of definitions, as in
length-grow; the others, before a plain word, become underscores (any-yes: any_yes). Types, modules, functions of src/, strings and the
names that the prover makes keep their spelling. It ends with an error, and writes nothing, where two names would fall together.
"""

import collections
import os
import re
import sys

NAME = r"[^\s(){}\[\],;.:\"]+"
SIGNATURE = re.compile(r"\s*(?:(?:pub|abbrev|unfoldable) )*(" + NAME + r"(?: " + NAME + r")*) :\s")
TYPE = re.compile(r"\s*(?:(?:pub|abbrev|unfoldable) )*(?:record|data) (?:pub )?(" + NAME + r")")
USE = re.compile(r"^\s*(?:pub |ghost )*use ([^\s{;]+?)\.\{([^}]*)\}", re.M)
TOKEN = re.compile(r"\"(?:[^\"\\]|\\.)*\"|" + NAME)
# words of the library that own lemmas are named after
WORDS = {"length", "append", "take", "drop", "set", "get_or", "map", "min", "max", "abs", "eqb", "ltb", "cons", "nil"}
# plain words that some definition has for its name too
PLAIN = {
    "a", "above", "after", "all", "any", "apart", "arrived", "as", "at", "away", "back", "before", "begins", "below", "best", "better", "between", "beyond", "both", "built", "by", "called",
    "changed", "checked", "chosen", "come", "comes", "computed", "copies", "covers", "dead", "dealt", "described", "differ", "does", "done", "down", "each", "early", "empty", "end", "ends", "even",
    "far", "few", "filled", "fine", "first", "fits", "found", "from", "full", "given", "gives", "go", "going", "good", "got", "greedy", "grown", "half", "halve", "has", "heard", "hears", "held",
    "here", "high", "higher", "hit", "hits", "hold", "holds", "in", "inside", "is", "joined", "keep", "keeps", "kept", "larger", "last", "late", "later", "lead", "leads", "least", "left", "lesser",
    "lift", "lifted", "lifts", "live", "long", "longest", "low", "lower", "lowest", "made", "many", "meets", "merged", "modest", "more", "moved", "named", "near", "nearby", "nearer", "nearest",
    "never", "new", "next", "no", "none", "not", "nothing", "odd", "of", "off", "old", "once", "one", "only", "onto", "or", "other", "others", "outside", "over", "own", "passed", "past", "plain",
    "printed", "prompt", "proven", "put", "puts", "reached", "reaches", "ready", "refused", "rest", "right", "rises", "rising", "same", "say", "says", "scanned", "seen", "short", "single", "skip",
    "small", "smaller", "so", "some", "sorted", "stands", "stay", "sum", "swap", "then", "there", "thin", "third", "three", "through", "to", "together", "told", "too", "top", "true", "turn", "turned",
    "twelve", "twice", "two", "under", "unlike", "unnamed", "up", "upright", "whole", "wide", "widened", "widest", "with", "within", "without", "written", "wrote", "zero", "lo", "hi", "l", "r", "u",
    "v", "w", "x", "y", "d", "i", "j", "k", "n", "m", "p", "h", "s", "t", "e", "b", "f", "js", "us", "vs", "ws", "xs", "ys", "pos", "neg", "second", "middle", "other", "wait", "waits", "grows", "is", "split",
    "said", "also", "early", "false", "caching", "counted", "spread", "scan", "shown", "snakes", "step", "times", "value", "trr", "ms", "lies", "level", "begun", "bounds", "bound", "count", "part", "fit",
}

# where the rule alone would let two names fall together, or would keep a dash before a plain word; the first two are lemmas that the library has under that name elsewhere
BY_HAND = {
    "not-false": "not-false",
    "zero-add": "zero-add",
    "bit-and": "bit_and_lem",
    "entry-after": "entry_after_lem",
    "in-range": "in_range_lem",
    "in-turn": "in_turn_lem",
    "inAll": "in_all_lanes",
    "is-part": "is_part_lem",
    "kept-part": "kept_part_lem",
    "number-at": "number_at_lem",
    "oneValue": "one_value_word",
    "sinksIn": "sinks_in_subset",
    "splitOff": "split_off_lane",
    "table-after": "table_after_lem",
    "to-first": "to_first_lem",
    "to-second": "to_second_lem",
    "tree-said": "tree_said_lem",
    "is-deferred-merge": "is_deferred_merge",
    "one-place-table": "one_place_table",
    "one-place-total": "one_place_total",
    "one-place-wire": "one_place_wire",
}


def files(kinds):
    for folder, dirs, names in os.walk("crates"):
        dirs[:] = sorted(d for d in dirs if d != "out")
        for n in sorted(names):
            if n.endswith(kinds):
                yield os.path.join(folder, n)


def read(path):
    with open(path, encoding="utf-8") as f:
        return f.read()


def definitions():
    """Each name that a file of specs/ or proofs/ defines, with those files; answers of a function's proof are the prover's names, and are left out."""
    found = collections.defaultdict(set)
    for path in files(".antt"):
        if path.endswith("/Proof.antt"):
            continue
        for line in read(path).splitlines():
            m = SIGNATURE.match(line)
            for n in m.group(1).split() if m else []:
                found[n].add(path)
            m = TYPE.match(line)
            if m:
                found[m.group(1)].add(path)
    return found


def flat(part):
    """keptAs: kept_as; upTo: up_to; U: u."""
    part = re.sub(r"([a-z0-9])([A-Z])", r"\1_\2", part)
    return part.lower()


def spelled(name, known):
    if name in BY_HAND:
        return BY_HAND[name]
    if not re.match(r"[a-z]", name) and not re.match(r"[^\x00-\x7f]-", name):
        return name
    parts = [flat(p) if not re.search(r"[^\x00-\x7f]", p) else p for p in name.split("-")]
    out = parts[0]
    for left, right in zip(parts, parts[1:]):
        out += ("-" if left in known and right in known else "_") + right
    return out


def main():
    found = definitions()
    own = {re.match(r"crates/(\w+)/", p).group(1) for p in files(".rt")}
    foreign = set()
    for path in files((".antt", ".rt")):
        for module, names in USE.findall(read(path)):
            m = re.match(r"Rattle\.(\w+)", module)
            if not m or m.group(1) not in own:
                foreign |= {n.strip().split(" as ")[-1] for n in names.split(",")}
    in_specs = {flat(n) for n, where in found.items() if re.match(r"[a-z]", n) and any("/specs/" in p for p in where)}
    known = (in_specs | WORDS) - PLAIN
    new = {n: spelled(n, known) for n in found}
    new = {a: b for a, b in new.items() if a != b}
    bad = [f"{b} is a name already" for a, b in BY_HAND.items() if a != b and (b in found or b in foreign)]
    bad += [f"{a} is a name of the library too" for a in new if a in foreign]
    bad += [f"{a}: {b} is a name already" for a, b in new.items() if b in found or b in foreign]
    back = collections.defaultdict(list)
    for a, b in new.items():
        back[b].append(a)
    bad += [f"{b} would stand for {', '.join(a)}" for b, a in back.items() if len(a) > 1]
    if "--list" in sys.argv:
        for a, b in sorted(new.items()):
            print(a, b)
    if bad:
        print("\n".join(sorted(bad)), file=sys.stderr)
        return 1
    if "--list" in sys.argv:
        return 0

    def turn(m):
        return m.group() if m.group()[0] == '"' else new.get(m.group(), m.group())

    changed = 0
    for path in files((".antt", ".rt")):
        text = read(path)
        turned = TOKEN.sub(turn, text)
        if turned != text:
            with open(path, "w", encoding="utf-8") as f:
                f.write(turned)
            changed += 1
    print(f"respell: {len(new)} names, {changed} files")
    return 0


if __name__ == "__main__":
    raise SystemExit(main())
