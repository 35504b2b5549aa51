#!/usr/bin/env python3
"""Brings the definitions and lemmas of this repository to the spelling of today's Rattle: words in snake case, types and
modules in camel case.

usage: python3 tools/respell.py [--map] [FOLDER]

Run once, at the top, right after port.py. A name is this repository's if a file of specs/, or a file of lemmas in proofs/,
declares it; names of the library and names that Rattle makes keep their dashes. Where a definition would fall together with
a function of src/ that the same file has, NAMES says its name. --map prints the names and changes nothing.
"""
import collections
import os
import re
import sys

WORD = r"[^\W\d][\w'₀-₉]*(?:-[\w'₀-₉]+)*"
DASHED = r"[^\W\d][\w'₀-₉]*(?:-[\w'₀-₉]+)+"
HUMPED = r"[a-z]+(?:[A-Z][a-z]+)+"
MADE = ("Proof.antt", "Answers.antt", "Invariants.antt")

# Definitions whose snake case is the name of a function of src/ in a file that cites them.
NAMES = {
    "allIn": "all_between",
    "anyIn": "any_between",
    "countIn": "count_between",
    "firstIn": "first_between",
    "gatherIn": "gather_between",
    "totalIn": "total_between",
    "adds-other": "does_add_other",
    "as-limit": "limit_from_sum",
    "asks-names": "does_ask_names",
    "bad-check": "bad_check_of",
    "bad-row": "bad_row_of",
    "bads-at": "bads_offset",
    "bads-part": "bads_part_of",
    "bodies-closed": "are_bodies_closed",
    "body-form": "body_form_of",
    "branch-body": "branch_body_of",
    "call-closed": "is_call_closed",
    "callees-here": "callees_of",
    "ceiling-check": "ceiling_check_of",
    "ceilings-at": "ceilings_offset",
    "ceilings-part": "ceilings_part_of",
    "counter-check": "counter_check_of",
    "effect-kind": "effect_kind_of",
    "end-at": "end_of",
    "entry-check": "entry_check_of",
    "equals-some": "does_equal_some",
    "fifth-size": "fifth_size_of",
    "first-open": "first_open_of",
    "first-wrong": "first_wrong_of",
    "fitting-sets": "fitting_sets_of",
    "give-closed": "is_give_closed",
    "head-fits": "does_head_fit",
    "holds-in": "is_held_in",
    "in-bound": "is_in_bound",
    "is-branch-count": "is_branch_count_of",
    "is-class": "is_class_of",
    "is-entry": "is_entry_of",
    "is-head": "is_head_of",
    "is-held": "is_held_of",
    "is-named": "is_named_of",
    "is-return": "is_return_of",
    "is-safe": "is_safe_of",
    "is-settled": "is_settled_of",
    "is-single": "is_single_of",
    "is-value": "is_value_of",
    "leak-check": "leak_check_of",
    "least-weight": "least_weight_of",
    "less-if": "one_less_if",
    "letter-arity": "letter_arity_of",
    "letter-at": "letter_at_of",
    "letter-codes": "letter_codes_of",
    "letter-count": "letter_count_of",
    "letter-sets": "letter_sets_of",
    "letter-width": "letter_width_of",
    "light-check": "light_check_of",
    "limit-after": "limit_after_step",
    "mail-set": "mail_set_of",
    "mailed-check": "mailed_check_of",
    "mails-function": "does_mail_function",
    "mask-pairs": "mask_pairs_of",
    "mask-triples": "mask_triples_of",
    "met-check": "met_check_of",
    "name-check": "name_check_of",
    "name-sets": "name_sets_of",
    "names-letters": "names_letters_of",
    "opening-closed": "is_opening_closed",
    "opening-row": "opening_row_of",
    "parts-of": "parts_in",
    "past-heads": "past_heads_of",
    "program-part": "program_part_of",
    "raise-if": "one_more_if",
    "rise-check": "rise_check_of",
    "row-check": "row_check_of",
    "row-head": "row_head_of",
    "row-sets": "row_sets_of",
    "same-constructor": "is_same_constructor",
    "scope-check": "scope_check_of",
    "send-asks": "does_send_ask",
    "spawn-asks": "does_spawn_ask",
    "start-check": "start_check_of",
    "state-index": "state_index_of",
    "state-rules": "state_rules_of",
    "table-cells": "table_cells_of",
    "tables-at": "tables_offset",
    "tables-part": "tables_part_of",
    "takes-other": "does_take_other",
    "third-tag": "third_tag_of",
    "value-arity": "value_arity_of",
    "value-fits": "does_value_fit",
    "weight-check": "weight_check_of",
    "weight-put": "weight_put_of",
    "weight-taken": "weight_taken_of",
    "weights-at": "weights_offset",
    "weights-part": "weights_part_of",
}


def files(root, ends):
    for folder, dirs, names in os.walk(os.path.join(root, "crates")):
        dirs[:] = sorted(d for d in dirs if d != "out")
        for f in sorted(names):
            if f.endswith(ends):
                yield os.path.join(folder, f)


def read(p):
    with open(p, encoding="utf-8") as f:
        return f.read()


def spelled(name):
    if name in NAMES:
        return NAMES[name]
    if name[0].isupper():
        return "".join(part[:1].upper() + part[1:] for part in name.split("-"))
    return re.sub(r"(?<=[a-z])([A-Z])", lambda m: "_" + m.group(1).lower(), name.replace("-", "_")) if "-" not in name else name.replace("-", "_")


def declared(root):
    found = set()
    for p in files(root, ".antt"):
        if os.path.basename(p) in MADE:
            continue
        for line in read(p).split("\n"):
            line = line.split("--")[0] if line.lstrip().startswith("--") else line
            m = re.match(r"\s*(?:(?:abbrev|unfoldable|pub|data|record|module|constructor|mutual|mod|field)\s+)*((?:" + WORD + r"\s+)*" + WORD + r")\s*(?:[:({]|$)", line)
            if m:
                found |= {w for w in m.group(1).split() if re.fullmatch(DASHED, w) or re.fullmatch(HUMPED, w)}
    return found


def foreign(text, crates):
    """The names that a file brings in from the libraries."""
    found = set()
    for m in re.finditer(r"\buse\s+([\w.·'-]+)\.\{([^}]*)\}", text):
        path = m.group(1).split(".")
        if path[0] == "Rattle" and len(path) > 1 and path[1] in crates:
            continue
        found |= set(re.findall(DASHED, m.group(2)))
    return found


def main():
    args = [a for a in sys.argv[1:] if a != "--map"]
    root = args[0] if args else "."
    crates = set(os.listdir(os.path.join(root, "crates")))
    names = {n: spelled(n) for n in declared(root)}
    if "--map" in sys.argv:
        for n in sorted(names):
            print(n, names[n])
        return
    turned = 0
    for p in files(root, (".antt", ".rt")):
        text = read(p)
        theirs = foreign(text, crates)
        new = re.sub(WORD, lambda m: names[m.group(0)] if m.group(0) in names and m.group(0) not in theirs else m.group(0), text)
        if new != text:
            with open(p, "w", encoding="utf-8") as f:
                f.write(new)
            turned += 1
    # port.py turned the two definitions is-held and letter-at, whose snake case are parameters of functions, in all but the files of those.
    for crate, name in (("ceilings_letters", "is_held"), ("system_letters", "letter_at")):
        of = re.compile(r"(?<![\w'.-])" + name + r"(?![\w'-])")
        for p in files(root, ".antt"):
            text = read(p)
            home = os.path.join("crates", crate, "specs") in p
            if home or re.search(r"Rattle\." + crate + r"\.specs\.\w+\.\{[^}]*\b" + name + r"\b", text):
                with open(p, "w", encoding="utf-8") as f:
                    f.write(of.sub(name + "_of", text))
    # Files and folders of modules whose names changed.
    for p in sorted(files(root, ".antt"), key=len, reverse=True):
        base = os.path.basename(p)[:-5]
        if base in names:
            os.rename(p, os.path.join(os.path.dirname(p), names[base] + ".antt"))
    print("respelled:", turned, "files,", len(names), "names")


if __name__ == "__main__":
    main()
