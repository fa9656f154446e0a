#!/usr/bin/env python3
"""Spells the repository's own definitions and lemmas in snake case, once, after the kit's port.py.

usage: tools/snake_names.py KIT            in the repository's top folder; KIT is the folder of the Rattle kit

A name of specs/ and proofs/ and a ghost member of a trait turns, wherever it stands in crates/*/: `shapeOf` and `shape-of` become `shape_of`.
What a library declares, what Rattle makes (a label behind `goal.`, `c.` and the like) and the names of types, modules and Rust's own items stay.
The crate `check` becomes `leg_check`, since the kit has a library `check`. Names that would fall together are printed, and stay.
"""

import collections
import os
import re
import subprocess
import sys
import tempfile

NAME = r"[^\s(){}.;,@\"«»⟨⟩⟦⟧]+"
DECLARED = re.compile(rf"^ *(?:(?:pub|abbrev|unfoldable|shut|opaque|instance) )*({NAME})(?: \{{[^{{}}\n]*\}})* : *(.*)$", re.M)
BOUND = re.compile(rf"[(λ]\s*((?:{NAME} )+):")
MEMBER = re.compile(r"\bghost (\w+)\s*:")
USE = re.compile(r"\buse ([^\s;{]+)\.?\{([^}]*)\}", re.M)
ANSWERS = re.compile(r"/proofs/(.*/)?(Answers|Invariants|Proof)\.antt$")


# Names whose plain spelling is that of another name: what they are called instead.
OTHERWISE = {
    "bothOnMap": "points_on_map",
    "centreOnMap": "centre_lies_on_map",
    "coordinateAt": "coordinate_value",
    "eastStep": "step_to_east",
    "faultOutput": "output_of_fault",
    "fileHeight": "height_in_file",
    "fileName": "name_of_file",
    "fourRows": "rows_of_four",
    "greater-holds": "holds_greater",
    "groundForm": "form_of_ground",
    "groundOf": "ground_from",
    "in-limit": "lies_in_limit",
    "in-range": "lies_in_range",
    "inBounds": "lies_in_bounds",
    "inFile": "placed_in_file",
    "isAreaNumber": "names_area",
    "isDigit": "is_digit_byte",
    "isPiece": "makes_piece",
    "isSwitch": "is_on_or_off",
    "largestStep": "greatest_step",
    "legBy": "leg_where",
    "lesser-holds": "holds_lesser",
    "levelOf": "level_meaning",
    "loadRows": "rows_loaded",
    "northStep": "step_to_north",
    "numbersFor": "numbers_of_row",
    "on-map": "lies_on_map",
    "onMap": "point_on_map",
    "opposite-holds": "holds_opposite",
    "quadricInRange": "quadric_lies_in_range",
    "reach-limit": "within_reach_limit",
    "reachLimit": "reach_bound",
    "refers-below": "refers_under",
    "refusalOf": "call_refusal",
    "samePoint": "is_same_point",
    "staysInCell": "lies_in_one_cell",
    "sum-holds": "holds_sum",
    "workedCalls": "calls_worked",
}


def texts():
    for folder, dirs, files in os.walk("crates"):
        dirs[:] = sorted(d for d in dirs if d not in ("out", "must-fail", "data"))
        for f in sorted(files):
            if f.endswith((".rt", ".antt")):
                path = os.path.join(folder, f)
                with open(path, encoding="utf-8") as it:
                    yield path, it.read()


def snake(name):
    words = re.sub(r"(?<=[a-z0-9])[A-Z]", lambda m: "_" + m[0].lower(), name)
    return words.replace("-", "_")


def turns(name):
    """A word of letters with a hyphen or a capital inside that does not begin with a capital."""
    return bool(re.match(r"[^\W\d_A-Z]", name) or re.match(r"[≤≥<*+-]ℤ-|≥0-", name)) and snake(name) != name


def rename_check():
    os.rename("crates/check", "crates/leg_check")
    with open("crates.txt", encoding="utf-8") as it:
        text = it.read()
    with open("crates.txt", "w", encoding="utf-8") as it:
        it.write(re.sub(r"(?m)(?<![\w])check(?![\w])", "leg_check", text))
    for path, text in texts():
        new = re.sub(r"Rattle\.check\.", "Rattle.leg_check.", text)
        if path.endswith(".rt"):
            new = re.sub(r"(?m)^use check::", "use leg_check::", new)
        if new != text:
            with open(path, "w", encoding="utf-8") as it:
                it.write(new)


def main():
    kit = sys.argv[1]
    if os.path.isdir("crates/check"):
        rename_check()
    declared, imported, rust, seen = collections.Counter(), set(), set(), set()
    for path, text in texts():
        for where, names in USE.findall(text):
            own = re.match(r"Rattle\.(\w+)\.", where + ".")
            if not own or not os.path.isdir(os.path.join("crates", own[1])):
                imported |= {n.split(" as ")[0].strip() for n in names.split(",")}
        for word in re.findall(NAME, text):
            seen.add(word)
        if path.endswith(".rt"):
            for m in MEMBER.findall(text):
                declared[m] += 1
            rust |= set(re.findall(r"\b(?:fn|struct|enum|const|mod|trait) (\w+)", text))
        elif not ANSWERS.search("/" + path):
            for name, kind in DECLARED.findall(text):
                if not kind.startswith("goal."):
                    declared[name] += 1
            for names in BOUND.findall(text):
                for name in names.split():
                    declared[name] += 1
            for name in re.findall(r" as (\w+)", text):
                declared[name] += 1
        if path.endswith(".rt"):
            for name in re.findall(r" as (\w+)", "".join(re.findall(r"ghost use [^;]*;", text))):
                declared[name] += 1
    rows, kept = {}, []
    for name in sorted(declared):
        if not turns(name) or name in imported or name in rust:
            continue
        new = OTHERWISE.get(name, snake(name))
        if new in seen or new in rows.values():
            kept.append((name, new))
            continue
        rows[name] = new
    for name, new in kept:
        print(f"falls together: {name} with {new}")
    with tempfile.TemporaryDirectory() as d:
        table = os.path.join(d, "names.tsv")
        with open(table, "w", encoding="utf-8") as it:
            it.writelines(f"{old}\t{new}\n" for old, new in rows.items())
        if "--table" in sys.argv:
            print(open(table, encoding="utf-8").read())
            return
        heads = "goal,c,w,l,g"
        script = os.path.join(kit, "port/notes/2026-11-18-names-are-in-snake-case/snake.py")
        subprocess.run([sys.executable, script, "--table", table, "--only", "antt,rt", "--skip-behind", heads, "crates"], check=True)
    for path, text in texts():
        if path.endswith(".rt"):
            new = re.sub(r"\bghost (\w+)(?=\s*[:=])", lambda m: "ghost " + rows.get(m[1], m[1]), text)
            if new != text:
                with open(path, "w", encoding="utf-8") as it:
                    it.write(new)
    print(f"{len(rows)} names turned")


main()
