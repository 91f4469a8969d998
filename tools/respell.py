#!/usr/bin/env python3
"""Brings the names of this repository's definitions and lemmas to the spelling of today's Rattle: words in snake case, types in camel case.

usage: python3 tools/respell.py [--dry]     at the top of a checkout in which port.py has run

It goes by tokens, in .antt files and in the ghost parts of .rt files. A name that a file takes from the kit keeps its spelling, and so do
types, what the check makes and Rust's own names. --dry only reports names that would fall together in a file.
"""
import os, re, sys

DRY = "--dry" in sys.argv
KIT = re.compile(r"^(mathlib|native|Prim|lib|borrow|logic|Rattle\.(std|core|std_alloc|std_io|io|libc|os)(?![\w]))")
TOKEN = re.compile(r"[A-Za-z_][A-Za-z0-9_'\-₂+*≤<≡%/]*")
# two definitions' names, which a dash joins
JOINED = re.compile(r"^(length|part|drop|take|be16|two|three)-(part|drop|take|rows|bytes_of|bytesOf|countArea|placesUnder|part)$")


def snake(word):
    word = re.sub(r"(?<=[a-z0-9])([A-Z])", lambda m: "_" + m.group(1).lower(), word)
    return re.sub(r"_+", "_", word)


def respelled(t, crate=""):
    if (crate, t) in SPECIAL_IN:
        return SPECIAL_IN[crate, t]
    if t in SPECIAL:
        return SPECIAL[t]
    if not re.match(r"[a-z]", t):
        return t
    if not re.search(r"[A-Z\-]", t):
        return t
    new = snake(t)
    return new if JOINED.match(new) else new.replace("-", "_")


# Names of the repository that would fall together with a definition: a lemma gets _lem, a field another name; and two that port.py half turned.
SPECIAL = {
    "get_d_part": "get_or-part",
    "get_d_rows": "get_or-rows",
    "number-of": "number_of_lem",
    "unless-overwritten": "unless_overwritten_lem",
    "on-pack": "is_on_pack",
    "all-inside": "all_inside_lem",
    "count-place": "count_place_lem",
    "one-cut": "one_cut_lem",
    "two-cuts": "two_cuts_lem",
    "two-heads": "two_heads_lem",
    "past-heads": "past_heads_lem",
    "model-eleven": "model_eleven_lem",
    "is-named": "fault_named",
    "on-last": "on_last_lem",
    "fault-of": "fault_of_lem",
    "fault-from": "fault_from_lem",
    "on-wanted": "on_wanted_lem",
    "sound-record": "sound_record_lem",
    "is-tic": "is_tic_lem",
    "home-of": "home_of_lem",
    "led-by": "led_by_at",
    "handed-corrects": "handed_corrects_lem",
    "kind-of": "kind_of_lem",
}
# The same in the files of one crate alone.
SPECIAL_IN = {
    ("pack", "record_of"): "record_of_lem",
    ("recovery", "same_place"): "same_place_lem",
    ("report", "is_field"): "is_field_lem",
    ("demand_three", "reads-data"): "reads_data_lem",
}


def code_spans(line):
    """The parts of a line of antt: text and whether it is a comment."""
    at = re.search(r"(?:(?<=\s)|^)--(?=\s|$)", line)
    if at:
        return line[: at.start()], line[at.start() :]
    return line, ""


def kit_names(text, rt):
    names = set()
    for m in re.finditer(r"^\s*(?:ghost )?use ([\w.]+)\.\{([^}]*)\}", text, re.M):
        if KIT.match(m.group(1) + "."):
            for n in m.group(2).split(","):
                n = n.strip().split(" as ")[-1].strip()
                names.add(n)
                names.add(n.split(" ")[0])
    return names


def comment(text, known):
    text = re.sub(r"`([^`\s]+)`", lambda m: "`" + (respelled(m.group(1)) if m.group(1) in known else m.group(1)) + "`", text)
    head = re.match(r"^(--   )(\S.*?)(   *)(\S.*)$", text)
    if head and all(w.strip() in known for w in head.group(2).split(",")):
        names = ", ".join(respelled(w.strip()) for w in head.group(2).split(","))
        wide = len(head.group(2)) + len(head.group(3))
        text = head.group(1) + names + " " * max(2, wide - len(names)) + head.group(4)
    return text


def one(text, keep, seen, crate):
    def turn(m):
        t = m.group(0)
        if t in keep:
            seen.setdefault(t, set()).add(t)
            return t
        new = respelled(t, crate)
        seen.setdefault(new, set()).add(t)
        return new
    return TOKEN.sub(turn, text)


def antt(text, known, seen, crate):
    keep = kit_names(text, False)
    out = []
    inside = False
    for line in text.split("\n"):
        code, note = code_spans(line)
        if re.match(r"^\s*use ", code) and KIT.match(re.sub(r"^\s*use ", "", code)):
            out.append(line)
            continue
        out.append(one(code, keep, seen, crate) + comment(note, known))
    return "\n".join(out)


def rt(text, known, seen, crate):
    keep = kit_names(text, True)
    out = []
    depth = 0
    for line in text.split("\n"):
        if re.match(r"^\s*//", line):
            out.append(re.sub(r"`([^`\s]+)`", lambda m: "`" + (respelled(m.group(1)) if m.group(1) in known else m.group(1)) + "`", line))
            continue
        if re.match(r"^ghost use ", line):
            path = line[len("ghost use ") :]
            out.append(line if KIT.match(path) else one(line, keep, seen, crate))
            continue
        start = re.match(r"^\s*(requires|ensures|ghost|invariant)\*?\b", line)
        if start or depth > 0:
            depth += line.count("{") - line.count("}")
            out.append(one(line, keep, seen, crate))
            continue
        out.append(line)
    return "\n".join(out)


def labels(text):
    """Names for the clauses that port.py called `fact`, by what they say; and plainer ones for two more."""
    out = []
    lines = text.split("\n")
    for i, line in enumerate(lines):
        m = re.match(r"^(\s*ensures )fact( \{.*)$", line)
        if m:
            clause = line
            k = i
            while clause.count("{") > clause.count("}"):
                k += 1
                clause += " " + lines[k]
            said = re.findall(r"(?<![\w.])([A-Z]\w*)(?= )", clause.split(" in ")[-1])
            line = m.group(1) + snake(said[0][0].lower() + said[0][1:]) + m.group(2)
        line = re.sub(r"^(\s*ensures )result_value \{", r"\1value {", line)
        line = re.sub(r"^(\s*ensures )standing_2 \{", r"\1stands {", line)
        out.append(line)
    return "\n".join(out)


def pages(root, known):
    """Names between backquotes in the pages."""
    for folder, dirs, names in os.walk(root):
        dirs[:] = sorted(d for d in dirs if d not in (".git", "crates", "target", "out"))
        for n in sorted(names):
            if n.endswith(".md"):
                p = os.path.join(folder, n)
                with open(p, encoding="utf-8") as f:
                    text = f.read()
                new = re.sub(r"`([^`\s]+)`", lambda m: "`" + (respelled(m.group(1)) if m.group(1) in known else m.group(1)) + "`", text)
                if new != text and not DRY:
                    with open(p, "w", encoding="utf-8") as f:
                        f.write(new)


def files(root):
    for folder, dirs, names in os.walk(os.path.join(root, "crates")):
        dirs[:] = sorted(d for d in dirs if d != "out")
        for n in sorted(names):
            if n.endswith((".rt", ".antt")):
                yield os.path.join(folder, n)


def declared(root):
    known = set()
    for p in files(root):
        if not p.endswith(".antt"):
            continue
        with open(p, encoding="utf-8") as f:
            for l in f:
                m = re.match(r"^\s*(?:unfoldable |abbrev )?(?:pub )?([^\s:(){}.]+)(?: \{[^}]*\})? : ", l)
                if m:
                    known.add(m.group(1))
                m = re.match(r"^\s*\| ([^\s:(){}]+) ", l)
                if m:
                    known.add(m.group(1))
    return known


def main():
    root = "."
    known = declared(root)
    for p in files(root):
        with open(p, encoding="utf-8") as f:
            text = f.read()
        seen = {}
        new = (antt if p.endswith(".antt") else rt)(text, known, seen, p.split("/crates/")[1].split("/")[0])
        if p.endswith(".rt"):
            new = labels(new)
        for n, olds in seen.items():
            if len(olds) > 1:
                print(f"falls together: {p}: {' '.join(sorted(olds))}")
        if not DRY and new != text:
            with open(p, "w", encoding="utf-8") as f:
                f.write(new)
    pages(root, known)


main()
