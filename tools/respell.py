#!/usr/bin/env python3
"""Respells this repository's own ghost names: types in upper camel case, every other name in snake case.

usage: python3 tools/respell.py [--list]        at the top of a tree that port.py has turned

Names are those that specs/ and proofs/*.antt declare or bind. Names that Rattle makes (goals, places, labels of proofs/F/), names
of the library, functions of src/ and strings keep their spelling. `--list` shows what would be renamed, and where a new name
stands already, and writes nothing."""

import os
import re
import sys

WORD = r"[^\s(){}\[\],;.:\"`|=]+"
HEAD = re.compile(r"^(\s*)((?:abbrev |unfoldable |pub |record |data )*)(" + WORD + r")\s*((?:[({][^:=]*:[^)}]*[)}]\s*)*):\s*(.*)$")
# names that would fall together with another one: what they are called instead
CHOSEN = {
    "allDigits": "only_digits",
    "digitOf": "digit_of_bit",
    "digitsOf": "digits_in",
    "hexDigit": "hex_digit_of",
    "isDigit": "is_digit_byte",
    "missedRoot": "has_missed_root",
    "refusalLine": "line_of_refusal",
    "withBit": "byte_with_bit",
    "getD-first": "get_or_first",
    "getD-map-all": "get_or_map_all",
    "natAbs-signed": "unsigned_abs_signed",
    "longest_run": "longest_run_lem",
    "read-on": "read_on_lem",
}


def files(*ends):
    for folder, dirs, names in os.walk("crates"):
        dirs[:] = sorted(d for d in dirs if d != "out")
        yield from (os.path.join(folder, n) for n in sorted(names) if n.endswith(ends))


def made(path):
    """A file of a function's proof: what it declares has names that Rattle made."""
    return re.fullmatch(r"(Answers|Invariants|Proof|Choices)\.antt", os.path.basename(path)) is not None


def code(line):
    return "" if line.lstrip().startswith("--") else line


def odd(name):
    return re.search(r"[A-Za-z]", name) and (re.search(r"[a-z0-9]-[A-Za-z0-9]|^[A-Za-z]-[a-z]", name) or re.match(r"[a-z][^-]*[A-Z]", name)) and "Rattle" not in name


def library():
    """Names that are imported from outside this repository."""
    own, found = set(os.listdir("crates")), set()
    for path in files(".antt", ".rt"):
        for module, names in re.findall(r"use ([\w.']+)\.\{([^}]*)\}", open(path, encoding="utf-8").read()):
            parts = module.split(".")
            if not (parts[0] == "Rattle" and parts[1:2] and parts[1] in own):
                found |= {n.split(" as ")[0].strip() for n in names.split(",")}
    return found


def snake(name):
    name = re.sub(r"(?<=[a-z0-9])([A-Z])", lambda m: "_" + m[1].lower(), name)
    return name.replace("-", "_")


def camel(name):
    return "".join(p[:1].upper() + p[1:] for p in name.split("-"))


def declared():
    """Each odd name that specs/ or a lemma file declares or binds: its new name."""
    taken, new = library(), {}
    for path in files(".antt"):
        if made(path):
            continue
        for line in open(path, encoding="utf-8"):
            if m := HEAD.match(code(line)):
                is_type = re.search(r"\b(record|data) ", m[2]) or re.search(r"(^|→ )Type( 0)?( where)?$", m[5].strip())
                if odd(m[3]) and m[3] not in taken:
                    new[m[3]] = CHOSEN.get(m[3]) or (camel(m[3]) if is_type or m[3][0].isupper() else snake(m[3]))
            for word in re.findall(WORD, code(line)):
                if word not in new and word not in taken and odd(word) and re.fullmatch(r"[\w'-]+", word) and word[0].islower():
                    new[word] = CHOSEN.get(word) or snake(word)
    new |= {n: CHOSEN[n] for n in CHOSEN if not odd(n)}
    # a lemma that would have its definition's name ends in _lem
    for old in new:
        if "-" in old and any(new[o] == new[old] for o in new if o != old):
            new[old] += "_lem"
    return new


def turn(path, text, new):
    """The text with new names. In a proof of a function a dashed name after a dot is Rattle's own; in src/ strings stay."""
    names = "|".join(sorted(map(re.escape, new), key=len, reverse=True))
    word = re.compile(r'"(?:\\.|[^"\\\n])*"|(?<![\w\'-])(' + names + r")(?![\w'-])")

    def change(m):
        if not m[1] or made(path) and "-" in m[1] and m.string[: m.start()].endswith("."):
            return m[0]
        return new[m[1]]

    return word.sub(change, text)


def main(argv):
    new = declared()
    if argv == ["--list"]:
        words = {}
        for path in files(".antt", ".rt"):
            for w in re.findall(r"[\w'-]+", open(path, encoding="utf-8").read()):
                words.setdefault(w, path)
        back = {}
        for old, name in sorted(new.items()):
            back.setdefault(name, []).append(old)
            print(old, "->", name, *(["STANDS IN", words[name]] if name in words else []))
        for name, olds in back.items():
            if len(olds) > 1:
                print("FALL TOGETHER:", name, olds)
        return 0
    for path in list(files(".antt", ".rt", ".edit")):
        text = open(path, encoding="utf-8").read()
        changed = turn(path, text, new)
        if changed != text:
            open(path, "w", encoding="utf-8").write(changed)
    return 0


if __name__ == "__main__":
    raise SystemExit(main(sys.argv[1:]))
