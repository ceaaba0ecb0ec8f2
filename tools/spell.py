#!/usr/bin/env python3
"""Brings the repository's own definitions and lemmas to snake case: bodiesOf is bodies_of, reads-next is reads_next.

usage: python3 tools/spell.py [--check]      at the top of the repository, once, behind Rattle's port.py

Only names that a file of specs/ or proofs/ declares are turned, in that file, in the files that import them, and in the edits of must-fail/
and the backticks of the pages. Names of src/, types, modules and the library's names stay. --check writes nothing and lists names that fall together.
"""
import glob
import os
import re
import sys

WORD = re.compile(r"(?<![\w'◌-])[A-Za-z][\w'₀-₉-]*")
DECLARED = re.compile(r"(?:abbrev |unfoldable |ruleset )?(?:pub )?(?:abbrev |unfoldable |ruleset |record |data )?(?:pub )?([A-Za-z][^\s:(){}.=,]*)\s*(?:[:({=]|$)")
MEMBER = re.compile(r"  (?:pub )?([a-z][^\s:(){}.=,]*)\s*:")
INNER = re.compile(r"\s+(?:(?:abbrev|unfoldable) (?:pub )?|pub )([a-z][^\s:(){}.=,]*) (?:: |\()")
USE = re.compile(r"^(?:pub )?(?:ghost )?use ([^\s{;]+?)(?:\.\{([^}]*)\}|\s+as\s+(\S+))?;?$", re.M)


# Lemmas and members of records whose names fall together with that of the definition that they speak of.
APART = {
    "zeros-power": "zeros_power_value",
    "by_digits": "by_digits_power",
    "link-front": "link_in_front",
    "file-after": "file_after_is",
    "copied-of": "copied_of_found",
    "with-id": "with_id_same",
    "bit-xor": "bit_of_xor",
    "read-varint": "read_varint_of",
    "hit-in": "hit_in_held",
    "part_in": "part_in_handed",
    "is-nan": "is_nan_value",
    "map-bytes": "map_bytes_bytes",
    "no-bodies": "no_bodies_none",
    "batch-held": "batch_is_held",
    "retire-held": "retire_is_held",
    "new-states": "new_states_are",
    "payload-length": "payload_length_is",
    "flags-held": "flags_are_held",
    "kept-states": "kept_states_are",
    "fresh-file": "fresh_file_is",
    "confirmed-at": "confirmed_at_is",
    "states-held": "states_are_held",
    "head-sound": "head_is_sound",
    "block-end": "block_end_is",
    "line-with": "line_with_is",
    "blocks-bad": "blocks_bad_are",
    "size-at": "size_at_is",
    "up-to": "up_to_is",
}


def spelled(name):
    if name in APART:
        return APART[name]
    if not name[0].islower():
        return name
    name = name.replace("-", "_")
    name = re.sub(r"(?<=[a-z0-9])([A-Z])", lambda m: "_" + m.group(1).lower(), name)
    return name


def module(path):
    crate, kind, rest = re.match(r"crates/([^/]+)/(specs|proofs)/(.*)\.antt$", path).groups()
    return f"Rattle.{crate}.{kind}." + rest.replace("/", ".")


def is_walk(path):
    return os.path.basename(path) == "Proof.antt"


def declared(path, text):
    """The names that a file declares, in a section too, and the members of its records."""
    names, members, record = set(), set(), False
    for line in text.splitlines():
        if re.match(r"(?:pub )?record ", line):
            record = True
        elif re.match(r"\S", line):
            record = False
        if record:
            m = MEMBER.match(line)
            if m:
                members.add(m.group(1))
        if re.match(r"\S", line) and not re.match(r"(?:pub )?use |--|(?:pub )?mod |unfolding ", line):
            m = DECLARED.match(line)
            if m and (not is_walk(path) or line.startswith("pub ")):
                names.add(m.group(1))
        elif not is_walk(path):
            m = INNER.match(line)
            if m:
                names.add(m.group(1))
    return names, members


def main():
    check = "--check" in sys.argv[1:]
    antt = sorted(glob.glob("crates/*/specs/**/*.antt", recursive=True) + glob.glob("crates/*/proofs/**/*.antt", recursive=True))
    rt = sorted(glob.glob("crates/*/src/**/*.rt", recursive=True))
    texts = {p: open(p, encoding="utf-8").read() for p in antt + rt}
    of_module, members = {}, set()
    for p in antt:
        names, own = declared(p, texts[p])
        of_module[module(p)] = names
        members |= own
    every = set().union(*of_module.values()) | members
    # in an edit or a page: also names that port.py has turned already
    after = {spelled(n) for n in every}

    def elsewhere(m):
        w = m.group(0)
        return spelled(w) if w in every or spelled(w) in after and re.search("[a-z][A-Z]|-", w) else w


    def scope(path, text):
        """The names of the repository that a file can say, and those that it has from elsewhere."""
        own, other = set(), set()
        if path.endswith(".antt"):
            own |= of_module[module(path)]
        for where, names, _ in USE.findall(text):
            words = [w.strip().split(" as ")[0].strip() for w in names.split(",")] if names else []
            if where in of_module:
                own |= {w for w in words if w in of_module[where]}
            else:
                other |= set(words)
        return own, other

    def turned(path, text):
        own, other = scope(path, text)
        can = (own | (members if path.endswith(".antt") else set())) - (other - own)

        def word(m):
            w = m.group(0)
            return spelled(w) if w in can else w

        lines = []
        for line in text.split("\n"):
            at = re.search(r"(?:^|\s)(?:--|//)(?:\s|$)", line)
            code, note = (line[: at.start()], line[at.start() :]) if at else (line, "")
            code = WORD.sub(word, code)
            note = re.sub(r"`[^`\n]*`", lambda m: WORD.sub(lambda n: spelled(n.group(0)) if n.group(0) in every else n.group(0), m.group(0)), note)
            note = WORD.sub(lambda m: spelled(m.group(0)) if m.group(0) in every and re.search("[a-z][A-Z]", m.group(0)) else m.group(0), note)
            lines.append(code + note)
        return "\n".join(lines)

    # names that fall together: two of one module, or a word of the program in a file of src/
    for where, names in sorted(of_module.items()):
        seen = {}
        for n in sorted(names):
            if spelled(n) in seen:
                print(f"together: {where}: {seen[spelled(n)]} and {n}")
            seen[spelled(n)] = n
    changed = 0
    for p in antt + rt:
        own, other = scope(p, texts[p])
        new = {}
        for n in sorted(own):
            if spelled(n) != n and spelled(n) in other:
                print(f"together: {p}: {n} and an imported {spelled(n)}")
            if spelled(n) in new:
                print(f"together: {p}: {new[spelled(n)]} and {n}")
            new[spelled(n)] = n
        if p.endswith(".rt"):
            words = set(re.findall(r"(?:\(|, |\n    )(?:mut )?([a-z_0-9]+): ", texts[p])) | set(re.findall(r"fn ([a-z_0-9]+)", texts[p])) | set(re.findall(r"let (?:mut )?([a-z_0-9]+)", texts[p]))
            for n in sorted(own):
                if spelled(n) in words:
                    print(f"look: {p}: {n} is spelled as a word of the program, {spelled(n)}")
        else:
            for n in sorted(own):
                if spelled(n) != n and re.search(r"(?<![\w.'-])" + re.escape(spelled(n)) + r"(?![\w'-])", texts[p]):
                    print(f"look: {p}: {n} -> {spelled(n)} stands there already")
        t = turned(p, texts[p])
        if t != texts[p]:
            changed += 1
            if not check:
                open(p, "w", encoding="utf-8").write(t)
    # what a path into a module names: x.name where x is a module, and the edits
    for p in sorted(glob.glob("crates/*/must-fail/*.edit")):
        text = open(p, encoding="utf-8").read()
        t = WORD.sub(elsewhere, text)
        if t != text:
            changed += 1
            if not check:
                open(p, "w", encoding="utf-8").write(t)
    for p in ["README.md"] + sorted(glob.glob("docs/*.md")):
        text = open(p, encoding="utf-8").read()
        t = re.sub(r"`[^`\n]*`", lambda m: m.group(0) if "/" in m.group(0) else WORD.sub(elsewhere, m.group(0)), text)
        if t != text:
            changed += 1
            if not check:
                open(p, "w", encoding="utf-8").write(t)
    print(f"{changed} files")


main()
