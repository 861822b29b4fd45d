#!/usr/bin/env python3
"""Brings the project's own names to the spelling of today's Rattle, once, after the kit's port.py.

usage: python3 tools/respell.py [--dry]     at the top of the checkout

Definitions, lemmas, fields and variables in camel case go to snake case (`noRequest` to `no_request`). Definitions and the fields of records
that are joined by a dash go to snake case too (`some-steps` to `some_steps`); a lemma keeps its dash, which joins what it is about to what it
says. Types, modules, Rust functions, exported C names and names of the kit stay. It says which names would fall together, and then writes nothing.
"""

import os
import re
import subprocess
import sys

TOKEN = re.compile(r"[^\s(){}\[\];,.λ\"`|:=\u27e8\u27e9]+")
CAMEL = re.compile(r"^[a-z][a-z0-9_'\u2032\u2080-\u2089-]*[A-Z]")
DECLARED = re.compile(r"^\s*(?:abbrev |unfoldable |pub )*([a-z][^\s:({]*) :")
DEFINITION = re.compile(r"^\s*(?:abbrev |unfoldable )+(?:pub )?(?:abbrev |unfoldable )*(?:pub )?([^\s:]+) :")
FIELD = re.compile(r"^\s+(?:pub )?([a-z][^\s:({]*) :")
USE = re.compile(r"^\s*(?:pub )?(?:ghost )?use ([A-Za-z0-9_.'+-]+)\.\{(.*?)\}", re.M | re.S)


def files(root, ends):
    out = subprocess.run(["git", "ls-files", "-z"], cwd=root, stdout=subprocess.PIPE, check=True, text=True).stdout.split("\0")
    return [os.path.join(root, f) for f in out if f.endswith(ends) and os.path.exists(os.path.join(root, f)) and not f.startswith(("wip/", "tools/"))]


def snake(name):
    def one(m):
        return "_" + m.group(0).lower()

    out = re.sub(r"(?<=[a-z0-9'\u2080-\u2089])[A-Z]", one, name)
    return re.sub(r"(?<=[-_])[A-Z](?=[a-z0-9])", lambda m: m.group(0).lower(), out) if CAMEL.match(name) else out


def code_of(line, mark):
    at = line.find(mark)
    return (line, "") if at < 0 else (line[:at], line[at:])


def main(argv):
    root = subprocess.run(["git", "rev-parse", "--show-toplevel"], stdout=subprocess.PIPE, check=True, text=True).stdout.strip()
    antt = files(root, ".antt")
    rust = [f for f in files(root, ".rt")]
    kit, declared, camel, dashed = set(), set(), set(), set()
    for path in antt + rust:
        text = open(path, encoding="utf-8").read()
        for module, names in USE.findall(text):
            if not re.match(r"Rattle\.(" + "|".join(sorted(os.listdir(os.path.join(root, "crates")))) + r")\.", module + "."):
                for n in names.split(","):
                    kit.add(n.strip().split(" ")[0])
    for path in antt:
        in_record = False
        for line in open(path, encoding="utf-8"):
            code, _ = code_of(line.rstrip("\n"), "-- ")
            if re.match(r"^\s*(pub )?record .* where\s*$", code):
                in_record = len(code) - len(code.lstrip())
            elif in_record is not False and code.strip() and len(code) - len(code.lstrip()) <= in_record:
                in_record = False
            elif in_record is not False:
                m = FIELD.match(code)
                if m and "-" in m.group(1):
                    dashed.add(m.group(1))
            m = DEFINITION.match(code)
            if m and "-" in m.group(1) and not m.group(1).startswith(("invariant-", "decreases-")):
                dashed.add(m.group(1))
            m = DECLARED.match(code)
            if m:
                declared.add(m.group(1))
            for t in TOKEN.findall(code):
                if CAMEL.match(t):
                    camel.add(t)
    turned = {}
    for t in camel - kit:
        new = snake(t)
        if t in dashed:
            new = new.replace("-", "_")
        turned[t] = new
    for t in dashed - kit:
        turned[t] = snake(t).replace("-", "_")
    turned = {a: b for a, b in turned.items() if a != b}
    clash = [(a, b) for a, b in sorted(turned.items()) if b in declared or b in kit]
    back = {}
    for a, b in turned.items():
        back.setdefault(b, []).append(a)
    clash += [(" and ".join(sorted(a)), b) for b, a in sorted(back.items()) if len(a) > 1]
    for a, b in clash:
        print(f"falls together: {a} -> {b}")
    OTHER = {}
    path = os.path.join(root, "tools", "respell-otherwise.txt")
    if os.path.exists(path):
        for line in open(path, encoding="utf-8"):
            if line.strip() and not line.startswith("#"):
                a, b = line.split()
                OTHER[a] = b
    turned.update(OTHER)
    left = [c for c in clash if not any(a in OTHER for a in c[0].split(" and "))]
    print(f"{len(turned)} names, {len(left)} that fall together and have no other name in {os.path.basename(path)}")
    if "--dry" in argv:
        for a, b in sorted(turned.items()):
            print(a, b)
        return 0
    if left:
        return 1

    def in_code(text):
        return TOKEN.sub(lambda m: turned.get(m.group(0), m.group(0)), text)

    def in_words(text):
        return TOKEN.sub(lambda m: turned.get(m.group(0), m.group(0)) if CAMEL.match(m.group(0)) else m.group(0), text)

    for path in antt + rust + files(root, ".edit"):
        old = open(path, encoding="utf-8").read()
        out, inside = [], path.endswith((".antt", ".edit"))
        for line in old.split("\n"):
            code, words = code_of(line, "//" if path.endswith(".rt") else "-- ")
            if path.endswith(".rt"):
                # of Rust only what is written in antt: imports of ghost names, and clauses
                if inside or re.match(r"^\s*(ghost|requires|ensures|pub ghost)\b", code):
                    opened = code.count("{") - code.count("}") if not code.lstrip().startswith("ghost use") else code.count("{") - code.count("}")
                    out.append(in_code(code) + in_words(words))
                    inside = opened > 0 or (inside and opened == 0)
                    continue
                out.append(code + in_words(words))
            else:
                out.append(in_code(code) + in_words(words))
        new = "\n".join(out)
        if new != old:
            open(path, "w", encoding="utf-8").write(new)
    for path in files(root, (".md", ".h", ".rs")):
        old = open(path, encoding="utf-8").read()
        new = re.sub(r"`[^`\n]+`", lambda m: in_words(m.group(0)), old) if path.endswith(".md") else old
        if new != old:
            open(path, "w", encoding="utf-8").write(new)
    return 0


if __name__ == "__main__":
    raise SystemExit(main(sys.argv[1:]))
