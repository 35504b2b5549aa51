#!/usr/bin/env python3
"""Lists what changed in the interfaces since a commit: public functions (signature and clauses), public types, and the
definitions of specs/, old and new one below the other, as Markdown.

    python3 tools/changed.py COMMIT"""
import re, subprocess, sys, glob, os

OLD = sys.argv[1]


def run(*words):
    return subprocess.run(words, capture_output=True, text=True, check=True).stdout


def sources(new):
    if new:
        names = [f for k in ("rt", "antt") for f in glob.glob(f"crates/*/**/*.{k}", recursive=True) if "/out/" not in f]
        return {f: open(f, encoding="utf-8").read() for f in names}
    names = [f for f in run("git", "ls-tree", "-r", "--name-only", OLD, "crates").split() if f.endswith((".rt", ".antt"))]
    out = {}
    cat = subprocess.Popen(["git", "cat-file", "--batch"], stdin=subprocess.PIPE, stdout=subprocess.PIPE)
    for f in names:
        cat.stdin.write(f"{OLD}:{f}\n".encode()); cat.stdin.flush()
        size = int(cat.stdout.readline().split()[2])
        out[f] = cat.stdout.read(size + 1)[:-1].decode()
    return out


def flat(t):
    t = re.sub(r"^\s*//.*\n", "", t, flags=re.M)
    return re.sub(r"\(\s", "(", re.sub(r",?\s*\)", ")", re.sub(r"\s+", " ", t))).strip()


def functions(files):
    found = {}
    for f, t in files.items():
        if not f.endswith(".rt"):
            continue
        crate = f.split("/")[1]
        for m in re.finditer(r"^( *)pub (?:extern \"C\" )?fn (\w+)(.*?)^\1\{\n", t, re.M | re.S):
            found[(crate, m[2])] = flat("fn " + m[2] + m[3])
        for m in re.finditer(r"^( *)pub fn (\w+)([^\n{]*(?:\n(?! *\{)[^\n]*)*?) \{\n", t, re.M):
            found.setdefault((crate, m[2]), flat("fn " + m[2] + m[3]))
    return found


def types(files):
    found = {}
    for f, t in files.items():
        if f.endswith(".rt"):
            for m in re.finditer(r"^pub (struct|enum) (\w+)(.*?)(?:^\}|;\n)", t, re.M | re.S):
                found[(f.split("/")[1], m[2])] = flat(m[1] + " " + m[2] + m[3] + "}")
    return found


def definitions(files):
    found = {}
    for f, t in files.items():
        if f.endswith(".antt") and "/specs/" in f and not f.endswith("Lib.antt"):
            crate = f.split("/")[1] + " " + f.split("/specs/")[1][:-5]
            t = re.sub(r"^--.*\n", "", t, flags=re.M)
            for b in re.split(r"\n(?=\S)", t):
                m = re.match(r"(?:unfoldable |abbrev )?(?:pub )?(?:record |data |abbrev pub |infix\w* )?(\S+)", b)
                if m and not b.startswith(("use ", "infix", "module", "mutual", "unfolding")):
                    key = (crate, m[1])
                    found[key] = (found[key] + " ; " if key in found else "") + re.sub(r"\s+", " ", b).strip()
    return found


old, new = sources(False), sources(True)
for title, of in (("Public functions", functions), ("Public types", types), ("Definitions of specs/", definitions)):
    a, b = of(old), of(new)
    print(f"\n### {title}\n")
    for key in sorted(a.keys() | b.keys()):
        if a.get(key) == b.get(key):
            continue
        print(f"- `{key[0]}` `{key[1]}`")
        print(f"  - old: {'`' + a[key] + '`' if key in a else 'none'}")
        print(f"  - new: {'`' + b[key] + '`' if key in b else 'gone'}")
