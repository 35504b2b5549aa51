#!/usr/bin/env python3
"""Counts the places of the design pass (docs/DESIGN-PASS.md) in the sources of a checkout.

    python3 tools/places.py [CHECKOUT] [-v]

Each line is a kind of place, by the point of the pass; -v lists the places too. What a pattern finds is a place to
look at: the page says which of them are changed and which are kept, and why."""
import collections, glob, os, re, sys

args = [a for a in sys.argv[1:] if a != "-v"]
VERBOSE = "-v" in sys.argv[1:]
ROOT = args[0] if args else "."
# Crates without code of their own: definitions and tables of cases.
FILES = sorted(glob.glob(f"{ROOT}/crates/*/src/**/*.rt", recursive=True))


def functions():
    """Yields file, line, name, parameters, contract and body of each function with a body."""
    for file in FILES:
        text = open(file, encoding="utf-8").read()
        for it in re.finditer(r"^( *)(pub )?(extern \"C\" )?fn (\w+)", text, re.M):
            end = text.find("\n" + it[1] + "}\n", it.end())
            if end < 0:
                end = len(text)
            whole = text[it.start():end]
            head = re.search(r"\n" + it[1] + r"\{\n", whole)
            if not head and not re.search(r"\{\n", whole):
                continue
            cut = head.start() if head else whole.index("{\n")
            top, body = whole[:cut], whole[cut:]
            clauses = re.search(r"\n\s*(requires|ensures)\b", top)
            sign = top[:clauses.start()] if clauses else top
            contract = top[clauses.start():] if clauses else ""
            open_at = sign.index("(")
            close = sign.rindex(")") if "->" not in sign else sign.rindex(")", 0, sign.index("->"))
            params = [p.strip() for p in re.split(r",(?![^\[<(]*[\]>)])", sign[open_at + 1:close]) if p.strip()]
            line = text.count("\n", 0, it.start()) + 1
            yield os.path.relpath(file, ROOT), line, it[4], params, contract, body, sign


ALL = list(functions())
COUNTS = []


def say(point, what, places):
    places = list(places)
    COUNTS.append((point, what, len(places)))
    print(f"{point}  {len(places):4}  {what}")
    if VERBOSE:
        for it in places:
            print(f"            {it}")


def lines(pattern, but=None):
    for file in FILES:
        for n, line in enumerate(open(file, encoding="utf-8"), 1):
            if re.search(pattern, line) and not line.lstrip().startswith("//") and not (but and re.search(but, line)):
                yield f"{os.path.relpath(file, ROOT)}:{n}: {line.strip()}"


def names(it):
    return {p.split(":")[0].replace("mut ", "").strip() for p in it[3]}


def where(it):
    return f"{it[0]}:{it[1]} {it[2]}"


# 1: own enums of the shape of Option or Result; flags beside values; numbers for kinds or refusals.
def enums():
    for file in FILES:
        text = open(file, encoding="utf-8").read()
        for it in re.finditer(r"^(?:pub )?enum (\w+) \{(.*?)^\}", text, re.M | re.S):
            variants = re.findall(r"^    (\w+)(\(.*?\))?,", it[2], re.M)
            if len(variants) == 2:
                yield f"{os.path.relpath(file, ROOT)} {it[1]}: {', '.join(v + w for v, w in variants)}"


say(1, "enums of two variants, one of them empty or a refusal", enums())
say(1, "functions that answer a Verdict with Safe among its variants",
    (where(it) for it in ALL if re.search(r"-> Verdict\s*$", it[6])))
say(1, "tests of a verdict for safe, and its return (`if !is_safe(v) { return v; }`)", lines(r"is_safe\("))
say(1, "structs with a flag or a verdict beside a value",
    (x for x in lines(r"^\s*(pub )?(all|verdict|line): (bool|Verdict|usize),")))
say(1, "flags as parameters beside the set that they speak of",
    (where(it) for it in ALL if names(it) & {"narrow", "asked", "wanted"} and "within" in names(it) | ({"within"} if "asked" in names(it) else set())
     and any(re.match(r"(narrow|asked|wanted): bool", p) for p in it[3])))
say(1, "kinds as numbers: `kind` of a step or a rule", lines(r"\bkind: usize|\.kind (==|!=|<|>=?) \d|\bkind < \d|\bkind == \d"))
say(1, "codes as numbers: functions that answer 0, 1 or 2, or bits with LACKS",
    (where(it) for it in ALL if re.search(r"-> (usize|u32)", it[6]) and
     (re.search(r"\bLACKS\b", it[5]) or len(set(re.findall(r"(?:^\s+|\{ |return |=> )([012])(?:;| \}|,|\n)", it[5], re.M))) >= 2)
     and re.search(r"_code|code_|asks|asked|common|settle|_bits|unless|branches_here|third_tag|effect_kind|is_again", it[2] + it[5])))

def sentinels():
    for file in FILES:
        text = open(file, encoding="utf-8").read()
        for it in re.finditer(r"((?:^ *// .*\n)+)^ *(?:pub )?fn (\w+)[^{;]*?-> (?:usize|u16|u32)\b", text, re.M):
            said = it[1].replace("\n//", "")
            if re.search(r"where none|where there is none|where it is not there|where it raises none|; S where|, or (64|256)\.|where it raises", said):
                yield f"{os.path.relpath(file, ROOT)} {it[2]}"


say(1, "functions whose number stands for none (the count, the size, a number past all)", sentinels())

# 2: twins: functions whose text is the same but for names of types, numbers and callees.
def shape(it):
    text = it[6] + it[4] + it[5]
    text = re.sub(r"//.*", "", text)
    text = re.sub(r"\bfn \w+", "fn F", text)
    text = re.sub(r"::<\w+>", "", text)
    text = re.sub(r"\b[a-z_0-9]+\(\)", "f()", text)
    text = re.sub(r"\b(u8|u16|u32|u64|usize)\b", "T", text)
    text = re.sub(r"\b\d+\b", "N", text)
    text = re.sub(r"\b[A-Z][A-Z_0-9]+\b", "K", text)
    return re.sub(r"\s+", " ", text)


groups = collections.defaultdict(list)
for it in ALL:
    groups[shape(it)].append(it)
say(2, "functions that differ from another only in a size, a constant or a type of words",
    (where(x) for g in groups.values() if len(g) > 1 for x in g))
STEMS = r"^(few|more|all|small|middle|large|tiny|short|long)_(\w+)$"
stems = collections.defaultdict(list)
for it in ALL:
    m = re.match(STEMS, it[2])
    if m:
        stems[(it[0], m[2])].append(it)
say(2, "functions of one shape for two or three sizes of scratch",
    (where(x) for g in stems.values() if len(g) > 1 for x in g))
say(2, "arrays of zeros made by a function for each length", (where(it) for it in ALL if re.match(r"words(16|32|64)(_\d+)?$", it[2])))

# 3: loops that count an index by hand.
say(3, "`while` and `loop`", lines(r"^\s*('\w+: )?(while|loop)\b"))


def indexed():
    for it in ALL:
        for m in re.finditer(r"^(\s*)(?:'\w+: )?for (\w+) in ([^{]*?)\.\.", it[5], re.M):
            end = it[5].find(f"\n{m[1].strip(chr(10))}}}", m.end())
            part = it[5][m.end():end]
            if m[2] != "_" and re.search(r"\w\[[^\]]*\b" + m[2] + r"\b[^\]]*\]", part):
                yield f"{where(it)}: for {m[2]} in {m[3]}.."


say(3, "`for` over an index that indexes a slice", indexed())

# 4: equality, order, copying, conversion and printing by hand.
say(4, "the lesser, the greater and a difference that stops at 0, by `if`",
    (where(it) for it in ALL if len(it[5].strip().splitlines()) <= 4 and
     re.search(r"if (\w+) (<|>|<=|>=|==) (\w+) \{ (\w+|0)( - \w+)? \} else \{ (\w+|0)( - \w+)? \}", it[5])
     and re.search(r"\{\s*if (\w+) (?:<|>|==) (\w+) \{ (?:\1|\2|0|\1 - \2) \} else \{ (?:\1|\2|0|\1 - \w+) \}\s*$", it[5].strip())))
say(4, "conversions by a function of their own", (where(it) for it in ALL if re.match(r"wide|told_of|as_limit$", it[2])))
say(4, "numbers printed by hand", (where(it) for it in ALL if re.match(r"put_(decimal|digits|pair|line|byte|end|hex)$|digit_of|width_of", it[2])))

# 5: facts in three contracts and more; parameters that travel together.
facts = collections.Counter()
for it in ALL:
    for m in re.finditer(r"requires (?:\w+ )?\{ ?\(?([A-Z]\w+) ", it[4]):
        facts[m[1]] += 1
say(5, "facts that three or more contracts ask for", (f"{k}: {n}" for k, n in facts.most_common() if n >= 3))
for group in (["ws", "s"], ["narrow", "fitting", "names", "letters"], ["starts", "flow", "mail", "may", "held"],
              ["limits", "ceilings", "n", "holders"], ["over", "near"], ["weights", "lines", "n", "k"],
              ["fitting", "names", "letter_at", "letters"]):
    say(5, "functions with " + ", ".join(group), (where(it) for it in ALL if set(group) <= names(it)))
say(5, "functions with eight parameters or more", (f"{where(it)}: {len(it[3])}" for it in ALL if len(it[3]) >= 8))

# 6: buffers with a length beside, parallel arrays, lists searched by hand.
for group in (["tos", "others"], ["froms", "tos"], ["firsts", "nexts"], ["out", "at"]):
    say(6, "functions with the parallel arrays, or the buffer and its place, " + ", ".join(group),
        (where(it) for it in ALL if set(group) <= names(it)))
say(6, "searches by halves", lines(r"\(high - low\) / 2"))

# 7: switches on which step to run, tables of functions.
say(7, "switches on a flag, a kind or a table of functions (a `match` on a row's tag is the form that the format asks for)",
    (where(it) for it in ALL if re.search(r"match (kind|step|which|op)\b", it[5])))

# 8: proofs.
answers = glob.glob(f"{ROOT}/crates/*/proofs/**/Answers.antt", recursive=True)
text = [open(f, encoding="utf-8").read() for f in answers]
print(f"8  {sum(len(re.findall(r'^pub [^ ]+ : (?:g|goal)[.]', t, re.M)) for t in text):4}  answers, in {len(answers)} files of {sum(t.count(chr(10)) for t in text)} lines")
