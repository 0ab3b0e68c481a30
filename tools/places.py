#!/usr/bin/env python3
"""Lists the places in crates/*/src (and, for point 8, crates/*/proofs) that could be written in a newer form.

    python3 tools/places.py [--list] [COMMIT]

It reads the work tree, or a commit, and prints how many places of each kind it finds; with --list each place too.
It goes by text: what it finds is looked at by a reader, and what it cannot find a reader has to find."""
import collections
import re
import subprocess
import sys

LIST = "--list" in sys.argv
COMMITS = [a for a in sys.argv[1:] if not a.startswith("--")]
COMMIT = COMMITS[0] if COMMITS else None


def run(*words):
    return subprocess.run(words, capture_output=True, text=True, check=True).stdout


def names():
    if COMMIT:
        return run("git", "ls-tree", "-r", "--name-only", COMMIT, "crates").splitlines()
    return run("git", "ls-files", "-co", "--exclude-standard", "crates").splitlines()


def text(name):
    if COMMIT:
        return run("git", "show", f"{COMMIT}:{name}")
    with open(name) as f:
        return f.read()


SOURCES = {n: text(n) for n in names() if "/src/" in n and n.endswith(".rt")}
PROOFS = {n: text(n) for n in names() if "/proofs/" in n and n.endswith(".antt")}


def lines_with(pattern, only=lambda n: True):
    regex = re.compile(pattern)
    for name, body in SOURCES.items():
        if only(name):
            for i, line in enumerate(body.splitlines(), 1):
                code = line.split("//")[0]
                if regex.search(code):
                    yield f"{name}:{i}: {line.strip()}"


def in_crates(*crates):
    return lambda n: n.split("/")[1] in crates


def functions():
    """Name of the file, line, head (to the contract), contract and body of each function."""
    for name, body in SOURCES.items():
        for m in re.finditer(r"^( *)(pub(\(crate\))? )?fn (\w+)", body, re.M):
            end = re.search(rf"^{m.group(1)}\}}", body[m.start():], re.M)
            whole = body[m.start(): m.start() + (end.end() if end else 0)]
            parts = re.split(r"\n" + m.group(1) + r"\{\n| \{\n", whole, maxsplit=1)
            head = parts[0]
            contract = "\n".join(l for l in head.splitlines() if re.match(r"\s*(requires|ensures)", l))
            yield name, body[: m.start()].count("\n") + 1, m.group(4), head, contract, parts[1] if len(parts) > 1 else ""


WORDS = {"fn", "let", "mut", "match", "if", "else", "for", "in", "while", "return", "Ok", "Err", "Some", "None", "self", "as", "true", "false"}


def skeleton(body):
    seen = {}
    out = []
    for token in re.findall(r"\w+|[^\w\s]", re.sub(r"//.*", "", body)):
        if re.match(r"\d", token):
            out.append("0")
        elif token in WORDS or not re.match(r"\w", token):
            out.append(token)
        else:
            out.append(seen.setdefault(token, f"n{len(seen)}"))
    return tuple(out)


def shared(groups):
    return [" = ".join(places) for places in groups.values() if len(places) > 1]


def twins():
    groups = collections.defaultdict(list)
    for name, line, fn, head, contract, body in functions():
        if "/tests.rt" in name or "#[test]" in head:
            continue
        s = skeleton(body)
        if len(s) >= 14:
            groups[s].append(f"{name}:{line}: {fn}")
    return shared(groups)


def struct_twins():
    groups = collections.defaultdict(list)
    for name, body in SOURCES.items():
        for m in re.finditer(r"^(?:pub(?:\(crate\))? )?struct (\w+)[^{;\n]*\{\n(.*?)^\}", body, re.M | re.S):
            fields = tuple(re.findall(r"^\s*(?:pub(?:\(crate\))? )?(\w+):", m.group(2), re.M))
            if len(fields) >= 2:
                groups[fields].append(f"{name}: {m.group(1)}")
    return shared(groups)


def own_shapes():
    words = r"\b(Nothing|NotFound|Accepted|Refused|Different|FirstRefused|SecondRefused|Unfit)\b"
    for name, body in SOURCES.items():
        for m in re.finditer(r"^(?:pub(?:\(crate\))? )?enum (\w+)[^{\n]*\{\n(.*?)^\}", body, re.M | re.S):
            inner = re.sub(r"//.*", "", m.group(2))
            found = sorted(set(re.findall(words, inner)))
            if found:
                yield f"{name}: {m.group(1)} ({', '.join(found)})"


def repeated_facts():
    uses = collections.defaultdict(set)
    for name, line, fn, head, contract, body in functions():
        crate = name.split("/")[1]
        for clause in re.findall(r"requires[^{]*\{(.*)\}", contract):
            for word in re.findall(r"\b([A-Z]\w+) [\w(]", clause):
                uses[crate, word].add(f"{name}:{fn}")
    for (crate, word), places in sorted(uses.items()):
        if len(places) >= 3:
            yield f"{crate}: {word} is required by {len(places)} functions"


def travelling():
    uses = collections.Counter()
    for name, line, fn, head, contract, body in functions():
        crate = name.split("/")[1]
        params = re.findall(r"(\w+): (&?(?:mut )?[\w:\[\]<>& ]+)", head.split("->")[0])
        kinds = frozenset((p, t.strip()) for p, t in params)
        if len(kinds) >= 3:
            ordered = sorted(kinds)
            for i in range(len(ordered)):
                for j in range(i + 1, len(ordered)):
                    for k in range(j + 1, len(ordered)):
                        uses[crate, ordered[i], ordered[j], ordered[k]] += 1
    best = collections.defaultdict(lambda: (0, ()))
    for (crate, *three), n in uses.items():
        if n >= 4:
            key = crate, three[0][0]
            best[key] = max(best[key], (n, tuple(p for p, _ in three)))
    for (crate, _), (n, three) in sorted(best.items()):
        yield f"{crate}: {', '.join(three)} in {n} functions"


def repeated_answers():
    groups = collections.defaultdict(list)
    for name, body in PROOFS.items():
        if name.endswith("/Answers.antt"):
            for m in re.finditer(r"^(\S+) (?:t |g )*c = ?(.*(?:\n .*)*)", body, re.M):
                answer = re.sub(r"\s+", " ", m.group(2)).strip()
                if len(answer) > 50:
                    groups[name, answer].append(m.group(1))
    for (name, answer), places in groups.items():
        if len(places) >= 3:
            yield f"{name}: {len(places)} answers: {answer[:80]}"


KINDS = [
    ("1a own enums with a variant that says none or refused", own_shapes),
    ("1b bare numbers as refusals", lambda: lines_with(r"Result<[^,]*,\s*(u8|u16|u32|usize)>|Option<u8>|\bnumber: u8|\((u8(, u8)*)\),")),
    ("1c numbers for kinds, in tests", lambda: lines_with(r"\b(code|\.v|\.w|\bv|\bw|local) (==|!=|<=|>=|<|>) \d|\b\d+ (==|<=|<) (v|w|code)\b|limit == \d", in_crates("rule", "sameness", "feed", "scripts"))),
    ("1d numbers for kinds, in arms", lambda: lines_with(r"^\s*\d+(\.\.=\d+)?( \| \d+)* =>|matches!\([^,]*, \d", in_crates("rule", "sameness", "feed"))),
    ("1e flags and marks", lambda: lines_with(r"\bconst (FREE|NONE): |\[0u8; |: bool,|, \w+: bool[,)]")),
    ("1f a Result or an Option passed on arm by arm", lambda: lines_with(r"Err\((\w+)\) => (return )?Err\(|None => (return )?Err\(|Err\(_\) => |Ok\((\w+)\) => \3,|Some\((\w+)\) => \4,|None => None")),
    ("2a functions with one skeleton", twins),
    ("2b structs with the same fields", struct_twins),
    ("3a while", lambda: lines_with(r"\bwhile\b(?! let)")),
    ("3b for over a range of indices", lambda: lines_with(r"\bfor \w+ in [^{]*\.\.[^{]*\{")),
    ("3c counters", lambda: lines_with(r"\b\w+ \+= 1;|= \w+\.saturating_add\(1\)")),
    ("4a equality by number", lambda: lines_with(r"as u\d+ == ")),
    ("4b texts and conversions by hand", lambda: lines_with(r"fn \w+\((text|word): &str\) -> Option|fn \w+\(self\) -> (&'static str|Expected|Kind)\b")),
    ("4c empty values written out", lambda: lines_with(r"^\s*(start|code): 0,$")),
    ("4d plurals by hand", lambda: lines_with(r"if \w+ == 1 \{ \"")),
    ("5a facts that three or more contracts require", repeated_facts),
    ("5b three parameters together in four or more functions", travelling),
    ("6a arrays of a fixed length", lambda: lines_with(r"\[[^\]]+; (\d{2,}|[A-Z_]{3,})\]")),
    ("6b a start or a count beside", lambda: lines_with(r"^\s*(pub )?(count|first|len|start): usize,")),
    ("7 a match that picks a hasher", lambda: lines_with(r"HasherName::(Rotating|Fnv1a) => .*::<")),
    ("8 an answer given three times or more in a file", repeated_answers),
]

for title, find in KINDS:
    found = list(find())
    print(f"{len(found):4}  {title}")
    if LIST:
        for place in found:
            print(f"        {place}")
