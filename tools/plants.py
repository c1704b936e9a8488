#!/usr/bin/env python3
"""Plants bugs in the bodies of a crate's src/, one in a function at a time, and asks the prover of each.

    tools/plants.py COPY CRATE COUNT SEED [ONLY]

COPY is a copy of the repository that may be changed, in which `rt check` of CRATE has passed. Of all places where a bug of a kind
can be planted a kind is drawn first and then a place of it, so that kinds with many places are not favoured; a program that does
not compile is drawn again. Bugs of several functions are tried in one check, since a function's proof reads only its own body and
the contracts of what it calls; one that is not refused there is tried again alone. A line is printed for each bug: refused, PROVED
(with what stood there and what was planted), or undecided; and a last line with the counts. The same SEED plants the same bugs.
ONLY, if given, plants only in files whose path has it.
"""
import pathlib, random, re, subprocess, sys

GROUPS = [["strike", "days", "price", "quantity"], ["article", "first", "second", "third", "sets"], ["one", "two", "three", "four"],
          ["floor", "futures", "tracking", "spot", "price"], ["total", "floor"], ["positions", "claims", "total"], ["low", "high"],
          ["size", "held", "claims", "marks"], ["at", "line_number"], ["given", "held"], ["put", "call", "futures"], ["long", "short"]]
COMPARE = {"<": ["<=", ">"], "<=": ["<", ">="], ">": [">=", "<"], ">=": [">", "<="], "==": ["!="], "!=": ["=="]}
ARITH = {"+": ["-"], "-": ["+"], "*": ["+"], "+=": ["-="], "-=": ["+="]}
WORDS = {"saturating_sub": "saturating_add", "saturating_add": "saturating_sub", "checked_sub": "checked_add", "checked_add": "checked_sub",
         "is_some": "is_none", "is_none": "is_some", "is_none_or": "is_some_and", "is_some_and": "is_none_or", "is_ok": "is_err",
         "true": "false", "false": "true", "abs_diff": "saturating_sub", "any": "all", "all": "any"}


def bodies(lines):
    """The lines that are code of a body or an enum's discriminant, and those that open a function's body with its result type."""
    code, opens, result, depth, ghost = [], [], None, 0, 0
    pending = ""
    for i, line in enumerate(lines):
        s = line.strip()
        if ghost > 0:
            ghost += s.count("{") - s.count("}")
            continue
        if re.match(r"(ghost|ensures|requires)\b", s):
            d = s.count("{") - s.count("}")
            if d > 0:
                ghost = d
            continue
        if s.startswith(("//", "#", "use ", "pub use ", "mod ", "pub mod ", "pub(crate) mod", "impl", "pub trait", "type ", "pub type")) or not s:
            continue
        if re.search(r"\bfn \w+", s):
            pending = s
            if s.endswith("{"):
                opens.append((i, pending))
                pending = ""
            continue
        if pending:
            if s == "{":
                opens.append((i, pending))
                pending = ""
            elif s.endswith("{") and s.startswith(")"):
                opens.append((i, pending + s))
                pending = ""
            else:
                pending += s
            continue
        if s.endswith(";") and re.match(r"fn ", s):
            continue
        code.append(i)
    return code, opens


def enums(root):
    found = {}
    for p in root.glob("crates/*/src/*.rt"):
        for m in re.finditer(r"enum (\w+)(?:<[^>]*>)? \{(.*?)\n\}", p.read_text(), re.S):
            for v in re.findall(r"^    (\w+)(\(|\s*\{)?", m.group(2), re.M):
                found.setdefault(m.group(1), []).append((v[0], v[1].strip()))
    return found


def sites(root, crate, only):
    out = []
    kinds = enums(root)
    for p in sorted((root / "crates" / crate / "src").glob("**/*.rt")):
        if only and only not in str(p):
            continue
        lines = p.read_text().split("\n")
        code, opens = bodies(lines)

        def put(kind, i, new):
            if new != lines[i]:
                out.append((kind, p, i, new))

        for i in code:
            line = lines[i]
            bare = re.sub(r'"[^"]*"', lambda m: "~" * len(m.group()), line.split(" // ")[0])
            for m in re.finditer(r"(?<= )(<=|>=|<|>|==|!=)(?= )", bare):
                for r in COMPARE[m.group()]:
                    put("compare", i, line[:m.start()] + r + line[m.end():])
            for m in re.finditer(r"(?<= )(\+=|-=|\+|-|\*)(?= )", bare):
                for r in ARITH[m.group()]:
                    put("arithmetic", i, line[:m.start()] + r + line[m.end():])
            for m in re.finditer(r"(?<![\w.])\d[\d_]*(?!\w|\.\d)|(?<=\.\.=)\d[\d_]*", bare):
                n = int(m.group().replace("_", ""))
                for r in {n + 1, max(n - 1, 0)}:
                    put("constant", i, line[:m.start()] + str(r) + line[m.end():])
            for m in re.finditer(r"b'(\\?.)'", bare):
                c = m.group(1)
                if len(c) == 1:
                    put("constant", i, line[:m.start()] + "b'" + chr(ord(c) + 1) + "'" + line[m.end():])
            for m in re.finditer(r"(?<!b)'(\w)'", bare):
                put("constant", i, line[:m.start()] + "'" + chr(ord(m.group(1)) + 1) + "'" + line[m.end():])
            for m in re.finditer(r'"([^"\\]*)(?:\\.[^"\\]*)*"', line):
                t = m.group(1)
                if not t:
                    continue
                if len(t) > 1:
                    put("text", i, line[:m.start() + 1] + t[:-2] + t[-1] + t[-2] + line[m.end(1):])
                put("text", i, line[:m.start() + 1] + t[1:] + line[m.end(1):])
            for m in re.finditer(r"&&|\|\|", bare):
                put("logic", i, line[:m.start()] + ("||" if m.group() == "&&" else "&&") + line[m.end():])
            for m in re.finditer(r"(?<=[ (])!(?=[\w(])", bare):
                put("logic", i, line[:m.start()] + line[m.end():])
            for m in re.finditer(r"\b(" + "|".join(WORDS) + r")\b", bare):
                put("word", i, line[:m.start()] + WORDS[m.group()] + line[m.end():])
            for m in re.finditer(r"\.(min|max)\(", bare):
                put("min or max", i, line[:m.start(1)] + ("max" if m.group(1) == "min" else "min") + line[m.end(1):])
            for m in re.finditer(r"(?<=[\w>])\(([^(),]+), ([^(),]+)(?=[,)])", bare):
                a, b = line[m.start(1):m.end(1)], line[m.start(2):m.end(2)]
                put("arguments", i, line[:m.start()] + "(" + b + ", " + a + line[m.end():])
            for m in re.finditer(r"\.(\w+)(?![\w(])", bare):
                for g in GROUPS:
                    if m.group(1) in g:
                        for r in g:
                            if r != m.group(1):
                                put("field", i, line[:m.start(1)] + r + line[m.end(1):])
            for m in re.finditer(r"\b([A-Z]\w*)::([A-Z]\w*)", bare):
                vs = kinds.get(m.group(1), [])
                mine = [v for v in vs if v[0] == m.group(2)]
                for v in vs:
                    if mine and v[0] != m.group(2) and v[1] == mine[0][1]:
                        put("case", i, line[:m.start(2)] + v[0] + line[m.end(2):])
            s = line.strip()
            if s.endswith(";") and not s.startswith(("let", "return", "}", ".")) and re.match(r"[\w.*\[\]&]+", s) and s.count("(") == s.count(")"):
                put("dropped", i, "")
            if re.match(r".* => .*,$", s) and i + 1 in code and re.match(r".* => .*,$", lines[i + 1].strip()):
                here, there = line.split(" => ", 1), lines[i + 1].split(" => ", 1)
                if here[1] != there[1]:
                    put("arm", i, here[0] + " => " + there[1])
        for i, sig in opens:
            m = re.search(r"-> (.*?)(?:\{|$| where)", sig)
            t = (m.group(1).strip() if m else "()")
            give = None
            if t.startswith(("Result<()", "fmt::Result")):
                give = "Ok(())"
            elif t.startswith("Option<"):
                give = "None"
            elif t == "bool":
                give = random.Random(i).choice(["true", "false"])
            elif re.match(r"[ui](8|16|32|64|128|size)$", t):
                give = "0"
            elif t == "()":
                give = ""
            # A body that gives this anyhow would be the same program.
            if give is not None and lines[i + 1].strip() not in (give, "{}"):
                put("early return", i, lines[i] + " return " + give + ";")
    return out


def run(args, cwd):
    return subprocess.run(args, cwd=cwd, stdout=subprocess.PIPE, stderr=subprocess.STDOUT, text=True)


# How many bugs are tried in one check.
TOGETHER = 8


def functions(lines):
    """For each line the first line of the function that it stands in, or -1."""
    found, at = [-1] * len(lines), 0
    while at < len(lines):
        m = re.match(r"( *)(pub(\(crate\))? )?(const )?fn \w+", lines[at])
        end = next((j for j in range(at, len(lines)) if lines[j] == m.group(1) + "}" or lines[j].endswith(";") and j == at), at) if m else at
        if m:
            found[at:end + 1] = [at] * (end + 1 - at)
        at = end + 1
    return found


class Bug:
    def __init__(self, site):
        self.kind, self.file, self.line, self.new = site
        lines = self.file.read_text().split("\n")
        self.old = lines[self.line]
        first = functions(lines)[self.line]
        self.function = (self.file, first if first >= 0 else f"line {self.line}")
        self.alone = first < 0
        self.lines = functions(lines)

    def holds(self, line):
        """Whether a line, from 1, stands in the same function."""
        return 0 < line <= len(self.lines) and not self.alone and self.lines[line - 1] == self.function[1]

    def text(self, said):
        return f"{said}\t{self.kind}\t{self.file.name}:{self.line + 1}\t{self.old.strip()}\t=>\t{self.new.strip()}"


def planted(bugs):
    """Plants bugs of distinct functions, and gives what puts the files back."""
    texts = {}
    for bug in bugs:
        texts.setdefault(bug.file, bug.file.read_text())
    for file, text in texts.items():
        lines = text.split("\n")
        for bug in bugs:
            if bug.file == file:
                lines[bug.line] = bug.new
        file.write_text("\n".join(lines))
    return texts


def tried(bugs, cwd, *flags):
    texts = planted(bugs)
    try:
        return run(["rt", "check", *flags], cwd)
    finally:
        for file, text in texts.items():
            file.write_text(text)


def are_programs(bugs, cwd):
    """Those that compile, each with the others that do."""
    if not bugs or tried(bugs, cwd, "--only", "").returncode == 0:
        return bugs
    if len(bugs) == 1:
        return []
    half = len(bugs) // 2
    both = are_programs(bugs[:half], cwd) + are_programs(bugs[half:], cwd)
    return both


def judged(bugs, cwd):
    """What the prover says of each."""
    r = tried(bugs, cwd, "--jobs", "1")
    if len(bugs) == 1:
        said = {0: "PROVED", 1: "refused"}.get(r.returncode, "undecided")
        if said != "PROVED" and re.search(r"^error(\[|:)|cannot compile|mismatched types", r.stdout, re.M) and "not proved" not in r.stdout:
            said = "no program"
        return [said]
    told = [(m.group(1), int(m.group(2))) for m in re.finditer(r"^(?:note: )?(src/\S+?\.rt):(\d+):\d+:.*(?:not proved|may be false|no proof)", r.stdout, re.M)]
    out = []
    for bug in bugs:
        at = str(bug.file.relative_to(cwd))
        hit = r.returncode == 1 and any(f == at and bug.holds(n) for f, n in told)
        out.append("refused" if hit else judged([bug], cwd)[0])
    return out


def main():
    root, crate, count, seed = pathlib.Path(sys.argv[1]).resolve(), sys.argv[2], int(sys.argv[3]), sys.argv[4]
    only = sys.argv[5] if len(sys.argv) > 5 else ""
    rng = random.Random(f"{crate} {seed}")
    pool = {}
    for s in sites(root, crate, only):
        pool.setdefault(s[0], []).append(s)
    for kind in pool:
        rng.shuffle(pool[kind])
    places = sum(len(v) for v in pool.values())
    cwd = root / "crates" / crate
    done = {"refused": 0, "PROVED": 0, "undecided": 0}
    no_program = 0
    waiting = []
    while sum(done.values()) < count and (waiting or any(pool.values())):
        # the next bugs, of distinct functions; those of a function that has one already wait for the next check
        batch, later = [], []
        for bug in waiting:
            (later if any(b.function == bug.function for b in batch) or len(batch) >= TOGETHER else batch).append(bug)
        waiting = later
        while len(batch) < min(TOGETHER, count - sum(done.values())) and any(pool.values()) and len(waiting) < 3 * TOGETHER:
            kind = rng.choice(sorted(k for k in pool if pool[k]))
            bug = Bug(pool[kind].pop())
            if any(b.function == bug.function for b in batch) or bug.alone and batch:
                waiting.append(bug)
            else:
                batch.append(bug)
                if bug.alone:
                    break
        right = are_programs(batch, cwd)
        no_program += len(batch) - len(right)
        for bug, said in zip(right, judged(right, cwd) if right else []):
            if said == "no program":
                no_program += 1
                continue
            done[said] += 1
            print(bug.text(said), flush=True)
    print(f"{crate}: {sum(done.values())} planted, {done['refused']} refused, {done['PROVED']} proved, {done['undecided']} undecided; "
          f"{no_program} were no program; {places} places", flush=True)


if __name__ == "__main__":
    main()
