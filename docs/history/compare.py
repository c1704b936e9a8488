#!/usr/bin/env python3
"""compare.py OLD NEW: the contracts and the laws of the crates in OLD, before the rooms and words, beside those in NEW.

OLD and NEW are checkouts. Two clauses are the same where their tokens are, but for the names in names.txt beside this file.
It prints REDESIGN.md's lists: functions that are gone, and clauses that read otherwise, old and new."""
import os
import re
import sys

HERE = os.path.dirname(os.path.abspath(__file__))
CRATES = dict(line.split() for line in open(f"{HERE}/crates-renamed.txt") if line.strip())
NAMES = {}
for line in open(f"{HERE}/names.txt"):
    if line.strip() and not line.startswith("#"):
        _, _, old, new = line.split()
        NAMES.setdefault(old, set()).add(new)

# the types and functions of src/ that have another name
TYPES = {"Gathered": "Body", "Standing": "Account", "Contents": "Content"}
FUNCTIONS = {
    ("calls_docket", "find_line"): "find_claim",
    ("calls_docket", "has_line"): "has_claim",
    ("certificate_certify", "line_amount"): "set_amount",
    ("certificate_certify", "line_takes"): "claim_takes",
    ("certificate_certify", "lines_amount"): "claims_amount",
    ("certificate_certify", "whole_line"): "claim_amount",
    ("file_head", "line"): "line_number",
    ("file_reading", "load"): "read",
    ("page_figures", "line_figures"): "claim_figures",
    ("page_figures", "term_of"): "claim_term",
    ("page_statement", "share_words"): "portion_words",
    ("page_workings", "share_of"): "portion_of",
    ("rules_pricing", "above"): "excess",
}


def tokens(clause):
    """A clause's tokens, with what names a field or a trait's function otherwise brought to one form."""
    clause = re.sub(r"B\.Book\.tables", "B.tables", clause)
    clause = re.sub(r"M\.Market\.(quote|limits)", r"M.\1", clause)
    clause = re.sub(r"\b(docket(?:\.(?:now|old|new))?|d)\.size\.units", r"\1.size", clause)
    clause = re.sub(r"\[ \|", "[", clause)
    return re.findall(r"[\w'₀-₉ℕℤ]+|[^\s\w]", clause)


def same(old, new):
    old, new = tokens(old), tokens(new)
    return len(old) == len(new) and all(
        a == b or b in NAMES.get(a, ()) for a, b in zip(old, new)
    )


def clauses(head):
    """The clauses of a signature: kind, name and what stands between the braces."""
    found = []
    for match in re.finditer(r"^\s*(ensures|requires)\*?( \w+)? \{", head, re.M):
        end, depth = match.end(), 1
        while end < len(head) and depth:
            depth += (head[end] == "{") - (head[end] == "}")
            end += 1
        text = re.sub(r"\s+", " ", head[match.end() : end - 1]).strip()
        found.append((match.group(1), (match.group(2) or "").strip(), text))
    return found


def signature(lines, at):
    """The lines of a function's signature, up to its body or its end."""
    end, depth = at, 0
    for end in range(at, len(lines)):
        line = re.sub(r"//.*", "", lines[end])
        opens = line.count("{") - line.count("}")
        if depth == 0 and (re.match(r"\s*\{$", line) or line.rstrip().endswith(";")):
            break
        if depth == 0 and opens == 1 and not re.search(r"(ensures|requires)\*?( \w+)? \{", line):
            break
        depth += opens
    return "\n".join(re.sub(r"//.*", "", line) for line in lines[at : end + 1])


def owner(line):
    """The type or trait of an impl's or a trait's first line."""
    line = re.sub(r"^(pub )?(impl|trait)\s*(<.*?>\s+)?", "", line)
    line = re.sub(r"<[^<>]*>", "", re.sub(r"<[^<>]*>", "", line))
    return re.sub(r"[:{].*", "", line).strip()


def functions(root, crates):
    """Each function of src/: whether it is public, and its clauses."""
    found = {}
    for crate in sorted(os.listdir(f"{root}/crates")):
        for folder, _, files in os.walk(f"{root}/crates/{crate}/src"):
            for file in sorted(files):
                if not file.endswith(".rt"):
                    continue
                lines, of = open(f"{folder}/{file}").read().split("\n"), ""
                for at, line in enumerate(lines):
                    if re.match(r"(pub )?(impl|trait)\b", line):
                        of = owner(line)
                    elif line.startswith("}"):
                        of = ""
                    match = re.match(r"\s*(pub(?:\(crate\))? )?(?:const )?fn (\w+)", line)
                    if match:
                        public = match.group(1) == "pub "
                        key = (crates.get(crate, crate), of, match.group(2))
                        found.setdefault(key, []).append((public, clauses(signature(lines, at))))
    return found


def laws(root, crates):
    """Each field of a record of specs/ that states a law, as one line."""
    found = {}
    for crate in sorted(os.listdir(f"{root}/crates")):
        for folder, _, files in os.walk(f"{root}/crates/{crate}/specs"):
            for file in sorted(files):
                if not file.endswith(".antt"):
                    continue
                text = re.sub(r"--.*", "", open(f"{folder}/{file}").read())
                for match in re.finditer(r"^pub record (\w+).*?where\n((?:  .*\n|\n)*)", text, re.M):
                    name, body = match.groups()
                    fields = re.split(r"^  (?:pub )?(?=\w+ :)", body, flags=re.M)[1:]
                    for field in fields:
                        field = re.sub(r"\s+", " ", field).strip()
                        if "≡" in field or "→" in field or "≤" in field:
                            found[(crates.get(crate, crate), name, field.split(" :")[0])] = field
    return found


def matching(key, new):
    crate, of, name = key
    exact = (crate, TYPES.get(of, of), FUNCTIONS.get((crate, name), name))
    if exact in new:
        return exact
    others = [k for k in new if k[0] == crate and k[2] == exact[2]]
    return others[0] if len(others) == 1 else None


def main():
    old, new = functions(sys.argv[1], CRATES), functions(sys.argv[2], {})
    gone, moved, count, public = [], [], 0, 0
    for key, olds in sorted(old.items()):
        other = matching(key, new)
        if other is None:
            gone.append(key + (olds[0],))
            continue
        for (was_public, before), (_, after) in zip(olds, new[other]):
            count += 1
            public += was_public
            after = list(after)
            lost = []
            for clause in before:
                kept = next((c for c in after if c[0] == clause[0] and same(clause[2], c[2])), None)
                if kept:
                    after.remove(kept)
                else:
                    lost.append(clause)
            if lost or after:
                moved.append((other, was_public, lost, after))
    old_laws, new_laws = laws(sys.argv[1], CRATES), laws(sys.argv[2], {})

    def as_named(key):
        crate, record, field = key
        records, fields = {record} | NAMES.get(record, set()), {field} | NAMES.get(field, set())
        return next(
            (n for n in new_laws if n[0] == crate and n[1] in records and n[2] in fields), None
        )

    same_laws = [k for k in old_laws if as_named(k) and same(old_laws[k], new_laws[as_named(k)])]
    print(f"{count} functions compared, {public} of them public: {count - len(moved)} have the same clauses, "
          f"{len(moved)} have one that reads otherwise; {len(gone)} are gone.\n")
    print("## Functions that are gone\n\n```")
    for crate, of, name, (was_public, before) in gone:
        print(f"{crate} {of + '::' if of else ''}{name}{' (public)' if was_public else ''}")
        for _, label, text in before:
            print(f"    - {label + ': ' if label else ''}{text}")
    print("```\n\n## Clauses that read otherwise\n\n```")
    for (crate, of, name), was_public, lost, added in moved:
        print(f"{crate} {of + '::' if of else ''}{name}{' (public)' if was_public else ''}")
        for _, label, text in lost:
            print(f"    - {label + ': ' if label else ''}{text}")
        for _, label, text in added:
            print(f"    + {label + ': ' if label else ''}{text}")
    print("```\n")
    print(f"## Laws\n\n{len(old_laws)} fields of records state a law, {len(same_laws)} as before. Otherwise:\n\n```")
    for key in sorted(old_laws):
        if key not in same_laws:
            other = as_named(key)
            print(f"{key[0]} {key[1]}.{key[2]}")
            print(f"    - {old_laws[key]}")
            if other:
                print(f"    + {new_laws[other]}")
    print("```")


main()
