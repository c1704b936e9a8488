#!/usr/bin/env python3
"""Says which stored output would show a definition that is wrong in the way of a planted bug.

    tools/slips.py OUT CRATE [--max N] [--seed S] [--only WORD] [--root ROOT]

A slip that is made alike in a definition and in its code is proved; so each bug that tools/plants.py knows in CRATE is planted
alone, with no proof asked, in the program of stock Rust that tools/plain.py makes in OUT, and the programs with stored output
are run until one prints something else. All places are tried, or N of them drawn by the seed (1 if not given); with --only those
in files whose path has WORD. ROOT is the repository, this one if not given; its sources are copied to OUT at the start. A line
is printed for each bug, of six columns with tabs between: the program that shows it (of cases and glossary the first), or unseen,
or no-program; the kind; file:line; the line that stood there; the line planted; and how it shows: output, hang (20 s), or the exit
status (-6 is a panic); of no-program, the first error of rustc. The last lines, after #, are the counts.
"""
import argparse, collections, hashlib, pathlib, random, re, shutil, sys

HERE = pathlib.Path(__file__).resolve().parent
sys.path.insert(0, str(HERE))
import plain, plants


def copied(root, to):
    """A copy of what is read, and a checksum of it."""
    if to.exists():
        shutil.rmtree(to)
    for folder in sorted((root / "crates").iterdir()):
        for part in ("src", "data", "stdout"):
            if (folder / part).is_dir():
                shutil.copytree(folder / part, to / "crates" / folder.name / part)
            elif (folder / part).exists():
                (to / "crates" / folder.name).mkdir(parents=True, exist_ok=True)
                shutil.copy(folder / part, to / "crates" / folder.name)
    sums = hashlib.sha256()
    for file in sorted(to.glob("crates/*/src/**/*.rt")):
        sums.update(str(file.relative_to(to)).encode() + b"\0" + file.read_bytes())
    return sums.hexdigest()[:16]


def built(out):
    """Builds, again from nothing where the compiler itself failed."""
    said = plain.build(out)
    if said is not None and "internal compiler error" in said:
        shutil.rmtree(out / "incremental", ignore_errors=True)
        said = plain.build(out)
    return said


def judged(out, root):
    said = built(out)
    if said is not None:
        code = re.search(r"^error(?:\[(E\d+)\])?", said, re.M)
        return "no-program", (code.group(1) or "error") if code else "no error"
    for program in plain.PROGRAMS:
        differs = plain.same(out, root, program)
        if differs is not None:
            return program, differs
    return "unseen", ""


def main():
    args = argparse.ArgumentParser()
    args.add_argument("out")
    args.add_argument("crate")
    args.add_argument("--max", type=int, default=0)
    args.add_argument("--seed", default="1")
    args.add_argument("--only", default="")
    args.add_argument("--root", default=str(plain.ROOT))
    args = args.parse_args()
    out = pathlib.Path(args.out).resolve()
    out.mkdir(parents=True, exist_ok=True)
    root = out / "root"
    checksum = copied(pathlib.Path(args.root).resolve(), root)
    print(f"# {args.crate}: sources {checksum}", flush=True)

    plain.write(out, root)
    said = built(out)
    if said is not None:
        print(f"# it does not compile as it stands\n{said}", flush=True)
        sys.exit(1)
    for program in plain.PROGRAMS:
        differs = plain.same(out, root, program)
        if differs is not None:
            print(f"# {program} differs as it stands: {differs}", flush=True)
            sys.exit(1)

    # One bug may be found as two kinds; it is tried once.
    places, known = [], set()
    for site in plants.sites(root, args.crate, args.only):
        if site[1:] not in known:
            known.add(site[1:])
            places.append(site)
    tried = places
    if args.max and len(places) > args.max:
        drawn = random.Random(f"{args.crate} {args.seed}").sample(range(len(places)), args.max)
        tried = [places[i] for i in sorted(drawn)]

    counts, kinds = collections.Counter(), collections.Counter()
    for kind, file, line, new in tried:
        text = file.read_text()
        lines = text.split("\n")
        old, lines[line] = lines[line], new
        at = plain.place(out, root, file)
        at.write_text(plain.convert("\n".join(lines), args.crate))
        try:
            verdict, how = judged(out, root)
        finally:
            at.write_text(plain.convert(text, args.crate))
        counts[verdict] += 1
        if verdict == "unseen":
            kinds[kind] += 1
        print("\t".join([verdict, kind, f"{file.relative_to(root)}:{line + 1}", old.strip(), new.strip(), how]), flush=True)

    seen = sum(counts[p] for p in plain.PROGRAMS)
    shown = ", ".join(f"{p} {counts[p]}" for p in plain.PROGRAMS)
    print(f"# {args.crate}: {len(tried)} of {len(places)} places; {seen} seen ({shown}), {counts['unseen']} unseen, {counts['no-program']} no program")
    if kinds:
        print(f"# {args.crate}: unseen by kind: " + ", ".join(f"{k} {n}" for k, n in kinds.most_common()))
    sys.stdout.flush()


if __name__ == "__main__":
    main()
