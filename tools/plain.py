#!/usr/bin/env python3
"""Turns the crates of this repository into one program of stock Rust, with nothing of the kit, and compares what it prints.

    tools/plain.py OUT [ROOT]

Writes OUT/src: main.rs, kit.rs (tools/plain.rs, which stands for the kit's library) and a folder for each crate with a .rs file
for each of its .rt files, line for line: line N of OUT/src/C/f.rs is line N of ROOT/crates/C/src/f.rt (ROOT is this repository
if not given). Clauses, ghost items and tactics are empty lines there. Then builds OUT/plain with rustc, runs the programs that
have stored output in it, and says of each whether it prints what crates/PROGRAM/stdout has.
"""
import pathlib, re, resource, shutil, subprocess, sys, time

HERE = pathlib.Path(__file__).resolve().parent
ROOT = HERE.parent
PROGRAMS = ["cases", "glossary"]
# Each program that is run has a time, memory and output limit: one with a bug may loop, or fill memory or the disk.
SECONDS, MEMORY, OUTPUT = 20, 2 << 30, 32 << 20

STRING = re.compile(r'b?"(?:[^"\\]|\\.)*"')
REPLACED = [
    (re.compile(r"\bstd::alloc::"), "crate::kit::"),
    (re.compile(r"\bstd::fs\b"), "crate::kit::fs"),
    (re.compile(r"\bstd::marker::Model\b"), "crate::kit::Model"),
    (re.compile(r"\bformat!\(in\b"), "rt_format!(in"),
    (re.compile(r"\bvec!\[in\b"), "rt_vec![in"),
    (re.compile(r"\b(print|println)!\((?=[^;()]*;)"), r"rt_\1!("),
    (re.compile(r"\.collect\(heap\)"), ".collect_in(heap)"),
    (re.compile(r"\.repeat\(heap, "), ".repeat_in(heap, "),
    (re.compile(r"\bfn fmt<W: fmt::Write>\(&self, f: &mut fmt::Formatter<W>\)"), "fn fmt(&self, f: &mut fmt::Formatter<'_>)"),
    (re.compile(r"^(\s*)fn main\("), r"\1pub fn main("),
    (re.compile(r"^(pub trait Value) \{"), r"\1: Sized {"),
]


def code(line, crate):
    """A line with the words of the kit replaced, outside of its strings."""
    # A doc comment becomes a plain one: its item may be left out, and `//!` may not come after what stands in front of the first line.
    if line.lstrip().startswith("//"):
        return re.sub(r"//[/!]", "//", line, count=1)
    parts, at = [], 0
    strings = []

    def hide(m):
        strings.append(m.group())
        return f'"{len(strings) - 1}"'

    hidden = STRING.sub(hide, line)
    # `crate::` first, so that the paths put in below stay.
    hidden = re.sub(r"(?<![\w:])crate::", f"crate::{crate}::", hidden)
    for pattern, new in REPLACED:
        hidden = pattern.sub(new, hidden)
    return re.sub(r'"(\d+)"', lambda m: strings[int(m.group(1))], hidden)


def convert(text, crate):
    """The text of a .rt file as Rust, line for line."""
    out, depth = [], 0
    for line in text.split("\n"):
        s = line.strip()
        if depth > 0:
            depth += s.count("{") - s.count("}")
            out.append(";" if depth == 0 and s.endswith(";") and clause else "")
            continue
        if re.match(r"(ghost|ensures|requires)\b", s):
            clause = not s.startswith("ghost")
            depth = max(0, s.count("{") - s.count("}"))
            # The clauses of a function that a trait only declares end with its semicolon.
            out.append(";" if depth == 0 and clause and s.endswith(";") else "")
            continue
        if re.match(r"#!?\[tactic\(", s):
            out.append("")
            continue
        m = re.match(r"(\s*)#\[derive\((.*)\)\]$", line)
        if m:
            kept = [d.strip() for d in m.group(2).split(",") if d.strip() != "Drop"]
            out.append(f"{m.group(1)}#[derive({', '.join(kept)})]" if kept else "")
            continue
        out.append(code(line, crate))
    # In front of the first line, so that no line moves.
    out[0] = "use crate::kit::prelude::*; " + out[0]
    return "\n".join(out)


def crates(root):
    """The libraries and the programs of it."""
    found = []
    for folder in sorted((root / "crates").iterdir()):
        if (folder / "src" / "lib.rt").exists() or folder.name in PROGRAMS:
            found.append(folder.name)
    return found


def place(out, root, file):
    """Where a .rt file of the repository stands in it."""
    parts = file.relative_to(root / "crates").parts
    return out / "src" / parts[0] / pathlib.Path(*parts[2:]).with_suffix(".rs")


def write(out, root):
    src = out / "src"
    if src.exists():
        shutil.rmtree(src)
    src.mkdir(parents=True)
    names = crates(root)
    for name in names:
        for file in sorted((root / "crates" / name / "src").glob("**/*.rt")):
            to = place(out, root, file)
            to.parent.mkdir(parents=True, exist_ok=True)
            to.write_text(convert(file.read_text(), name))
    shutil.copy(HERE / "plain.rs", src / "kit.rs")
    main = ["#[macro_use]", "mod kit;", "", "pub mod crates {"]
    for name in names:
        main.append(f"    pub use crate::{name};")
    main += ["}", ""]
    for name in names:
        root_file = "main.rs" if name in PROGRAMS else "lib.rs"
        main += [f'#[path = "{name}/{root_file}"]', f"pub mod {name};"]
    main += ["", "fn main() -> kit::anyhow::Result<()> {", "    let rt = kit::HostRuntime;",
             "    match std::env::args().nth(1).as_deref() {"]
    for name in PROGRAMS:
        main.append(f'        Some("{name}") => {name}::main(rt),')
    main += ["        _ => panic!(\"no such program\"),", "    }", "}", ""]
    (src / "main.rs").write_text("\n".join(main))


def command(out):
    return ["rustc", "--edition", "2021", "--crate-name", "plain", "--crate-type", "bin", "src/main.rs", "-o", "plain",
            "-C", "opt-level=0", "-C", "debuginfo=0", "-C", "debug-assertions=on", "-C", "overflow-checks=on", "-C", "panic=abort",
            "-C", "incremental=incremental",
            # One that always overflows or is out of bounds is still a program, which panics.
            "-A", "warnings", "-A", "arithmetic_overflow", "-A", "unconditional_panic"]


def build(out):
    """Builds OUT/plain: None, or what the compiler says."""
    r = subprocess.run(command(out), cwd=out, stdout=subprocess.PIPE, stderr=subprocess.STDOUT, text=True, errors="replace")
    return None if r.returncode == 0 else r.stdout


def limits():
    resource.setrlimit(resource.RLIMIT_AS, (MEMORY, MEMORY))
    resource.setrlimit(resource.RLIMIT_FSIZE, (OUTPUT, OUTPUT))
    resource.setrlimit(resource.RLIMIT_CORE, (0, 0))


def same(out, root, program):
    """Whether a program prints what is stored: None, or how it differs."""
    folder = root / "crates" / program
    data = folder / "data"
    printed = out / f"{program}.stdout"
    with open(printed, "wb") as to:
        try:
            r = subprocess.run([str(out / "plain"), program], cwd=data if data.exists() else out, stdin=subprocess.DEVNULL, stdout=to,
                               stderr=subprocess.DEVNULL, timeout=SECONDS, preexec_fn=limits)
        except subprocess.TimeoutExpired:
            return "hang"
    if r.returncode != 0:
        return f"status {r.returncode}"
    return None if printed.read_bytes() == (folder / "stdout").read_bytes() else "output"


def main():
    out = pathlib.Path(sys.argv[1]).resolve()
    root = pathlib.Path(sys.argv[2]).resolve() if len(sys.argv) > 2 else ROOT
    write(out, root)
    began = time.time()
    said = build(out)
    print(f"built in {time.time() - began:.2f} s" if said is None else said)
    if said is not None:
        sys.exit(1)
    bad = 0
    for program in PROGRAMS:
        began = time.time()
        differs = same(out, root, program)
        bad += differs is not None
        print(f"{program}: {'same' if differs is None else differs} ({time.time() - began:.3f} s)")
    sys.exit(bad != 0)


if __name__ == "__main__":
    main()
