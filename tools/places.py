#!/usr/bin/env python3
"""Lists places in crates/*/src that read like older Rattle, by point, and counts them: tools/places.py [COMMIT].

With a commit it reads that commit's files, and else those of the work tree. Test crates and test modules are left out
where the point asks for the code of the product alone. A place listed is a place to look at, and no verdict.
"""
import collections
import re
import subprocess
import sys

TYPE = r"(?:pub(?:\([a-z]+\))? )?"


def files(commit):
    """Path and text of every source file."""
    if commit is None:
        listed = subprocess.run(["git", "ls-files", "-co", "--exclude-standard", "crates"], capture_output=True, text=True)
    else:
        listed = subprocess.run(["git", "ls-tree", "-r", "--name-only", commit, "crates"], capture_output=True, text=True)
    for path in sorted(listed.stdout.split()):
        if "/src/" not in path or not path.endswith(".rt"):
            continue
        if commit is None:
            try:
                yield path, open(path).read()
            except FileNotFoundError:
                continue
        else:
            yield path, subprocess.run(["git", "show", f"{commit}:{path}"], capture_output=True, text=True).stdout


def product(sources):
    """The sources without tests."""
    for path, text in sources:
        if "_tests/" not in path and not path.endswith("tests.rt"):
            yield path, re.split(r"#\[cfg\(test\)\]\n *mod tests \{", text)[0]


def lines(sources, pattern):
    """Each line that the pattern is found in, comments left out."""
    for path, text in sources:
        for number, line in enumerate(text.split("\n"), 1):
            code = re.sub(r"//.*", "", line)
            if re.search(pattern, code):
                yield f"{path}:{number}: {line.strip()}"


def functions(sources):
    """Path, name, text up to the body, and body of each function that has one."""
    for path, text in sources:
        for head in re.finditer(rf"^( *){TYPE}fn (\w+)", text, re.M):
            indent = head.group(1)
            rest = text[head.start() :]
            opening = re.search(rf"(^{indent}\{{|\{{)[ ]*$", rest, re.M)
            closing = re.search(rf"^{indent}\}}[ ]*$", rest, re.M)
            if opening and closing and opening.start() < closing.start():
                yield path, head.group(2), rest[: opening.start()], rest[opening.start() : closing.end()]


def twins(sources):
    """Functions of one shape: the same body once names, numbers and texts are taken out."""
    keep = "if|else|match|for|in|let|return|Some|None|Ok|Err|self|mut"
    groups = collections.defaultdict(list)
    for path, name, _, body in functions(sources):
        shape = re.sub(r"//.*", "", re.sub(r'"[^"]*"', "S", body))
        shape = re.sub(rf"\b(?!(?:{keep})\b)[A-Za-z_]\w*", "N", shape)
        shape = re.sub(r"\s+", "", re.sub(r"N(?:::N)+", "N", re.sub(r"\b\d[\d_]*\b", "0", shape)))
        if len(shape) >= 12:
            groups[shape].append(f"{path}:{name}")
    return [" = ".join(group) for group in groups.values() if len(group) > 1]


def repeated_clauses(sources):
    """Facts that three or more contracts of a crate ask for."""
    counts = collections.Counter()
    for path, text in sources:
        for clause in re.finditer(r"^ *requires [a-z_]* ?\{(.*)\}$", text, re.M):
            counts[(path.split("/")[1], clause.group(1).strip())] += 1
    return [f"{crate}: {fact} ({count})" for (crate, fact), count in counts.most_common() if count > 2]


def travelling(sources):
    """Pairs of parameters that three or more functions of a crate take."""
    counts = collections.Counter()
    for path, _, head, _ in functions(sources):
        parameters = re.search(r"\((.*?)\)\s*(->|$|\n|requires|ensures)", head, re.S)
        if not parameters:
            continue
        given = sorted(re.findall(r"(\w+): ([^,]+?)(?:,|$)", re.sub(r"\s+", " ", parameters.group(1))))
        for at, one in enumerate(given):
            for other in given[at + 1 :]:
                counts[(path.split("/")[1], one, other)] += 1
    return [
        f"{crate}: {one[0]}: {one[1]}, {other[0]}: {other[1]} ({count})"
        for (crate, one, other), count in counts.most_common()
        if count > 2
    ]


def answers(commit):
    """Files of answers and answers in proofs/."""
    if commit is None:
        listed = subprocess.run(["git", "ls-files", "-co", "--exclude-standard", "crates"], capture_output=True, text=True)
    else:
        listed = subprocess.run(["git", "ls-tree", "-r", "--name-only", commit, "crates"], capture_output=True, text=True)
    found = collections.Counter()
    for path in listed.stdout.split():
        if not path.endswith("/Answers.antt"):
            continue
        if commit is None:
            try:
                text = open(path).read()
            except FileNotFoundError:
                continue
        else:
            text = subprocess.run(["git", "show", f"{commit}:{path}"], capture_output=True, text=True).stdout
        found[path.split("/")[1]] += len(re.findall(r"^pub ", text, re.M))
    return [f"{crate}: {count}" for crate, count in sorted(found.items())], sum(found.values())


def main():
    commit = sys.argv[1] if len(sys.argv) > 1 else None
    everything = list(files(commit))
    code = list(product(everything))
    by_hand = r"^impl.*\b(PartialEq|Eq|PartialOrd|Ord|Clone|Copy|Default)\b for"
    named = rf"{TYPE}fn (is_source|is_sink|same_port|same_ports|precedes|before|later_of|lesser|lower|equal|kind_of|number_of)\b"
    points = [
        ("1a a refusal that is no Err: Option<Fault>", lines(code, r"-> Option<Fault>")),
        ("1b the place of a refusal as an Option: -> Option<u64> in the runtime",
         (x for x in lines(code, r"-> Option<u64>") if "/runtime/" in x)),
        ("1c a number as an error: Result<_, usize>", lines(code, r"-> Result<.*, (u8|u16|u32|u64|usize)>")),
        ("1d a flag among the fields: bool", lines(code, r"^ +" + TYPE + r"[a-z_]+: bool,")),
        ("1e a number that stands for none: MAX", lines(code, r"u(8|16|32|64|size)::MAX")),
        ("1f own enums", lines(code, rf"^{TYPE}enum ")),
        ("2a functions of one shape", twins(code)),
        ("2b a macro that writes code for two types", lines(code, r"macro_rules!")),
        ("3 loops over a range of numbers, while and loop", lines(everything, r"\bfor \w+ in .*\.\.|\bwhile |\bloop \{")),
        ("4a comparing, copying and defaults by hand", lines(code, by_hand)),
        ("4b functions that compare or convert by hand", lines(code, named)),
        ("4c casts: as", lines(code, r" as (u8|u16|u32|u64|usize|i32|i64|i128)\b")),
        ("5a facts that three or more contracts of a crate ask for", repeated_clauses(code)),
        ("5b parameters that three or more functions take together", travelling(code)),
        ("6a a buffer with its length beside", lines(code, r"\(\[\w+; *\w+\], usize\)|^ +len: usize,")),
        ("6b a number with the queue that it belongs to", lines(code, r"_aside: u64,")),
        ("7a traits of one method that answers yes or no", one_question(code)),
        ("7b structs made for such a trait", lines(code, r"^impl.* (Select<.*>|Condition) for ")),
    ]
    for title, found in points:
        found = list(found)
        print(f"{title}: {len(found)}")
        for place in found:
            print(f"    {place}")
    found, total = answers(commit)
    print(f"8 answers in proofs/: {total}")
    for place in found:
        print(f"    {place}")


def one_question(sources):
    """Traits whose one method answers a bool."""
    for path, text in sources:
        for head in re.finditer(rf"^{TYPE}trait (\w+)", text, re.M):
            body = text[head.start() :].split("\n}\n")[0]
            if len(re.findall(r"\bfn ", body)) == 1 and re.search(r"-> bool", body):
                yield f"{path}: {head.group(1)}"


main()
