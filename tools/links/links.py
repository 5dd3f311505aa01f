#!/usr/bin/env python3
"""Looks at each link of docs/PROMISES.md: that the file is there, that it has the call or the definition that is named, and that the
call's contract has the clauses, or the record the fields. usage: links.py [--fix]

With --fix a link whose file moved is led to the one other file of the crates that has all of it."""
import glob, os, re, sys

TOP = os.path.join(os.path.dirname(os.path.realpath(__file__)), "..", "..")
PAGE = "docs/PROMISES.md"
LINK = re.compile(r"\[`([^`]+)`(?:: ([a-z_, ]+))?\]\(\.\./([^)]+)\)")


def lines_of(path):
    with open(path) as it:
        return it.read().split("\n")


def contract_at(lines, at):
    """The text of a function from its name to its body."""
    for end in range(at + 1, len(lines)):
        if re.match(r"\s*(\{\s*|\{\})$", lines[end]) or re.match(r"\s*(pub )?fn ", lines[end]):
            return "\n".join(lines[at:end])
    return "\n".join(lines[at:])


def has_call(path, call, clauses):
    """Whether a source file has the call, with these clauses in its contract."""
    owner, name = re.match(r"(?:(\w+)(?:::|\.))?(\w+)$", call).groups()
    lines, block = lines_of(path), ""
    for at, line in enumerate(lines):
        if re.match(r"(pub )?(impl|trait)\b", line):
            block = line.split(" for ")[-1]
        if re.match(r"\s*(pub )?fn %s\b" % name, line) and (not owner or re.search(r"\b%s\b" % owner, block)):
            text = contract_at(lines, at)
            if all(re.search(r"ensures\*? %s\b" % clause, text) for clause in clauses):
                return True
    return False


def has_all(path, name, clauses):
    """Whether a file has what a link names: of a record also these fields."""
    if "/specs/" in path:
        lines = lines_of(path)
        if not all(any(re.match(r"\s*pub %s :" % re.escape(field), line) for line in lines) for field in clauses):
            return False
        return any(re.search(r"(?<![\w.])%s(?![\w.])[^=]*:" % re.escape(name), line) for line in lines if not line.startswith("use "))
    return not path.endswith(".rt") or has_call(path, name, clauses)


def other_file(path, name, clauses):
    """The one file of the crates, of the same kind, that has it."""
    kind = "crates/*/specs/**/*.antt" if "/specs/" in path else "crates/*/src/**/*.rt"
    found = [other for other in glob.glob(kind, recursive=True) if has_all(other, name, clauses)]
    same = [other for other in found if os.path.basename(other) == os.path.basename(path)]
    return found[0] if len(found) == 1 else same[0] if len(same) == 1 else None


def main():
    os.chdir(TOP)
    text, wrong = "\n".join(lines_of(PAGE)), 0
    for whole in LINK.finditer(text):
        name, clauses, path = whole.group(1), (whole.group(2) or "").split(", "), whole.group(3)
        clauses = [clause for clause in clauses if clause]
        if os.path.exists(path) and (os.path.isdir(path) or has_all(path, name, clauses)):
            continue
        other = other_file(path, name, clauses)
        if other and "--fix" in sys.argv:
            text = text.replace(whole.group(0), whole.group(0).replace(path, other))
        else:
            wrong += 1
            print("%s: %s" % (whole.group(0), "it stands in " + other if other else "nothing has it"))
    if "--fix" in sys.argv:
        with open(PAGE, "w") as it:
            it.write(text)
    print("%d links, %d wrong" % (len(LINK.findall(text)), wrong))
    return 1 if wrong else 0


if __name__ == "__main__":
    sys.exit(main())
