#!/usr/bin/env python3
"""Lists the places of docs/DESIGN-PASS.md, point by point, as they are at a commit: `tools/forms.py COMMIT`, or in the
working tree: `tools/forms.py`. A place here is a place to look at; the page says what became of each."""

import collections
import re
import subprocess
import sys

COMMIT = sys.argv[1] if len(sys.argv) > 1 else None
SOURCE = re.compile(r"crates/[a-z_]+/src/.*\.rt$")
PROOF = re.compile(r"crates/[a-z_]+/proofs/.*\.antt$")
FUNCTION = re.compile(r"^( *)(?:pub )?(?:const )?(?:extern \"C\" )?fn (\w+)", re.M)
TOGETHER = [
    ("last", "number", "bytes"), ("last", "number", "count"), ("heard", "repetition", "last", "bytes"),
    ("header", "body", "marks"), ("bounds", "kept", "total"), ("out", "at"), ("core", "p", "q"), ("words", "at"),
    ("output", "line", "group"), ("slot", "tally", "limit"), ("slot", "part", "limit"),
]


def git(*words):
    return subprocess.run(("git",) + words, capture_output=True, text=True, check=True).stdout


def texts(pattern):
    names = git("ls-tree", "-r", "--name-only", COMMIT, "crates") if COMMIT else git("ls-files", "crates")
    for name in names.split():
        if pattern.match(name):
            yield name, git("show", f"{COMMIT}:{name}") if COMMIT else open(name, encoding="utf-8").read()


def bare(text):
    """Code without comments and without imports."""
    text = re.sub(r"//.*", "", text)
    return re.sub(r"^(ghost )?use .*$", "", text, flags=re.M)


def functions(text):
    """Each function: its name, its line, its head (parameters and contract) and its body."""
    for found in FUNCTION.finditer(text):
        end = re.compile(rf"^{found.group(1)}\}}$", re.M).search(text, found.end())
        whole = text[found.start():end.end() if end else len(text)]
        cut = re.search(rf"^{found.group(1)}\{{$|\{{$", whole, re.M)
        head, body = (whole[:cut.start()], whole[cut.start():]) if cut else (whole, "")
        yield found.group(2), text.count("\n", 0, found.start()) + 1, head, body


def parameters(head):
    inside = head[head.index("("):]
    inside = re.split(r"\)\s*(?:->|requires|ensures|\n|$)", inside)[0]
    return re.findall(r"(?:^|[(,\s])(\w+): ", inside)


def shape(body):
    """What is left of a body when its words are taken for one another."""
    kept = {"if", "else", "match", "while", "for", "in", "return", "let", "mut", "true", "false", "self"}
    return re.sub(r"\w+", lambda word: word.group() if word.group() in kept else "_", re.sub(r"\s+", "", body))


def told(title, places):
    print(f"\n{title}: {len(places)}")
    for place in places:
        print(f"  {place}")


NUMBER = re.compile(r"//.*(0 while|or 0 |0 for any|0 where|none\b.*15 bits)|^ +_ => \d+,|const (LIMITS|STATE): u")
SOURCES = [(name, bare(text), text) for name, text in texts(SOURCE)]


def lines_of(pattern):
    return [f"{name}:{at}: {line.strip()}" for name, text, _ in SOURCES for at, line in enumerate(text.split("\n"), 1)
            if re.search(pattern, line)]


def two_cases():
    for name, text, _ in SOURCES:
        for found in re.finditer(r"^(?:pub )?enum (\w+) \{\n(.*?)^\}", text, re.M | re.S):
            cases = re.findall(r"^    (\w+)( \{|\()?", found.group(2), re.M)
            if len(cases) == 2 and any(carried for _, carried in cases):
                yield f"{name}: {found.group(1)} {{ {', '.join(case for case, _ in cases)} }}"


def flags():
    for name, text, _ in SOURCES:
        for found in re.finditer(r"^(?:pub )?struct (\w+)[^{;]* \{\n(.*?)^\}", text, re.M | re.S):
            for flag in re.findall(r"^    (?:pub )?(\w+): bool,$", found.group(2), re.M):
                yield f"{name}: {found.group(1)}.{flag}"


def of_one_shape():
    groups = collections.defaultdict(list)
    for name, text, _ in SOURCES:
        for function, at, _, body in functions(text):
            if body.count("\n") > 3:
                groups[shape(body)].append(f"{name}:{at} {function}")
    return [", ".join(group) for group in groups.values() if len(group) > 1]


def travelling():
    groups = collections.defaultdict(list)
    for name, text, _ in SOURCES:
        for function, _, head, _ in functions(text):
            names = parameters(head)
            for group in TOGETHER:
                if all(word in names for word in group):
                    groups[group].append(f"{name.split('/')[1]}::{function}")
    many = [(group, found) for group, found in groups.items() if len(found) > 2]
    return [f"{', '.join(group)}: {len(found)}: {', '.join(found)}" for group, found in many]


def repeated_facts():
    facts = collections.defaultdict(list)
    for name, text, _ in SOURCES:
        for function, _, head, _ in functions(text):
            for clause in re.findall(r"requires(?: \w+)? \{(.*?)\}\n", head + "\n", re.S):
                for fact in re.split(r"\) × \(| × ", clause):
                    facts[re.sub(r"\s+", " ", fact.strip(" ()\n"))].append(f"{name.split('/')[1]}::{function}")
    return [f"{fact}: {len(found)}: {', '.join(found)}" for fact, found in facts.items() if len(found) > 2]


def buffers():
    for name, text, _ in SOURCES:
        for found in re.finditer(r"^(?:pub )?struct (\w+)[^{;]* \{\n(.*?)^\}", text, re.M | re.S):
            if re.search(r": \[", found.group(2)) and re.search(r": usize", found.group(2)):
                yield f"{name}: {found.group(1)}"


def dispatches():
    for name, text, _ in SOURCES:
        for function, at, _, body in functions(text):
            arms = re.findall(r"=> (?:\{\s*)?((?:\w+::)*[a-z]\w*)\(", body)
            if len(set(arms)) > 1:
                yield f"{name}:{at} {function}: {', '.join(arms)}"


one = list(two_cases())
told("1. enums of two cases of which one carries a value", one)
told("1. flags in structs", list(flags()))
told("1. numbers that stand for a case, as the comments say them",
     [f"{name}:{at}: {line.strip()}" for name, _, text in SOURCES for at, line in enumerate(text.split("\n"), 1)
      if NUMBER.search(line)])
told("2. functions of one shape", of_one_shape())
told("3. loops by hand", lines_of(r"\bwhile\b|\bloop\b|\bfor \w+ in 0\.\.[a-z]"))
told("4. equality and order", lines_of(r"^ *(pub )?fn \w*(same|alike|unlike|less|lower|large)\w*\("))
told("4. conversions of one value", lines_of(r"^ *(pub )?fn \w+_(from|of|as|word|number|tag|row)\(\w+: \w+\) ->"))
told("4. values without an argument", lines_of(r"^ *(pub )?fn \w+\(\) ->"))
told("4. printing", lines_of(r"^ *(pub )?fn (say|write)\w*\("))
told("5. parameters that travel together in three functions or more", travelling())
told("5. facts that three contracts or more ask for", repeated_facts())
told("6. a buffer with a length beside it", list(buffers()))
told("7. a match that chooses what to run", list(dispatches()))
PROOFS = list(texts(PROOF))
files = [f"{what}: {sum(name.endswith(what) for name, _ in PROOFS)}" for what in ("Answers.antt", "Invariants.antt")]
told("8. files of answers, of invariants, and lines of all proofs",
     files + [f"lines: {sum(text.count(chr(10)) for _, text in PROOFS)}"])
