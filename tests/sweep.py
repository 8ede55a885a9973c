#!/usr/bin/env python3
"""Changes the definitions that a reader believes one small step at a time, and has the prover try each change.

    tests/sweep.py                     every definition of SWEPT
    tests/sweep.py CRATE[/FILE]..      those of some crates or files
    tests/sweep.py steps               no proof: only whether tests/sweep.same names steps that there are

A step is a number one more or one less, a test, an operator or a truth swapped, a 'not' left out, two neighbouring arguments,
operands or fields' values exchanged, a field read instead of its neighbour, a name taken for another one of the same equation,
a case of a definition answered as another one is.
The definitions are pinned where every step makes a case come out wrong, or not come out at all. Steps that change nothing that
can be seen stand in tests/sweep.same with the reason; any other step that is still proved is printed, and the sweep ends with
status 1. A change that is no definition, as where two arguments have different types, counts apart.

What is proved is one crate that holds eight copies of the definitions and of the tables of cases (proofs/Cases.antt of each crate),
each with another step, beside the types that they speak of and no function. It runs on all processors, or on RT_JOBS of them. A
sweep takes half an hour or so on four, so it is not part of the gate.

Needed: rt.
"""
import concurrent.futures, itertools, os, re, shutil, subprocess, sys, tempfile

# The files of definitions that are swept, by crate. What they and the cases use besides stands beside them, unchanged.
ALL = None  # every file of the crate
SWEPT = {
    "base": ["Lists", "Sums", "Numbers", "Search"],
    "block": ["Format", "Record", "Checks", "Answers", "Block"],
    "window": ["Order", "Demand", "Worst"],
    "row": ["Row"],
    "rows": ["Rows"],
    "pair": ["Analysis"],
    "lines": ["Line", "Put", "Words"],
    "render": ALL,
}
# Definitions in them that only the code is about.
INTERNAL = {"base/Numbers recip_of"}

TOP = os.path.dirname(os.path.dirname(os.path.abspath(__file__)))
SWAPS = [("ltb", "leb"), ("leb", "ltb"), ("min", "max"), ("max", "min"), ("true", "false"), ("false", "true")]
SIGNS = [("&&", "||"), ("||", "&&"), ("+", "-"), ("-", "+"), ("*", "+"), ("/", "%"), ("%", "/")]
ORDERED = {"-", "/", "%", "++", "∷"}
EITHER_WAY = {"min", "max", "eqb"}
# The copies: so many steps are tried in one check, since most of a short check is to load the library.
PLACES = 8
PRELUDE = "Rattle.std.specs.Prelude"
WORD = r"[^\s(){};,]+"
READ = re.compile(r"([^.]+)((?:\.[^.]+)*)")
LIMITS = r"antt ran out of (stack|the (steps|memory))|(outgrew the memory|stopped at the step) limit"
USE = r"Rattle\.(?!std\b)([a-z_]+)\.specs\.([A-Z]\w*)"


def equations(text):
    """(name, the types and the patterns on its left, start and end of what stands behind the =) of each equation."""
    for m in re.finditer(r"^( *)(?:abbrev |unfoldable )(?:pub )?(\S+) : (.*)", text, re.M):
        indent, name, types = m.groups()
        types = re.sub(r"\([^()]*\)", "function", re.sub(r"^\{.*?\} → ", "", types)).split(" → ")
        for e in re.finditer(rf"^{indent}{re.escape(name)}((?: [^\n=]*)?) =(?=\s)", text, re.M):
            rest = re.compile(rf"^(?! {{{len(indent) + 1}}})(?=.)|\Z", re.M).search(text, e.end())
            patterns = [p.group() for p in re.finditer(rf"\([^()]*(?:\([^()]*\)[^()]*)*\)|{WORD}", e.group(1))]
            yield name, types, patterns, e.end(), e.end() + len(text[e.end():rest.start()].rstrip())


def known(text):
    """The names that a file uses, and the cases of the types that it declares."""
    words = {word for m in re.finditer(r"^use \S+\.\{(.*)\}$", text, re.M) for word in m.group(1).split(", ")}
    for m in re.finditer(r"^pub data .*\n((?:  .*\n)*)", text, re.M):
        words |= set(re.sub(r":.*", "", m.group(1)).split())
    return words


def others(text, types, patterns, body):
    """For each name that an equation binds, those that may be taken for it: of the same type, or of one that is not plain to see."""
    names = {}
    for type_, pattern in zip(types, patterns):
        for word in re.findall(WORD, pattern):
            if word not in known(text) and word not in "_∷" and not word.isdigit():
                names[word] = type_ if word == pattern else None
    names.update({m.group(1): None for m in re.finditer(r"λ (\w+)\.", body)})
    return {one: [two for two in names if two != one and (names[one] == names[two] or None in (names[one], names[two]))] for one in names}


def applied(text, start, end):
    """The applications in a stretch of text, each as the (start, end) of its head and of its arguments; and the neighbours around
    operators, each as the operator and the (start, end) of both sides."""
    words = re.finditer(rf"[(){{}};,]|{WORD}", text[start:end])
    found, pairs = [], []

    def inside():
        """Reads up to a closing bracket, and tells where it ends."""
        atoms, sign, left, stop = [], None, None, 0

        def close(new):
            nonlocal atoms, sign, left
            here = (atoms[0][0], stop) if atoms else None
            if here and left:
                pairs.append((sign, left, here))
            found.append(atoms)
            atoms, sign, left = [], new, here if new else None

        for m in words:
            word, a, b = m.group(), start + m.start(), start + m.end()
            if word in ")}":
                close(None)
                return b
            if word in "({":
                stop = inside()
                atoms.append((a, stop))
            elif word in ("λ", "let", "in", "=", ";", ",", "record") or word.endswith("."):
                close(None)
            elif word in dict(SIGNS) or word in ORDERED:
                close(word)
            else:
                stop = b
                if word[0] == "." and atoms:
                    atoms[-1] = (atoms[-1][0], b)
                else:
                    atoms.append((a, b))
        close(None)

    inside()
    return found, pairs


def exchanged(text, one, two):
    return text[:one[0]] + text[two[0]:two[1]] + text[one[1]:two[0]] + text[one[0]:one[1]] + text[two[1]:]


def changes(text, beside):
    """(name, changed text, word that came in) for each step; `beside` says which fields stand beside a field."""
    bodies = {}
    for name, types, patterns, start, end in equations(text):
        bodies.setdefault(name, []).append((start, end))
        body = text[start:end]
        taken = others(text, types, patterns, body)

        def put(m, new):
            return text[:start + m.start()] + new + text[start + m.end():]

        for m in re.finditer(r"(?<![\w·.{])\d+(?!\w)", body):
            n = int(m.group())
            for other in [n + 1] + ([n - 1] if n else []):
                yield name, put(m, str(other)), ""
        for m in re.finditer(WORD, body):
            for old, new in SWAPS + SIGNS:
                if m.group() == old:
                    yield name, put(m, new), new
            for field in re.finditer(r"\.(«?\w+»?)", m.group()):
                for other in beside.get(field.group(1).strip("«»"), []):
                    yield name, put(m, m.group()[:field.start(1)] + other + m.group()[field.end(1):]), ""
            read = READ.fullmatch(m.group())
            for other in taken.get(read.group(1), []) if read else []:
                yield name, put(m, other + read.group(2)), ""
        for m in re.finditer(r"not (?=\()|\(suc (\w+)\)", body):
            yield name, put(m, m.group(1) or ""), ""
        for m in re.finditer(r"record \{(.*?)\}", body, re.S):
            values = [(start + v.start(1), start + v.end(1)) for v in re.finditer(r"= ([^;}]*?)(?=;| \}|\n\})", body) if m.start() < v.start() < m.end()]
            for one, two in zip(values, values[1:]):
                yield name, exchanged(text, one, two), ""
        found, pairs = applied(text, start, end)
        for atoms in found:
            for one, two in zip(atoms[1:], atoms[2:]):
                if text[slice(*atoms[0])] not in EITHER_WAY:
                    yield name, exchanged(text, one, two), ""
        for sign, one, two in pairs:
            if sign in ORDERED and "[]" not in (text[one[0]:one[1]], text[two[0]:two[1]]):
                yield name, exchanged(text, one, two), ""
    for name, cases in bodies.items():
        for start, end in cases:
            for other in {text[a:b]: 0 for a, b in cases}:
                yield name, text[:start] + other + text[end:], ""


def fields(source):
    """The number fields that stand beside each number field of a struct."""
    beside = {}
    for m in re.finditer(r"struct \w+ \{\n(.*?)^\}", source, re.M | re.S):
        names = [f if f != "record" else "«record»" for f in re.findall(r"(\w+): (?:u\d+|usize),", m.group(1))]
        for one, two in zip(names, names[1:]):
            beside.setdefault(one.strip("«»"), []).append(two)
            beside.setdefault(two.strip("«»"), []).append(one)
    return beside


def swept(crate):
    """The files of a crate that are swept."""
    return SWEPT[crate] or sorted(file[:-5] for file in os.listdir(f"{TOP}/crates/{crate}/specs") if file not in ("Lib.antt", "Cases.antt"))


def steps():
    """(crate, file, step, changed file) for each step."""
    beside = fields(declared(SWEPT))
    for crate in SWEPT:
        for file in swept(crate):
            text = open(f"{TOP}/crates/{crate}/specs/{file}.antt").read()
            seen = {text}
            for name, changed, word in changes(text, beside):
                if changed in seen or f"{crate}/{file} {name}" in INTERNAL:
                    continue
                seen.add(changed)
                before = text.split("\n")
                lines = [line.strip() for line in changed.split("\n")]
                if len(lines) == len(before):
                    lines = [line for line, old in zip(lines, before) if line != old.strip()]
                else:
                    lines = [line for line in lines if line not in [old.strip() for old in before]] or [name]
                yield crate, file, f"{crate}/{file}: {' '.join(lines)}", with_name(changed, word)


def with_name(text, word):
    """The same text, with the word among the names that it uses."""
    name = word if word.isalpha() else f"◌{word}◌"
    if not word or name in known(text):
        return text
    used = re.search(rf"^use {re.escape(PRELUDE)}\.\{{([^}}]*)\}}", text, re.M)
    return text[:used.end() - 1] + ", " + name + text[used.end() - 1:] if used else f"use {PRELUDE}.{{{name}}}\n" + text


# ---- the crate of definitions and cases alone

def declared(crates):
    """The types and the constants that some crates declare, each name once."""
    found = {}
    for crate in crates:
        source = f"{TOP}/crates/{crate}/src/lib.rt"
        text = open(source).read() if os.path.exists(source) else ""
        for m in re.finditer(r"^(?:#\[.*\]\n)*(?:pub )?(?:(?:struct|enum) (\w+) \{\n.*?^\}|const (\w+)[^;]*;)\n", text, re.M | re.S):
            found.setdefault(m.group(1) or m.group(2), re.sub(r"\b[a-z]\w*::", "", m.group()))
    return "\n".join(found.values())


def module(crate, file, place):
    return f"{crate.title().replace('_', '')}{file}At{place}"


def moved(text, place):
    """A file's text as it stands in a copy of the one crate."""
    text = re.sub(r"Rattle\.\w+\.specs\.declared\.", "Rattle.one.specs.declared.", text)
    return re.sub(USE, lambda m: "Rattle.one.specs." + module(m.group(1), m.group(2), place), text)


def build(at):
    """Writes the repository with the one crate: definitions and cases in as many copies as there are places."""
    parts = {"specs": {}, "proofs": {}}
    todo = [("specs", crate, file) for crate in SWEPT for file in swept(crate)]
    todo += [("proofs", crate, "Cases") for crate in SWEPT if os.path.exists(f"{TOP}/crates/{crate}/proofs/Cases.antt")]
    while todo:
        part, crate, file = todo.pop()
        if (crate, file) not in parts[part]:
            text = parts[part][crate, file] = open(f"{TOP}/crates/{crate}/{part}/{file}.antt").read()
            todo += [("specs", *use) for use in re.findall(USE, text)]
    os.makedirs(f"{at}/crates/one/src")
    open(f"{at}/crates.txt", "w").write("one:\n")
    open(f"{at}/crates/one/src/lib.rt", "w").write(declared({crate: 0 for crate, _ in parts["specs"]}))
    for part, texts in parts.items():
        os.mkdir(f"{at}/crates/one/{part}")
        names = []
        for (crate, file), text in sorted(texts.items()):
            for place in range(PLACES):
                names.append(module(crate, file, place))
                open(f"{at}/crates/one/{part}/{names[-1]}.antt", "w").write(moved(text, place))
        open(f"{at}/crates/one/{part}/Lib.antt", "w").write("".join(f"pub mod {name}\n" for name in names))


def proved(at, places):
    """What the prover says of each of these places: proved; refused by a case; unfit, where a definition is none; endless, where a
    case takes more steps than the prover allows; None where that is not sure."""
    said = subprocess.run(["rt", "check", "--jobs", "1"], cwd=f"{at}/crates/one", capture_output=True, text=True)
    said = said.stdout + said.stderr
    if "\nlogic=proved" in said:
        return ["proved"] * places, said
    if re.search(LIMITS, said):
        return ["endless" if places == 1 else None] * places, said
    if "logic=not-proved" not in said:
        sys.exit("sweep: the prover gave no answer:\n" + said[-2000:])
    wrong = {part: {int(at) for at in re.findall(rf"^\./{part}/\w+At(\d+)\.antt:\d+:\d+: error", said, re.M)} for part in ("specs", "proofs")}
    return ["unfit" if place in wrong["specs"] else "refused" if place in wrong["proofs"] else None for place in range(places)], said


def attempt(at, jobs):
    """What the prover says of each step, tried side by side; where that is not sure, tried alone."""
    paths = [f"{at}/crates/one/specs/{module(crate, file, place)}.antt" for place, (crate, file, _, _) in enumerate(jobs)]
    whole = [open(path).read() for path in paths]
    for place, (path, job) in enumerate(zip(paths, jobs)):
        open(path, "w").write(moved(job[3], place))
    answers, said = proved(at, len(jobs))
    for path, text in zip(paths, whole):
        open(path, "w").write(text)
    if answers == [None]:
        sys.exit("sweep: the prover refuses something else than the step:\n" + said[-2000:])
    return [answer or attempt(at, [job])[0] for answer, job in zip(answers, jobs)]


def main():
    words = sys.argv[1:]
    every = list(steps())
    same = {line.split(" | ")[0].strip() for line in open(f"{TOP}/tests/sweep.same") if " | " in line}
    gone = same - {step for _, _, step, _ in every}
    for step in sorted(gone):
        print("no such step, in tests/sweep.same: " + step)
    if gone or words == ["steps"]:
        return 1 if gone else 0
    jobs = [job for job in every if not words or job[0] in words or f"{job[0]}/{job[1]}" in words]
    if not jobs:
        print(__doc__)
        return 2
    work = tempfile.mkdtemp()
    try:
        free = [f"{work}/{k}" for k in range(int(os.environ.get("RT_JOBS", 0)) or os.cpu_count() or 1)]
        build(free[0])
        answers, said = proved(free[0], PLACES)
        if answers != ["proved"] * PLACES:
            sys.exit("sweep: the cases do not hold as it is:\n" + said[-2000:])
        for at in free[1:]:
            shutil.copytree(free[0], at)

        def run(some):
            at = free.pop()
            try:
                return zip(some, attempt(at, some))
            finally:
                free.append(at)

        found = {"proved": 0, "refused": 0, "unfit": 0, "endless": 0}
        open_steps = 0
        with concurrent.futures.ThreadPoolExecutor(len(free)) as pool:
            for (_, _, step, _), answer in itertools.chain.from_iterable(pool.map(run, [jobs[k:k + PLACES] for k in range(0, len(jobs), PLACES)])):
                found[answer] += 1
                if answer == "proved" and step not in same:
                    open_steps += 1
                    print("still proved: " + step, flush=True)
                elif answer == "refused" and step in same:
                    print("refused, though in tests/sweep.same: " + step, flush=True)
        print(f"{len(jobs)} steps: {found['refused']} refused, {found['endless']} that no longer come to an end, {found['unfit']} no definitions, "
              f"{found['proved'] - open_steps} that change nothing, {open_steps} still proved")
        return 1 if open_steps else 0
    finally:
        shutil.rmtree(work)


sys.exit(main())
