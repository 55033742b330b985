"""Lists the places that docs/DESIGN-PASS.md counts: `python3 tools/places.py [COMMIT]`.

Each list belongs to one point of that page. A row is a place to look at, not a verdict.
"""
import collections
import re
import subprocess
import sys

COMMIT = sys.argv[1] if len(sys.argv) > 1 else "HEAD"
NUMBER = r"(?:u8|u16|u32|u64|usize)"


def git(*words):
    return subprocess.run(["git", *words], capture_output=True, text=True, check=True).stdout


CRATES = git("ls-tree", "-r", "--name-only", COMMIT, "crates").splitlines()
TEXT = {file: git("show", f"{COMMIT}:{file}") for file in CRATES if "/src/" in file}
HEAD = re.compile(r"^( *)(?:pub(?:\([a-z]+\))? )?fn (\w+)(?:<[^(]*>)?\((.*?)\)(?: -> ([^\n{]*?))?(?=\n| \{|;)", re.M | re.S)


def functions():
    """File, line, name, parameters, answer and body of each function."""
    for file, text in TEXT.items():
        for m in HEAD.finditer(text):
            start = text.find("{\n", m.end())
            body = text[start : text.find(f"\n{m[1]}}}", start)]
            yield file, text.count("\n", 0, m.start()) + 1, m[2], m[3], m[4] or "", body


def show(point, title, rows):
    print(f"point {point}: {title}: {len(rows)}")
    for row in rows:
        print(f"    {row}")


def lines(pattern):
    found = re.compile(pattern)
    return [
        f"{file}:{n} {line.strip()}"
        for file, text in TEXT.items()
        for n, line in enumerate(text.splitlines(), 1)
        if found.search(line)
    ]


def heads(test):
    return [f"{file}:{n} {name}" for file, n, name, taken, told, body in functions() if test(name, taken, told, body)]


def fields(pattern):
    """The fields of structs whose text has the pattern."""
    rows = []
    for file, text in TEXT.items():
        for m in re.finditer(r"^(?:pub(?:\([a-z]+\))? )?struct (\w+)[^;{]*\{\n(.*?)\n\}", text, re.S | re.M):
            rows += [f"{file} {m[1]}: {field.strip()}" for field in m[2].splitlines() if re.search(pattern, field)]
    return rows


def one_shape():
    """Functions whose bodies differ in names and numbers alone."""
    shapes = collections.defaultdict(list)
    for file, _, name, _, _, body in functions():
        if body.count("\n") > 1:
            shapes[re.sub(r"\w+", "w", body)].append(f"{file} {name}")
    return [" ~ ".join(found) for found in shapes.values() if len(found) > 1]


def clauses(kind):
    """The clauses of a kind that three functions of a crate or more have."""
    places = collections.Counter()
    for file, text in TEXT.items():
        for m in re.finditer(rf"^ +{kind} (?:\w+ )?(\{{.*?\}})$", text, re.M):
            places[file.split("/")[1], m[1]] += 1
    return [f"{crate} {clause}: {n}" for (crate, clause), n in places.items() if n > 2]


def together():
    """The pairs of parameters that three functions of a crate or more take side by side."""
    places = collections.Counter()
    for file, _, _, taken, _, _ in functions():
        names = [name for name in re.findall(r"(\w+): ", taken) if name not in {"self", "rt"}]
        for pair in zip(names, names[1:]):
            places[file.split("/")[1], pair] += 1
    return [f"{crate} {', '.join(pair)}: {n}" for (crate, pair), n in places.items() if n > 2]


def compares(name, taken, told, body):
    by_field = re.search(r"(\w+)\.(\w+) == (\w+)\.\2\b", body)
    return told == "bool" and (by_field or re.match(r"same|shows|is_set|is_outside|is_unlawful", name))


def converts(name, taken, told, body):
    one = taken.count(":") + taken.count("self") == 1
    by_cases = re.match(r"\{\n *match \*?[a-z_.]+ \{", body) and "&mut" not in taken and told
    tested = name == "new" and re.match(r"Option|Result", told)
    return one and (by_cases or tested or re.match(r"(two|four)_digits|number$|figures", name))


def prints(name, taken, told, body):
    return re.match(r"print_|text_of|one_line", name)


def main():
    show(1, "enums of the repository", lines(r"^ *(pub(\([a-z]+\))? )?enum "))
    show(1, "a bool that says whether a call was obeyed", heads(lambda name, taken, told, body: "&mut" in taken and told == "bool"))
    show(1, "a bare number as an error", lines(rf"Result<[^<>]*, {NUMBER}>"))
    show(1, "a kind or a flag beside a value", fields(r"\w+: (bool|\w*Kind),"))
    show(2, "functions of one shape", one_shape())
    show(3, "loops on a condition or a range", lines(r"\bwhile |\bloop \{|\bfor \w+ in [^{]*\.\."))
    show(4, "comparing by hand", heads(compares))
    show(4, "converting by hand", heads(converts))
    show(4, "printing by hand", heads(prints))
    show(5, "a requires of three functions", clauses("requires"))
    show(5, "an ensures of three functions", clauses("ensures"))
    show(5, "parameters side by side in three functions", together())
    show(6, "a length, a place or an end kept as a number", fields(rf"\w*(len|length|used|count|place|end): {NUMBER},"))
    show(7, "a match on what to do", lines(r"\bmatch (self|kind|permitted|case\.code)\b|\bdyn |\bfn\("))
    proofs = [git("show", f"{COMMIT}:{file}").count("\n") for file in CRATES if "/proofs/" in file]
    print(f"point 8: files of proofs: {len(proofs)}, lines: {sum(proofs)}")


main()
