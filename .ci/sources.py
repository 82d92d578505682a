"""What the scripts of this folder read of the sources: crates, calls with their clauses, and definitions."""
import pathlib
import re

ROOT = pathlib.Path(__file__).resolve().parent.parent
FUNCTION = re.compile(r'^\s*(?:pub(?:\([^)]*\))? )?(?:final )?(?:extern "C" )?fn (\w+)')
OWNER = re.compile(r"^(?:pub )?(impl|trait)\b(?:<[^>]*(?:<[^>]*>)?[^>]*>)?\s*(.*)$")
CLAUSE = re.compile(r"^\s*(requires|ensures)\b\s*(\w+)?\s*\{\s*(\w*)")
DEFINED = re.compile(r"^(?:pub |unfoldable |abbrev |record |data )+(?!mod |use )(\S+)")
FIELD = re.compile(r"^\s+(?:pub )?(\w+) :")


def crates():
    """The names of crates.txt."""
    lines = (ROOT / "crates.txt").read_text().splitlines()
    return [re.match(r"\w+", line).group() for line in lines if re.match(r"\w", line)]


def below(crate):
    """What a crate stands on, as crates.txt has it."""
    for line in (ROOT / "crates.txt").read_text().splitlines():
        if re.match(rf"{crate}\b", line):
            return line.partition(":")[2].split()
    return []


def owner_of(line):
    """The name before the `::` of the calls of an impl or a trait; of an impl of a trait it is the type's."""
    found = OWNER.match(line)
    if not found:
        return None
    name = found.group(2).split(" where ")[0]
    if found.group(1) == "trait":
        name = name.split(":")[0]
    name = name.split(" for ")[-1].strip(" {}")
    return re.sub(r"[<'].*$", "", name).strip()


def heads(crate):
    """Each function of a crate: its call, the file, and its lines up to the body, without its attributes."""
    for path in sorted((ROOT / "crates" / crate / "src").rglob("*.rt")):
        owner, head, depth = "", None, 0
        for line in path.read_text().splitlines():
            if line[:1] not in ("", " ", "/", "#") and head is None:
                owner = owner_of(line) or ("" if not line.startswith(")") else owner)
            found = FUNCTION.match(line)
            if found and depth == 0:
                head, call = [], "::".join(filter(None, (owner, found.group(1))))
            if head is None:
                continue
            depth += sum(line.count(c) for c in "{(") - sum(line.count(c) for c in "})")
            ends = depth == 0 and line.rstrip().endswith((";", " {}")) or line.strip() == "{}"
            if ends or depth == 1 and line.rstrip().endswith("{") and not CLAUSE.match(line):
                rest = line.rstrip().removesuffix("{}").rstrip("{; ")
                yield call, path, head + [rest] * bool(rest.strip())
                head, depth = None, 0
                continue
            head.append(line)


def parted(head):
    """The signature of a function in one line, and its clauses: for each its first line, and all its lines."""
    signature, clauses, depth = [], [], 0
    for line in head:
        line = re.sub(r"\s*// .*$", "", line)
        if depth == 0 and CLAUSE.match(line):
            clauses.append([])
        depth += sum(line.count(c) for c in "{(") - sum(line.count(c) for c in "})")
        if line.strip():
            (clauses[-1] if clauses else signature).append(line.strip())
    return " ".join(signature), clauses


def contracts(crate):
    """Each call of a crate with its clauses: for each whether it is a condition, its name, its first word, and all its words."""
    found = {}
    for call, _, head in heads(crate):
        kept = []
        for clause in parted(head)[1]:
            kind, name, word = CLAUSE.match(clause[0]).groups()
            if word == "let":
                word = re.search(r"\bin\s+(\w*)", " ".join(clause)).group(1)
            kept.append((kind == "requires", name, word, set(re.findall(r"[A-Za-z_]\w*", " ".join(clause)))))
        found.setdefault(call, kept)
    return found


def definitions(path):
    """Each definition of a file of specs/, by its name, as its lines without comments."""
    found, current, margin = {}, None, 0
    for line in path.read_text().splitlines():
        line = re.sub(r"\s*(?<!\S)--(?!\S*>).*$", "", line)
        if not line.strip():
            continue
        indent = len(line) - len(line.lstrip())
        head = DEFINED.match(line.lstrip())
        if re.match(r"\s*(?:(?:abbrev )?mutual|module _ .* where|(?:pub )?(?:use|mod) .*)$", line):
            current = None
        elif head and (current is None or indent <= margin):
            current, margin = found.setdefault(head.group(1), []), indent
        if current is not None:
            current.append(line[margin:])
    return found


def specs(crate):
    """Each file of definitions of a crate, by its path below specs/ without its ending."""
    top = ROOT / "crates" / crate / "specs"
    return {str(path.relative_to(top))[:-5]: path for path in sorted(top.rglob("*.antt"))}
