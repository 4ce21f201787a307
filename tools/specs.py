"""Reads definitions, contracts and types of this repository as text, for the scripts beside this file."""

import os
import re

TOP = os.path.dirname(os.path.dirname(os.path.abspath(__file__)))
CRATES = os.path.join(TOP, "crates")
# A word of a definition or a contract. Primes, hyphens and question marks may stand in it.
WORD = re.compile(r"[A-Za-z_][A-Za-z0-9_'?]*(?:-[A-Za-z0-9_'?]+)*")
OPERATOR = re.compile(r"[^\s\w(){}\[\],.;:λ◌\"']+")
HEAD = re.compile(r"(?:abbrev|unfoldable|opaque|pub|data|record)\b")


def text_of(path):
    with open(path, encoding="utf-8") as file:
        return file.read()


def write_if_new(path, text):
    """Whether the file had to be written."""
    if os.path.exists(path) and text_of(path) == text:
        return False
    with open(path, "w", encoding="utf-8", newline="\n") as file:
        file.write(text)
    return True


def crates():
    """The crates of crates.txt in its order, each with the names that it stands on."""
    found = {}
    for line in text_of(os.path.join(TOP, "crates.txt")).split("\n"):
        line = line.partition("#")[0]
        if line.strip():
            head, _, below = line.partition(":")
            found[head.split()[0]] = below.split()
    return found


def imports(text):
    """What `use` items bring in: a name for each, and where it stands: the module's path and the name there, or None as the name
    where the whole module goes by it."""
    found = {}
    for match in re.finditer(r"^\s*(?:ghost |unfoldable |pub )*use\s+(Rattle\.[\w.\-]+?)(?:\.\{([^}]*)\}|\s+as\s+(\w+))\s*;?", text, re.M | re.S):
        path, names, whole = match.groups()
        if whole:
            found[whole] = (path, None)
            continue
        for part in names.split(","):
            name, _, other = part.strip().partition(" as ")
            if name:
                found[(other or name).strip()] = (path, name.strip())
    return found


def names_in(text, known):
    """Which of the known names stand in the text."""
    text = re.sub(r"--.*", "", text)
    words = set(WORD.findall(text))
    signs = set(OPERATOR.findall(text))
    found = set()
    for name in known:
        if "◌" in name:
            parts = [part for part in name.split("◌") if part]
            is_there = all(part in words or part in signs or any(part in sign for sign in signs) for part in parts)
            # The steps of a `do` are joined by the operator of its type.
            if is_there or (name == "◌>>=◌" and "do" in words):
                found.add(name)
        elif name in words:
            found.add(name)
    return found


class Specs:
    """A file of definitions."""

    def __init__(self, path):
        self.path = path
        text = text_of(path)
        comment = re.match(r"(?:--.*\n)+", text)
        lines = comment[0].split("\n") if comment else []
        self.about = " ".join(line[2:].strip() for line in lines).strip()
        self.imports = imports(text)
        self.items = {}
        name, is_inside = None, False
        for line in text.split("\n"):
            # What stands in a block `module _` is read as if it stood outside.
            if line.startswith("module _"):
                name, is_inside = None, True
                continue
            if is_inside and line.startswith("  "):
                line = line[2:]
            elif line.strip():
                is_inside = False
            if line.startswith(("use ", "pub use ", "--", "}")) or (line and not line.strip()):
                if not line.startswith("}"):
                    name = None if line.startswith("use ") else name
                continue
            if line and not line[0].isspace():
                name = self.named(line, name)
            if name and line.strip():
                self.items[name] = self.items.get(name, "") + line + "\n"
        # A data type's constructors and a record's fields, and whose they are.
        self.fields, self.owner = {}, {}
        for item, text in self.items.items():
            if re.match(r"(?:pub )?(?:data|record)\b", text):
                self.fields[item] = re.findall(r"^\s+(?:pub\s+)?([^\s:(){}]+)\s*:", text, re.M)
                for field in self.fields[item]:
                    self.owner.setdefault(field, item)

    @staticmethod
    def named(line, before):
        words = line.split()
        while words and words[0] in ("abbrev", "unfoldable", "opaque", "pub", "data", "record"):
            words.pop(0)
        if not words or words[0].startswith("infix"):
            return None
        if HEAD.match(line) or ":" in words[1:2]:
            return words[0].rstrip(":")
        return words[0] if before is None or words[0] == before else before if words[0].startswith(("(", "{", "λ")) else words[0]


class Code:
    """A file of src/."""

    def __init__(self, path):
        self.path = path
        self.text = text_of(path)
        self.imports = imports(self.text)

    def functions(self):
        """Each function's name and its head: what stands in front of its body, the contract with it."""
        lines = self.text.split("\n")
        for at, line in enumerate(lines):
            match = re.match(r"( *)(?:pub(?:\([^)]*\))? )?(?:const )?(?:unsafe )?fn ([a-zA-Z_]\w*)", line)
            if not match:
                continue
            head, has_contract = [], False
            for other in lines[at:]:
                if other.rstrip() == match[1] + "{":
                    break
                head.append(other)
                has_contract = has_contract or bool(re.match(r"\s*(ensures|requires)\b", other))
                text = "\n".join(head)
                if other.endswith("{") and not has_contract or other.endswith((";", "}")) and text.count("{") == text.count("}") and (other.endswith(";") or not has_contract):
                    break
            yield match[2], "\n".join(head)

    def type_text(self, name):
        """The type of this name, with what gives its meaning in contracts, or None."""
        match = re.search(rf"^(?:pub(?:\([^)]*\))? )?(?:struct|enum|trait|type) {name}\b[^\n]*(?:;$|\n(?:[ }}].*\n|\n)*)", self.text, re.M)
        if not match:
            return None
        text = match[0]
        text = text[: text.find("\n}\n") + 3] if "\n}\n" in text else text
        # What a type keeps is proved of each value, and plays no part in what the value means.
        if "trait" not in text.split("{")[0]:
            text = re.sub(r"^ *(?:pub )?ghost [^;]*?\},?$", "", text, flags=re.M)
        model = re.search(rf"^impl(?:<[^>]*>)? Model for {name}\b[^\n]*\n(?:[ ].*\n|\n)*\}}", self.text, re.M)
        parts = re.findall(r"^    ghost (?:use|Value|view)\b[^;]*;", model[0], re.M) if model else []
        return "\n".join([text, *parts])


class House:
    """The definitions and the code of all crates."""

    def __init__(self):
        self.crates = crates()
        self.specs = {}
        self.code = {}
        self.types = {}
        for crate in self.crates:
            for kind, ending, files in (("specs", ".antt", self.specs), ("src", ".rt", self.code)):
                for at, _, names in os.walk(os.path.join(CRATES, crate, kind)):
                    for name in sorted(names):
                        path = os.path.join(at, name)
                        short = os.path.relpath(path, CRATES)
                        # (a folder above the clone may have any name)
                        if name.endswith(ending) and name != "Lib.antt" and "/tests" not in short:
                            files[short] = (Specs if kind == "specs" else Code)(path)
        for short, code in self.code.items():
            for name in re.findall(r"^(?:pub(?:\([^)]*\))? )?(?:struct|enum|trait|type) (\w+)", code.text, re.M):
                self.types.setdefault((short.split("/")[0], name), short)

    def private(self, file):
        """Whether a file of definitions stands under the heading of those that only private contracts, invariants and proofs use."""
        crate, _, rest = file.partition("/specs/")
        if rest.startswith("private/"):
            return True
        under = False
        for line in text_of(os.path.join(CRATES, crate, "specs/Lib.antt")).split("\n"):
            if line.startswith("--"):
                under = line.startswith("-- only for private")
            elif under and line.split() == ["pub", "mod", rest[:-5]]:
                return True
        return False

    def file_of(self, module):
        """The file of a module's path, or None where it is the toolchain's."""
        parts = module.split(".")
        if len(parts) < 4 or parts[1] not in self.crates:
            return None
        if parts[3] == "declared":
            for name in parts[:3:-1]:
                if (parts[1], name) in self.types:
                    return self.types[parts[1], name], name
            return None
        return "/".join(parts[1:]) + ".antt", None

    def closure(self, start_text, start_imports, start_types=()):
        """The definitions and types that a text rests on: for each file the names that are reached, and for the toolchain's modules."""
        reached, foreign = {}, {}
        todo = [(start_text, start_imports, None)]

        def visit(file, name):
            if name in reached.setdefault(file, set()):
                return
            reached[file].add(name)
            if file in self.specs:
                specs = self.specs[file]
                todo.append((specs.items[name], specs.imports, specs))
            else:
                code = self.code[file]
                text = code.type_text(name) or ""
                todo.append((text, {**code.imports, **imports(text)}, None))
                crate = file.split("/")[0]
                for word in sorted(set(re.findall(r"\b[A-Z]\w+", re.sub(r"//.*", "", text)))):
                    for of in [crate, *self.crates[crate]]:
                        if (of, word) in self.types and word != name:
                            visit(self.types[of, word], word)
                            break

        for crate, name in start_types:
            visit(self.types[crate, name], name)
        while todo:
            text, brought, own = todo.pop()
            for name in sorted(names_in(text, brought)):
                module, inside = brought[name]
                found = self.file_of(module)
                if not found:
                    foreign.setdefault(module, set()).add(inside or name)
                    continue
                file, type_name = found
                if type_name:
                    visit(file, type_name)
                elif file in self.specs:
                    specs = self.specs[file]
                    for word in [inside] if inside else specs.items:
                        word, passes_on = word if word in specs.items else specs.owner.get(word), word
                        if word:
                            visit(file, word)
                        elif passes_on in specs.imports:
                            # A module may pass on what stands in another one.
                            todo.append((passes_on, {passes_on: specs.imports[passes_on]}, None))
            if own:
                for name in sorted(names_in(text, own.items)):
                    visit(os.path.relpath(own.path, CRATES), name)
        return reached, foreign
