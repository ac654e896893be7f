"""Finds the definitions that the clauses of `abs_run` rest on, and compares their files with the lists of a page.

A file of specs/ is read into definitions, each with the words that it uses, and into imports. From the words of the
clauses the search follows names: to a definition of the same file, or by an import to one of another file. What it
reaches must be read to be believed. Types of the code (`declared.`) and other libraries are not followed.
"""

import re

COMMAND = "crates/abs_command/src/command.rt"
CALL = "abs_run"
TRUSTED = "## Which definitions must be trusted"
OTHERS = "## What the other definitions are for"

IMPORT = re.compile(
    r"(?m)^\s*(?:ghost\s+)?use\s+Rattle\.(\w+)\.specs\.([\w.]+?)(?:\.\{([^}]*)\}|\s+as\s+(\w+))\s*;?\s*$"
)
COMMENT = re.compile(r"(?m)(?:^|(?<=\s))--(?=\s|$).*$")
HEAD = re.compile(r"((?:(?:pub|abbrev|unfoldable|private|data|record)\s+)*)([^\s(){}:,]+)")
CONSTRUCTOR = re.compile(r"(?m)^\s+(?:pub\s+)?([^\s(){}:,]+) :(?=\s)")
WORD = re.compile(r"[^\s(){}\[\],;→λ×⊎≡≢∷:=]+")


class Specs:
    """The definitions of all crates, whose files are read when they are first asked for."""

    def __init__(self, root):
        self.root = root
        self.files = {}

    def file(self, crate, name):
        """The definitions of a file, what its names stand for, and its imports; nothing of one that is not there."""
        if (crate, name) not in self.files:
            path = self.root / "crates" / crate / "specs" / f"{name}.antt"
            text = COMMENT.sub("", path.read_text(encoding="utf-8")) if path.is_file() else ""
            self.files[crate, name] = *definitions(IMPORT.sub("", text)), imports(text)
        return self.files[crate, name]

    def imported(self, imported, word):
        """The definition that a word stands for by these imports, as crate, file and name, or None."""
        alias, _, rest = word.partition(".")
        crate, file, name = imported.get(word) or imported.get(alias) or (None, None, None)
        owner = crate and self.file(crate, file)[1].get(name or rest.partition(".")[0])
        return owner and (crate, file, owner)

    def used_by(self, crate, file, name):
        """The definitions that the words of a definition stand for."""
        texts, owners, imported = self.file(crate, file)
        for word in WORD.findall(texts[name]):
            found = (crate, file, owners[word]) if word in owners else self.imported(imported, word)
            if found:
                yield found

    def reached(self, words, imported):
        """All definitions that are reached from these words, which have these imports."""
        waiting = [it for it in (self.imported(imported, word) for word in words) if it]
        found = set(waiting)
        while waiting:
            new = set(self.used_by(*waiting.pop())) - found
            found |= new
            waiting += new
        return found


def definitions(text):
    """The text of each definition by its name, and of each name, that of a constructor too, its definition.

    The definitions of a `module _ (..) where` are indented, and its parameters are part of the text of each."""
    texts, current, outer, base, header = {}, None, 0, 0, []
    for line in filter(str.strip, text.split("\n")):
        indent = len(line) - len(line.lstrip())
        if indent == 0:
            outer, header = (2, []) if line.startswith("module ") else (0, [])
            current = None if outer else current
        if indent <= outer:
            base = outer + 2 if re.fullmatch(r"(\w+ )?mutual\s*", line.strip()) else outer
        head = HEAD.match(line.strip()) if indent == base else None
        if head:
            current = head[2]
            texts.setdefault(current, (head[1], header, []))
        if current is not None and indent >= base:
            texts[current][2].append(line)
        elif current is None and outer:
            header.append(line)
    owners = {name: name for name in texts}
    for name, (modifiers, _, lines) in texts.items():
        if "data" in modifiers:
            owners.update({it: name for it in CONSTRUCTOR.findall("\n".join(lines[1:]))})
    return {name: "\n".join(header + lines) for name, (_, header, lines) in texts.items()}, owners


def imports(text):
    """What each imported name stands for: crate, file and the name there, or None where it is the whole file."""
    found = {}
    for crate, path, names, alias in IMPORT.findall(text):
        file = path.partition(".")[0]
        if crate == "std" or file == "declared":
            continue
        if alias:
            found[alias] = crate, file, None
        for name in filter(None, (it.strip() for it in names.split(","))):
            original, _, renamed = name.partition(" as ")
            found[renamed.strip() or original] = crate, file, original.strip()
    return found


def reached_files(root):
    """The files of specs/ that the clauses of the call rest on, as crate and file, with the definitions of each."""
    text = (root / COMMAND).read_text(encoding="utf-8")
    clauses = re.search(rf"pub fn {CALL}\b.*?\n{{", text, re.S)
    words = WORD.findall(clauses[0]) if clauses else []
    found = {}
    for crate, file, name in Specs(root).reached(words, imports(text)):
        found.setdefault((crate, f"{file}.antt"), set()).add(name)
    return found


def listed_files(page, heading):
    """Such files as a section of a page lists them, in items that begin with a crate's name.

    With each its line, and the definitions that are named after it in parentheses."""
    before, _, section = page.partition(heading)
    section = section.partition("\n## ")[0]
    found = {}
    for item in re.finditer(r"(?ms)^- \*\*(\w+)\*\*(.*?)(?=^\S|\Z|^$)", section):
        line = before.count("\n") + section.count("\n", 0, item.start()) + 1
        for file, names in re.findall(r"`(\w+\.antt)`(?:\s+\(([^)]*)\))?", item[2]):
            found[item[1], file] = line, set(re.findall(r"`([^`]+)`", names))
    return found


def check_trusted(root, page):
    """The differences of the page's two lists from the files of specs/: pairs of a line and a message."""
    reached, trusted, others = reached_files(root), listed_files(page, TRUSTED), listed_files(page, OTHERS)
    first, second = (page.partition(heading)[0].count("\n") + 1 for heading in (TRUSTED, OTHERS))
    there = {(it.parts[-3], it.name) for it in root.glob("crates/*/specs/*.antt") if it.name != "Lib.antt"}
    for crate, file in sorted(reached.keys() - trusted.keys()):
        yield first, f"the clauses of {CALL} rest on {file} of {crate}, which the list of what must be trusted lacks"
    for (crate, file), (line, names) in trusted.items():
        for name in sorted(names - reached.get((crate, file), names)):
            yield line, f"the clauses of {CALL} do not rest on {name} of {file} of {crate}, which is to be trusted"
        if (crate, file) not in reached:
            yield line, f"the clauses of {CALL} do not rest on {file} of {crate}, which is to be trusted"
    for crate, file in sorted(others.keys() & trusted.keys() | others.keys() - there):
        yield others[crate, file][0], f"{file} of {crate} is not there, or is on both lists"
    for crate, file in sorted(there - trusted.keys() - others.keys()):
        yield second, f"no list has {file} of {crate}"
