#!/usr/bin/env python3
"""Spells this repository's own names by CONTRACT_STYLE.md, "Names": snake_case words, UpperCamelCase types, ' for a prime, and a dash only between two names.

usage: respell.py [--check] [--out FOLDER] [REPOSITORY]

It ran once, right behind the toolchain's port.py, on the last commit in the older spelling; docs/PORT.md names the commit that it made. names.tsv beside this
file has the spellings that the rule does not give. --check writes nothing in the repository; --out writes the table of renamings to FOLDER. Deterministic; a
second run changes nothing. Python 3.8 or later, no network, nothing but this file and names.tsv.
"""

import collections
import os
import re
import sys

HERE = os.path.dirname(os.path.realpath(__file__))
NAME = r'[^\s(){}.;,@"«»]+'
WORD = re.compile(NAME)
QUIET = re.compile(r'"(?:[^"\\\n]|\\.)*"|(?<![^\s(){}.;,@"«»])--[^\n]*|\{-.*?-\}', re.S)
SPAN = re.compile(r"(\x60+)(?:[^\n]|\n(?!\s*\n))*?\1")
USE = re.compile(
    r"(?m)^([ ]*)((?:(?:unfoldable|pub|ghost) )*)use ([^\s;{]+?)\.?(\{[^}]*\})?(?: as ([^\s;]+))?(?=;|[ ]*$)"
)
DECL = re.compile(
    r"[ ]*(?:(?:pattern|unfoldable|abbrev|pub|axiom) )*((?:[^\s(){}.;,@\"«»:=]+ )+)(?:\{[^{}:\n]*\} )*:(?= |$)"
)
# What an answer's signature has: a name of a module that Rattle makes.
MADE = r"(?<![^\s({])(?:(?:\S+-)?(?:tie|lts|kinds)|goal|Tie|Goals)\.|\bMeasures\b"
MARKS = {"pattern", "unfoldable", "abbrev", "pub", "axiom"}
RESERVED = set(
    "data record deriving module where use mod pub package open as unfoldable abbrev axiom unfold unfolding ruleset mutual infix infixl infixr elim let in do λ ∀ Type 𝕀 𝔽 coe fcoe tcoe hcom com ∨ ∧".split()
)
TACTICS = set(
    "rw rw⁻¹ simp search grw cc omega grind hlevel assumption first_of cap ground absurd tt Unit yes no refl V vin vproj in_s out_s result".split()
)
# Words of the language of texts that this repository reads: in comments and pages they mean that language, so they stay there.
DOCUMENT = {"getR", "getB", "getS", "putR", "putB", "putS"}
# The words that stand for an operator in a lemma's name, by the operator.
SYMBOLS = {"+": "add", "*": "mul", "-": "sub", "≡": "eq", "≢": "ne", "≤": "le", "<": "lt", "++": "append", "&&": "and", "||": "or", "∷": "cons", "[]": "nil", "^": "pow", "ℕ": "ℕ", "ℤ": "ℤ"}  # fmt: skip


def is_own(steps, own):
    """Is it a module of ours? Those below proofs/F/ that are no file there are made by Rattle (Goals, Given, Lts ..)."""
    if not (steps[0] == "Rattle" and len(steps) > 1 and steps[1] in own):
        return False
    return not (len(steps) > 4 and steps[2] == "proofs" and steps[4] not in ("Answers", "Invariants", "Proof"))


def blank(text):
    """The text with quoted texts and comments blanked, place by place."""
    return QUIET.sub(lambda m: re.sub(r"[^\n]", " ", m[0]), text)


def is_camel(part):
    return bool(re.search(r"[^A-Z_][A-Z]", part)) and not part[0].isupper()


def is_odd(word):
    if word.startswith(("Need-", "After-")) or "◌" in word or word.startswith("#"):
        return False
    if "′" in word or re.search(r"\w[^\s-]*-\w", word):
        return True
    return any(is_camel(p) for p in word.split("-") if p)


def snake_part(part):
    part = part.replace("′", "'")
    if not part or part[0].isupper() or not is_camel(part):
        return part
    part = re.sub(r"(?<=[^A-Z_])([A-Z])", lambda m: "_" + m[1], part)
    part = re.sub(r"([A-Z])(?=[A-Z][a-z])", lambda m: m[1] + "_", part)
    return re.sub(r"[A-Z]", lambda m: m[0].lower(), part)


def all_snake(word):
    return joined(word, set(), False)


def joined(word, names, top=True):
    """The new spelling of a word; a dash stays between two of 'names', and behind a type at the head."""
    parts = [snake_part(p) for p in word.split("-")]
    if any(not p for p in parts):
        return word
    out = parts[0]
    for at in range(1, len(parts)):
        before, behind = "_".join(parts[:at]).split("_"), "_".join(parts[at:]).split("_")
        left = ["_".join(before[a:]) for a in range(len(before))]
        right = ["_".join(behind[: b + 1]) for b in range(len(behind))]
        head = at == 1 and re.match(r"[A-Z]", parts[0]) and re.search("[a-z]", parts[0])
        both = top and any(p in names for p in left) and any(p in names for p in right)
        out += ("-" if head or both else "_") + parts[at]
    return out


def file_of(steps):
    """The file of the module Rattle.CRATE.specs.M, without its ending."""
    return "crates/" + "/".join(steps[1:])


class File:
    def __init__(self, path, text, own):
        self.path, self.text, self.own = path, text, own
        self.code = blank(text)
        steps = path.split("/")  # crates/NAME/proofs/F/Proof.antt
        self.crate = steps[1]
        self.in_proof = steps[2] == "proofs" and len(steps) > 4
        self.theirs, self.ours, self.modules, self.heads, self.items = set(), set(), {}, {}, {}
        self.decls = []  # (kind, name, text of the signature, row)
        self.answers = set()
        for m in USE.finditer(self.code):
            path, items, alias = m[3].split("."), m[4], m[5]
            names = re.split(r"[{},]\s*", items.strip("{}")) if items else []
            ours = self.is_ours(path)
            if ours and not items:
                self.modules[alias or path[-1]] = file_of(path)
            for item in (n.strip() for n in names):
                if not item:
                    continue
                name, _, also = (s.strip() for s in item.partition(" as "))
                leaf = name.split(".")[-1]
                if ours:
                    self.items[leaf, also or leaf] = file_of(path)
                if not ours and not also:
                    self.theirs.add(leaf)
                elif ours and not also:
                    self.ours.add(leaf)
                if also:
                    self.ours.add(also)
            if not items:
                self.heads[alias or path[-1]] = ours
        self.stay = set(self.theirs)
        self.body = USE.sub(lambda m: re.sub(r"[^\n]", " ", m[0]), self.code)

    def is_ours(self, steps):
        return is_own(steps, self.own)

    def contexts(self):
        """In an answer, what its clauses bind first: behind it stand names of steps, which Rattle makes."""
        found = set()
        if self.in_proof and not self.path.endswith("/Proof.antt"):
            for name in self.answers:
                for m in re.finditer(rf"(?m)^{re.escape(name)} (?:g )?((?!=)[\w']+)(?: (?!=){NAME})* =(?=\s)", self.body):
                    found.add(m[1])
        return found

    def declarations(self):
        """Reads what the file declares. Kinds: top, field, constructor, local."""
        lines = self.body.split("\n")
        stack = [(-1, "top", "")]
        at = 0
        while at < len(lines):
            line = lines[at]
            if not line.strip():
                at += 1
                continue
            indent = len(line) - len(line.lstrip())
            while stack[-1][0] >= indent:
                stack.pop()
            context, owner = stack[-1][1], stack[-1][2]
            words = line.split()
            bare = [w for w in words if w not in MARKS]
            if not bare:
                at += 1
                continue
            if bare[0] in ("module", "mutual") and context == "top":
                stack.append((indent, "top", ""))
            elif bare[0] in ("data", "record") and context in ("top",) and not line.lstrip().startswith("record {"):
                name = bare[1] if len(bare) > 1 else ""
                self.decls.append(("type", name, "", at + 1, ""))
                stack.append((indent, "constructor" if bare[0] == "data" else "field", name))
            elif DECL.match(line):
                m = DECL.match(line)
                end = at + 1
                while end < len(lines) and (not lines[end].strip() or len(lines[end]) - len(lines[end].lstrip()) > indent):
                    end += 1
                text = "\n".join(lines[at:end])
                kind = context if context in ("top", "field", "constructor") else "local"
                for name in m[1].split():
                    if name not in MARKS and name not in RESERVED:
                        self.decls.append((kind, name, text[m.end() :], at + 1, owner))
                stack.append((indent, "inside", ""))
            else:
                stack.append((indent, "inside", "") if context == "top" else (indent, context if context != "top" else "inside", owner))
                if context in ("field", "constructor"):
                    stack.pop()
            at += 1
        if self.in_proof:
            for kind, name, text, _, _ in self.decls:
                if kind == "top" and re.search(MADE, text) and not name.endswith(("-spec", "_spec")):
                    self.answers.add(name)
            self.answers.update(h for h, ours in self.heads.items() if is_odd(h))
            self.stay |= self.answers
        return self


class Repository:
    def __init__(self, top):
        self.top = top
        self.crates = sorted(os.listdir(os.path.join(top, "crates")))
        self.files, self.rt, self.edits, self.pages = {}, {}, {}, {}
        for where, folders, names in os.walk(os.path.join(top, "crates")):
            folders[:] = sorted(f for f in folders if f not in ("out", "data"))
            for name in sorted(names):
                path = os.path.relpath(os.path.join(where, name), top)
                kind = os.path.splitext(name)[1]
                if kind not in (".antt", ".rt", ".edit"):
                    continue
                text = self.read(path)
                if kind == ".antt":
                    self.files[path] = File(path, text, set(self.crates)).declarations()
                elif kind == ".rt":
                    self.rt[path] = text
                else:
                    self.edits[path] = text
        for where in ("", "docs", "docs/changes"):
            folder = os.path.join(top, where)
            for name in sorted(os.listdir(folder)) if os.path.isdir(folder) else ():
                if name.endswith(".md"):
                    path = os.path.join(where, name)
                    self.pages[path] = self.read(path)

    def read(self, path):
        with open(os.path.join(self.top, path), encoding="utf-8", newline="") as f:
            return f.read()


def tokens(code):
    """Each word of blanked code, with whether a dot stands right before it, and the word before that dot."""
    for m in WORD.finditer(code):
        dotted = m.start() > 0 and code[m.start() - 1] == "."
        yield m, dotted


def head_of(code, start):
    """The head of the dotted path that the word at 'start' ends: a name, or ')' and the like."""
    at = start
    while at > 0 and code[at - 1] == ".":
        m = re.search(NAME + r"\Z", code[max(0, at - 200) : at - 1])
        if not m:
            return code[at - 2 : at - 1], True
        at = at - 1 - len(m[0])
        name = m[0]
    return name, False


def table_of(path):
    rows = {}
    if os.path.exists(path):
        with open(path, encoding="utf-8") as f:
            for line in f:
                line = line.rstrip("\n")
                if line.strip() and not line.startswith("#"):
                    old, new = line.split("\t")[:2]
                    rows[old] = new
    return rows


def lemma_names(file, text, globals_):
    """The names of functions in a signature, as they are spelled anew."""
    found = set()
    for m, dotted in tokens(text):
        word = m[0]
        if word in SYMBOLS:
            found.add(SYMBOLS[word])
        if dotted:
            head, _ = head_of(text, m.start())
            is_name = file.heads.get(head) is not None
        else:
            is_name = word in globals_
        if is_name and re.match(r"[a-z]", word):
            found.add(all_snake(word) if is_odd(word) else word)
    return found


def choose(repo, explicit):
    """Returns the new spelling of each of our odd names, and why a dash stays where it does."""
    fields, tops, seen = set(), collections.defaultdict(list), set()
    own_top = {d[1] for f in repo.files.values() if not f.in_proof for d in f.decls if d[0] in ("top", "constructor")}
    for f in repo.files.values():
        for kind, name, text, row, owner in f.decls:
            if kind == "field":
                fields.add(name)
            if kind == "top" and not (f.in_proof and name in f.answers):
                tops[name].append((f, text))
    ours = set()
    for f in repo.files.values():
        for m, dotted in tokens(f.body):
            if not dotted and is_odd(m[0]) and m[0] not in f.theirs and m[0] not in f.answers:
                ours.add(m[0])
        ours.update(n for n in f.ours if is_odd(n))
        ours.update(d[1] for d in f.decls if is_odd(d[1]) and d[1] not in f.answers)
    library = {n for f in repo.files.values() for n in f.theirs}
    for text in repo.rt.values():
        for use in GHOST_USE.findall(text):
            ours.update(w for w in re.findall(rf" as ({NAME})", use) if is_odd(w))
    new = {}
    for word in sorted(ours):
        if word in explicit:
            new[word] = explicit[word]
        elif "-" not in word or word in fields or word not in tops or any(f.in_proof for f, _ in tops[word]):
            new[word] = all_snake(word)
        else:
            each = set()
            for f, text in tops[word]:
                each.add(joined(word, lemma_names(f, text, own_top | f.theirs)))
            new[word] = each.pop() if len(each) == 1 else all_snake(word)
    for word in explicit:
        if word not in new and any(explicit[word] != word and word in {d[1] for d in f.decls} for f in repo.files.values()):
            new[word] = explicit[word]
    return {a: b for a, b in new.items() if a != b}, fields, own_top, library


# ---- what turns


class Speller:
    def __init__(self, repo, new):
        self.repo, self.new = repo, new
        self.count = collections.Counter()
        self.fields = {d[1] for f in repo.files.values() for d in f.decls if d[0] == "field"}
        # Names that port.py has spelled anew already, where edits and pages still have the older spelling.
        self.declared = {new.get(d[1], d[1]) for f in repo.files.values() for d in f.decls}

    def antt(self, text, stay, heads, own, per_file=None, contexts=None):
        """The text of antt with our names turned; its comments too."""
        code = blank(text)
        skip = set()  # places in a 'use' line that name what a library has
        aliased = []
        for m in USE.finditer(code):
            path = m[3].split(".")
            if not is_own(path, own):
                for w, _ in ((w, 0) for w in WORD.finditer(m[4] or "")):
                    before = code[: m.start(4) + w.start()]
                    if not re.search(r"\bas\s+\Z", before):
                        skip.add(m.start(4) + w.start())
        out, at = [], 0
        rows = per_file or Rows()
        in_use = {}
        for m in USE.finditer(code):
            for w in WORD.finditer(m[4] or ""):
                at_word = m.start(4) + w.start()
                if not re.search(r"\bas\s+\Z", code[:at_word]):
                    in_use[at_word] = file_of(m[3].split("."))
        for m, dotted in tokens(code):
            word = m[0]
            if not dotted and word in rows.lent:
                brought = m.start() in skip
                out.append(text[at : m.start()] + (f"{word} as " if brought else "") + rows.lent[word])
                at = m.end()
                continue
            if m.start() in in_use and not dotted:
                new = rows.item.get((in_use[m.start()], word)) or self.new.get(word)
            elif dotted:
                new = rows.behind.get((head_of(code, m.start())[0], word)) or self.new.get(word)
            elif is_label(code, m):
                new = self.new.get(word)
            else:
                new = rows.bare.get(word) or self.new.get(word)
            if not new or new == word or m.start() in skip:
                continue
            if dotted:
                head, odd = head_of(code, m.start())
                if contexts is not None and not odd and head in contexts and re.search(rf"(?<![^\s()]){re.escape(head)}\Z", code[max(0, m.start() - 60) : m.start() - 1]):
                    continue  # a step
                if contexts is not None and not odd and head not in heads and word not in self.fields:
                    continue
                if not odd and heads.get(head) is False:
                    continue  # behind a library's module
                if not odd and head in ("mathlib", "native", "lib", "Prim", "borrow", "denote"):
                    continue
            elif word in stay:
                continue
            out.append(text[at : m.start()])
            out.append(new)
            at = m.end()
            self.count[word] += 1
        out.append(text[at:])
        return "".join(out)

    def comments(self, text, stay):
        def one(m):
            if m[0][0] == '"':
                return m[0]
            spans = lambda s: WORD.sub(lambda w: self.word(w[0], stay), s[0])
            # A bare word of a comment turns if it is no English: one in camel case.
            plain = lambda t: WORD.sub(lambda w: self.bare(w[0], stay), t)
            return between(SPAN, m[0], lambda s: PIECE.sub(lambda w: self.word(w[0], stay), s[0]), plain)

        return QUIET.sub(one, text)

    def word(self, word, stay):
        return word if word in stay or word in DOCUMENT else self.new.get(word, word)

    def older(self, word, stay, also=()):
        """In an edit or a page: a word that port.py turned elsewhere turns too."""
        if word in stay or word in self.new or not is_odd(word) or word in DOCUMENT:
            return self.word(word, stay)
        to = all_snake(word)
        return to if word not in self.declared and (to in self.declared or to in also) else word

    def bare(self, word, stay):
        m = re.match(r"([\w]+)('s|:|’s|)(\W*)$", word)
        if m and "-" not in m[1] and is_camel(m[1]) and m[1] not in stay and m[1] not in DOCUMENT:
            return self.new.get(m[1], m[1]) + m[2] + m[3]
        return word

    def file(self, f, per_file):
        contexts = f.contexts() if f.in_proof and not f.path.endswith("/Proof.antt") else None
        text = self.antt(f.text, f.stay, f.heads, f.own, per_file, contexts)
        return tidy_use(self.comments(text, f.stay))

    def rt_parts(self, text, path):
        """Cuts a Rattle file into ghost text, comments and the rest, as port.py's snake.py does."""
        parts, at, typed = [], 0, False
        while at < len(text):
            m = RUST.match(text, at)
            word, end = m[0], m.end()
            clause = (
                CLAUSE.match(text, at)
                if word in ("requires", "ensures", "ghost", "decreases", "invariant")
                else DEFAULT.match(text, at)
                if typed and word == "="
                else None
            )
            use = GHOST_USE.match(text, at) if word == "ghost" else None
            if clause and closing(text, clause.end()):
                end, typed = closing(text, clause.end()), ":" in clause[0]
                parts += [("rust", clause[0]), ("antt", text[clause.end() : end])]
            elif use:
                end = use.end()
                parts.append(("antt", use[0]))
            else:
                typed = typed and (word.isspace() or word == "}")
                kind = "comment" if word[:2] in ("//", "/*") else "rust"
                parts.append((kind, word))
            at = end
        return parts

    def rt(self, text, path):
        own = set(self.repo.crates)
        parts = self.rt_parts(text, path)
        theirs, heads = set(), {}
        for kind, part in parts:
            if kind == "antt":
                for m in USE.finditer(part):
                    steps = m[3].split(".")
                    ours = steps[0] == "Rattle" and len(steps) > 1 and steps[1] in own
                    if not ours:
                        theirs.update(w.split(" as ")[0].strip() for w in (m[4] or "").strip("{}").split(","))
                    if not m[4]:
                        heads[m[5] or steps[-1]] = ours
        out = []
        for kind, part in parts:
            if kind == "antt":
                part = tidy_use(self.antt(part, theirs, heads, own))
            elif kind == "comment":
                plain = lambda t: WORD.sub(lambda w: self.bare(w[0], theirs), t)
                part = between(SPAN, part, lambda s: PIECE.sub(lambda w: self.word(w[0], theirs), s[0]), plain)
            out.append(part)
        return "".join(out)

    def edit(self, text, stays):
        """A must-fail edit: each text of 'old:' and 'new:', by the file that it edits."""
        out, stay, antt = [], set(), False
        for line in text.split("\n"):
            head, colon, rest = line.partition(": ")
            if head == "file":
                stay, antt = stays(rest.strip()), rest.strip().endswith(".antt")
            elif head in ("old", "new") and colon:
                if antt:
                    rest = self.antt(rest, stay, {}, set(self.repo.crates))
                    rest = between(QUIET, rest, lambda m: m[0], lambda t: WORD.sub(lambda w: self.older(w[0], (), stay), t))
                else:
                    pieces = lambda t: PIECE.sub(lambda w: self.older(w[0], stay) if "-" in w[0] or is_camel(w[0]) else w[0], t)
                    rest = between(QUIET, rest, lambda m: m[0], pieces)
                line = head + colon + rest
            else:
                line = SPAN.sub(lambda s: PIECE.sub(lambda w: self.older(w[0], ()), s[0]), line)
            out.append(line)
        return "\n".join(out)

    def page(self, text, lemmas):
        """The code spans of a page; a fenced block stays, since it shows bytes, a text or a command."""
        one = lambda w: lemmas.get(w[0]) or self.older(w[0], ())
        span = lambda m: m[0] if SHELL.match(m[0]) else PIECE.sub(one, m[0])
        return between(FENCE, text, lambda m: m[0], lambda t: SPAN.sub(span, t))


# A word of prose ends at its signs too; a path is one piece.
PIECE = re.compile(r"[^\s(){}.;,@\"«»\x60|:]+")
FENCE = re.compile(r"^( *)(\x60{3,})([^\n\x60]*)\n(.*?)^\1\2 *$", re.S | re.M)
SHELL = re.compile(r"\x60*\s*(?:\$ |\./|bin/|(?:antt|rt|just|cargo|bazel|python3|bash|cd|tar|cp|ls|for|env|export|sudo|make|gcc) )")
RUST = re.compile(
    r"""//[^\n]*|/\*.*?\*/|[bc]?r(#*)".*?"\1|[bc]?"(?:\\.|[^"\\])*"|b?'(?:\\u\{[0-9a-fA-F_]+\}|\\x..|\\.|[^'\\])'|'?\w+|\s+|.""",
    re.S,
)
CLAUSE = re.compile(
    r"(?:requires|ensures|decreases|invariant)\s*\*?\s*(?:\w+\s*)?\{|ghost\s*(?:\w+\s*(?::\s*(?:(?:owns|lends)\s*)?|=\s*))?\{"
)
DEFAULT = re.compile(r"=\s*\{")
GHOST_USE = re.compile(r"ghost\s+use\b[^;]*;")
BLOCK = re.compile(r"(?<![^\s(){};,])(?:where|do|let|mutual) +(?=\S)")


def closing(text, at):
    depth = 0
    for m in re.compile(QUIET.pattern + r"|[{}]", re.S).finditer(text, at):
        depth += (m[0] == "{") - (m[0] == "}")
        if depth < 0:
            return m.start()
    return None


def between(pattern, text, inside, outside):
    out, at = [], 0
    for m in pattern.finditer(text):
        out += [outside(text[at : m.start()]), inside(m)]
        at = m.end()
    return "".join(out + [outside(text[at:])])


def tidy_use(text):
    """An item 'x as x' is written 'x'."""
    return re.sub(rf"(?<![^\s{{,])({NAME}) as \1(?=[\s,}}])", r"\1", text)


def realigned(old, new):
    """The new text, in which the later lines of a block stand under its first item again."""
    was, now, lines = blank(old).split("\n"), blank(new).split("\n"), new.split("\n")
    by = [0] * len(lines)
    for row, (a, b) in enumerate(zip(was, now)):
        for x, y in zip(BLOCK.finditer(a), BLOCK.finditer(b)) if a != b else ():
            below = row + 1
            while x.end() != y.end() and below < len(was):
                if was[below].strip() and was[below][: x.end()].strip():
                    break
                by[below] += (y.end() - x.end()) * bool(was[below].strip())
                below += 1
    return "\n".join(" " * n + line if n >= 0 else line[-n:] for n, line in zip(by, lines))


def is_label(code, m):
    """Is the word a field's name in a record's literal, or an implicit argument's at a call?"""
    return bool(re.match(r"\s+=(?=\s)", code[m.end() : m.end() + 40]) and re.search(r"[{;]\s*\Z", code[max(0, m.start() - 400) : m.start()]))


# ---- names that fall together


def chunks(f):
    """The file's declarations, each with the words that stand in it bare, and those that are only labels."""
    code, rows = f.body, []
    for m in re.finditer(r"(?ms)^(?=\S).*?(?=^\S|\Z)", code):
        rows.append((m.start(), m.end()))
    merged = []
    for a, b in rows:  # a signature and its clauses have one chunk
        words = WORD.findall(code[a:b])
        words = [w for w in words if w not in MARKS]
        first = words[0] if words else ""
        if merged and (first in ("unfolding",) or first == merged[-1][2]):
            merged[-1][1] = b
        else:
            merged.append([a, b, first])
    return [(a, b) for a, b, _ in merged]


def collisions(repo, new, per_file):
    found = []
    library = collections.defaultdict(set)
    for path, f in repo.files.items():
        mine = {**new, **per_file[path].bare}
        lent = per_file[path].lent
        spell = lambda w: lent[w] if w in lent else w if w in f.stay else mine.get(w, w)
        # in the file: what is declared at its top, and what is imported
        tops = {d[1] for d in f.decls if d[0] in ("top", "type", "constructor")} | f.ours | f.theirs
        groups = collections.defaultdict(set)
        for w in tops:
            groups[spell(w)].add(w)
        for to, olds in groups.items():
            if len(olds) > 1:
                found.append((path, 0, "file", to, sorted(olds)))
        # in each record
        groups = collections.defaultdict(set)
        for kind, name, _, row, owner in f.decls:
            if kind == "field":
                groups[owner, new.get(name, name)].add(name)
        for (owner, to), olds in groups.items():
            if len(olds) > 1:
                found.append((path, 0, "record " + owner, to, sorted(olds)))
        starts = [0]
        for line in f.body.split("\n"):
            starts.append(starts[-1] + len(line) + 1)
        of_fields = set()
        for kind, name, _, row, _ in f.decls:
            if kind == "field":
                line = f.body[starts[row - 1] : starts[row]]
                of_fields.update(starts[row - 1] + m.start() for m in WORD.finditer(line.split(" :")[0]) if m[0] == name)
        # in each declaration
        for a, b in chunks(f):
            groups = collections.defaultdict(set)
            where = {}
            code = f.body[a:b]
            for m, dotted in tokens(code):
                if dotted:
                    continue
                if is_label(code, m) or a + m.start() in of_fields:
                    continue
                groups[spell(m[0])].add(m[0])
                where.setdefault(m[0], a + m.start())
            for to, olds in groups.items():
                if len(olds) > 1:
                    row = f.body.count("\n", 0, a) + 1
                    found.append((path, row, "declaration", to, sorted(olds)))
        # words of the language and of the tactics
        for w in set(WORD.findall(f.body)):
            to = spell(w)
            if to != w and (to in RESERVED or to in TACTICS):
                found.append((path, 0, "word", to, [w]))
    return found


class Rows:
    """The rows of names.tsv that name one declaration, as they hold in one file: for bare names, and behind a module's name."""

    def __init__(self):
        self.bare, self.behind, self.item, self.lent = {}, {}, {}, {}


def rows_for(f, repo, local):
    rows = Rows()
    for old, new, at in local:
        home = repo.files.get(at)
        if not home:
            continue
        if f.path == at and old in f.theirs and old not in {d[1] for d in home.decls}:
            rows.lent[old] = new  # a library's name is brought in with 'as'
            continue
        names = {d[1] for d in home.decls}
        if old not in names or new in names:
            continue  # it has its new name already
        if f.path == at:
            rows.bare[old] = new
        for (leaf, also), module in f.items.items():
            if leaf == old and module + ".antt" == at:
                rows.item[module, leaf] = new
                if also == leaf:
                    rows.bare[old] = new
        for head, module in f.modules.items():
            if module + ".antt" == at:
                rows.behind[head, old] = new
    return rows


def rust_collisions(repo, speller, new):
    """Words of a function's clauses that would be hidden by a parameter of it, or meet another word of the file."""
    found = []
    for path, text in repo.rt.items():
        words = collections.defaultdict(set)
        rust, antt = [], []
        for kind, part in speller.rt_parts(text, path):
            keep = part if kind == "rust" else re.sub(r"[^\n]", " ", part)
            rust.append(keep)
            antt.append(blank(part) if kind == "antt" else re.sub(r"[^\n]", " ", part))
        rust, antt = "".join(rust), "".join(antt)
        for m in USE.finditer(antt):
            for w in WORD.findall((m[4] or "").replace(" as ", " ")):
                words[new.get(w, w)].add(w)
        for to, olds in words.items():
            if len(olds) > 1:
                found.append((path, 0, "file", to, sorted(olds)))
        heads = [m for m in re.finditer(r"\bfn (\w+)", rust)]
        for at, m in enumerate(heads):
            end = heads[at + 1].start() if at + 1 < len(heads) else len(rust)
            params = set(re.findall(r"\b(\w+):(?!:)", rust[m.start() : end]))
            for t, dotted in tokens(antt[m.start() : end]):
                to = new.get(t[0])
                if to and not dotted and to in params:
                    found.append((path, rust.count("\n", 0, m.start()) + 1, "parameter or local of " + m[1], to, [t[0]]))
    return found


def read_table(path):
    """names.tsv: old, new, and where a third column stands, the beginning of the path that the row is for."""
    everywhere, local = {}, []
    if os.path.exists(path):
        with open(path, encoding="utf-8") as f:
            for line in f:
                line = line.rstrip("\n")
                if line.strip() and not line.startswith("#"):
                    old, new, *rest = line.split("\t")
                    if rest and rest[0].strip():
                        local.append((old, new, rest[0].strip()))
                    else:
                        everywhere[old] = new
    return everywhere, local


def main(args):
    check = "--check" in args
    args = [a for a in args if a != "--check"]
    out = None
    if "--out" in args:
        at = args.index("--out")
        out = args[at + 1]
        del args[at : at + 2]
    repo = Repository(args[0] if args else ".")
    explicit, local = read_table(os.path.join(HERE, "names.tsv"))
    new, fields, own_top, library = choose(repo, explicit)
    per_file = {p: rows_for(f, repo, local) for p, f in repo.files.items()}
    clashes = collisions(repo, new, per_file)
    speller = Speller(repo, new)
    clashes += rust_collisions(repo, speller, new)
    texts = {}
    for path, f in repo.files.items():
        text = speller.file(f, per_file[path])
        texts[path] = realigned(f.text, text) if len(text) != len(f.text) else text
    for path, text in repo.rt.items():
        texts[path] = speller.rt(text, path)
    for path, text in repo.edits.items():
        crate = "/".join(path.split("/")[:2])
        stays = lambda file, crate=crate: repo.files[f"{crate}/{file}"].stay if f"{crate}/{file}" in repo.files else set()
        texts[path] = speller.edit(text, stays)
    # In a page a name of a lemma that has a row is its new one, if the rows agree.
    each = collections.defaultdict(set)
    for old, to, at in local:
        if "-" in old and at in repo.files and old in {d[1] for d in repo.files[at].decls}:
            each[old].add(to)
    lemmas = {old: to.pop() for old, to in each.items() if len(to) == 1}
    for path, text in repo.pages.items():
        texts[path] = speller.page(text, lemmas)
    changed = [p for p, t in texts.items() if t != repo.read(p)]
    if not check:
        for path in changed:
            with open(os.path.join(repo.top, path), "w", encoding="utf-8", newline="") as f:
                f.write(texts[path])
    if out:
        os.makedirs(out, exist_ok=True)
        report(out, repo, new, clashes, local)
    kinds = collections.Counter(os.path.splitext(p)[1] for p in changed)
    print(f"names {len(new)}; uses {sum(speller.count.values())}; files changed {dict(sorted(kinds.items()))}; collisions {len(clashes)}")
    return 1 if clashes else 0


def report(out, repo, new, clashes, local):
    rows = []
    for path, f in repo.files.items():
        for kind, name, _, row, owner in f.decls:
            if name in new and name not in f.stay:
                rows.append((name, new[name], f"{path}:{row}", kind + (f" of {owner}" if owner else "")))
    declared = {r[0] for r in rows}
    with open(os.path.join(out, "renamed.tsv"), "w", encoding="utf-8") as f:
        for row in sorted(rows):
            f.write("\t".join(row) + "\n")
        for name in sorted(set(new) - declared):
            f.write(f"{name}\t{new[name]}\t-\tbound\n")
    with open(os.path.join(out, "collisions.txt"), "w", encoding="utf-8") as f:
        for path, row, kind, to, olds in clashes:
            f.write(f"{path}:{row}: {kind}: {to} <- {', '.join(olds)}\n")
    with open(os.path.join(out, "dashes.txt"), "w", encoding="utf-8") as f:
        for path, it in repo.files.items():
            for kind, name, _, row, owner in it.decls:
                to = new.get(name, name)
                if "-" in to and is_odd(to) and name not in it.answers:
                    f.write(f"{to}\t{kind}\t{path}:{row}\n")


if __name__ == "__main__":
    sys.exit(main(sys.argv[1:]))
