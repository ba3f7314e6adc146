#!/usr/bin/env python3
"""Brings the definitions and lemmas of this repository to the spelling of today's Rattle.

usage: python3 tools/port_names.py        at the top, once, after the kit's port.py

Names that the texts of specs/ and proofs/ declare go to snake case: 'firstFrom' becomes 'first_from',
'read-empty' becomes 'read_empty'. Types keep their capitals. Names that come from src/ stay, and so do
names of the library, and the names of goals in a function's own proof files. Where two names of ours
would fall together, or meet a name of the library, the lemma gets '_lem', and else the definition '_of'.
The must-fail edits are turned alike. The mapping is printed.
"""

import os
import re
import sys

# Names that the kit's scripts have turned, since a library has the same spelling.
KIT_TURNED = """
    add-at added-none after-block after-filled after-none after-small again-kept all-append all-but-last
    all-hold all-join all-left all-listed all-map all-of all-right all-said all-there andThen answer-at
    answerOf any-append any-last any-none any-some any-was askedOf at-after at-front at-long at-most
    at-offset at-place at-slot atStart behind-more below-top block-here block-none block-refused block-size
    block-spec block-written blockAt blockOf blockRead blocks-end by-answer by-kind by-length by-move
    by-number by-parts by-place by-shape by-tests call-kept callOf caseAt caseOf cases-of cell-other cellAt
    cellOf check-sound clear-spec cleared-more count-kept countOf counted-none counts-whole cut-at cut-short
    distance-back distanceOf end-is endOf ended-is enter-spec entry-at entryOf field-at fill-spec filled-is
    filled-none filled-within find-spec finish-spec first-below first-cong first-count first-fits firstOf
    forgot-kept formatOf found-alike found-at found-before found-here found-none found-within foundAt
    frees-all from-low front-fits front-kept front-length full-at fullOf gap-from given-holds given-is
    gives-none header-refused held-at held-found held-gives in-cell in-list in-window inBlock inParts
    is-false is-true kept-append kept-map kindAt kindOf last-none last-taken lastOf leftOf length-taken
    length-whole lengthOf linesOf located-after located-here lowFirst made-more main-spec map-same moveOf
    moved-by moved-on mul-words named-here named-none new-is next-more next-past no-answer no-less no-room
    noBlock none-seen not-behind not-free not-named not-yet notedIn nth-past number-at number-read numberOf
    of-none of-other offset-read onEntry one-left one-line one-more one-seen or-assoc other-key other-place
    over-none part-held part-of partOf passed-over passed-to past-of placeOf placedAt placesBy planAt put-as
    put-full put-refused put-whole range-at read-back read-held read-none read-one read-past read-spec
    read-word readOf readPlace reads-end reads-more record-of resultOf room-for roomLeft run-join same-blocks
    same-case same-kind same-length same-none same-number same-place same-tests seenAt set-first set-other
    set-same sets-first shape-of sound-more start-spec startOf step-end step-given step-is step-of step-past
    storeOf stream-at tableOf take-spec taken-as taken-more taken-none taken-refused testOf text-of textOf
    the-last to-write told-none too-many too-short topOf two-runs typeOf valuesOf walk-block walk-end
    walk-first walk-more walk-none walk-refused walk-step walkOf whole-is with-part withFull withNext
    withNumber word-kept write-array-spec write-spec writing-start written-back
""".split()
NAME = r"[^\s(){}.;,@\"«»\[\]|]+"
DECL = re.compile(
    r"^\s*((?:abbrev |unfoldable |pub |data |record |ruleset )*)(" + NAME + r")"
    r"((?: \([^()]*(?:\([^()]*(?:\([^()]*\)[^()]*)*\)[^()]*)*\)| \{[^{}]*\})*)\s+:(?:\s|$)"
)
OWN_USE = re.compile(r"use Rattle\.(\w+)[\w.+'-]*")
LIBRARY = {"std", "core", "std_alloc", "std_collections", "std_heap", "std_io", "io", "os", "libc"}


def texts(ending):
    for folder, dirs, files in os.walk("crates"):
        dirs[:] = sorted(d for d in dirs if d != "out")
        for f in sorted(files):
            if f.endswith(ending):
                yield os.path.join(folder, f)


def snake(name):
    words = re.sub(r"(?<=[a-z0-9])(?=[A-Z])|(?<=[A-Z])(?=[A-Z][a-z])", "_", name)
    return words.lower().replace("-", "_").replace("′", "'")


def is_ours(name):
    """To be renamed: camel case with a small first letter, or a dash in a plain word."""
    if not re.match(r"[a-z]", name) or re.search(r"[^\w'′-]", name):
        return False
    return snake(name) != name


def is_walk(path):
    return os.path.basename(path) == "Proof.antt" and path.count("/") == 4


def imports(text):
    """The names that a text takes from the library, and those that it takes from crates of ours."""
    library, ours = set(), set()
    for m in re.finditer(r"(?m)^\s*(?:ghost )?use ([\w.+'◌-]+?)(?:\.\{([^}]*)\})?(?: as \S+)?;?$", text):
        path, names = m[1], m[2]
        steps = path.split(".")
        mine = steps[0] == "Rattle" and len(steps) > 1 and steps[1] not in LIBRARY
        for n in (names or "").split(","):
            n = n.strip().split(" as ")[0].strip()
            if n:
                (ours if mine else library).add(n)
    return library, ours


def main():
    antt = {p: open(p, encoding="utf-8").read() for p in texts(".antt")}
    rust = {p: open(p, encoding="utf-8").read() for p in texts(".rt")}
    declared = {}  # name: the files that declare it
    specs = set()
    for p, t in antt.items():
        if is_walk(p):
            continue
        for line in t.splitlines():
            m = DECL.match(line)
            if m:
                declared.setdefault(m[2], set()).add(p)
                if "/specs/" in p:
                    specs.add(m[2])
    # local names of walks, which meet only themselves
    local = {}
    for p, t in antt.items():
        if is_walk(p):
            local[p] = {m[2] for m in map(DECL.match, t.splitlines()) if m}
    lib_of = {p: imports(t)[0] for p, t in antt.items()}
    lib_of.update({p: imports(t)[0] for p, t in rust.items()})
    all_library = set().union(*lib_of.values())
    rust_words = set()
    for t in rust.values():
        rust_words |= set(re.findall(r"\b(?:const|static|struct|enum|type|trait|mod) (\w+)", t))
        rust_words |= set(re.findall(r"(\w+): ", t))  # fields and parameters
    old = sorted(n for n in declared if is_ours(n))
    taken = {n for n in declared if not is_ours(n)} | all_library
    groups = {}
    for n in old:
        groups.setdefault(snake(n), []).append(n)
    new = {}
    for s, names in groups.items():
        names.sort(key=lambda n: (n not in specs, "-" in n, n))  # definitions of specs first
        used = s in taken or s in rust_words
        for n in names:
            if not used:
                new[n] = s
                used = True
            else:
                word = s + ("_lem" if n not in specs else "_is" if s.endswith("_of") else "_of")
                while word in taken or word in new.values() or word in groups or word in rust_words:
                    word += "_lem"
                new[n] = word
    for n in old:
        print(f"{n} -> {new[n]}" + ("   (met another)" if new[n] != snake(n) else ""))

    def turn(text, skip, only=None):
        def word(m):
            w = m[0]
            if w in new and w not in skip and (only is None or w in only):
                return new[w]
            return w

        return re.sub(NAME, word, text)

    def antt_turn(p, text, line_is_comment=True):
        skip = set(lib_of[p]) | local.get(p, set())
        out = []
        for line in text.split("\n"):
            code, dash, comment = line, "", ""
            m = re.search(r"(?:^|\s)-- ", line)
            if m:
                code, comment = line[: m.start()], line[m.start():]
                comment = re.sub(r"`[^`]*`", lambda k: turn(k[0].replace("`", " ` "), skip).replace(" ` ", "`"), comment)
            u = re.match(r"\s*use ([\w.+'◌-]+)", code)
            if u:
                steps = u[1].split(".")
                if not (steps[0] == "Rattle" and len(steps) > 1 and steps[1] not in LIBRARY) or "declared" in steps:
                    out.append(line)
                    continue
                at = code.find("{")
                code = code if at < 0 else code[:at] + turn(code[at:], skip)
            else:
                # a name of a library's module behind its dot stays
                parts = re.split(r"((?<![\w.])(?:tie|goal|Memᴰ|[A-Z]\w*ᴰ)\.[\w'-]+)", code)
                code = "".join(x if i % 2 else turn(x, skip) for i, x in enumerate(parts))
            out.append(code + comment)
        return "\n".join(out)

    def rust_turn(p, text):
        library, ours = imports(text)
        names = {n for n in ours if n in new}
        fields = {n for n in new if n in declared}

        def clause(m):
            t = turn(m[0], library, names)
            return re.sub(r"(?<=[\w)'])\.(" + NAME + r")", lambda k: "." + (new[k[1]] if k[1] in fields and not k[1].islower() else k[1]), t)

        lines = []
        depth = 0
        for line in text.split("\n"):
            if line.startswith("ghost use Rattle."):
                steps = line[10:].split("{")[0].split(".")
                if steps[1] not in LIBRARY and "declared" not in steps:
                    at = line.find("{")
                    if at >= 0:
                        line = line[:at] + turn(line[at:], set())
            elif depth or re.match(r"\s+(?:requires|ensures|ghost)\b", line):
                whole = re.sub(".*", clause, line, count=1)
                depth += line.count("{") - line.count("}")
                line = whole
            lines.append(line)
        return "\n".join(lines)

    by_kit = {n: snake(n) for n in KIT_TURNED}

    def edit_words(text):
        """A text of an edit, which the kit's scripts leave alone, in the spelling of the file that it changes."""
        text = re.sub(r"\bλ r\. ", "", text)
        text = re.sub(r"(?<![\w'-])_([^\w\s]+)_(?![\w'-])", "◌\\1◌", text)
        text = re.sub(r"\(([^\s()]+) \.(\S+?)\)", "\\1.\\2", text)
        text = re.sub(r"(?<=[\w)'»-]) \.(«?\w)", ".\\1", text)
        text = text.replace("getD", "get_or").replace("tail?", "tail")
        text = re.sub(r"«(\w+)»", "\\1", text)
        return re.sub(NAME, lambda m: new.get(by_kit.get(m[0], m[0]), by_kit.get(m[0], m[0])), text)

    for p in texts(".edit"):
        crate = p.split(os.sep)[1]
        lines = open(p, encoding="utf-8").read().split("\n")
        path, whole = None, {}
        for i, line in enumerate(lines):
            if line.startswith("file: "):
                path = os.path.join("crates", crate, line[6:].strip())
            elif line.startswith("old: ") and path:
                before = antt.get(path) or rust.get(path) or ""
                after = antt_turn(path, before) if path in antt else rust_turn(path, before)
                after = whole.get(path, after)
                text = line[5:]
                if after.count(text) != 1:
                    text = edit_words(line[5:])
                    there = [text, text.strip()]
                    fits = [x for x in there if after.count(x) == 1]
                    if not fits:
                        print(f"edit by hand: {p}: {line[5:]}")
                        continue
                    lines[i] = "old: " + fits[0]
                    if lines[i + 1].startswith("new: "):
                        turned = edit_words(lines[i + 1][5:])
                        lines[i + 1] = "new: " + (turned if fits[0] is text or text == fits[0] else turned.strip())
                    text = fits[0]
                whole[path] = after.replace(text, lines[i + 1][5:])
        turned = "\n".join(lines)
        with open(p, "w", encoding="utf-8") as f:
            f.write(turned)
    for p, t in antt.items():
        n = antt_turn(p, t)
        if n != t:
            open(p, "w", encoding="utf-8").write(n)
    for p, t in rust.items():
        n = rust_turn(p, t)
        if n != t:
            open(p, "w", encoding="utf-8").write(n)


if __name__ == "__main__":
    sys.exit(main())
