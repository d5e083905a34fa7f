"""Plants many edits in one copy of the sources, each behind its number, so that one build has them all. A part of tools/slips.

The body of a function that edits change becomes `if crate::slip_is_chosen(3) { its body with edit 3 } else if .. else { its body }`. So an edit may
change any lines of a body, but not what stands before it. An edit of a constant gives a second constant, and another body to each function of the
crate that names it. A `pub` that an edit adds is put in for all. What goes in no such way is said, with the reason."""
import os
import re

CHOSEN = "slip_is_chosen"
TOKEN = re.compile(r"""//[^\n]*|/\*.*?\*/|b?r(?P<marks>#*)".*?"(?P=marks)|b?"(?:\\.|[^"\\])*"|b?'(?:\\[^']+|[^'\\])'|[{}()\[\];]|\bfn\s+\w+""", re.S)
CLAUSE = re.compile(r"\s*(requires|ensures|ghost)\b")
CONSTANT = re.compile(r"(?m)^[ \t]*(?:pub(?:\([^)]*\))? )?(?:const|static) (\w+)\s*:")


class Unplanted(Exception):
    """Why an edit can't be put behind its number."""


def changed_lines(path):
    """Returns the (file, old line, new line) of an edit, the file below its crate."""
    found, file, old = [], "", ""
    with open(path) as lines:
        for line in lines.read().split("\n"):
            word, _, rest = line.partition(": ")
            if word == "file":
                file = rest.strip()
            elif word == "old":
                old = rest
            elif line.startswith("new:"):
                found.append((file, old, rest))
    return found


def tokens(text, at):
    """Gives the places and the texts of the brackets, semicolons and names of functions from there on, none of them in a comment or a text."""
    for it in TOKEN.finditer(text, at):
        if it[0][0] in "{}()[];f":
            yield it.start(), it[0]


def end_of(text, at):
    """Returns the place behind the bracket that closes the one at this place."""
    depth = 0
    for place, it in tokens(text, at):
        depth += (it in "{([") - (it in "})]")
        if it in "})]" and depth == 0:
            return place + 1
    raise Unplanted("its brackets do not close")


def body_of(text, at):
    """Returns the (start, end) of the body of the function whose name stands there, None where it has none."""
    while True:
        place, it = next(((place, it) for place, it in tokens(text, at) if it in "{([;"), (0, ";"))
        if it == ";":
            return None
        if it == "{" and not CLAUSE.match(text, text.rfind("\n", 0, place) + 1):
            return place, end_of(text, place)
        at = end_of(text, place)


def bodies(text):
    """Returns the (start, end) of the bodies of all functions that stand in no other."""
    found, at = [], 0
    while True:
        name = next((place for place, it in tokens(text, at) if it.startswith("fn")), None)
        if name is None:
            return found
        body = body_of(text, name + 2)
        if body:
            found.append(body)
        at = body[1] if body else name + 2


def parted(text):
    """Returns the text as what stands before each body and behind the last, and the bodies."""
    spans = bodies(text)
    ends = [0, *[end for _, end in spans]]
    return [text[a:b] for a, b in zip(ends, [*[start for start, _ in spans], len(text)])], [text[a:b] for a, b in spans]


def without_pub(text):
    return re.sub(r"\bpub(\([^)]*\))? ", "", text)


def constant_changed(before, after):
    """Returns the name of the constant that differs between two texts of items, and its item in each."""
    for found in CONSTANT.finditer(before):
        other = next((it for it in CONSTANT.finditer(after) if it[1] == found[1]), None)
        if other:
            one, two = item_at(before, found.start()), item_at(after, other.start())
            if one != two and before.replace(one, two) == after:
                return found[1], one, two
    raise Unplanted("it changes what stands outside of functions")


def item_at(text, at):
    depth = 0
    for place, it in tokens(text, at):
        depth += (it in "{([") - (it in "})]")
        if it == ";" and depth == 0:
            return text[at : place + 1]
    raise Unplanted("its constant does not end")


class Planting:
    """The sources of a copy, with edits put in by and by."""

    def __init__(self, room):
        self.room, self.parts, self.lines = room, {}, {}

    def part(self, path):
        """Returns the parts of a source, the edited bodies by the body's place, and what stands before bodies in the copy."""
        if path not in self.parts:
            with open(f"{self.room}/{path}", encoding="utf-8") as it:
                texts, own = parted(it.read())
                self.parts[path] = texts, own, {}, [*texts]
        return self.parts[path]

    def changes(self, pairs):
        """Returns what the edit changes: bodies as (path, place): text, texts before bodies as (path, place): text, and constants."""
        texts, changed, opened, constants = {}, {}, {}, []
        for path, old, new in pairs:
            with open(f"{self.room}/{path}", encoding="utf-8") as it:
                text = texts.get(path) or it.read()
            if text.count(old) != 1:
                raise Unplanted(f"its old line stands {text.count(old)} times in {path}")
            texts[path] = text.replace(old, new)
        for path, text in texts.items():
            before, after = self.part(path), parted(text)
            if len(before[0]) != len(after[0]):
                raise Unplanted("it changes how many functions there are")
            for at, (one, two) in enumerate(zip(before[0], after[0])):
                if one != two and without_pub(one) == without_pub(two):
                    opened[path, at] = two
                elif one != two:
                    constants.append((path, at, *constant_changed(one, two)))
            changed.update({(path, at): two for at, (one, two) in enumerate(zip(before[1], after[1])) if one != two})
        for path, at in changed:
            if re.search(r"\bconst fn \w+[^}]*$", before_of(self.part(path)[0][at])):
                raise Unplanted("it changes a const function")
        return changed, opened, constants

    def sources(self, crate):
        found = []
        for at, _, names in os.walk(f"{self.room}/crates/{crate}/src"):
            found += [os.path.relpath(f"{at}/{it}", self.room) for it in names if it.endswith(".rt")]
        return sorted(found)

    def with_constant(self, number, changed, constant):
        """Adds to the bodies that the edit changes those that name the constant, and returns the second constant."""
        path, at, name, one, two = constant
        crate, other, word = path.split("/")[1], f"{name}_OF_{number}", re.compile(rf"\b{name}\b")
        module = "::".join(path.split("/src/")[1][: -len(".rt")].split("/"))
        of_all = re.match(r"\s*pub (?!\()", one)
        for library in os.listdir(f"{self.room}/crates") if of_all else [crate]:
            for file in self.sources(library):
                texts, own, _, _ = self.part(file)
                is_own = file == path
                if not is_own and any(it[1] == name for text in texts for it in CONSTANT.finditer(text)):
                    continue
                outside = [it for text in texts for it in word.findall(re.sub(r"(?m)^\s*(pub )?use [^;]*;|^\s*//.*", "", text))]
                inside = [(place, text) for place, text in enumerate(own) if word.search(text)]
                if len(outside) > is_own or inside and library != crate:
                    raise Unplanted(f"the constant {name} is named outside of functions, or in another crate")
                for place, text in inside:
                    text = changed.get((file, place), text)
                    changed[file, place] = word.sub(other if is_own else f"crate::{module}::{other}", text)
        return (path, at), word.sub(other, two, count=1)

    def plant(self, number, pairs):
        """Puts the edit in behind its number. Raises Unplanted where it can't be, and then nothing is changed."""
        changed, opened, constants = self.changes(pairs)
        seconds = [(*self.with_constant(number, changed, it), it) for it in constants]
        for (path, at), text in opened.items():
            self.part(path)[3][at] = text
        for (path, at), text, (_, _, _, one, _) in seconds:
            texts = self.part(path)[3]
            texts[at] = texts[at].replace(one, f"{one}\n{text}")
        for (path, at), body in changed.items():
            self.part(path)[2].setdefault(at, {})[number] = body
        return {path.split("/")[1] for path, _ in changed}

    def take_out(self, number):
        for _, _, edited, _ in self.parts.values():
            for of in edited.values():
                of.pop(number, None)

    def write(self, crates):
        """Writes the sources into the copy, and the function by which they ask for their number into these crates."""
        self.lines = {}
        for path, (_, own, edited, texts) in self.parts.items():
            whole = ""
            for at, text in enumerate(texts):
                whole += text
                if at < len(own):
                    whole = self.with_bodies(path, whole, own[at], edited.get(at, {}))
            with open(f"{self.room}/{path}", "w", encoding="utf-8") as it:
                it.write(whole)
        for crate in crates:
            root = next(it for it in ("lib", "main") if os.path.isfile(f"{self.room}/crates/{crate}/src/{it}.rt"))
            with open(f"{self.room}/crates/{crate}/src/{root}.rt", "a+", encoding="utf-8") as it:
                it.seek(0)
                if CHOSEN not in it.read().replace(f"crate::{CHOSEN}", ""):
                    it.write(f"\npub fn {CHOSEN}(number: u32) -> bool {{\n    number == 4294967295\n}}\n")

    def with_bodies(self, path, whole, body, edited):
        if not any(edited):
            return whole + body
        whole += "{\n    "
        for number, text in edited.items():
            whole += f"if crate::{CHOSEN}({number}) "
            first = whole.count("\n") + 1
            whole += f"{text} else "
            self.lines.setdefault(path, []).append((first, whole.count("\n") + 1, number))
        return f"{whole}{body}\n}}"

    def blamed(self, said):
        """Returns the numbers of the edits in whose lines what the compiler said lies."""
        found = set()
        for path, line in re.findall(r"(crates/\w+/src/[\w/]+\.rt):(\d+)", said):
            found.update(number for first, last, number in self.lines.get(path, ()) if first <= int(line) <= last)
        return found


def before_of(text):
    """Returns the text from the last function's name on."""
    return text[max(text.rfind("\n}"), text.rfind("\n    }"), 0) :]
