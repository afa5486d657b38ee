#!/usr/bin/env python3
"""Writes what is made of known_names.txt: the enum of known names, their texts, numbers and slots, and the sets of names.

    write_known_names.py           writes the files that differ
    write_known_names.py --check   writes nothing; the status is 1 where a file differs

To add a name or a set of names is to add its line to known_names.txt and to run this. The rest of each file is written by
hand. For a new set that is: a better comment of its list in TagSets.antt, and, where elements are asked for and not names, a
definition of those in TagSets.antt, a function in sets.rt and a case of `ElementSet`. A list whose set is gone is taken out of
TagSets.antt by hand.
"""
import os
import re
import sys

CRATES = os.path.dirname(os.path.dirname(os.path.abspath(__file__)))

SLOTS = 1024
LONGEST = 19
NO_NUMBER = 255
SHORT = 7
SET_BITS = 32


class Set:
    """A set of names: its word in known_names.txt, which is the word of its flag in lower case, its variant, its list in the
    definitions, the comment of its variant, and a set all names of which it holds, too."""

    def __init__(self, word, variant, listed, comment):
        self.word, self.variant, self.listed, self.comment = word, variant, listed, comment
        self.narrower = None

    def holds(self, name):
        return self.word in name.sets or (self.narrower is not None and self.narrower.holds(name))


class Name:
    """A known name: its variant, its text, its sets, and whether it stands for a text with capitals in lower case."""

    def __init__(self, variant, text, sets, is_lowered=False):
        self.variant, self.text, self.sets, self.is_lowered = variant, text, sets, is_lowered

    def has_capitals(self):
        return self.text != self.text.lower()


def stop(why):
    sys.exit(f"known_names.txt: {why}")


def variant_of(text):
    """A variant's name: the words of the text, each with a capital."""
    words = re.findall(r"[A-Z]+(?![a-z])|[A-Z]?[a-z0-9]+", text)
    return "".join(word[0].upper() + word[1:].lower() for word in words)


def is_declared(word, sets, line):
    """Stops where no line declares a set."""
    if word not in sets:
        stop(f"no line declares the set {word}, which stands in: {line}")


def differ_in(what, words):
    """Stops where two sets have the same of this kind."""
    for it in words:
        if words.count(it) > 1:
            stop(f"two sets have the {what} {it}")


def read_set(line):
    found = re.fullmatch(r"set +([a-z][a-z0-9_]*) *= *([A-Z][A-Za-z0-9]*) +([a-z][a-z0-9_]*) *: *(.+)", line)
    if not found:
        stop(f"a line of a set is 'set SET = Variant list: Comment.': {line}")
    return Set(*found.groups())


def read_sets(lines):
    """The sets by their words, in the order of their bits."""
    sets = [read_set(line) for line in lines if line.startswith("set ")]
    differ_in("word", [it.word for it in sets])
    differ_in("variant", [it.variant for it in sets])
    differ_in("list", [it.listed for it in sets])
    if len(sets) > SET_BITS:
        stop(f"there are {len(sets)} sets, and a name's flags have {SET_BITS} bits")
    return {it.word: it for it in sets}


def read_holds(line, sets):
    """A set that holds all names of another. The other stands before it, so that its list does, too."""
    wide, _, narrow = (part.strip() for part in line[len("holds ") :].partition(":"))
    is_declared(wide, sets, line)
    is_declared(narrow, sets, line)
    if sets[wide].narrower is not None:
        stop(f"{wide} holds the names of two sets")
    if list(sets).index(narrow) >= list(sets).index(wide):
        stop(f"{wide} holds the names of {narrow}, which is not declared before it")
    sets[wide].narrower = sets[narrow]


def read_line(line, sets):
    """The name on a line, followed by its form in lower case if it has capitals."""
    head, colon, words = line.partition(":")
    text, _, variant = (part.strip() for part in head.partition("="))
    words = words.split()
    if not colon or not re.fullmatch(r"[A-Za-z0-9-]+", text) or len(text) > LONGEST:
        stop(f"a line is 'NAME: SET ..', its name at most {LONGEST} characters long: {line}")
    for word in words:
        is_declared(word, sets, line)
    variant = variant or variant_of(text)
    names = [Name(variant, text, words)]
    if text != text.lower():
        names.append(Name(f"{variant}Lowercase", text.lower(), [], True))
    return names


def read():
    """The names in the order of their texts in lower case, the sets, and the starts of the lists that are read."""
    names, fronts = [], {}
    with open(f"{CRATES}/h5_names/known_names.txt", encoding="utf-8") as file:
        lines = [line.strip() for line in file if line.strip() and not line.startswith("#")]
    sets = read_sets(lines)
    for line in lines:
        if line.startswith("first "):
            held, _, front = line[len("first ") :].partition(":")
            is_declared(held, sets, line)
            fronts[held] = front.split()
        elif line.startswith("holds "):
            read_holds(line, sets)
        elif not line.startswith("set "):
            names += read_line(line, sets)
    names.sort(key=lambda name: (name.text.lower(), name.is_lowered))
    texts, variants = [name.text for name in names], [name.variant for name in names]
    if len(set(texts)) < len(texts) or len(set(variants)) < len(variants):
        stop("a name stands twice")
    if len(names) > NO_NUMBER:
        stop(f"there are more than {NO_NUMBER} names")
    for held, front in fronts.items():
        for text in front:
            if not any(name.text == text and held in name.sets for name in names):
                stop(f"{held} begins with {text}, which it doesn't hold")
    return names, list(sets.values()), fronts


def texts_in(held, names, fronts):
    """The texts of the names of a set, in the order of its list."""
    front = fronts.get(held.word, [])
    return front + [name.text for name in names if held.word in name.sets and name.text not in front]


def slot(text, factors):
    a, b, c, d = factors
    fold = lambda at: ord(text[at]) | 0x20
    return (a * len(text) + b * fold(0) + c * fold(2 * len(text) // 5) + d * fold(len(text) - 1)) % SLOTS


def are_apart(names, factors):
    slots = [slot(name.text, factors) for name in names if not name.has_capitals()]
    return len(set(slots)) == len(slots)


def factors_for(names, now):
    """Factors by which each name has a slot of its own: those that are there if they serve, or the first that do."""
    number = 1
    while not are_apart(names, now):
        # Numbers without a plan that are the same in each run.
        now = []
        for _ in range(4):
            number = (number * 1103515245 + 12345) % 2**31
            now.append(number // 2**16 % SLOTS)
    return now


def key(text):
    """A text of up to seven bytes as one number, or 0 for a longer one."""
    return int.from_bytes(b"\1" + text.encode(), "big") if len(text) <= SHORT else 0


def short_slot(text, factor):
    return key(text) * factor % 2**64 // 2**54


def short_factor_for(names, now):
    """A factor by which each short name has a slot of its own: the one that is there if it serves, or the first that does."""
    short = [name.text for name in names if len(name.text) <= SHORT]
    number = 1
    while len({short_slot(text, now) for text in short}) < len(short):
        # Numbers without a plan that are the same in each run.
        number = (number * 6364136223846793005 + 1442695040888963407) % 2**64
        now = number | 1
    return now


def filled(items, width, indent=4, behind=""):
    """Items in lines of at most this width, parted by spaces."""
    lines, line = [], " " * indent
    for item in items:
        if line.strip() and len(line) + len(item) + 1 > width:
            lines.append(line)
            line = " " * indent
        line += item if not line.strip() else f" {item}"
    return "\n".join([*lines, line]) + behind


def between(text, begin, end, new):
    """The text, with the part between two lines, the first of each kind, replaced."""
    at = text.index(begin) + len(begin)
    return text[:at] + new + text[text.index(end, at) :]


def enum_of(names):
    lines = []
    for name in names:
        if name.text != name.variant.lower():
            lines.append(f"    /// `{name.text}`.")
        lines.append(f"    {name.variant},")
    return "\n".join(lines) + "\n"


def write_names(names, text):
    text = between(text, "pub enum KnownName {\n", "    /// Any other name.\n", enum_of(names))
    text = re.sub(r"TEXTS: \[&str; \d+\]", f"TEXTS: [&str; {len(names) + 1}]", text)
    return between(text, f"TEXTS: [&str; {len(names) + 1}] = [\n", '    "",\n', "".join(f'    "{name.text}",\n' for name in names))


def write_cases(names, text):
    pairs = [(name.variant, f"{name.variant}Lowercase") for name in names if name.has_capitals()]
    arms = lambda pairs: "".join(f"        KnownName::{one} => KnownName::{other},\n" for one, other in pairs)
    lower = "-> KnownName\n    ensures { result ≡ lowercase_name known }\n{\n    match known {\n"
    mixed = "-> KnownName\n    ensures { result ≡ mixed_name known }\n{\n    match known {\n"
    text = between(text, lower, "        lower => lower,", arms(pairs))
    return between(text, mixed, "        single => single,", arms([(other, one) for one, other in pairs]))


def write_slots(names, text):
    found = re.search(r"\((\d+) \* len\n\s+\+ (\d+) \* folded\(bytes\[0\]\)\n\s+\+ (\d+) \* folded\(bytes\[2 \* len / 5\]\)\n\s+\+ (\d+) \* folded", text)
    factors = factors_for(names, [int(it) for it in found.groups()])
    a, b, c, d = factors
    formula = f"({a} * len\n        + {b} * folded(bytes[0])\n        + {c} * folded(bytes[2 * len / 5])\n        + {d} * folded"
    text = text.replace(found[0], formula)
    numbers = [NO_NUMBER] * SLOTS
    for number, name in enumerate(names):
        if not name.has_capitals():
            numbers[slot(name.text, factors)] = number
    arms = "".join(f"        {number} => KnownName::{name.variant},\n" for number, name in enumerate(names))
    text = between(text, "    match number {\n", "    }\n", f"{arms}        {len(names)}..=255 => KnownName::Other,\n")
    text = between(text, "[u8; 1024] = [\n", "];", filled([f"{number}," for number in numbers], 99) + "\n")
    return text, factors


def write_short_names(names, text):
    factor = short_factor_for(names, int(re.search(r"wrapping_mul\((\d+)\)", text)[1]))
    text = re.sub(r"wrapping_mul\(\d+\)", f"wrapping_mul({factor})", text)
    numbers = [NO_NUMBER] * SLOTS
    for number, name in enumerate(names):
        if len(name.text) <= SHORT:
            numbers[short_slot(name.text, factor)] = number
    text = between(text, f"SHORT_NUMBERS: [u8; {SLOTS}] = [\n", "];", filled([f"{number}," for number in numbers], 99) + "\n")
    text = re.sub(r"KEYS: \[u64; \d+\]", f"KEYS: [u64; {len(names) + 1}]", text)
    keys = [*(key(name.text) for name in names), key("")]
    return between(text, f"KEYS: [u64; {len(names) + 1}] = [\n", "];", "".join(f"    {it},\n" for it in keys)), factor


def write_definitions(names, factors, text):
    head = "TheVariants.{\n"
    text = between(text, head, "  Other", "".join(f"  {name.variant},\n" for name in names))
    mixed = [name for name in names if name.has_capitals()]
    text = between(text, "lowercase_name : KnownName → KnownName\n", "lowercase_name known", "".join(f"lowercase_name {it.variant} = {it.variant}Lowercase\n" for it in mixed))
    text = between(text, "mixed_name : KnownName → KnownName\n", "mixed_name known", "".join(f"mixed_name {it.variant}Lowercase = {it.variant}\n" for it in mixed))
    text = between(text, "known_names =\n", "\n\n", filled([*(f"{name.variant} ∷" for name in names), "[]"], 100))
    a, b, c, d = factors
    formula = rf"\(\d+ \* length text \+ \d+ \* (.*?) \+ \d+ \* (.*?) \+ \d+ \* (.*?)\) % {SLOTS}"
    return re.sub(formula, lambda it: f"({a} * length text + {b} * {it[1]} + {c} * {it[2]} + {d} * {it[3]}) % {SLOTS}", text)


def write_flags(names, sets, text):
    variants = "".join(f"    /// {it.comment}\n    {it.variant},\n" for it in sets)
    text = between(text, "pub enum NameSet {\n", "}\n", variants)
    constants = "".join(f"const {it.word.upper()}: u32 = 1 << NameSet::{it.variant} as u32;\n\n" for it in sets)
    text = re.sub(r"(const \w+: u32 = 1 << NameSet::\w+ as u32;\n\n)+", constants, text)
    rows = [(" | ".join(it.word.upper() for it in sets if it.holds(name)) or "0", name.text) for name in names]
    text = re.sub(r"FLAGS: \[u32; \d+\]", f"FLAGS: [u32; {len(names) + 1}]", text)
    return between(text, f"FLAGS: [u32; {len(names) + 1}] = [\n", "    0, // any other\n", "".join(f"    {flags}, // {it}\n" for flags, it in rows))


def write_set_imports(sets, text, lists):
    """The imported variants and lists, each list after the start of its line."""
    text = between(text, "NameSet.TheVariants.{", "}\n", ", ".join(it.variant for it in sets))
    return between(text, lists, "}\n", ", ".join(it.listed for it in sets))


def write_set_definitions(sets, text):
    text = write_set_imports(sets, text, "specs.TagSets.{")
    text = between(text, "names_of : NameSet → List (List ℕ)\n", "\n\n", "\n".join(f"names_of {it.variant} = {it.listed}" for it in sets))
    return between(text, "flag_of : NameSet → ℕ\n", "\n\n", "\n".join(f"flag_of {it.variant} = 2 ^ {bit}" for bit, it in enumerate(sets)))


def write_set_lemmas(sets, text):
    text = write_set_imports(sets, text, "specs.TagSets.{is_one_of, ")
    lists = " ".join(it.listed for it in sets)
    cases = "".join(f"\nflags_are_right {it.variant} A = refl\nflags_are_right {it.variant} _ = refl" for it in sets)
    text = between(text, "(name_text known)\nunfolding ", "\n\n", lists + cases)
    known = f"{lists} known_name_of known_names\nset_is_known {sets[0].variant} = refl"
    return between(text, "are_known (names_of set) ≡ true\nunfolding ", "\nset_is_known _ = refl\n", known)


def list_comment(held):
    """The comment of a new list: that of the variant, which begins with no capital, if not with a name, and has no full stop."""
    comment = held.comment.removesuffix(".")
    first = comment.split()[0]
    return comment if first[1:] != first[1:].lower() else comment[0].lower() + comment[1:]


def with_head(held, sets, text):
    """The definitions with the head of a set's list, which comes after all others if it is new."""
    if f"\n{held.listed} =\n" in text:
        return text
    at = text.index("\n\n", max(text.find(f"\n{it.listed} =\n") for it in sets))
    return f"{text[:at]}\n\n-- {list_comment(held)}\nunfoldable pub {held.listed} : List (List ℕ)\n{held.listed} =\n{text[at:]}"


def write_lists(names, sets, fronts, text):
    for it in sets:
        items = [f'codes "{name}" ∷' for name in texts_in(it, names, fronts)]
        front = f"    {it.narrower.listed} ++\n" if it.narrower else ""
        text = between(with_head(it, sets, text), f"\n{it.listed} =\n", "\n\n", front + filled([*items, "[]"], 99))
    return text


def write_tags(names, text):
    text = re.sub(r"\[&str; \d+\]", f"[&str; {len(names) + 1}]", text)
    head = lambda table: f"{table}: [&str; {len(names) + 1}] = [\n"
    text = between(text, head("TAGS"), '    "<></>",\n', "".join(f'    "<{it.text}></{it.text}>",\n' for it in names))
    return between(text, head("ATTRIBUTES"), '    "\\" =\\"",\n', "".join(f'    "\\" {it.text}=\\"",\n' for it in names))


def write_count(names, text):
    """The lemma and the answer that say how many names there are."""
    return re.sub(r"\b\d+(?= ≤ n →| ≤ c\.args\.number)|(?<=returns-in-)\d+(?=-to-255)", str(len(names)), text)


def files_of(names, sets, fronts):
    """Each file that is made of the list, as it stands and as it is to be."""
    read_file = lambda path: open(f"{CRATES}/{path}", encoding="utf-8").read()
    slots, factors = write_slots(names, read_file("h5_names/src/known_slots.rt"))
    slots, short_factor = write_short_names(names, slots)
    yield "h5_names/src/known_slots.rt", slots
    for path, write in (
        ("h5_names/src/known_name.rt", lambda text: write_names(names, text)),
        ("h5_names/src/known_cases.rt", lambda text: write_cases(names, text)),
        ("h5_names/specs/KnownNames.antt", lambda text: write_definitions(names, factors, text)),
        ("h5_names/specs/ShortNames.antt", lambda text: re.sub(r"key \* \d+ %", f"key * {short_factor} %", text)),
        ("h5_names/proofs/KnownNameLemmas.antt", lambda text: write_count(names, text)),
        ("h5_names/proofs/known_slots/name_of_number/Answers.antt", lambda text: write_count(names, text)),
        ("h5_tables/src/name_sets.rt", lambda text: write_flags(names, sets, text)),
        ("h5_tables/specs/NameSets.antt", lambda text: write_set_definitions(sets, text)),
        ("h5_tables/specs/TagSets.antt", lambda text: write_lists(names, sets, fronts, text)),
        ("h5_tables/proofs/NameLemmas.antt", lambda text: write_set_lemmas(sets, text)),
        ("h5_serialize/src/known_tags.rt", lambda text: write_tags(names, text)),
    ):
        yield path, write(read_file(path))


def main(words):
    names, sets, fronts = read()
    differ = 0
    for path, text in files_of(names, sets, fronts):
        with open(f"{CRATES}/{path}", encoding="utf-8") as file:
            if file.read() == text:
                continue
        differ += 1
        print(f"crates/{path} {'is not what known_names.txt says' if words else 'is written anew'}")
        if not words:
            with open(f"{CRATES}/{path}", "w", encoding="utf-8") as file:
                file.write(text)
    return 1 if words and differ else 0


if sys.argv[1:] not in ([], ["--check"]):
    sys.exit(__doc__)
sys.exit(main(sys.argv[1:]))
