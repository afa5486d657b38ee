#!/usr/bin/env python3
"""Writes the table of named character references from the list of the definition, and the match that finds the common ones by number.

    write_table.py           writes the files that differ
    write_table.py --check   writes nothing; the status is 1 where a file differs

The list is in the files of crates/h5_tokenizer_spec/specs/named, in their order. All of src/numbers.rt, src/common.rt and proofs/CommonLemmas.antt
is written here.
"""
import os
import re
import sys

CRATES = os.path.dirname(os.path.dirname(os.path.abspath(__file__)))
LISTS = "h5_tokenizer_spec/specs/named"
NUMBERS = "h5_tokenizer_states/src/numbers.rt"
COMMON = "h5_tokenizer_states/src/common.rt"
LEMMAS = "h5_tokenizer_states/proofs/CommonLemmas.antt"
# The names that texts have most.
COMMON_NAMES = ["amp;", "lt;", "gt;", "quot;", "nbsp;"]

COMMON_HEAD = """//! The most frequent names, found by their bytes alone. `write_table.py` writes this file.
ghost use Rattle.std.specs.Prelude.{◌≡◌, ◌<◌, true, IfSome};
ghost use Rattle.h5_tokenizer_spec.specs.References.{ends_in};
ghost use Rattle.h5_tokenizer_spec.specs.Signs.{semicolon};
ghost use Rattle.h5_tokenizer_spec.specs.Words.{begins, same};
ghost use Rattle.h5_tokenizer_states.specs.Numbered.{how_many, name_of};

/// Returns the number of a common name that a text begins with. The name ends in a semicolon, so no longer name is there.
#[tactic(auto, using(crate::proofs::CommonLemmas::common_names))]
pub fn common(text: &[u8]) -> Option<usize>
    ensures within_table { IfSome result (λ number. number < how_many) }
    ensures closed { IfSome result (λ number. ends_in semicolon (name_of number) ≡ true) }
    ensures in_front { IfSome result (λ number. begins same (name_of number) text.now ≡ true) }
{
    // each name, with its number in the table
    match text {
"""
COMMON_END = """        _ => None,
    }
}
"""

LEMMAS_HEAD = """-- The common names by their numbers, and the bytes by which they are found. `write_table.py` writes this file.
use Rattle.std.proofs.Common.{◌≡◌, ℕ, ◌≤◌, true, refl, ap, ◌∙◌, List, length, get_or, codes}
use Rattle.h5_tokenizer_spec.specs.ReferenceTable.{references}
use Rattle.h5_tokenizer_spec.specs.Words.{begins, same}
use Rattle.h5_tokenizer_states.specs.Numbered.{name_of}
use Rattle.h5_tokenizer_states.proofs.HasBytes.{has_begins}
"""

WIDTH = 100
INDENT = " " * 4

HEAD = """//! The table of named character references (HTML standard, section 13.5), with offsets in place of pointers. `write_table.py`
//! writes this file.
"""


def bytes_of(words):
    """The bytes of a text of the list, which is `codes "text"`, or bytes and `[]`."""
    found = re.fullmatch(r'codes "([^"\\\\]*)"', words)
    if found:
        return found[1].encode()
    *numbers, end = words.split(" ∷ ")
    if end != "[]":
        sys.exit(f"{LISTS}: no text: {words}")
    return bytes(int(it, 0) for it in numbers)


def read_row(line):
    """The reference of a row: its name and its text, as bytes."""
    found = re.fullmatch(r'    (?:∷ )?\((codes "[A-Za-z0-9]+;?"), (.+)\)\n', line)
    if not found:
        sys.exit(f"{LISTS}: no row: {line}")
    return bytes_of(found[1]), bytes_of(found[2])


def read():
    """The references, in the order of the list."""
    rows = []
    for name in sorted(os.listdir(f"{CRATES}/{LISTS}")):
        with open(f"{CRATES}/{LISTS}/{name}", encoding="utf-8") as file:
            rows += [read_row(line) for line in file if line.strip().startswith(("(", "∷ ("))]
    return rows


def escaped(character):
    """A character as it is written between quotes."""
    if character in '"\\':
        return f"\\{character}"
    return character if " " <= character <= "~" else f"\\u{{{ord(character):x}}}"


def filled(words, between, behind):
    """Words in indented lines of at most this width, each but the last with the separator after it."""
    lines, line = [], INDENT
    for word in words:
        if line != INDENT and len(line + between + word + behind) > WIDTH:
            lines.append(line + behind)
            line = INDENT
        line += word if line == INDENT else between + word
    return "\n".join([*lines, line])


def quoted(words):
    """A text over several lines: one that ends in `\\` goes on where the next has its first sign."""
    return '"\\\n' + filled(words, "", "\\") + '"'


def listed(numbers):
    return "[\n" + filled([f"{number}," for number in numbers], " ", "") + "\n]"


def begins_of(texts):
    """The offset at which each text begins if all are joined, and the end of the last one."""
    begins = [0]
    for text in texts:
        begins.append(begins[-1] + len(text))
    return begins


def written(references):
    names, texts = [name for name, _ in references], [text for _, text in references]
    name_begins, text_begins = begins_of(names), begins_of(texts)
    return f"""{HEAD}
/// The names without their `&`, concatenated.
pub static NAMES: [u8; {name_begins[-1]}] = *b{quoted([name.decode() for name in names])};

/// The start of each name, and the end of the last one.
pub static NAME_BEGINS: [u16; {len(name_begins)}] = {listed(name_begins)};

/// The texts of the names, concatenated.
pub static TEXTS: &str = {quoted(["".join(map(escaped, text.decode())) for text in texts])};

/// The start of each text, and the end of the last one.
pub static TEXT_BEGINS: [u16; {len(text_begins)}] = {listed(text_begins)};
"""


def arm(name, number):
    """The arm of the match that finds a name by its bytes."""
    letters = ", ".join(f"b'{letter}'" for letter in name)
    return f"        [{letters}, ..] => Some({number}),\n"


def lemmas(name, number):
    """That a name has its number, and that a text with its bytes begins with it."""
    word = name.rstrip(";")
    bytes_there = " → ".join(f"get_or text {at} 0 ≡ {ord(letter)}" for at, letter in enumerate(name))
    facts = [f"at{at}" for at in range(len(name))]
    found = "le"
    for fact in reversed(facts):
        found = f"({fact}, {found})"
    return f"""
pub {word}_stands : name_of {number} ≡ codes "{name}"
unfolding references
{word}_stands = refl

pub {word}_in_front : (text : List ℕ) → {len(name)} ≤ length text → {bytes_there} → begins same (name_of {number}) text ≡ true
{word}_in_front text le {" ".join(facts)} = ap (λ name. begins same name text) {word}_stands ∙ has_begins (codes "{name}") text {found}
"""


def written_common(references):
    """The code and the lemmas of the common names."""
    numbers = {name.decode(): number for number, (name, _) in enumerate(references)}
    found = [(name, numbers[name]) for name in COMMON_NAMES]
    words = [name.rstrip(";") for name, _ in found]
    named = ", ".join([f"{word}_stands" for word in words] + [f"{word}_in_front" for word in words])
    code = COMMON_HEAD + "".join(arm(*it) for it in found) + COMMON_END
    return code, LEMMAS_HEAD + "".join(lemmas(*it) for it in found) + f"\n-- by which each arm of the match is proved\npub ruleset common_names = ({named})\n"


def differs(name, text, writes):
    """Whether a file isn't what is written here; then it is written, unless it is only looked at."""
    path = f"{CRATES}/{name}"
    if os.path.exists(path):
        with open(path, encoding="utf-8") as file:
            if file.read() == text:
                return False
    print(f"crates/{name} {'is written anew, as' if writes else 'is not what'} crates/{LISTS} says")
    if writes:
        with open(path, "w", encoding="utf-8") as file:
            file.write(text)
    return True


def main(words):
    references = read()
    code, proofs = written_common(references)
    files = [(NUMBERS, written(references)), (COMMON, code), (LEMMAS, proofs)]
    other = [differs(name, text, not words) for name, text in files]
    return 1 if words and any(other) else 0


if sys.argv[1:] not in ([], ["--check"]):
    sys.exit(__doc__)
sys.exit(main(sys.argv[1:]))
