#!/usr/bin/env python3
"""Writes the encodings, their labels and the characters of the single-byte encodings out of encodings.txt, and the indexes of the
encodings of several bytes out of indexes.txt.

    write_tables.py           writes the files that differ
    write_tables.py --check   writes nothing; the status is 1 where a file differs

All of src/encoding.rt, src/labels.rt, src/upper_halves.rt, specs/Names.antt and specs/UpperHalf.antt is written here, and for each
index a file of src/ and one of specs/.
"""
import os
import re
import sys
import unicodedata

CRATE = os.path.dirname(os.path.abspath(__file__))
WIDTH = 118

ENCODING_HEAD = """//! The encodings. `write_tables.py` writes this file.
ghost use Rattle.std.specs.Prelude.{◌≡◌};
ghost use Rattle.h5_encodings.specs.Names.{name_of, single_byte_name};

/// An encoding with one character for each byte (Encoding Standard, section 9, "Legacy single-byte encodings").
#[derive(Clone, Copy, Debug, PartialEq, Eq)]
pub enum SingleByte {
"""

ENCODING_MIDDLE = """}

/// An encoding (Encoding Standard, section 4.2, "Names and labels").
#[derive(Clone, Copy, Debug, PartialEq, Eq)]
pub enum Encoding {
"""

LABELS_HEAD = """//! The labels of the encodings. `write_tables.py` writes this file.
use super::encoding::{Encoding, SingleByte};

/// The labels, in lower case (Encoding Standard, section 4.2, "Names and labels").
#[rattlefmt::skip]
"""

HALVES_HEAD = """//! The characters of the bytes from 128 on in the single-byte encodings. A byte without a character has U+FFFD.
//! `write_tables.py` writes this file.
ghost use Rattle.std.specs.Prelude.{◌≡◌};
ghost use Rattle.h5_encodings.specs.UpperHalf.{upper_half};

use super::encoding::SingleByte;

"""

HALF_OF = """/// The characters of the bytes from 128 on (Encoding Standard, section 9, "Legacy single-byte encodings").
#[tactic(auto, unfolding(crate::specs::UpperHalf::upper_half))]
pub fn upper_half(encoding: SingleByte) -> &'static [char; 128]
    ensures { result.now ≡ upper_half encoding }
{
    match encoding {
"""


INDEX = """//! The index {name}: the code point of each pointer, or U+0000 if it has none. `write_tables.py` writes this file.
ghost use Rattle.std.specs.Prelude.{{◌≡◌}};
ghost use Rattle.h5_encodings.specs.{module}.{{{function}}};

#[rattlefmt::skip]
pub static {constant}: [char; {count}] = [
{rows}];

/// The index {name} (Encoding Standard, section 5, "Indexes").
#[tactic(auto, unfolding(crate::specs::{module}::{function}))]
pub fn {function}() -> &'static [char]
    ensures {{ result.now ≡ {function} }}
{{
    &{constant}
}}
"""

CLOSED_INDEX = """-- The index {name}: the table that the code reads. It stays closed, so that no proof computes with it. `write_tables.py` writes this
-- file.
use Rattle.std.specs.Prelude.{{ℕ, List}}
use Rattle.h5_encodings.specs.declared.{file}.TheConstants.{{{constant}}}

unfoldable pub {function} : List ℕ
{function} = {constant}
"""


RANGES = """//! The index {name} ranges: pointers, and their code points. `write_tables.py` writes this file.
ghost use Rattle.std.specs.Prelude.{{◌≡◌}};
ghost use Rattle.h5_encodings.specs.{module}.{{{function}}};

#[rattlefmt::skip]
pub static {constant}: [(u32, char); {count}] = [
{rows}];

/// The index {name} ranges (Encoding Standard, section 5, "Indexes").
#[tactic(auto, unfolding(crate::specs::{module}::{function}))]
pub fn {function}() -> &'static [(u32, char)]
    ensures {{ result.now ≡ {function} }}
{{
    &{constant}
}}
"""

CLOSED_RANGES = """-- The index {name} ranges: the table that the code reads. It stays closed, so that no proof computes with it. `write_tables.py`
-- writes this file.
use Rattle.std.specs.Prelude.{{ℕ, List}}
use Rattle.h5_encodings.specs.declared.{file}.TheConstants.{{{constant}}}

unfoldable pub {function} : List (ℕ × ℕ)
{function} = {constant}
"""


def read_indexes():
    """The name and the code points of each index, or its pairs of a pointer and a code point."""
    indexes = []
    for line in open(os.path.join(CRATE, "indexes.txt"), encoding="utf-8"):
        words = line.split()
        if not words or words[0] == "#":
            continue
        if words[0] in ("index", "ranges"):
            indexes.append((words[0], words[1], []))
        elif words[0] == "codes":
            indexes[-1][2].extend(int(word, 16) for word in words[1:])
        elif words[0] == "rows":
            indexes[-1][2].extend(word.split(":") for word in words[1:])
        else:
            sys.exit(f"indexes.txt: a line begins with {words[0]}")
    return indexes


def names_of(name, ending, rows):
    file = f"{name.lower().replace('-', '_')}_{ending}"
    module = "".join(word.capitalize() for word in file.split("_"))
    return {"name": name, "file": file, "function": file, "module": module, "count": len(rows)}


def index_files(kind, name, rows):
    if kind == "index":
        names = names_of(name, "index", rows)
        names["constant"] = constant(name)
        names["rows"] = hundreds([literal(code) + "," for code in rows])
        code, closed = INDEX, CLOSED_INDEX
    else:
        names = names_of(name, "ranges", rows)
        names["constant"] = names["file"].upper()
        names["rows"] = filled(f"({pointer}, '\\u{{{code}}}')," for pointer, code in rows)
        code, closed = RANGES, CLOSED_RANGES
    return {f"src/{names['file']}.rt": code.format(**names), f"specs/{names['module']}.antt": closed.format(**names)}


def read():
    """The encodings in their order: the name, the labels, and the characters of the upper half, if it has one."""
    encodings = []
    for line in open(os.path.join(CRATE, "encodings.txt"), encoding="utf-8"):
        words = line.split()
        if not words or words[0] == "#":
            continue
        if words[0] == "encoding":
            encodings.append((words[1], [], []))
        elif words[0] == "labels":
            encodings[-1][1].extend(words[1:])
        elif words[0] == "half":
            encodings[-1][2].extend(int(word, 16) for word in words[1:])
        else:
            sys.exit(f"encodings.txt: a line begins with {words[0]}")
    for name, labels, half in encodings:
        if len(half) not in (0, 128):
            sys.exit(f"encodings.txt: {name} has {len(half)} characters")
    return encodings


def variant(name):
    """The name as that of a variant: digits are kept apart by an underscore."""
    word = "".join(part[:1].upper() + part[1:].lower() for part in re.split("[-_]", name))
    return re.sub(r"8859", "8859_", word) if name.startswith("ISO-8859-") else word


def constant(name):
    return name.upper().replace("-", "_")


def literal(code):
    """A character as it is written in a source: itself where it is seen and stands alone, and else by its number."""
    character = chr(code)
    if code == 0:
        return "'\\0'"
    if unicodedata.category(character)[0] in "LNPS" and character not in "'\\":
        return f"'{character}'"
    return f"'\\u{{{code:X}}}'"


def hundreds(words):
    """Rows of a hundred, since `rt` estimates the memory of a check by the lines of its crate."""
    return "".join(f"    {' '.join(words[at:at + 100])}\n" for at in range(0, len(words), 100))


def filled(words):
    lines, line = [], "   "
    for word in words:
        if len(line) + 1 + len(word) > WIDTH:
            lines.append(line)
            line = "   "
        line += " " + word
    return "\n".join(lines + [line]) + "\n"


def listed(names):
    return ", ".join(names)


def value(name, half):
    return f"Encoding::SingleByte(SingleByte::{variant(name)})" if half else f"Encoding::{variant(name)}"


def encoding_file(encodings):
    singles = [name for name, _, half in encodings if half]
    others = [name for name, _, half in encodings if not half]
    out = ENCODING_HEAD + "".join(f"    {variant(name)},\n" for name in singles) + ENCODING_MIDDLE
    for name in others:
        out += f"    {variant(name)},\n"
    out += "    SingleByte(SingleByte),\n}\n\nimpl SingleByte {\n    /// Returns the name, as the standard writes it.\n    pub fn name(self) -> &'static str\n"
    out += "        ensures { result.now ≡ single_byte_name self }\n    {\n        match self {\n"
    out += "".join(f'            SingleByte::{variant(name)} => "{name}",\n' for name in singles)
    out += "        }\n    }\n}\n\nimpl Encoding {\n    /// Returns the name, as the standard writes it.\n    pub fn name(self) -> &'static str\n"
    out += "        ensures { result.now ≡ name_of self }\n    {\n        match self {\n"
    out += "".join(f'            Encoding::{variant(name)} => "{name}",\n' for name in others)
    return out + "            Encoding::SingleByte(encoding) => encoding.name(),\n        }\n    }\n}\n"


def names_file(encodings):
    singles = [name for name, _, half in encodings if half]
    others = [name for name, _, half in encodings if not half]
    out = "-- The names of the encodings (Encoding Standard, section 4.2, \"Names and labels\"). `write_tables.py` writes this file.\n"
    out += "use Rattle.std.specs.Prelude.{ℕ, List, codes}\n"
    out += "use Rattle.h5_encodings.specs.declared.encoding.Encoding.{Encoding}\n"
    out += f"use Rattle.h5_encodings.specs.declared.encoding.Encoding.TheVariants as e\n"
    out += "use Rattle.h5_encodings.specs.declared.encoding.SingleByte.{SingleByte}\n"
    out += f"use Rattle.h5_encodings.specs.declared.encoding.SingleByte.TheVariants.{{{listed(map(variant, singles))}}}\n\n"
    out += "abbrev pub single_byte_name : SingleByte → List ℕ\n"
    out += "".join(f'single_byte_name {variant(name)} = codes "{name}"\n' for name in singles)
    out += "\nabbrev pub name_of : Encoding → List ℕ\n"
    out += "".join(f'name_of e.{variant(name)} = codes "{name}"\n' for name in others)
    return out + "name_of (e.SingleByte encoding) = single_byte_name encoding\n"


def labels_file(encodings):
    rows = [(label, value(name, half)) for name, labels, half in encodings for label in labels]
    out = LABELS_HEAD + f"pub static LABELS: [(&str, Encoding); {len(rows)}] = [\n"
    return out + "".join(f'    ("{label}", {encoding}),\n' for label, encoding in rows) + "];\n"


def halves_of(encodings):
    """Each upper half once, and of each single-byte encoding the name of its own."""
    first, names = {}, {}
    for name, _, half in encodings:
        if half:
            names[name] = first.setdefault(tuple(half), constant(name))
    return first, names


def halves_file(encodings):
    first, names = halves_of(encodings)
    out = HALVES_HEAD
    for half, name in first.items():
        out += f"#[rattlefmt::skip]\npub static {name}: [char; 128] = [\n"
        out += filled(literal(character) + "," for character in half) + "];\n\n"
    out += HALF_OF + "".join(f"        SingleByte::{variant(name)} => &{half},\n" for name, half in names.items())
    return out + "    }\n}\n"


def half_file(encodings):
    first, names = halves_of(encodings)
    out = "-- The characters of the bytes from 128 on in the single-byte encodings: the tables that the code reads. They stay closed, so that\n"
    out += "-- no proof computes with them. `write_tables.py` writes this file.\n"
    out += "use Rattle.std.specs.Prelude.{ℕ, List}\n"
    out += "use Rattle.h5_encodings.specs.declared.encoding.SingleByte.{SingleByte}\n"
    out += f"use Rattle.h5_encodings.specs.declared.encoding.SingleByte.TheVariants.{{{listed(map(variant, names))}}}\n"
    out += f"use Rattle.h5_encodings.specs.declared.upper_halves.TheConstants.{{{listed(first.values())}}}\n\n"
    out += "unfoldable pub upper_half : SingleByte → List ℕ\n"
    return out + "".join(f"upper_half {variant(name)} = {half}\n" for name, half in names.items())


def main():
    encodings = read()
    files = {
        "src/encoding.rt": encoding_file(encodings),
        "src/labels.rt": labels_file(encodings),
        "src/upper_halves.rt": halves_file(encodings),
        "specs/Names.antt": names_file(encodings),
        "specs/UpperHalf.antt": half_file(encodings),
    }
    for kind, name, rows in read_indexes():
        files.update(index_files(kind, name, rows))
    differ = []
    for path, text in files.items():
        whole = os.path.join(CRATE, path)
        old = open(whole, encoding="utf-8").read() if os.path.exists(whole) else None
        if old != text:
            differ.append(path)
            if "--check" not in sys.argv[1:]:
                with open(whole, "w", encoding="utf-8") as file:
                    file.write(text)
    if "--check" in sys.argv[1:] and differ:
        sys.exit("differs from what write_tables.py writes: " + " ".join(differ))


main()
