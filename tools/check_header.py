#!/usr/bin/env python3
"""Holds the prototypes in include/misqafur.h to the exports of crates/misqafur/src: the same names, and for each the
same arguments in the same order, with the same types and const, and the same answer. A slice is a pointer and its
length, signed bytes come from C as plain ones of the same bits, and the block in which compilers are told of the calls
has to name each of them, as read or written. The call that has the interface's number in its name is declared by that
number, and the header has to refer to it. What check_versions.py holds to each other is held here too.
Says `header: N prototypes match the exports`, or each difference, and then ends with status 1.

Each run first tries the comparison itself: every edit in TRIES of a small pair that matches has to be noticed.
"""
import pathlib
import re
import sys

import check_versions

ROOT = pathlib.Path(__file__).resolve().parent.parent
NUMBERS = {"u8": "uint8_t", "u32": "uint32_t", "u64": "uint64_t"}
EXPORT = re.compile(r'#\[unsafe\(no_mangle\)\]\s+pub extern "C" fn (\w+)\s*\(([^)]*)\)(?:\s*->\s*([^\s{]+))?')
PROTOTYPE = re.compile(r"([\w\s*]+?)\b(\w+)\s*\(([^)]*)\)\s*;")
TOLD = re.compile(r"^MISQAFUR_TOLD\((\w+),([^;]*)\);", re.M)
LENT = re.compile(r"MISQAFUR_LENT(_TABLES)?\((\w+), (\d+)\)")
NUMBERED = "MISQAFUR_ABI_CALL(MISQAFUR_ABI)"
LINKED = re.compile(r"^static uint32_t \(\*const misqafur_linked\)\(void\) MISQAFUR_KEPT = (\w+);", re.M)


class Unclear(Exception):
    """A text that says something which this script does not understand, and so cannot compare."""


def pieces(text):
    return [piece.strip() for piece in text.split(",") if piece.strip()]


def spaced(text):
    """A C declaration with one space between its words and none after a star."""
    return re.sub(r"\* ", "*", " ".join(text.replace("*", " * ").split()))


def as_c(argument):
    """What an argument of an export is in C: a list of declarations."""
    name, _, kind = (part.strip() for part in argument.partition(":"))
    if kind in NUMBERS:
        return [f"{NUMBERS[kind]} {name}"]
    if kind in ("&[u8]", "&mut [u8]", "&[i8]"):
        const = "" if "mut" in kind else "const "
        return [f"{const}uint8_t *{name}", f"size_t {name}_length"]
    raise Unclear(f"no C type is known for the argument `{argument}`")


def exports(source):
    """Each exported name with the answer and the arguments that its prototype must have."""
    source = re.sub(r"//[^\n]*", "", source)
    found = {}
    for name, arguments, answer in EXPORT.findall(source):
        if answer and answer not in NUMBERS:
            raise Unclear(f"no C type is known for the answer of {name}, `{answer}`")
        declared = [c for argument in pieces(arguments) for c in as_c(argument)]
        found[name] = (NUMBERS.get(answer, "void"), declared)
    marked = max(source.count("no_mangle"), len(re.findall(r'\bextern\s+"C"', source)))
    if marked != len(found):
        raise Unclear(f"{marked} functions are marked as exports, and {len(found)} can be read")
    return found


def numbered(header):
    """The header with the call that has the interface's number in its name written out."""
    abi = re.search(r"^#define MISQAFUR_ABI (\d+)$", header, re.M)
    if not abi or "#define MISQAFUR_NUMBERED(number) misqafur_abi_##number\n" not in header:
        raise Unclear("the header does not number its interface, or no call by it")
    return header.replace(NUMBERED, f"misqafur_abi_{abi.group(1)}")


def unlinked(header):
    """Whether the header does not refer to that call by itself, in every file that includes it."""
    named = re.findall(r"^uint32_t (misqafur_abi_\d+)\(void\);", header, re.M)
    if len(named) != 1 or LINKED.findall(header) != named:
        yield f"the header declares {named} by the interface's number, and refers to {LINKED.findall(header)}"


def prototypes(header):
    """Each name that the header declares, with its answer and arguments."""
    header = re.sub(r"/\*.*?\*/|//[^\n]*|\\\n", " ", header, flags=re.S)
    header = re.sub(r"#ifdef __cplusplus.*?#endif", " ", header, flags=re.S)
    header = re.sub(r"^\s*#[^\n]*", " ", header, flags=re.M)
    header = re.sub(r"static inline [^{;]*\{.*?^\}", " ", header, flags=re.S | re.M)
    header = re.sub(r"^(struct|enum) \w+ \{[^}]*\};", " ", header, flags=re.M)
    header = LINKED.sub(" ", TOLD.sub(" ", header))
    found = {}
    for answer, name, arguments in PROTOTYPE.findall(header):
        if name in found:
            raise Unclear(f"{name} is declared twice in the header")
        found[name] = (spaced(answer), [spaced(argument) for argument in pieces(arguments) if argument != "void"])
    rest = PROTOTYPE.sub(" ", header).split()
    if rest:
        raise Unclear("the header has more than prototypes, types and inline functions: " + " ".join(rest)[:60])
    return found


def told(header):
    """What compilers are told of each call: its buffers by the place of their pointer, and how they are used."""
    tables = re.search(r"#define MISQAFUR_LENT_TABLES\(mode, at\)((?:[^\n]*\\\n)*[^\n]*)", header)
    count = tables.group(1).count("MISQAFUR_LENT(") if tables else 0
    found = {}
    for name, lent in TOLD.findall(header):
        places = found.setdefault(name, {})
        for whole, mode, at in LENT.findall(lent):
            for k in range(count if whole else 1):
                places[int(at) + 2 * k] = mode
    return found


def untold(given, said):
    """What is not told of the calls' buffers, or told wrongly."""
    modes = {"const uint8_t": ["read_only"], "uint8_t": ["read_write", "write_only"]}
    for name in sorted(set(given) | set(said)):
        arguments = given.get(name, ("", []))[1]
        due = {place: modes[a.partition(" *")[0]] for place, a in enumerate(arguments, 1) if "*" in a}
        places = said.get(name, {})
        if name not in given or name not in said or due.keys() != places.keys():
            yield f"{name}: compilers are told of the buffers at {sorted(places)}, they are at {sorted(due)}"
        elif any(places[place] not in due[place] for place in due):
            yield f"{name}: compilers are told another use of a buffer than its const says"


def differences(source, header):
    try:
        header = numbered(header)
        wanted, given = exports(source), prototypes(header)
    except Unclear as unclear:
        return [str(unclear)]
    found = [] if wanted else ["there are no exports"]
    found += [] if given else ["there are no prototypes"]
    found += [f"{name} is exported and not declared" for name in wanted if name not in given]
    found += [f"{name} is declared and not exported" for name in given if name not in wanted]
    for name in wanted:
        if name in given:
            found += [f"{name}: {text}" for text in changes(wanted[name], given[name])]
    return found + list(untold(given, told(header))) + list(unlinked(header))


def changes(wanted, given):
    """What is not the same between the answer and arguments due and those declared."""
    if wanted[0] != given[0]:
        yield f"answers `{given[0]}`, the export is `{wanted[0]}`"
    if len(wanted[1]) != len(given[1]):
        yield f"has {len(given[1])} arguments, the export has {len(wanted[1])}"
    for place, (due, declared) in enumerate(zip(wanted[1], given[1]), 1):
        if due != declared:
            yield f"argument {place} is `{declared}`, the export has `{due}`"


SOURCE = """
#[unsafe(no_mangle)]
pub extern "C" fn misqafur_abi_7() -> u32 { 70000 }
#[unsafe(no_mangle)]
pub extern "C" fn one(order: u64, text: &[u8], out: &mut [u8]) -> u32
    ensures { it } { 0 }
#[unsafe(no_mangle)]
pub extern "C" fn two(n: u64, r: u64,) -> u64 { 0 }
#[unsafe(no_mangle)]
pub extern "C" fn six(a: &mut [u8], b: &mut [u8], levels: &[i8]) -> u32 { 0 }
"""
HEADER = """
#define MISQAFUR_ABI 7
#define MISQAFUR_NUMBERED(number) misqafur_abi_##number
uint32_t MISQAFUR_ABI_CALL(MISQAFUR_ABI)(void);
uint32_t one(uint64_t order, const uint8_t *text, size_t text_length,
             uint8_t *out, size_t out_length);
uint64_t two(uint64_t n, uint64_t r);
enum kinds {
    KIND = 1
};
#define MISQAFUR_LENT_TABLES(mode, at) \\
    MISQAFUR_LENT(mode, at) MISQAFUR_LENT(mode, at + 2)
uint32_t six(uint8_t *a, size_t a_length, uint8_t *b, size_t b_length, const uint8_t *levels, size_t levels_length);
MISQAFUR_TOLD(MISQAFUR_ABI_CALL(MISQAFUR_ABI), );
static uint32_t (*const misqafur_linked)(void) MISQAFUR_KEPT = MISQAFUR_ABI_CALL(MISQAFUR_ABI);
MISQAFUR_TOLD(one, MISQAFUR_LENT(read_only, 2) MISQAFUR_LENT(write_only, 4));
MISQAFUR_TOLD(two, );
MISQAFUR_TOLD(six, MISQAFUR_LENT_TABLES(read_write, 1) MISQAFUR_LENT(read_only, 5));
static inline int three(int a)
{
    return a;
}
"""
# In which text, what, and what stands there instead: names, numbers, order, types, const, answers, and what is missing.
TRIES = [
    (HEADER, " one(", " uno("), (SOURCE, "two", "duo"), (HEADER, "uint64_t n, uint64_t r", "uint64_t r, uint64_t n"),
    (HEADER, "uint64_t n, ", ""), (SOURCE, "n: u64, ", ""), (HEADER, "uint64_t order", "uint32_t order"),
    (SOURCE, "order: u64", "order: u32"), (HEADER, "const uint8_t *text", "uint8_t *text"),
    (HEADER, "uint8_t *out", "const uint8_t *out"), (SOURCE, "&mut [u8]", "&[u8]"), (SOURCE, "&[u8]", "&mut [u8]"),
    (HEADER, "text_length", "length"), (HEADER, "size_t out_length", "uint64_t out_length"),
    (HEADER, "uint32_t one", "uint64_t one"), (SOURCE, "-> u64", "-> u32"), (SOURCE, " -> u64", ""),
    (HEADER, "*text", "**text"), (HEADER, "const uint8_t *levels", "uint8_t *levels"), (SOURCE, "&[i8]", "&mut [i8]"),
    (HEADER, "uint64_t two(uint64_t n, uint64_t r);", ""),
    (HEADER, "static", "int four(void);\nstatic"), (HEADER, "static", "extern int five;\nstatic"),
    (HEADER, "static", "uint64_t two(uint64_t n, uint64_t r);\nstatic"),
    (SOURCE, "n: u64", "n: u16"), (SOURCE, '#[unsafe(no_mangle)]\npub extern "C" fn two', 'pub extern "C" fn two'),
    (SOURCE, 'pub extern "C" fn two', "pub fn two"), (SOURCE, SOURCE, ""), (HEADER, HEADER, ""),
    (HEADER, "TOLD(one", "TOLD(uno"), (HEADER, "MISQAFUR_TOLD(two, );", ""), (HEADER, "read_only, 2", "read_only, 3"),
    (HEADER, "read_only, 2", "write_only, 2"), (HEADER, "write_only, 4", "read_only, 4"),
    (HEADER, " MISQAFUR_LENT(write_only, 4)", ""), (HEADER, " MISQAFUR_LENT(mode, at + 2)", ""),
    (HEADER, "MISQAFUR_ABI 7", "MISQAFUR_ABI 8"), (SOURCE, "misqafur_abi_7", "misqafur_abi_8"), (HEADER, "abi_##number", "abi##number"),
    (HEADER, "MISQAFUR_KEPT = MISQAFUR_ABI_CALL(MISQAFUR_ABI);", "MISQAFUR_KEPT = two;"), (HEADER, " MISQAFUR_KEPT", ""),
    (HEADER, "static uint32_t (*const misqafur_linked)(void) MISQAFUR_KEPT = MISQAFUR_ABI_CALL(MISQAFUR_ABI);", ""),
    (HEADER, "uint32_t MISQAFUR_ABI_CALL(MISQAFUR_ABI)(void);", "uint32_t misqafur_abi_7(uint32_t old);"),
    (HEADER, "#define MISQAFUR_ABI 7\n", ""),
]


def unnoticed():
    """The edits of the small pair that the comparison does not notice, or that change nothing."""
    missed = differences(SOURCE, HEADER)
    for text, old, new in TRIES:
        edited = text.replace(old, new, 1)
        pair = (edited, HEADER) if text is SOURCE else (SOURCE, edited)
        if edited == text or not differences(*pair):
            missed.append(f"`{old.strip()}` as `{new.strip()}` would not be noticed")
    return missed


def main():
    files = sorted((ROOT / "crates/misqafur/src").rglob("*.rt"))
    source = "\n".join(file.read_text(encoding="utf-8") for file in files)
    header = (ROOT / "include/misqafur.h").read_text(encoding="utf-8")
    found = unnoticed() + differences(source, header) + check_versions.found(ROOT)
    for text in found:
        print(f"header: {text}")
    if not found:
        print(f"header: {len(prototypes(numbered(header)))} prototypes match the exports")
    return 1 if found else 0


if __name__ == "__main__":
    sys.exit(main())
