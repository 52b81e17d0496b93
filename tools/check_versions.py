"""One version in every place that tells it: the header's, which pkg-config files and the shared library's name are made from,
and those of the proved definition, the Python module and the R package. The version's first number is the interface's.
tools/check_header.py runs this, and tools/check_manual.py holds the manual to the header.

Each run first tries the comparison itself: every edit in TRIES of small texts that agree has to be noticed."""
import re

# Where a place is, and the pattern of what it tells.
PLACES = {
    "include/misqafur.h": r'^#define MISQAFUR_VERSION "(.*)"$',
    "python/misqafur.py": r'^__version__ = "(.*)"$',
    "r/misqafur/DESCRIPTION": r"^Version: (.*)$",
}
HEADER, PYTHON, DEFINITION = "include/misqafur.h", "python/misqafur.py", "crates/misqafur/specs/Version.antt"


def numbers(text, pattern):
    """The numbers that a text gives to major, minor and patch, as a version; what is not there is a question mark."""
    found = [re.search(pattern.format(part), text, re.M | re.I) for part in ("major", "minor", "patch")]
    return ".".join(each.group(1) if each else "?" for each in found)


def told(texts):
    """Every version that is told, with its place."""
    for place, pattern in PLACES.items():
        for version in re.findall(pattern, texts[place], re.M) or ["nothing"]:
            yield place, version
    yield HEADER + " in numbers", numbers(texts[HEADER], r"^#define MISQAFUR_VERSION_{} (\d+)$")
    yield DEFINITION, numbers(texts[DEFINITION], r"^{} = (\d+)$")


def differences(texts):
    versions = dict(told(texts))
    if len(set(versions.values())) != 1:
        yield "the versions differ: " + "; ".join(f"{version} in {place}" for place, version in versions.items())
    major = versions[HEADER].partition(".")[0]
    for place, pattern in ((HEADER, r"^#define MISQAFUR_ABI (.*)$"), (PYTHON, r"^ABI = (.*)$")):
        if re.findall(pattern, texts[place], re.M) != [major]:
            yield f"{place} has another interface than {major}, the version's first number"


SMALL = {
    HEADER: '#define MISQAFUR_ABI 7\n#define MISQAFUR_VERSION_MAJOR 7\n#define MISQAFUR_VERSION_MINOR 1\n'
            '#define MISQAFUR_VERSION_PATCH 2\n#define MISQAFUR_VERSION "7.1.2"\n',
    PYTHON: '__version__ = "7.1.2"\nABI = 7\n',
    "r/misqafur/DESCRIPTION": "Version: 7.1.2\n",
    DEFINITION: "major = 7\nminor = 1\npatch = 2\n",
}
TRIES = [
    (HEADER, "ABI 7", "ABI 8"), (HEADER, "MAJOR 7", "MAJOR 8"), (HEADER, "MINOR 1", "MINOR 2"), (HEADER, "PATCH 2", "PATCH 3"),
    (HEADER, '"7.1.2"', '"7.1.3"'), (PYTHON, "7.1.2", "7.1.1"), (PYTHON, "ABI = 7", "ABI = 6"), (PYTHON, "ABI = 7", ""),
    (PYTHON, '__version__ = "7.1.2"', ""), ("r/misqafur/DESCRIPTION", "7.1.2", "1.0.0"), (DEFINITION, "major = 7", "major = 2"),
    (DEFINITION, "minor = 1", "minor = 0"), (DEFINITION, "patch = 2", ""),
]


def found(root):
    """What differs below a folder; and before that the edits of small texts that this would not notice."""
    missed = list(differences(SMALL))
    for place, old, new in TRIES:
        edited = {**SMALL, place: SMALL[place].replace(old, new, 1)}
        if edited == SMALL or not list(differences(edited)):
            missed.append(f"`{old}` as `{new}` in {place} would not be noticed")
    return missed + list(differences({place: (root / place).read_text(encoding="utf-8") for place in SMALL}))
