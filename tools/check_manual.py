#!/usr/bin/env python3
"""Holds the manual pages to the header and the example: misqafur(3) names every call, every helper and every refusal with the
header's sentence, misqafur(1) has the example's text and print, and both the version. Where mandoc is, it has to read them
without a warning. Says `manual: 2 pages`, or each difference, and then ends with status 1."""
import pathlib
import re
import shutil
import subprocess
import sys

ROOT = pathlib.Path(__file__).resolve().parent.parent


def plain(page):
    """A page without the marks of its language that stand inside words."""
    return (ROOT / "man" / page).read_text(encoding="utf-8").replace("\\-", "-").replace("\\e", "\\")


def differences():
    header = (ROOT / "include/misqafur.h").read_text(encoding="utf-8")
    program, library = plain("misqafur.1"), plain("misqafur.3")
    call = "misqafur_abi_" + re.search(r"^#define MISQAFUR_ABI (\d+)$", header, re.M).group(1)
    names = re.findall(r"^uint\d+_t (misqafur_\w+)\(", header, re.M) + re.findall(r"\b(misqafur_(?:sheet|course|json)_\w+)\(", header)
    for name in sorted(set(names + ["misqafur_refusal_text", "misqafur_level", "misqafur_version", call]) - {"misqafur_sheet_keep", "misqafur_sheet_take"}):
        if not re.search(rf"\b{name}\b", library):
            yield f"misqafur(3) does not name {name}"
    for number, sentence in enumerate(re.findall(r'return "([^"]*)";', header)[1:-1], 1):
        if not re.search(rf"^ *{number}  {re.escape(sentence)}$", library, re.M):
            yield f"misqafur(3) does not have refusal {number} as the header words it"
    version = re.search(r'#define MISQAFUR_VERSION "(.*)"', header).group(1)
    for page in (program, library):
        if f'"Misqafur {version}"' not in page.splitlines()[0]:
            yield f"a page is not of version {version}"
    text = (ROOT / "examples/three.csv").read_text().replace("\n", "\\n")
    if f"$ printf '{text}' | misqafur\n" + (ROOT / "examples/three.expected").read_text() not in program:
        yield "misqafur(1) does not have the example and its print"


def unread():
    if not shutil.which("mandoc"):
        return
    for page in ("misqafur.1", "misqafur.3"):
        said = subprocess.run(["mandoc", "-Tlint", "-Wwarning", str(ROOT / "man" / page)], capture_output=True, text=True, check=False)
        if said.returncode:
            yield f"mandoc on {page}: {said.stdout}"


def main():
    found = [*differences(), *unread()]
    for text in found or ["2 pages"]:
        print(f"manual: {text}")
    return 1 if found else 0


if __name__ == "__main__":
    sys.exit(main())
