"""A small tree that is in order, and edits of it that tools/check_documents.py has to notice at each run."""
SMALL = {
    "README.md": """The program calls `misqafur_draw`; MISQAFUR_ABI; tools/made, tests/*.txt and crates/NAME/must-fail.

| call | answers |
|---|---|
| `basis::drawing::draw(n)` | a number |

| place | what it holds |
|---|---|
| crates/basis | the call (`drawing`) |
| crates/specification, crates/misqafur | definitions |

What the theorem `one_is` says besides:

| crate | contracts reach | theorems besides |
|---|---|---|
| specification | Lists, Tables (sizes) | Claim |
| misqafur | Packing | |
""",
    "docs/THEORY.md": """`outcome n` (`specs/Tables`), `drawing::draw` (crate basis), (`total`: specs/Lists), `packed` (misqafur, Packing).

| theorem | file under proofs/ | it says |
|---|---|---|
| `one_is`; `two_is` | ideal/One, Two | so |
| `three_is` | basis: Three | so |
""",
    "docs/REVIEW.md": """See basis/src/drawing.rt.

| operation | contract | the definition |
|---|---|---|
| `basis::drawing::draw` | n ≡ `outcome n` | Tables |

| substitute | edit | what bars it |
|---|---|---|
| none | basis/none | specification: Lists (`total`); misqafur: Packing |

| place | form | where |
|---|---|---|
| a call | a function | basis/src/drawing.rt, `draw`, other.rt |
""",
    "include/misqafur.h": "/* misqafur_draw */\n#define MISQAFUR_ABI 1\nint misqafur_draw(int n);\n",
    "docs/changes/M-1.md": "landed\n", "tools/made": "", "tests/a.txt": "", "crates/basis/must-fail/none.edit": "",
    "crates/basis/src/other.rt": "", "crates/basis/proofs/Three.antt": "pub three_is : T\n",
    "crates/basis/src/drawing.rt":
        "ghost use Rattle.specification.specs.Tables.{outcome, last as latest};\npub fn draw(n: u8) -> u8\n    requires { n ≤ 9 }\n"
        "    ensures fact_1 { result ≤ n }\n    ensures fact_2 { result\n        ≡ outcome n }\n{\n",
    "crates/misqafur/src/lib.rt": "ghost use Rattle.std.specs.Prelude.{◌≡◌};\nghost use Rattle.misqafur.specs.Packing.{packed};\n#[unsafe(no_mangle)]\n"
        'pub extern "C" fn misqafur_draw(n: u32) -> u32\n    ensures { result ≡ packed n }\n{\n',
    "crates/misqafur/specs/Packing.antt": "unfoldable pub packed : ℕ → ℕ\npacked n = n\n",
    "crates/specification/specs/Lists.antt": "abbrev pub total : ℕ\ntotal = 1\n",
    "crates/specification/specs/Last.antt": "abbrev pub one : ℕ\none = 1\n",
    "crates/specification/specs/Tables.antt": "use Rattle.specification.specs.Lists as Lists\nuse Rattle.specification.specs.Last.{one as unit}\n"
        "module _ (n : ℕ) where\n  unfoldable pub outcome : ℕ\n  outcome = Lists.total\n\n  pub last : ℕ\n  last = unit\n",
    "crates/specification/specs/Claim.antt": "pub record Claim (n : ℕ) : Type 0 where\n  pub is : n ≡ 1\n",
    "crates/specification/proofs/ideal/One.antt": "use Rattle.specification.specs.Claim.{Claim}\n  pub one_is : (n : ℕ)\n      → Claim n\n",
    "crates/specification/proofs/Two.antt": "pub two_is : T\n",
}
# In which file, what, and what stands there instead.
TRIES = [
    ("README.md", "misqafur_draw", "misqafur_drawn"), ("README.md", "tools/made", "tools/make"), ("README.md", "*.txt", "*.csv"),
    ("README.md", "drawing::draw(", "drawing::drawn("), ("README.md", "(`drawing`)", "(`draw`)"), ("README.md", ", crates/misqafur", ""),
    ("README.md", "`one_is`", "`none_is`"), ("README.md", "Lists, ", ""), ("README.md", "Tables (", "Last, Tables ("),
    ("README.md", "Claim", ""), ("README.md", "Packing | |", "Packing | Claim |"), ("README.md", "| call | answers |", "| call | does |"),
    ("docs/THEORY.md", "outcome n", "outcomes n"), ("docs/THEORY.md", "(`specs/Tables`)", "(`specs/Table`)"),
    ("docs/THEORY.md", "(crate basis)", "(crate misqafur)"), ("docs/THEORY.md", "`total`", "`totals`"),
    ("docs/THEORY.md", "(misqafur, Packing)", "(misqafur, specs: Packing)"), ("docs/THEORY.md", "`packed` (", "`pack` ("),
    ("docs/THEORY.md", "ideal/One, Two", "ideal/One"), ("docs/THEORY.md", "basis: Three", "Three"), ("docs/THEORY.md", "; `two_is`", ""),
    ("docs/THEORY.md", "; `two_is`", "; `two_is` and more"), ("docs/REVIEW.md", "See basis/", "See base/"), ("docs/REVIEW.md", "`basis::drawing::draw`", "drawing"),
    ("docs/REVIEW.md", "`outcome n` | Tables", "`outcome n` | Lists"), ("docs/REVIEW.md", "misqafur: Packing", "packing: Packing"),
    ("docs/REVIEW.md", "(`total`)", "(`all`)"), ("docs/REVIEW.md", "misqafur: Packing", "misqafur: Packing and more"),
    ("docs/REVIEW.md", "`draw`, other", "`drawn`, other"), ("docs/REVIEW.md", "other.rt", "others.rt"),
    ("include/misqafur.h", "int misqafur_draw", "int misqafur_drew"), ("docs/changes/M-1.md", "landed", "measured"),
    ("crates/basis/src/drawing.rt", "≡ outcome n", "≡ latest n"), ("crates/basis/src/drawing.rt", "specification.specs", "specification.proofs"),
    ("crates/specification/specs/Tables.antt", "Lists.total", "one"), ("crates/specification/specs/Claim.antt", "Claim (", "Claims ("),
    ("crates/specification/specs/Lists.antt", "abbrev", "use Rattle.basis.proofs.Three.{three_is}\nabbrev"),
    ("crates/specification/proofs/ideal/One.antt", "→ Claim n", "→ T n"),
]
