"""Model sheets of gene states modulo a small prime, over the shared library of Misqafur.

    import misqafur
    sheet = misqafur.Sheet(5, 2, "grlex")                  # modulus, number of genes (or their names), order (or weights=[2, 1])
    sheet.draw_up([(0, 0), (1, 2), (2, 1)])
    print(sheet.basis[0])                                  # g2^2 + g2 + 4*g1
    print(sheet.interpolate([1, 0, 3]))                    # 1 + 2*g2
    sheet.add((4, 0)); sheet.withdraw((-1, 0))             # one state more, and gone again
    sheet.add((1, 2)); print(sheet.counts)                 # [1, 2, 1]: a replicate, seen in two pots
    print(sheet.remainder("g1^2*g2"))                      # 2*g1
    print(sheet.without("g1").states)                      # [(0,), (2,), (1,)]: a sheet of its own, of the genes that are left

    sheet, values = misqafur.read(open("states.csv", "rb").read())
    course = misqafur.course(open("course.csv", "rb").read(), 3)   # a time course, run forward from its first state
    print(course.model, course.trajectory, course.cycle)

    text = sheet.to_json()                                 # bytes: the one text that the sheet has, to be archived and compared
    sheet = misqafur.Sheet.from_json(text, genes=sheet.names)      # the genes' names are not in it

On the command line `python3 -m misqafur report FILE.csv` prints a sheet for people, `python3 -m misqafur course FILE.csv --course 3` a time
course run forward, `python3 -m misqafur json FILE.csv` writes a sheet as JSON, and `python3 -m misqafur --help` tells the rest.
States, values and exponents may be lists, numpy arrays or data frames. Where states come with names (a data frame, a Series, a
dict), the names decide which level is whose, in whatever order they stand; names that are not the sheet's genes are an error.
A call that the library refuses raises Refusal and changes nothing. The library is looked for by the variable MISQAFUR_LIBRARY,
then beside this file and in the folders above it (also in their lib, lib64 and target/shared), then where the system's loader
looks.
"""
import argparse
import collections.abc
import copy
import ctypes
import functools
import json
import keyword
import numbers
import operator
import os
import pathlib
import re
import sys
import textwrap
from xml.sax.saxutils import escape

__version__ = "3.2.0"
ABI = 3
ORDERS = ("lex", "grlex", "grevlex", "weight")
TABLES = {"states": 512, "standard": 512, "leads": 3592, "coefficients": 28736, "counts": 64}
RESIDUES, WIRING, MOST_GENES, MOST_WEIGHT = 64, 8, 8, 99
INTERPOLANTS, MOST_STEPS, MOST_COURSE = 512, 256, 99
JSON = 131072

# The header's sentences, and for a person what to do.
REFUSALS = {
    1: ("the text is longer than 16,384 bytes, or as JSON than 131,072", "Leave out states, or shorten the gene names."),
    2: ("the text breaks the rules, or a record's field count differs from the header's",
        "The header is the gene names and `mod P` (as `g1,g2,mod 5`); each further record a level for each gene and a value, "
        "or in time courses a course number."),
    3: ("the modulus is not one of the 18 primes from 2 to 61, or not 2 where a sheet is drawn up packed",
        "Take 2, 3, 5, 7, 11, 13, 17, 19, 23, 29, 31, 37, 41, 43, 47, 53, 59 or 61."),
    4: ("the number of genes is not 1 to 8", "Choose at most 8 genes."),
    5: ("the order is not lex, grlex, grevlex or by weight (0, 1, 2 or 3)", "Name one of these: lex, grlex, grevlex, weight."),
    6: ("a lent table or buffer is shorter than its size", "This is a fault of the program that lends it."),
    7: ("a length is wrong: a state needs one level for each gene, and each state one value",
        "Give each state as many levels as there are genes, and as many values as states."),
    8: ("there are more than 64 different states, or a polynomial has more than 256 terms",
        "Keep the 64 states that matter most; replicates of a state count as one."),
    9: ("a level, value or coefficient is outside -(p-1) to p-1, or an exponent belongs to no gene",
        "Levels and values modulo p run from 0 to p-1; -1 stands for p-1, and so on. Take a larger prime, or correct the number."),
    10: ("the numbers and tables are not the sheet of their states under these settings",
         "Draw the sheet up anew from its states."),
    11: ("a state equals an earlier one (no call refuses that: it is a replicate)", "Nothing is to be done."),
    12: ("the state to be withdrawn is not on the sheet", "Look for its levels among the states of the sheet."),
    13: ("a state would be counted more than 255 times", "Keep at most 255 replicates of a state."),
    14: ("a replicate has another value than its state",
         "Replicates have to agree: correct a level or the value, or leave the record out. "
         "States and values are compared modulo p: modulo 5, -1 and 4 are the same."),
    15: ("a weight is wrong: by weight each gene has one from 1 to 99, in any other order none has",
         "Give each gene a weight from 1 to 99; a gene with a large weight is used last."),
    16: ("the gene to be left out is none of the sheet's, or the only one that it has",
         "Name one of the sheet's genes; the last one stays."),
    17: ("a state is followed by two different states",
         "A model gives each state one next state: correct a level, leave one of the two records out, or add a gene that tells the two states "
         "apart. States are compared modulo p: modulo 5, -1 and 4 are the same."),
    18: ("the time course to be run is not in the text", "Name one of the text's courses."),
    19: ("the text is not of the form in which a sheet is written as JSON, byte for byte",
         "Write the sheet anew (to_json), and keep the file as it is: a blank or a line break more makes it another text."),
}

# What a wiring list says of the target.
WIRING_MEANS = ("the genes that every function with these values needs: two states differ in that gene alone and have different values; "
                "of a gene that is not here the states do not show whether it matters")


class Refusal(ValueError):
    """What the library refused: its number, for a text the record at fault, the header being 1, and what more there is to say."""

    def __init__(self, number, record=None, more=None):
        self.number, self.record, self.more = number, record, more
        self.sentence = REFUSALS[number][0]
        where, rest = f" at record {record}" if record else "", f". {more}" if more else ""
        super().__init__(f"refused with {number}{where}: {self.sentence}{rest}")

    def __reduce__(self):
        """By what it was made from, so that one process can raise it for another."""
        return Refusal, (self.number, self.record, self.more)


# ---- The library

_SETTINGS, _COUNTS, _BUFFER = [ctypes.c_uint64] * 4, [ctypes.c_uint64] * 2, [ctypes.c_void_p, ctypes.c_size_t]
_SHEET = _SETTINGS + _COUNTS + _BUFFER * len(TABLES)
_CALLS = {
    "add_point": (ctypes.c_uint32, _SHEET + _BUFFER),
    "withdraw_point": (ctypes.c_uint32, _SHEET + _BUFFER),
    "draw_up": (ctypes.c_uint64, _SETTINGS + _BUFFER * len(TABLES) + _BUFFER),
    "draw_up_packed": (ctypes.c_uint32, _SETTINGS + _BUFFER * len(TABLES) + _BUFFER),
    "check": (ctypes.c_uint32, _SHEET),
    "interpolate": (ctypes.c_uint32, _SHEET + _BUFFER * 2),
    "remainder": (ctypes.c_uint32, _SHEET + _BUFFER * 3),
    "wiring": (ctypes.c_uint32, _SHEET + _BUFFER * 2),
    "leave_out": (ctypes.c_uint32, _SHEET + [ctypes.c_uint64] + _BUFFER * len(TABLES)),
    "read_text": (ctypes.c_uint64, _BUFFER * 5),
    "time_course": (ctypes.c_uint64, _BUFFER + [ctypes.c_uint64] + _BUFFER * len(TABLES) + _BUFFER * 2),
    "write_json": (ctypes.c_uint32, _SHEET + _BUFFER),
    "read_json": (ctypes.c_uint64, _BUFFER + _BUFFER * len(TABLES) + _BUFFER),
    f"abi_{ABI}": (ctypes.c_uint32, []),
}


def _places():
    """Where the library may be, the first place first."""
    name = f"libmisqafur.so.{ABI}"
    if os.environ.get("MISQAFUR_LIBRARY"):
        yield os.environ["MISQAFUR_LIBRARY"]
        return
    for folder in pathlib.Path(__file__).resolve().parents:
        for below in ("", "lib", "lib64", "target/shared"):
            if (folder / below / name).exists():
                yield str(folder / below / name)
    yield name


@functools.lru_cache(maxsize=None)
def _library():
    place = next(_places())
    try:
        library = ctypes.CDLL(place)
    except OSError as error:
        raise ImportError(f"{place} cannot be loaded ({error}): install Misqafur, or set MISQAFUR_LIBRARY to the file") from error
    if not hasattr(library, f"misqafur_abi_{ABI}"):
        raise ImportError(f"{place} has no misqafur_abi_{ABI}: it is no library of interface {ABI}, for which this module of version "
                          f"{__version__} is made. Install the library and the module together, or set MISQAFUR_LIBRARY to another file")
    for name, (answer, arguments) in _CALLS.items():
        if not hasattr(library, "misqafur_" + name):
            raise ImportError(f"{place} has no misqafur_{name}: it is of version {_version_of(library)}, and this module of version {__version__} "
                              "wants one that is as new. Install the library and the module together, or set MISQAFUR_LIBRARY to another file")
        call = getattr(library, "misqafur_" + name)
        call.restype, call.argtypes = answer, arguments
    return library


def _version_of(library):
    number = getattr(library, f"misqafur_abi_{ABI}")()
    return f"{number // 10000}.{number // 100 % 100}.{number % 100}"


def library_version():
    """The version of the library that is loaded, as `__version__` is the module's."""
    return _version_of(_library())


def _call(name, *arguments):
    """Calls the library; bytes and tables go with their lengths. Raises what it refuses, and else answers the number."""
    words = [word for a in arguments for word in ((a,) if isinstance(a, int) else (a, len(a)))]
    answer = getattr(_library(), "misqafur_" + name)(*words)
    refusal = answer & 255
    if refusal:
        raise Refusal(refusal, answer >> 8 if name in ("read_text", "time_course") else None)
    return answer >> 8


# ---- Numbers from Python

def _plain(values):
    """A sequence, an array or a data frame as a list, in its order, by place."""
    if isinstance(values, (set, frozenset, collections.abc.Mapping)):
        raise TypeError(f"a list is wanted here, whose order says what is whose, and not a {type(values).__name__}")
    if hasattr(values, "to_numpy"):
        values = values.to_numpy()
    try:
        return list(values.tolist() if hasattr(values, "tolist") else values)
    except TypeError:
        raise TypeError(f"{values!r} is no list") from None


def _integer(value):
    if isinstance(value, float) and value.is_integer():
        return int(value)
    try:
        return operator.index(value)
    except TypeError:
        raise TypeError(f"{value!r} is no whole number") from None


def _number(value):
    """A setting as the library takes it; what does not fit is a number that it refuses."""
    value = _integer(value)
    return value if 0 <= value < 2**64 else 2**64 - 1


def _levels(values):
    """Levels, values or coefficients as bytes; 128 stands for any that no modulus takes."""
    numbers = [_integer(value) for value in _plain(values)]
    return bytes(number & 255 if abs(number) < 128 else 128 for number in numbers)


def _packed(weights, genes):
    """Weights, if there are any, as the one number that the library takes; 255 stands for any that no order takes, and for all of
    them where they are not as many as the genes."""
    if len(weights) not in (0, genes) or len(weights) > MOST_GENES:
        weights = [255] * MOST_GENES
    return int.from_bytes(bytes(weight if 0 <= weight <= 255 else 255 for weight in weights), "little")


# ---- Names

def _quoted(names):
    return ", ".join(map(repr, names)) or "none"


def _order_of(labels, genes, what="level"):
    """For each gene the place of its label: where labels are names, they decide. Whole numbers that increase, as pandas gives them
    to columns without names, are no names, and what stands below them is taken by place; of any other labels nothing is guessed."""
    if all(isinstance(label, numbers.Integral) for label in labels) and list(labels) == sorted(set(labels)):
        return range(len(labels))
    if not all(isinstance(label, str) for label in labels):
        raise ValueError(f"the labels {_quoted(labels)} are neither names nor places in their order, so they do not say which {what} is whose")
    for names in (labels, genes):
        repeated = sorted({name for name in names if list(names).count(name) > 1})
        if repeated:
            raise ValueError(f"names cannot tell which {what} is whose: {_quoted(repeated)} stands more than once in {_quoted(names)}")
    missing, unexpected = ([name for name in of if name not in others] for of, others in ((genes, labels), (labels, genes)))
    if missing or unexpected:
        raise ValueError(f"the names are not the genes: missing {_quoted(missing)}, unexpected {_quoted(unexpected)} (the genes are {_quoted(genes)}, "
                         f"handed over were {_quoted(labels)}). Make the sheet with these names, or hand {what}s over without names, in the genes' order")
    return [labels.index(gene) for gene in genes]


def _fields(data):
    """The names of a named tuple's fields, or of an array's; None where there are none."""
    return getattr(type(data), "_fields", None) or getattr(getattr(data, "dtype", None), "names", None)


def _is_frame(data):
    """Whether it has columns; its kind is asked, since of a Series `columns` may be a gene's level."""
    return hasattr(type(data), "columns")


def _state(state, genes, what="level"):
    """A number for each gene, in the genes' order: every state goes in through here, by itself or as a row of a table, and weights."""
    if _is_frame(state):
        rows = _states(state, genes, what)
        if len(rows) != 1:
            raise ValueError(f"one row of {what}s is wanted, and this table has {len(rows)} rows")
        return rows[0]
    labels = state.keys() if hasattr(type(state), "keys") else _fields(state)
    levels = list(state.values()) if isinstance(state, collections.abc.Mapping) else _plain(state)
    return levels if labels is None else [levels[place] for place in _order_of(list(labels), genes, what)]


def _states(table, genes, what="level"):
    """A table's states: its columns in the genes' order, or each of its rows as a state by itself."""
    if isinstance(table, collections.abc.Mapping):
        labels, columns = list(table), [_plain(column) for column in table.values()]
        lines = [list(column.keys()) for column in table.values() if hasattr(type(column), "keys")]
        if len({len(column) for column in columns}) > 1 or any(line != lines[0] for line in lines):
            raise ValueError(f"the columns {_quoted(labels)} have different lengths, or rows of different labels")
        rows = list(zip(*columns))
    elif _is_frame(table) or _fields(table):
        labels, rows = list(table.columns if _is_frame(table) else _fields(table)), _plain(table)
    else:
        return [_state(row, genes) for row in _plain(table)]
    places = _order_of(labels, genes, what)
    return [[row[place] for place in places] for row in rows]


# ---- Polynomials

SYNTAXES = {"plain": "^", "singular": "^", "macaulay2": "^", "sympy": "**"}
_RESERVED = {"ring", "ideal", "poly", "int", "list", "matrix", "vector", "map", "proc", "string", "number", "def", "symbol", "new", "then", "do",
             "Poly", "symbols", "modulus", "true", "quit", "exit", "ZZ", "QQ", "of", "when", "method", "local", "basis", "sheet", "genes"}


def _words_or_numbers(names, word):
    """The names where they are words and all different, else x1, x2 and so on."""
    if len(set(names)) == len(names) and all(name.isprintable() and re.fullmatch(word, name) for name in names):
        return tuple(names)
    return tuple(f"x{k}" for k in range(1, len(names) + 1))


def shown_names(names):
    """Names as people see them in a polynomial: the genes' own, or x1, x2 and so on."""
    return _words_or_numbers(names, r"""[^\W\d][^\s+*^,;"'`]*""")


def safe_names(names):
    """Names that an algebra package takes: the genes' own, or x1, x2 and so on."""
    taken = any(keyword.iskeyword(name) or name in _RESERVED for name in names)
    return _words_or_numbers(names, "(?!)" if taken else "[A-Za-z][A-Za-z0-9]*")


class Polynomial:
    """A polynomial modulo p in named genes; terms are (coefficient, exponents), and keep their order for printing."""

    def __init__(self, modulus, names, terms):
        self.modulus, self.names = modulus, tuple(names)
        sums = {}
        for coefficient, exponents in terms:
            exponents = tuple(_integer(e) for e in _state(exponents, self.names))
            if len(exponents) != len(self.names) or min(exponents, default=0) < 0:
                raise ValueError(f"{exponents} are not {len(self.names)} exponents")
            sums[exponents] = (sums.get(exponents, 0) + _integer(coefficient)) % modulus
        self._sums = {exponents: coefficient for exponents, coefficient in sums.items() if coefficient}

    @property
    def terms(self):
        return [(coefficient, exponents) for exponents, coefficient in self._sums.items()]

    @classmethod
    def parse(cls, modulus, names, text):
        """What str prints, and the like: signed terms with * and ^ (or **)."""
        shown = shown_names(names)
        words = "|".join(re.escape(name) for name in sorted(shown, key=len, reverse=True))
        factor = rf"(?:\d+|(?:{words})(?:\s*(?:\^|\*\*)\s*\d+)?)"
        term = rf"\s*([+-]?)\s*({factor}(?:\s*\*\s*{factor})*)\s*"
        terms, at = [], 0
        while at < len(text) or not terms:
            found = re.compile(term).match(text, at)
            if not found or (terms and not found.group(1)):
                raise ValueError(f"{text[at:].strip()!r} is no polynomial in {', '.join(shown)}")
            coefficient, exponents = -1 if found.group(1) == "-" else 1, [0] * len(shown)
            for part in re.findall(factor, found.group(2)):
                name, _, power = re.sub(r"\s*(\^|\*\*)\s*(\d+)$", r"\0\2", part).partition("\0")
                if name in shown:
                    exponents[shown.index(name)] += int(power or 1)
                else:
                    coefficient *= int(name)
            terms.append((coefficient, exponents))
            at = found.end()
        return cls(modulus, names, terms)

    def text(self, syntax="plain"):
        """As text in plain words, or for Singular, Macaulay2 or sympy."""
        power, names = SYNTAXES[syntax], shown_names(self.names) if syntax == "plain" else safe_names(self.names)
        return " + ".join(_term(coefficient, exponents, names, power) for coefficient, exponents in self.terms) or "0"

    def __call__(self, state):
        """The value at a state, a level for each gene, by their names where it has any."""
        levels = [_integer(level) for level in _state(state, self.names)]
        if len(levels) != len(self.names):
            raise Refusal(7)
        total = 0
        for coefficient, exponents in self.terms:
            for level, exponent in zip(levels, exponents):
                coefficient = coefficient * pow(level, exponent, self.modulus) % self.modulus
            total += coefficient
        return total % self.modulus

    def __eq__(self, other):
        if not isinstance(other, Polynomial):
            return NotImplemented
        return (self.modulus, self.names, self._sums) == (other.modulus, other.names, other._sums)

    def __hash__(self):
        return hash((self.modulus, self.names, frozenset(self._sums.items())))

    def __str__(self):
        return self.text()

    def __repr__(self):
        return f"<{self} modulo {self.modulus}>"


def _term(coefficient, exponents, names, power):
    factors = [name + (f"{power}{e}" if e > 1 else "") for name, e in zip(names, exponents) if e]
    return "*".join([str(coefficient)] * (coefficient != 1 or not factors) + factors)


# ---- Sheets

class Sheet:
    """The standard monomials and the reduced Groebner basis of states of genes, modulo a prime. It begins without states.

    Genes are a number, and then called g1, g2 and so on, or a list of names. States that come with names are put in the genes'
    order by them, and by place else. A copy, also by pickle, is a sheet of its own.
    The order is lex, grlex or grevlex, which it is if none is named, or by weight: with `weights`, 1 to 99 for each gene, by place or
    by the genes' names, the monomial with the larger sum of weight times exponent is greater, between equal sums by lex.
    A state that comes again is a replicate: it raises the state's count, and the rest of the sheet stays as it is.
    After a drawing up `cancellations` says how many that took, which its time goes with; else, also after a packed one, it is None.
    """

    def __init__(self, modulus, genes, order=None, *, weights=None):
        if isinstance(genes, (str, set, frozenset)):
            raise TypeError("genes are a number, or a list of names, whose order matters")
        named = hasattr(genes, "__iter__")
        self.names = tuple(str(name) for name in genes) if named else tuple(f"g{k}" for k in range(1, min(_number(genes), 99) + 1))
        self.modulus = _number(modulus)
        self.weights = () if weights is None else tuple(_integer(weight) for weight in _state(weights, self.names, "weight"))
        if order is None:
            order = "grevlex" if weights is None else "weight"
        self.order = order if order in ORDERS else dict(enumerate(ORDERS)).get(order)
        if self.weights and self.order != "weight":
            raise ValueError(f"weights belong to the order 'weight', and the order given is {order!r}: leave one of the two out")
        self._n, self._r, self.cancellations = 0, 1, None
        self._tables = {name: (ctypes.c_uint8 * size)() for name, size in TABLES.items()}
        try:
            self.check()
        except Refusal as refusal:
            raise Refusal(refusal.number, more=self._weights_wanted() if refusal.number == 15 else None) from None

    def _weights_wanted(self):
        if len(self.weights) != len(self.names):
            return f"One weight is wanted for each gene, {len(self.names)}, and {len(self.weights)} were given"
        wrong = [f"{name} has {weight}" for name, weight in zip(self.names, self.weights) if not 1 <= weight <= MOST_WEIGHT]
        return f"Weights run from 1 to {MOST_WEIGHT}, and {', '.join(wrong)}"

    @property
    def _settings(self):
        order = ORDERS.index(self.order) if self.order in ORDERS else len(ORDERS)
        return self.modulus, len(self.names), order, _packed(self.weights, len(self.names))

    def _order_said(self, names):
        """The order as people say it, the genes by these names."""
        if self.order != "weight":
            return self.order
        return f"by weight ({', '.join(f'{name} {weight}' for name, weight in zip(names, self.weights))})"

    def _handed(self):
        return (*self._settings, self._n, self._r, *self._tables.values())

    def _keep(self, answer):
        self._n, self._r, self.cancellations = answer & 255, answer >> 8 & 65535, None
        return self

    def add(self, state):
        """Adds a state: a level for each gene. One that is there already is counted once more."""
        return self._keep(_call("add_point", *self._handed(), _levels(_state(state, self.names))))

    def withdraw(self, state):
        """Takes a state out again, named by its levels: of one that was counted more than once, one replicate."""
        return self._keep(_call("withdraw_point", *self._handed(), _levels(_state(state, self.names))))

    def draw_up(self, states, *, packed=False):
        """Draws up all states at once, in place of those that the sheet has: rows, or columns by the genes' names. States may
        repeat: they are counted. With `packed`, for the modulus 2 alone, the library makes the same sheet in a fraction of the time,
        and counts no cancellations."""
        if packed and self.modulus != 2:
            raise Refusal(3, more=f"This sheet is modulo {self.modulus}: draw it up without `packed`")
        rows = _states(states, self.names)
        if any(len(row) != len(self.names) for row in rows):
            raise Refusal(7)
        levels = _levels(level for row in rows for level in row)
        answer = _call("draw_up_packed" if packed else "draw_up", *self._settings, *self._tables.values(), levels)
        self._keep(answer).cancellations = None if packed else answer >> 24
        return self

    def _gene_number(self, gene):
        """A gene's number from 1, by its name, or as it is; a name that is no gene's, or of two, is an error that lists the genes."""
        if not isinstance(gene, str):
            return _number(gene)
        if self.names.count(gene) != 1:
            wrong = "stands more than once among the genes" if gene in self.names else "is no gene of this sheet"
            raise ValueError(f"{gene!r} {wrong}: they are {_quoted(self.names)}")
        return self.names.index(gene) + 1

    def without(self, gene):
        """The sheet without a gene, named or by its number from 1, as where its probe is unreliable: a new sheet of the genes, and
        weights, that are left, of the states without its level. This one stays as it is.

        States that become equal are one, at the place of the first, and their counts are added: there may be fewer states than
        before, and as many values are wanted. That they differ in this gene alone and have different values is what a wiring list
        that names it says: then no function of the other genes has these values."""
        number, left = self._gene_number(gene), copy.copy(self)
        left.names, left.weights = ((*each[:number - 1], *each[number:]) for each in (self.names, self.weights))
        try:
            return left._keep(_call("leave_out", *self._handed(), number, *left._tables.values()))
        except Refusal as refusal:
            more = {13: f"Without {gene!r} states become equal, and their counts add up to more",
                    16: f"It has {_quoted(self.names)}, and {gene!r} was to be left out"}
            raise Refusal(refusal.number, more=more.get(refusal.number)) from None

    def check(self):
        """Whether the tables are the sheet of their states: raises if not, or if no sheet has these settings."""
        _call("check", *self._handed())
        return True

    def _valued(self, call, values, out):
        """Makes a call that takes a value for each state, and says more where there are not as many."""
        levels = _levels(values)
        try:
            return _call(call, *self._handed(), levels, out)
        except Refusal as refusal:
            if refusal.number != 7:
                raise
            raise Refusal(7, more=self._values_wanted(len(levels))) from None

    def _values_wanted(self, given):
        wanted, pots = len(self), sum(self.counts)
        said = f"One value is wanted for each different state, {wanted} in the order of sheet.states, and {given} were given"
        if wanted == pots:
            return said
        each = ", one for each pot" if given == pots else ""
        return (f"{said}{each}: this sheet has replicates ({pots} pots, sheet.counts says how many of each state). Of pots and their values in the "
                "order in which they were drawn up, [value for pot, value in dict.fromkeys(zip(pots, values))] has one for each state, where each pot "
                "is a tuple of residues and replicates agree; of a data frame, frame.drop_duplicates([*sheet.names, target])[target] has them")

    def interpolate(self, values):
        """The combination of standard monomials that has these values at the states, one for each different state, in their order."""
        out = (ctypes.c_uint8 * RESIDUES)()
        self._valued("interpolate", values, out)
        return self._combination(out)

    def remainder(self, polynomial):
        """The combination of standard monomials that equals a polynomial at the states: a Polynomial, a text, or a list of terms."""
        terms = self._terms(self.polynomial(polynomial) if isinstance(polynomial, str) else polynomial)
        out = (ctypes.c_uint8 * RESIDUES)()
        exponents = b"".join(_exponents(e, len(self.names)) for _, e in terms)
        _call("remainder", *self._handed(), _levels([c for c, _ in terms]), exponents, out)
        return self._combination(out)

    def _terms(self, polynomial):
        """A polynomial's terms with their exponents in the order of this sheet's genes."""
        if not isinstance(polynomial, Polynomial):
            return [(coefficient, _state(exponents, self.names)) for coefficient, exponents in polynomial]
        if polynomial.modulus != self.modulus:
            raise ValueError(f"the polynomial is modulo {polynomial.modulus}, and the sheet modulo {self.modulus}")
        if polynomial.names == self.names:
            return polynomial.terms
        places = _order_of(polynomial.names, self.names)
        return [(coefficient, [exponents[place] for place in places]) for coefficient, exponents in polynomial.terms]

    def wiring(self, values):
        """The wiring list of these values, one for each different state: the genes that every function with them needs, as numbers
        from 1, increasing."""
        out = (ctypes.c_uint8 * WIRING)()
        return list(out[:self._valued("wiring", values, out)])

    def _rows(self, table, count):
        return [tuple(self._tables[table][8 * i:8 * i + len(self.names)]) for i in range(count)]

    def _combination(self, residues, *before):
        return Polynomial(self.modulus, self.names, [*before, *zip(residues[:self._n], self.standard)])

    @property
    def states(self):
        return self._rows("states", self._n)

    @property
    def counts(self):
        """How often each state was taken, in their order."""
        return list(self._tables["counts"][:self._n])

    @property
    def standard(self):
        """The exponents of the standard monomials, increasing in the order."""
        return self._rows("standard", self._n)

    @property
    def leads(self):
        """The exponents of the leading monomials, increasing."""
        return self._rows("leads", self._r)

    @property
    def basis(self):
        """The polynomials of the basis: each its leading monomial plus a combination of standard ones."""
        rows = (self._tables["coefficients"][RESIDUES * i:RESIDUES * (i + 1)] for i in range(self._r))
        return [self._combination(row, (1, lead)) for row, lead in zip(rows, self.leads)]

    def polynomial(self, text):
        """A polynomial in the genes of this sheet, from text as str prints it."""
        return Polynomial.parse(self.modulus, self.names, text)

    def _exported_order(self, syntax):
        """The order in the words of a package; sympy has none by weight, and its script says so."""
        numbers = ",".join(map(str, self.weights))
        by_weight = {"singular": f"(a({numbers}),lp)", "macaulay2": f"{{Weights => {{{numbers}}}, Lex}}",
                     "sympy": f"{self._order_said(safe_names(self.names))}, which sympy does not have: what it says of leading terms is of another order"}
        named = {"singular": ("lp", "Dp", "dp"), "macaulay2": ("Lex", "GLex", "GRevLex"), "sympy": ORDERS}
        return by_weight[syntax] if self.order == "weight" else named[syntax][ORDERS.index(self.order)]

    def export(self, syntax):
        """The basis as a script for Singular, Macaulay2 or sympy."""
        names, texts = safe_names(self.names), [polynomial.text(syntax) for polynomial in self.basis]
        order = self._exported_order(syntax)
        said = f"{len(self)} states, {', '.join(map(repr, self.names))}"
        if syntax == "singular":
            return f"// {said}\nring sheet = {self.modulus}, ({', '.join(names)}), {order};\nideal basis = {', '.join(texts)};\n"
        if syntax == "macaulay2":
            ring = f"ZZ/{self.modulus}[{', '.join(names)}, MonomialOrder => {order}]"
            return f"-- {said}\nsheet = {ring};\nbasis' = ideal({', '.join(texts)});\n"
        polys = ",\n         ".join(f"Poly({text}, *genes, modulus={self.modulus})" for text in texts)
        genes = f"genes = {', '.join(names)}, = symbols({' '.join(names)!r}, seq=True)"
        return f"# {said}; order {order}\nfrom sympy import Poly, symbols\n\n{genes}\nbasis = [{polys}]\n"

    def to_json(self):
        """The sheet as JSON, the one text that it has (RFC 8785): bytes, as a file holds them, without a line break at the end.

        Equal texts are equal sheets, states in the same order and equal counts included, so that files can be compared byte for byte.
        The text is of the algebra: the genes' names and the values of a target gene are not in it. Keep names beside it, and hand them
        to `from_json`."""
        out = (ctypes.c_uint8 * JSON)()
        length = _call("write_json", *self._handed(), out)
        return bytes(out[:length])

    @classmethod
    def from_json(cls, data, genes=None):
        """The sheet of a text as `to_json` writes it, and of no other: bytes, a file opened in binary mode, or its pathlib.Path.

        Its genes are called g1, g2 and so on, or as `genes` says, a list of as many names."""
        tables, weights = {name: (ctypes.c_uint8 * size)() for name, size in TABLES.items()}, (ctypes.c_uint8 * MOST_GENES)()
        answer = _call("read_json", _json_text(data), *tables.values(), weights)
        modulus, count, order = answer >> 8 & 255, answer >> 16 & 255, ORDERS[answer >> 24 & 15]
        names = count if genes is None else genes if isinstance(genes, (str, set, frozenset)) else _plain(genes)
        if isinstance(names, list) and len(names) != count:
            raise ValueError(f"the sheet has {_counted(count, 'gene')}, and {_counted(len(names), 'name')} were given: {_quoted(names)}")
        sheet = cls(modulus, names, order, weights=weights[:count] if order == "weight" else None)
        sheet._tables, sheet._n, sheet._r = tables, answer & 255, answer >> 28 & 1023
        return sheet

    def __len__(self):
        return self._n

    def __getstate__(self):
        """What copies and pickles are made from: the bytes of the tables, so that no two sheets share them."""
        return {**self.__dict__, "_tables": {name: bytes(table) for name, table in self._tables.items()}}

    def __setstate__(self, kept):
        tables = kept["_tables"]
        if {name: len(table) for name, table in tables.items()} != TABLES or "weights" not in kept:
            raise ValueError("this sheet was stored by a module of another interface")
        self.__dict__.update(kept, _tables={name: (ctypes.c_uint8 * size).from_buffer_copy(tables[name]) for name, size in TABLES.items()})

    def __repr__(self):
        return f"<sheet of {self._n} states of {', '.join(self.names)} modulo {self.modulus}, {self._order_said(self.names)}>"


def _exponents(exponents, genes):
    """8 exponents of a term, or what the library refuses."""
    numbers = [_integer(e) for e in exponents]
    if len(numbers) > MOST_GENES or len(numbers) < genes:
        raise Refusal(7)
    if any(not 0 <= e <= 255 for e in numbers):
        raise ValueError("exponents run from 0 to 255")
    return bytes(numbers) + bytes(MOST_GENES - len(numbers))


# ---- Texts

_FIELD = re.compile(rb'"((?:[^"]|"")*)"|([^,"\r\n]*)')


def _records(text):
    """The fields of a text's records, as far as it is well formed; what breaks the rules ends its record as one field more."""
    records, fields, at = [], [], 0
    while at <= len(text):
        found = _FIELD.match(text, at)
        fields.append(found.group(1).replace(b'""', b'"') if found.group(1) is not None else found.group(2))
        at = found.end()
        if text[at:at + 1] == b",":
            at += 1
            continue
        if at < len(text) and not re.match(rb"\r?\n", text[at:at + 2]):
            end = re.compile(rb"\r?\n|\Z").search(text, at)
            fields[-1] += text[at:end.start()]
            at = end.start()
        at += 2 if text[at:at + 2] == b"\r\n" else 1
        records.append(fields)
        fields = []
        if at == len(text):
            break
    return records


def _said(field):
    return field.decode("utf-8", "backslashreplace")


def _text_of(data):
    """A text as bytes: as it is, of a file, or of a table with names, whose last column is named `mod P` as a header's last field is."""
    if isinstance(data, (bytes, bytearray, memoryview)):
        return bytes(data)
    if isinstance(data, str):
        raise TypeError("a text is wanted as bytes, as open(FILE, 'rb').read() gives it, or as pathlib.Path(FILE): of a str it cannot be told "
                        "whether it is a file's name or its content")
    if hasattr(type(data), "read") or isinstance(data, os.PathLike):
        text = data.read() if hasattr(type(data), "read") else pathlib.Path(data).read_bytes()
        if not isinstance(text, bytes):
            raise TypeError("a file has to be opened in binary mode, as open(FILE, 'rb')")
        return text
    if not (isinstance(data, collections.abc.Mapping) or _is_frame(data) or _fields(data)):
        raise TypeError(f"a text is wanted as bytes, a file, or a table whose columns have names, and not a {type(data).__name__}")
    labels = list(data if isinstance(data, collections.abc.Mapping) else data.columns if _is_frame(data) else _fields(data))
    if not all(isinstance(label, str) for label in labels):
        raise ValueError(f"the columns need names, the genes' and last `mod P`, and they have {_quoted(labels)}")
    rows = _states(data, labels)
    lines = [",".join('"' + label.replace('"', '""') + '"' if re.search('[,"\r\n]', label) else label for label in labels)]
    lines += [",".join(str(_integer(level)) for level in row) for row in rows]
    return ("\n".join(lines) + "\n").encode()


def _sheet_of_text(text, answer, weights):
    """A sheet without states, by a text's header and what the library answered of it."""
    modulus, genes, order = answer >> 8 & 255, answer >> 16 & 255, answer >> 24 & 15
    names = [_said(field).removeprefix("\ufeff") for field in _records(text)[0][:-1]]
    return Sheet(modulus, names, ORDERS[order], weights=weights[:genes] if ORDERS[order] == "weight" else None)


def read(data):
    """The sheet and the values of a text: gene names, `mod P` and an order, by weight with its weights, in its header, states below.

    A text is bytes, a file opened in binary mode or its pathlib.Path, or a table whose columns have names, the last one `mod P`.
    A value belongs to a state of the sheet; records that repeat a state, with the same value, are its replicates.
    """
    text = _text_of(data)
    states, values, counts, weights = ((ctypes.c_uint8 * size)() for size in (TABLES["states"], RESIDUES, TABLES["counts"], MOST_GENES))
    answer = _call("read_text", text, states, values, counts, weights)
    sheet, n = _sheet_of_text(text, answer, weights), answer & 255
    sheet.draw_up([states[8 * i:8 * i + len(sheet.names)] for i in range(n) for _ in range(counts[i])])
    return sheet, list(values[:n])


# ---- Sheets as JSON

def _json_text(data):
    """A sheet's JSON as bytes: as it is, or of a file."""
    if not isinstance(data, (bytes, bytearray, memoryview, str, os.PathLike)) and not hasattr(type(data), "read"):
        raise TypeError(f"a sheet's JSON is wanted as bytes, or as a file, and not a {type(data).__name__}")
    return _text_of(data)


def _json_hints(text):
    """What other programs do to a sheet's JSON, as far as it is seen in this one: sentences for a person."""
    if text.startswith(_MARK):
        yield "It begins with a byte-order mark, which a sheet's text does not have."
    if text[:2] in (b"\xff\xfe", b"\xfe\xff"):
        yield "It is in UTF-16, and a sheet's text has a byte for each letter."
    if text.endswith(b"\n"):
        yield "There is a line break at its end, as an editor adds it, and a sheet's text has none."
    try:
        said = json.loads(text)
    except (ValueError, RecursionError):
        yield "It is no JSON at all." if text else "It is empty."
        return
    again = json.dumps(said, sort_keys=True, separators=(",", ":")).encode()
    try:
        Sheet.from_json(again)
    except Refusal:
        return
    yield ("It says a sheet in other words (blanks, line breaks, members in another order or twice, numbers written otherwise): without "
           f"these, in {len(again)} bytes, it is the sheet's text.")


def _json_refused(text, refusal):
    """Why a text is not that of a sheet as JSON, what it means and what to do."""
    advice = "No sheet's text is so long: at most 103,534 bytes." if refusal.number == 1 else REFUSALS[refusal.number][1]
    hints = [*(_json_hints(text) if refusal.number == 19 else ()), advice]
    lines = [_wrapped(f"Refused with {refusal.number}: {refusal.sentence}."), "", "What to do:"]
    return "\n".join(lines + [_wrapped(hint, "  - ") for hint in hints])


def _json_taken(sheet):
    """What sheet a text of JSON is, in one sentence."""
    pots = sum(sheet.counts)
    counted = "" if pots == len(sheet) else f" in {_counted(pots, 'pot')}"
    return _wrapped(f"The text of a sheet, byte for byte: {_counted(len(sheet), 'state')}{counted} of {_counted(len(sheet.names), 'gene')}, modulo "
                    f"{sheet.modulus}, {sheet._order_said(sheet.names)}; {_counted(len(sheet.leads), 'polynomial')}.")


# ---- Time courses

class Course:
    """A time course that the library has run forward, from its first state, by a model that fits every move of a text's courses.

    `sheet` is that of the points, the states that have a next one, counted as often as they have; `rules` has for each gene, in the
    genes' order, the polynomial of its next level, and `model` has them by the genes' names. `states` are those that the run meets:
    state 0 is the course's first record, and state k the model applied k times; `trajectory` has the same levels by the genes' names.
    The run ends at `step`, the first that gives a state met before, `back` steps earlier, and `cycle` has the states from then on,
    which come again for ever; where none came within 256 steps `step` and `back` are 0 and `cycle` is empty. `measured` is how many
    records the course has: the model gives them all, as far as the run goes. `courses` are the numbers of the text's courses.
    """

    def __init__(self, number, sheet, rules, step, back, courses, first):
        self.number, self.sheet, self.rules, self.step, self.back = number, sheet, rules, step, back
        self.courses, self.measured = list(courses), courses[number]
        self.states = [first]
        # The library answers where the run ends; the states on the way are the rules' values, each at the one before.
        for _ in range(step or MOST_STEPS):
            self.states.append(tuple(rule(self.states[-1]) for rule in rules))

    @property
    def names(self):
        return self.sheet.names

    def _by_name(self, columns):
        if len(set(self.names)) < len(self.names):
            raise ValueError(f"names cannot tell the genes: they are {_quoted(self.names)}. `rules` and `states` have them by place")
        return dict(zip(self.names, columns))

    @property
    def model(self):
        """The polynomial of each gene's next level, by the genes' names."""
        return self._by_name(self.rules)

    @property
    def trajectory(self):
        """The levels of each gene, step by step, by the genes' names: columns, as a data frame takes them."""
        return self._by_name(map(list, zip(*self.states)))

    @property
    def cycle(self):
        """The states that come again for ever, from the first of them that the run meets."""
        return self.states[self.step - self.back:self.step]

    @property
    def unmeasured(self):
        """The first step whose state has no next one in any course of the text, so that what follows is the model's alone; None if
        there is none."""
        points = set(self.sheet.states)
        return next((k for k, state in enumerate(self.states) if state not in points), None)

    def __repr__(self):
        return f"<course {self.number} of {', '.join(self.names)} modulo {self.sheet.modulus}, {_ending(self)}>"


def _ending(course):
    """How a run ends, in plain words."""
    start = course.step - course.back
    if not course.step:
        return f"no state came again within {MOST_STEPS} steps"
    return f"it stays as it is from step {start}" if course.back == 1 else f"it repeats every {course.back} steps from step {start}"


def _courses_of(text):
    """The numbers of an accepted text's courses in their order, with the levels of each record."""
    courses = {}
    for *levels, number in _records(text)[1:]:
        courses.setdefault(int(number), []).append([int(level) for level in levels])
    return courses


def course(data, number):
    """Runs a time course forward: a text as `read` takes it, whose last column has course numbers from 1 to 99 in place of values, and
    the number of the course whose first state the run begins with. Consecutive records of one number are consecutive times. What
    comes of it is a Course."""
    text = _text_of(data)
    tables = {name: (ctypes.c_uint8 * size)() for name, size in TABLES.items()}
    interpolants, weights = ((ctypes.c_uint8 * size)() for size in (INTERPOLANTS, MOST_GENES))
    try:
        answer = _call("time_course", text, _number(number), *tables.values(), interpolants, weights)
    except Refusal as refusal:
        raise Refusal(refusal.number, refusal.record, " ".join(_course_hints(text, refusal, number)).removesuffix(".") or None) from None
    sheet = _sheet_of_text(text, answer, weights)
    sheet._tables, sheet._n, sheet._r = tables, answer & 255, answer >> 28 & 1023
    rules = [sheet._combination(interpolants[RESIDUES * k:RESIDUES * (k + 1)]) for k in range(len(sheet.names))]
    courses, number = _courses_of(text), _number(number)
    first = tuple(level % sheet.modulus for level in courses[number][0])
    return Course(number, sheet, rules, answer >> 38 & 511, answer >> 47 & 511, {each: len(records) for each, records in courses.items()}, first)


# ---- Reports

_BY_WEIGHT = rb"mod \d{1,3} weight((?: \d{1,2})*)"
_LAST_FIELD = rb"mod \d{1,3}( (lex|grlex|grevlex))?|" + _BY_WEIGHT
_MARK = b"\xef\xbb\xbf"


def _habits(text):
    """What other programs do to texts, as far as it is seen in this one: sentences for a person."""
    header, *records = _records(text)
    if text[:2] in (b"\xff\xfe", b"\xfe\xff"):
        yield "It is in UTF-16: save it as UTF-8 or plain text."
    if text.startswith(_MARK):
        yield "It begins with a byte-order mark, which counts as part of the first gene's name: save it as UTF-8 without one."
    for sign, name in ((b";", "semicolons"), (b"\t", "tabs")):
        if len(header) == 1 and sign in header[0]:
            yield f"Its fields are divided by {name}: write commas (in R write.csv and not write.csv2, in pandas sep=',')."
    if header[0] in (b"", _MARK) and len(header) > 1:
        numbers = [record[0] for record in records if record != [b""]]
        if numbers and numbers in ([b"%d" % (i + start) for i in range(len(numbers))] for start in (0, 1)):
            yield "Its first column is row numbers, without a name: write with row.names=FALSE in R, index=False in pandas."
    if re.search(rb"\n\r?\n\Z", text):
        yield "There is a blank line at its end: delete it."


def _record_hints(text, refusal, last="value"):
    """What is wrong with the record at fault, where it can be seen; the last column has values, or course numbers."""
    records, number = _records(text), refusal.record
    if not number or number > len(records):
        return
    header, fields = records[0], records[number - 1]
    by_weight = re.fullmatch(_BY_WEIGHT, header[-1])
    weights = [int(word) for word in by_weight.group(1).split()] if by_weight else []
    if refusal.number == 2 and number == 1 and by_weight and len(weights) != len(header) - 1:
        yield f"The header has {_counted(len(header) - 1, 'gene name')} and {_counted(len(weights), 'weight')}: one is wanted for each gene."
    elif refusal.number == 2 and number == 1 and not re.fullmatch(_LAST_FIELD, header[-1]):
        yield ("The header's last field has to be `mod P`, as `mod 5`, `mod 5 grlex` or for two genes `mod 5 weight 2 1`, and is "
               f"`{_said(header[-1])[:60]}`.")
    elif refusal.number == 2 and len(fields) != len(header):
        yield f"Record {number} has {len(fields)} field{'s' * (len(fields) != 1)}, the header {len(header)}."
    elif refusal.number == 2:
        for place, field in enumerate(fields):
            if not re.fullmatch(rb"-?\d{1,3}", field):
                wrong = "course number" if last != "value" and place == len(fields) - 1 else "level"
                yield f"Record {number}: `{_said(field)[:60]}` is no {wrong}: an optional minus sign and one to three digits, no blank, no point."
    if refusal.number == 15:
        yield f"The weight is 0 of {', '.join(_said(name) or 'a gene without a name' for name, weight in zip(header, weights) if weight == 0)}."
    modulus = re.match(rb"mod (\d+)", header[-1])
    p = int(modulus.group(1)) if modulus else 0
    if refusal.number == 9:
        for place, field in enumerate(fields):
            if abs(int(field)) >= p and (last == "value" or place < len(fields) - 1):
                whose = "the value" if place == len(fields) - 1 else _said(header[place]) or "without a name"
                yield f"Record {number}, field {place + 1} ({whose}): {_said(field)} is not from {1 - p} to {p - 1}."
    if refusal.number in (13, 14) and last == "value":
        residues = [[int(field) % p for field in record[:-1]] for record in records[1:number]]
        first = residues.index(residues[-1]) + 2
        values = f", with the value {_said(fields[-1])} in place of {_said(records[first - 1][-1])}" if refusal.number == 14 else ""
        yield f"Record {number} repeats the state of record {first}{values}."


def _number_hints(records, number):
    """What is wrong with the course number of a record that is well formed but for that."""
    fields, numbers = records[number - 1], [int(record[-1]) for record in records[1:number]]
    if not 1 <= numbers[-1] <= MOST_COURSE:
        yield f"Record {number}: the course number {_said(fields[-1])} is not from 1 to {MOST_COURSE}."
    elif numbers[-1] in numbers[:-1]:
        yield (f"Record {number}: course {numbers[-1]} comes back after course {numbers[-2]}. The records of a course stand together, in the order of "
               "time: put them together, or give the later ones a number of their own.")


def _move_hints(header, records, p, number):
    """Of a record that has a next one: the earlier record of the same state that is followed by another."""
    residues = [[int(level) % p for level in levels] for *levels, _ in records]
    followed = [int(now[-1]) == int(then[-1]) for now, then in zip(records, records[1:])] + [False]
    at = number - 2
    for i in range(at):
        if followed[i] and residues[i] == residues[at] and residues[i + 1] != residues[at + 1]:
            state, other, here = (_by_names(header, residues[j]) for j in (at, i + 1, at + 1))
            yield f"Record {number} has the state of record {i + 2} ({state}), which is followed by {other} there, and here by {here}."
            return


def _course_hints(text, refusal, course):
    """What is wrong with a text of time courses, where it can be seen, or with the course that was named."""
    if refusal.number == 1:
        return
    hints = list(_record_hints(text, refusal, "course number"))
    yield from hints
    header, *records = _records(text)
    if refusal.number == 2 and not hints and 1 < (refusal.record or 0) <= len(records) + 1:
        yield from _number_hints([header, *records], refusal.record)
    if refusal.number == 17:
        yield from _move_hints([_said(name) for name in header[:-1]], records, int(header[-1].split()[1]), refusal.record)
    if refusal.number in (8, 13):
        yield (f"Record {refusal.record} is the 256th of its state that has a next one." if refusal.number == 13 else
               f"Record {refusal.record} brings the 65th different state that has a next one.")
    if refusal.number == 18:
        yield f"The text has {_courses_said(_courses_of(text))}, and {course} was to be run."


def _courses_said(numbers):
    return f"the course{'s' * (len(numbers) > 1)} {', '.join(map(str, numbers))}" if numbers else "no course"


def _by_names(names, state):
    """A state as people say it."""
    return ", ".join(f"{name} {level}" for name, level in zip(names, state))


def _wrapped(text, first="  "):
    """A paragraph in lines of at most 100; a plus sign stays with the term after it."""
    lines = textwrap.wrap(text.replace(" + ", " +\0"), 100, initial_indent=first, subsequent_indent=" " * len(first), break_long_words=False,
                          break_on_hyphens=False)
    return "\n".join(lines).replace("\0", " ")


def _counted(number, word):
    return f"{number} {word}{'' if number == 1 else 's'}"


def refusal_report(text, refusal):
    """What was refused, what it means and what to do."""
    where = f", record {refusal.record}" if refusal.record else ""
    seen = [f"{refusal.more}."] if refusal.more else _record_hints(text, refusal)
    hints = [*_habits(text), *seen] if refusal.number != 1 else []
    if refusal.number != 2 or not hints:
        hints.append(REFUSALS[refusal.number][1])
    told = "" if not refusal.record else " (Record 1 is the header.)"
    lines = [_wrapped(f"Refused with {refusal.number}{where}: {refusal.sentence}.{told}"), "", "What to do:"]
    return "\n".join(lines + [_wrapped(hint, "  - ") for hint in hints])


def left_out(sheet, values, gene):
    """A sheet without a gene; the value of each state that is left, or None where states that became one have different values; and
    what was done to the states, in words."""
    number, left = sheet._gene_number(gene), sheet.without(gene)
    found = {(*state[:number - 1], *state[number:]): value for state, value in zip(sheet.states, values)}
    name, before, after = sheet.names[number - 1], len(sheet), len(left)
    said = f"{name} is left out. "
    said += (f"No two states became equal: there are {after} as before." if after == before else
             f"States that became equal are one, and their counts are added: of {before} there are {after}.")
    if number in sheet.wiring(values):
        return left, None, f"{said} Some of these had different values, so no rule of the other genes has the target's values: they need {name}."
    return left, [found[state] for state in left.states], said


def _target(sheet, values, names):
    """The part of a report that is about the target gene."""
    wiring = ", ".join(names[k - 1] for k in sheet.wiring(values)) or "none"
    return ["", "The target gene as a polynomial (at each state it has the value that the text gives):",
            _wrapped(str(sheet.interpolate(values)), "    "), "", f"Wiring: {wiring}", _wrapped(f"({WIRING_MEANS})")]


def report(sheet, values, habits=()):
    """A sheet and the values of a target gene, if there are any, for a person to read."""
    names = shown_names(sheet.names)
    standard = ", ".join(str(Polynomial(sheet.modulus, sheet.names, [(1, e)])) for e in sheet.standard) or "none"
    size = f"{_counted(len(sheet), 'state')} of {_counted(len(names), 'gene')} ({', '.join(names)})"
    lines = [_wrapped(f"{size}, levels modulo {sheet.modulus}, order {sheet._order_said(names)}")]
    lines += [_wrapped(f"{name} is {own!r}") for name, own in zip(names, sheet.names) if name != own]
    replicates = [f"{state} {count} times" for state, count in zip(sheet.states, sheet.counts) if count > 1]
    lines += [_wrapped(f"replicates: {', '.join(replicates)}")] if replicates else []
    lines += [_wrapped(habit, "  ! ") for habit in habits]
    lines += [] if values is None else _target(sheet, values, names)
    lines += ["", f"What holds at every state: {_counted(len(sheet.basis), 'polynomial')} that are 0 there; any other that is 0 there is a",
              "combination of them (the reduced Groebner basis)."]
    width = len(str(len(sheet.basis)))
    lines += [_wrapped(str(polynomial), f"    {i:{width}}. ") for i, polynomial in enumerate(sheet.basis, 1)]
    lines += ["", "Standard monomials, one for each state:", _wrapped(standard, "    ")]
    return "\n".join(lines)


def _states_met(course):
    """The part of a course's report that has a line for each step."""
    names = shown_names(course.names)
    widths = [max(len(name), 2) for name in names]
    lines = ["    step  " + "  ".join(f"{name:>{width}}" for name, width in zip(names, widths))]
    for k, state in enumerate(course.states):
        levels = "  ".join(f"{level:{width}}" for level, width in zip(state, widths))
        lines.append(f"    {k:4}  {levels}  {_step_said(course, k)}".rstrip())
    return lines


def _step_said(course, k):
    """What there is to say of a step: that its state was measured, or came before."""
    measured, again = k < course.measured, course.step and k == course.step
    return ", ".join(["measured"] * measured + [f"as at step {k - course.back}"] * again)


def _beyond(course):
    """From which step on the run is the model's alone, in words; nothing if it is nowhere."""
    if course.unmeasured is None:
        return []
    where = f"What comes after the state of step {course.unmeasured} was not measured in any course"
    return [f"{where}: from step {course.unmeasured + 1} on the run is the model's, and another model that fits the records may go elsewhere."]


def course_report(course, habits=()):
    """A time course run forward, for a person to read."""
    names, sheet = shown_names(course.names), course.sheet
    lines = [_wrapped(f"Course {course.number} of {_counted(len(names), 'gene')} ({', '.join(names)}), levels modulo {sheet.modulus}, "
                      f"order {sheet._order_said(names)}")]
    lines += [_wrapped(f"{name} is {own!r}") for name, own in zip(names, course.names) if name != own]
    lines += [_wrapped(f"The text has {_courses_said(course.courses)}, and in them {_counted(sum(sheet.counts), 'record')} with a next one, at "
                       f"{_counted(len(sheet), 'different state')}.")]
    lines += [_wrapped(habit, "  ! ") for habit in habits]
    lines += ["", "The model: each gene's next level as a polynomial of the levels now (it gives every next record",
              "of every course in the text):"]
    lines += [_wrapped(f"next {name} = {rule}", "    ") for name, rule in zip(names, course.rules)]
    lines += ["", f"Course {course.number} has {_counted(course.measured, 'record')}. Run forward from the first, {_ending(course)}."]
    lines += [_wrapped(said, "  ! ") for said in _beyond(course)]
    return "\n".join(lines + _states_met(course))


# ---- The picture of a course

_CELL, _ROW, _NARROWEST = 30, 34, 700


def _shade(level, modulus):
    """A level's colour, from almost white for 0 to dark blue for the highest, and that of a number written on it."""
    part = level / (modulus - 1)
    low, high = (0xf3, 0xf7, 0xfb), (0x1f, 0x4e, 0x79)
    colour = "".join(f"{round(a + (b - a) * part):02x}" for a, b in zip(low, high))
    return f"#{colour}", "#ffffff" if part > 0.55 else "#222222"


def _level_cell(x, y, level, modulus, again):
    """A level written and shaded; of a state that came before it is pale."""
    colour, ink = _shade(level, modulus)
    pale, ink = (' fill-opacity="0.35"', "#222222") if again else ("", ink)
    yield f'<rect class="level" x="{x}" y="{y}" width="{_CELL}" height="{_ROW}" fill="{colour}" stroke="#ffffff"{pale}/>'
    yield _word(x + _CELL // 2, y + _ROW // 2 + 5, str(level), 13, more=f' fill="{ink}"')


def _long(text, size=12):
    """How wide a text is at most, about: capitals are wider than other letters, and those of some scripts as wide as high."""
    return round(sum(1.05 if ord(letter) >= 0x1100 else 0.82 if letter.isupper() else 0.64 for letter in text) * size) + 1


def timeline(course):
    """An SVG picture of a course that was run forward: a row for each gene, a column for each step, its level written and shaded;
    below them what was measured; and a frame around the states that come again for ever. Each step takes as much width as any other,
    so that the picture grows with the run, up to 257 columns; the genes' names stand at both ends where it is long."""
    names, steps = [name or "(no name)" for name in course.names], len(course.states)
    said = [f"Course {course.number}, run forward: {_ending(course)}",
            f"Levels 0 to {course.sheet.modulus - 1} of {_counted(len(names), 'gene')}. The model fits all {sum(course.sheet.counts)} measured moves of "
            f"{_counted(len(course.courses), 'course')}.", *(line for words in _beyond(course) for line in textwrap.wrap(words, 96))]
    margin = max(_long(name, 13) for name in [*names, "time step"]) + 16
    left, top = margin, 58 + 18 * len(said)
    below, right = top + _ROW * len(names), left + _CELL * steps
    legend = _course_legend(course, left, below + 82)
    wide = max(right + (margin if steps > 30 else 24), left + _long(said[0], 16) + 24, *(left + _long(line) + 24 for line in said[1:]), left + _NARROWEST,
               left + _CELL * (course.step - course.back) + _long(_ending(course)) + 40)
    high = below + 104 + (24 if course.step else 0)
    picture = [f'<svg xmlns="http://www.w3.org/2000/svg" width="{wide}" height="{high}" viewBox="0 0 {wide} {high}"',
               '     font-family="sans-serif" fill="#222222">', f"<title>{_xml(said[0])}</title>", f'<rect width="{wide}" height="{high}" fill="#ffffff"/>',
               _word(left, 26, said[0], 16, "start"), *(_word(left, 46 + 18 * i, line, 12, "start") for i, line in enumerate(said[1:]))]
    for x, anchor in ((left - 10, "end"), (right + 10, "start"))[:1 + (steps > 30)]:
        picture += [_word(x, top + _ROW * g + _ROW // 2 + 5, name, 13, anchor) for g, name in enumerate(names)]
    for k, state in enumerate(course.states):
        for g, level in enumerate(state):
            picture += _level_cell(left + _CELL * k, top + _ROW * g, level, course.sheet.modulus, course.step and k == course.step)
    picture += _course_steps(course, left, below)
    picture += _cycle_frame(course, left, top, below)
    return "\n".join([*picture, *legend, "</svg>"]) + "\n"


def _course_steps(course, left, below):
    """Below the levels: the number of each step, and whether its state was measured."""
    yield _word(left - 10, below + 18, "time step", 12, "end")
    yield _word(left - 10, below + 38, "measured", 12, "end")
    for k in range(len(course.states)):
        x = left + _CELL * k + _CELL // 2
        yield _word(x, below + 18, str(k))
        if k < course.measured:
            yield f'<circle class="measured" cx="{x}" cy="{below + 34}" r="5" fill="#2e7d32"/>'
    if course.step:
        yield _word(left + _CELL * course.step + _CELL // 2, below + 56, f"= step {course.step - course.back}", 11)


def _cycle_frame(course, left, top, below):
    """The frame around the states that come again, and what that means."""
    if course.step:
        x, width = left + _CELL * (course.step - course.back), _CELL * course.back
        yield (f'<rect class="cycle" x="{x}" y="{top - 2}" width="{width}" height="{below - top + 4}" fill="none" stroke="#d35400" '
               'stroke-width="3"/>')
        yield _word(x, top - 8, _ending(course).removeprefix("it "), 12, "start", ' fill="#a84300" font-weight="bold"')


def _course_legend(course, left, y):
    """What the shades, the dots and the frame say."""
    highest, x = course.sheet.modulus - 1, left
    for level, text in ((0, "level 0"), (highest, f"level {highest}, the highest")):
        yield f'<rect x="{x}" y="{y - 12}" width="16" height="16" fill="{_shade(level, highest + 1)[0]}" stroke="#999999"/>'
        yield _word(x + 22, y + 1, text, 12, "start")
        x += 40 + _long(text)
    yield f'<circle cx="{x + 8}" cy="{y - 4}" r="5" fill="#2e7d32"/>'
    yield _word(x + 20, y + 1, "measured in this course; without a dot: as the model runs on", 12, "start")
    if course.step:
        yield f'<rect x="{left + 1}" y="{y + 11}" width="14" height="14" fill="none" stroke="#d35400" stroke-width="3"/>'
        yield _word(left + 22, y + 23, "framed: comes again and again, for ever; the pale column is the first that comes again", 12, "start")


# ---- The staircase

_COLOURS = {"standard": "#cfe3f5", "lead": "#f4a340", "multiple": "#ececec"}
_RAISED = str.maketrans("0123456789", "⁰¹²³⁴⁵⁶⁷⁸⁹")


def _rectangle(x, y, width, height, kind):
    return f'<rect class="{kind}" x="{x}" y="{y}" width="{width}" height="{height}" fill="{_COLOURS[kind]}" stroke="#ffffff"/>'


def _xml(text):
    """Text as XML can hold it."""
    return escape(re.sub("[^\t -\ud7ff\ue000-\ufffd\U00010000-\U0010ffff]", "\ufffd", text))


def _word(x, y, text, size=12, anchor="middle", more=""):
    return f'<text x="{x}" y="{y}" font-size="{size}" text-anchor="{anchor}"{more}>{_xml(text)}</text>'


def _monomial(exponents, names):
    return "·".join(name + (str(e).translate(_RAISED) if e > 1 else "") for name, e in zip(names, exponents) if e) or "1"


def staircase(sheet, genes=(1, 2)):
    """An SVG picture of the monomials in two genes: standard ones, leading ones, and multiples of those above the stairs."""
    chosen = [k - 1 for k in genes][:len(sheet.names)]
    rest = [k for k in range(len(sheet.names)) if k not in chosen]
    standard, leads = ({(*(e[k] for k in chosen), 0)[:2] for e in monomials if not any(e[k] for k in rest)}
                       for monomials in (sheet.standard, sheet.leads))
    columns, rows = (max(e[i] for e in leads) + 1 for i in (0, 1))
    names = [shown_names(sheet.names)[k] for k in chosen]
    cell = max(10, min(72, 720 // columns, 720 // rows))
    size = min(14, int(cell / 0.62 / max(len(_monomial(e, names)) for e in standard | leads)))
    left, top = 64, 64
    wide, high = max(left + cell * columns + 24, 560), top + cell * rows + 96
    picture = [f'<svg xmlns="http://www.w3.org/2000/svg" width="{wide}" height="{high}" viewBox="0 0 {wide} {high}"',
               '     font-family="sans-serif" fill="#222222">', f"<title>Staircase of {_xml(' and '.join(names))}</title>", f'<rect width="{wide}" height="{high}" fill="#ffffff"/>',
               _word(left, 24, f"Monomials in {' and '.join(names)}", 16, "start"), _word(left, 44, _caption(sheet, standard, leads), 12, "start")]
    for a in range(columns):
        for b in range(rows):
            kind = "standard" if (a, b) in standard else "lead" if (a, b) in leads else "multiple"
            x, y = left + cell * a, top + cell * (rows - 1 - b)
            picture.append(_rectangle(x, y, cell, cell, kind))
            if kind != "multiple" and size >= 8:
                picture.append(_word(x + cell // 2, y + cell // 2 + size // 3, _monomial((a, b), names), size))
    picture.append(_stairs(standard, rows, columns, cell, left, top))
    picture += _axes(names, rows, columns, cell, left, top)
    picture += _legend(left, top + cell * rows + 72)
    return "\n".join(picture + ["</svg>"]) + "\n"


def _caption(sheet, standard, leads):
    hidden = len(sheet) - len(standard), len(sheet.leads) - len(leads)
    more = f"; {hidden[0]} standard and {hidden[1]} leading ones with other genes are not drawn" if any(hidden) else ""
    return f"{_counted(len(sheet), 'state')}, modulo {sheet.modulus}, {sheet._order_said(shown_names(sheet.names))}{more}"


def _stairs(standard, rows, columns, cell, left, top):
    """The line between standard monomials and the others, from the upper edge to the right one."""
    corners = [(0, rows)]
    for a in range(columns):
        height = sum((a, b) in standard for b in range(rows))
        corners += [(a, height), (a + 1, height)]
    points = " ".join(f"{left + cell * a},{top + cell * (rows - b)}" for a, b in corners)
    return f'<polyline class="stairs" points="{points}" fill="none" stroke="#1f4e79" stroke-width="{3 if cell > 20 else 2}"/>'


def _axes(names, rows, columns, cell, left, top):
    """The exponents along both edges, as many as fit, and whose they are."""
    step, below = max(1, -(-18 // cell)), top + cell * rows
    yield from (_word(left + cell * a + cell // 2, below + 16, str(a)) for a in range(0, columns, step))
    yield _word(left + cell * columns / 2, below + 36, f"exponent of {names[0]}")
    if len(names) > 1:
        yield from (_word(left - 8, top + cell * (rows - 1 - b) + cell // 2 + 4, str(b), 12, "end") for b in range(0, rows, step))
        middle = top + cell * rows / 2
        yield _word(20, middle, f"exponent of {names[1]}", 12, "middle", f' transform="rotate(-90 20 {middle})"')


def _legend(left, y):
    for x, kind, text in ((0, "standard", "standard"), (104, "lead", "leading, of the basis"), (272, "multiple", "multiple of a leading one")):
        yield _rectangle(left + x, y - 12, 16, 16, kind)
        yield _word(left + x + 22, y + 1, text, 12, "start")


# ---- The command line

def _texts(files, many):
    """Each text with its name; with `many` a file holds several, divided by blank lines."""
    for name in files:
        data = sys.stdin.buffer.read() if name == "-" else pathlib.Path(name).read_bytes()
        if not many:
            yield name, data
            continue
        texts = [text for text in re.split(rb"(?:\r?\n){2,}", data.strip(b"\r\n")) if text]
        yield from ((f"{name}, text {i} of {len(texts)}", text + b"\n") for i, text in enumerate(texts, 1))


def _gene_numbers(sheet, words):
    """Two genes by their names or numbers, as A,B."""
    numbers = [sheet.names.index(word) + 1 if word in sheet.names else int(word) if word.isdigit() else 0 for word in words.split(",")]
    if len(numbers) != 2 or numbers[0] == numbers[1] or not all(1 <= k <= len(sheet.names) for k in numbers):
        raise SystemExit(f"misqafur: {words} are not two genes of {', '.join(sheet.names)}")
    return numbers


def _gene_to_leave(sheet, word):
    """One gene by its name or number."""
    if word.isdigit() and word not in sheet.names:
        return int(word)
    try:
        return sheet._gene_number(word)
    except ValueError as error:
        raise SystemExit(f"misqafur: {error}") from None


def _report_texts(words):
    """The command `report`. Answers how many texts were refused."""
    texts, refused = list(_texts(words.files, words.many)), 0
    if words.svg and len(texts) != 1:
        raise SystemExit("misqafur: --svg takes one text")
    shows = len(texts) > 1 and (words.progress or sys.stderr.isatty())
    for count, (name, text) in enumerate(texts, 1):
        if shows:
            print(f"\r{count} of {len(texts)} texts, {refused} refused", end="\n" if count == len(texts) else "", file=sys.stderr, flush=True)
        try:
            (sheet, values), remarks = read(text), [*_habits(text)]
            if words.without:
                sheet, values, done = left_out(sheet, values, _gene_to_leave(sheet, words.without))
                remarks.append(done)
            said = report(sheet, values, remarks)
            if words.svg:
                chosen = _gene_numbers(sheet, words.genes) if words.genes else (1, 2)
                pathlib.Path(words.svg).write_text(staircase(sheet, chosen), encoding="utf-8")
        except Refusal as refusal:
            refused += 1
            said = refusal_report(text, refusal)
        print(f"== {name}\n{said}\n")
    return refused


def _course_text(words):
    """The command `course`. Answers how many texts were refused."""
    (name, text), = _texts(words.files, False)
    refused = 0
    try:
        run = course(text, words.course)
        said = course_report(run, [*_habits(text)])
        if words.svg:
            pathlib.Path(words.svg).write_text(timeline(run), encoding="utf-8")
    except Refusal as refusal:
        refused, said = 1, refusal_report(text, refusal)
    print(f"== {name}\n{said}\n")
    return refused


def _check_json(files):
    """Says of each file whether it is a sheet's text. Answers how many are not."""
    refused = 0
    for name, text in _texts(files, False):
        try:
            said = _json_taken(Sheet.from_json(text))
        except Refusal as refusal:
            said = _json_refused(text, refusal)
            refused += 1
        print(f"== {name}\n{said}\n")
    return refused


def _json_texts(words):
    """The command `json`: writes the sheet of a text, or judges sheets' texts. Answers how many were refused."""
    if words.check:
        return _check_json(words.files)
    if len(words.files) != 1:
        raise SystemExit("misqafur: json writes the sheet of one text")
    (name, text), = _texts(words.files, False)
    try:
        sheet, _ = read(text)
    except Refusal as refusal:
        print(f"== {name}\n{refusal_report(text, refusal)}", file=sys.stderr)
        return 1
    sys.stdout.flush()
    sys.stdout.buffer.write(sheet.to_json())
    sys.stdout.buffer.flush()
    print(_wrapped(f"{name}: the genes' names ({_quoted(sheet.names)}) and the target's values are not in the JSON, which is of the algebra: keep the "
                   "text beside it.", ""), file=sys.stderr)
    return 0


def main(arguments=None):
    parser = argparse.ArgumentParser(prog="python3 -m misqafur", description="Model sheets of gene states modulo a small prime, for people.")
    commands = parser.add_subparsers(dest="command", required=True)
    told = commands.add_parser("report", help="print sheets, or what was refused and what to do; status 1 if any was refused")
    told.add_argument("files", nargs="+", metavar="FILE.csv", help="a text: gene names and `mod P`, then states and values (- for standard input)")
    told.add_argument("--svg", metavar="OUT.svg", help="draw the staircase of standard and leading monomials of two genes")
    told.add_argument("--genes", metavar="A,B", help="the two genes to draw, by name or number (the first two if not given)")
    told.add_argument("--without", metavar="GENE", help="leave a gene out whose probe is unreliable, by name or number")
    told.add_argument("--many", action="store_true", help="a file holds many texts, divided by blank lines")
    told.add_argument("--progress", action="store_true", help="say how far many texts have come, also where standard error is no terminal")
    run = commands.add_parser("course", help="run a time course forward by a model of the text's courses; status 1 if the text was refused")
    run.add_argument("files", nargs=1, metavar="FILE.csv", help="a text: gene names and `mod P`, then states and course numbers (- for standard input)")
    run.add_argument("--course", required=True, type=int, metavar="NUMBER", help="the course from whose first state the model is run")
    run.add_argument("--svg", metavar="OUT.svg", help="draw the levels over time, and what comes again")
    archive = commands.add_parser("json", help="write the sheet of a text as canonical JSON, to be archived and compared; status 1 if it was refused")
    archive.add_argument("files", nargs="+", metavar="FILE", help="a text as for report (- for standard input); with --check files of JSON")
    archive.add_argument("--check", action="store_true", help="say of each file whether it is the text of a sheet as JSON, byte for byte")
    script = commands.add_parser("export", help="print the basis of a text as a script for an algebra package")
    script.add_argument("syntax", choices=[name for name in SYNTAXES if name != "plain"])
    script.add_argument("files", nargs=1, metavar="FILE.csv")
    words = parser.parse_args(arguments)
    sys.stdout.reconfigure(errors="backslashreplace")
    try:
        if words.command == "report":
            return 1 if _report_texts(words) else 0
        if words.command == "course":
            return 1 if _course_text(words) else 0
        if words.command == "json":
            return 1 if _json_texts(words) else 0
        (name, text), = _texts(words.files, False)
        print(read(text)[0].export(words.syntax), end="")
    except Refusal as refusal:
        print(f"== {name}\n{refusal_report(text, refusal)}", file=sys.stderr)
        return 1
    except BrokenPipeError:
        os.dup2(os.open(os.devnull, os.O_WRONLY), sys.stdout.fileno())
        return 2
    except (OSError, ImportError) as error:
        print(f"misqafur: {error}", file=sys.stderr)
        return 2
    return 0


if __name__ == "__main__":
    sys.exit(main())
