"""An exact check of a sheet, in plain arithmetic: what it finds wrong, as sentences.

Let the standard monomials be n in number, closed under divisors, with the leads as their minimal outsiders, and let each
polynomial of the basis be its lead plus a combination of smaller standard monomials that is 0 at all n states. Then the
leads generate an ideal of codimension n inside that of all leading monomials, which has codimension n too: they are equal,
and this is the reduced Groebner basis. Nothing of the library is used."""
import itertools


def any_order(chance, genes):
    """What a sheet is told of its order: any of those with a name, or weights."""
    if chance.random() < 0.3:
        most = chance.choice((1, 3, 99))
        return {"weights": [chance.randrange(1, most + 1) for _ in range(genes)]}
    return {"order": chance.choice(("lex", "grlex", "grevlex"))}


def key(sheet, e):
    """Larger for the greater monomial."""
    return {"lex": tuple(e), "grlex": (sum(e), *e), "grevlex": (sum(e), *(-x for x in reversed(e))),
            "weight": (sum(weight * x for weight, x in zip(sheet.weights, e)), *e)}[sheet.order]


def value(p, exponents, state):
    product = 1
    for x, e in zip(state, exponents):
        product = product * pow(x, e, p) % p
    return product


def divides(a, b):
    return all(x <= y for x, y in zip(a, b))


def outsiders(standard, genes):
    """The monomials that are not standard though every proper divisor is."""
    if not standard:
        return {(0,) * genes}
    steps = {tuple(x + (i == k) for i, x in enumerate(e)) for e in standard for k in range(genes)} - standard
    return {e for e in steps if all(e[k] == 0 or tuple(x - (i == k) for i, x in enumerate(e)) in standard for k in range(genes))}


def faults(sheet):
    p, genes, states, standard = sheet.modulus, len(sheet.names), sheet.states, sheet.standard
    keys = [key(sheet, e) for e in standard]
    lead_keys = [key(sheet, e) for e in sheet.leads]
    if len(set(states)) != len(states) or any(not 0 <= x < p for x in itertools.chain(*states)):
        yield "states repeat or are no residues"
    if len(standard) != len(states) or keys != sorted(set(keys)) or lead_keys != sorted(set(lead_keys)):
        yield "the monomials are not as many as they should be, or do not increase"
    for e in standard:
        if any(e[k] and tuple(x - (i == k) for i, x in enumerate(e)) not in standard for k in range(genes)):
            yield f"a divisor of {e} is not standard"
    if set(sheet.leads) != outsiders(set(standard), genes):
        yield "the leads are not the minimal outsiders"
    for lead, polynomial in zip(sheet.leads, sheet.basis):
        rest = dict((e, c) for c, e in polynomial.terms)
        if rest.pop(lead, 0) != 1 or not set(rest) <= set(standard) or any(key(sheet, e) > key(sheet, lead) for e in rest):
            yield f"the polynomial of {lead} is no lead and smaller standard monomials"
        if any((value(p, lead, s) + sum(c * value(p, e, s) for e, c in rest.items())) % p for s in states):
            yield f"the polynomial of {lead} is not 0 at every state"


def solution_faults(sheet, polynomial, values):
    """What is wrong with a combination of standard monomials that is to have these values: there is one only."""
    if not {e for _, e in polynomial.terms} <= set(sheet.standard):
        yield "a monomial is not standard"
    if any((sum(c * value(sheet.modulus, e, s) for c, e in polynomial.terms) - v) % sheet.modulus for s, v in zip(sheet.states, values)):
        yield "a value is another"


def wiring(sheet, values):
    """The wiring list by its definition: two states differ in the gene alone, and their values differ."""
    valued = list(zip(sheet.states, (v % sheet.modulus for v in values)))
    pairs = ([k for k in range(len(s)) if s[k] != t[k]] for s, v in valued for t, w in valued if v != w)
    return sorted({places[0] + 1 for places in pairs if len(places) == 1})
