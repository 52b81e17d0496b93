"""The basis of a list of distinct points in plain arithmetic, by Buchberger and Moeller's way: for the tools that work out stored
results anew. Nothing of the library or of its tests is used."""

SIZES = (512, 512, 3592, 28736, 64)


def key(order, e, weights):
    by_weight = (sum(weight * x for weight, x in zip(weights, e)), *e)
    return (tuple(e), (sum(e), *e), (sum(e), *(-x for x in reversed(e))), by_weight)[order]


def value(p, e, point):
    product = 1
    for x, k in zip(point, e):
        product = product * pow(x, k, p) % p
    return product


class Basis:
    """Standard monomials, leads and coefficients of distinct points, and how many cancellations they took."""

    def __init__(self, p, m, order, points, weights=()):
        self.p, self.points, self.standard, self.leads, self.rows = p, points, [], [], []
        self.kept, self.cancellations = [], 0
        waiting = {(0,) * m}
        while waiting:
            e = min(waiting, key=lambda e: key(order, e, weights))
            waiting.remove(e)
            if any(all(x <= y for x, y in zip(lead, e)) for lead in self.leads):
                continue
            vector, combined = self.reduced([value(p, e, point) for point in points])
            pivot = next((i for i, x in enumerate(vector) if x), None)
            if pivot is None:
                self.leads.append(e)
                self.rows.append(combined)
                continue
            scale = pow(vector[pivot], -1, p)
            combined = [x * scale % p for x in combined] + [scale]
            self.kept.append((pivot, [x * scale % p for x in vector], combined))
            self.standard.append(e)
            waiting |= {e[:k] + (e[k] + 1,) + e[k + 1:] for k in range(m)}

    def reduced(self, vector):
        """What is left of a column, and the combination of standard monomials that was added to it."""
        added = [0] * len(self.standard)
        for pivot, row, combined in self.kept:
            times = -vector[pivot] % self.p
            if times:
                self.cancellations += 1
                vector = [(x + times * y) % self.p for x, y in zip(vector, row)]
                added[:len(combined)] = [(x + times * y) % self.p for x, y in zip(added, combined)]
        return vector, added

    def interpolant(self, values):
        return [-x % self.p for x in self.reduced(values)[1]]

    def tables(self):
        monomials = [b"".join(bytes(e) + bytes(8 - len(e)) for e in part) for part in (self.points, self.standard, self.leads)]
        rows = b"".join(bytes(row) + bytes(64 - len(row)) for row in self.rows)
        return [part + bytes(size - len(part)) for part, size in zip(monomials + [rows], SIZES)]
