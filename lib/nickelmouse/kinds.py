"""The kinds of neighbourhoods (P. Shaw, 1998): each chooses units that stay free while all else keeps its values in the best solution.

A kind is a function of a view, of how many units are wanted, and of what draws by chance. It gives the positions of units, about as many."""
from dataclasses import dataclass

from nickelmouse.structure import Structure

# Terms are drawn by their cost to this power.
SHARP = 2
# Of a constraint over more of the units than this part not all are freed at once.
LARGEST = 0.6


@dataclass(frozen=True)
class View:
    """A model's structure, and the values of all its variables in the best solution, in order."""
    structure: Structure
    values: tuple

    def value(self, place):
        """The value of a unit."""
        return self.values[self.structure.units[place] - 1]

    def cost(self, term):
        """What a term of the objective seems to cost: how far it is from its best value. Coefficients are not known."""
        return abs(self.values[term.variable - 1] - term.ideal)


def filled(view, chosen, wanted, draw):
    """Adds units at random until there are as many as are wanted."""
    rest = [place for place in range(len(view.structure.units)) if place not in chosen]
    chosen.update(draw.sample(rest, min(len(rest), max(0, wanted - len(chosen)))))
    return chosen


def walked(view, chosen, wanted, draw):
    """Adds units to those that are chosen, each from a constraint that one of them stands in, until there are as many as are wanted."""
    structure, edge = view.structure, list(chosen)
    while len(chosen) < wanted and edge:
        at = draw.randrange(len(edge))
        scopes = structure.at[edge[at]]
        drawn = [draw.choice(structure.scopes[draw.choice(scopes)]) for _ in range(4 if scopes else 0)]
        fresh = next((place for place in drawn if place not in chosen), None)
        if fresh is not None:
            chosen.add(fresh)
            edge.append(fresh)
        else:
            edge[at] = edge[-1]
            edge.pop()
    return filled(view, chosen, wanted, draw)


def at_random(view, wanted, draw):
    """Units at random."""
    return filled(view, set(), wanted, draw)


def walk(view, wanted, draw):
    """A walk over constraints, from a unit at random."""
    return walked(view, {draw.randrange(len(view.structure.units))}, wanted, draw)


def costly(view, wanted, draw):
    """The units of terms of the objective, which are drawn by what they cost."""
    terms = [(term, view.cost(term)) for term in view.structure.terms]
    terms = [(term, cost ** SHARP) for term, cost in terms if cost > 0]
    chosen = set()
    while len(chosen) < wanted and terms:
        at = draw.choices(range(len(terms)), [weight for _, weight in terms])[0]
        chosen.update(terms[at][0].units)
        terms[at] = terms[-1]
        terms.pop()
    return filled(view, chosen, wanted, draw)


def costly_walk(view, wanted, draw):
    """The units of a few terms that cost much, and a walk from these."""
    return walked(view, costly(view, max(1, wanted // 4), draw), wanted, draw)


def window(view, wanted, draw):
    """Units whose values lie next to each other: of tasks those that begin at about one time."""
    order = sorted(range(len(view.structure.units)), key=lambda place: (view.value(place), draw.random()))
    first = draw.randrange(len(order) - wanted + 1)
    return set(order[first:first + wanted])


def stretch(view, wanted, draw):
    """Units that follow each other in the order of the annotations."""
    count = len(view.structure.units)
    first = draw.randrange(count)
    return {(first + step) % count for step in range(wanted)}


def whole(view, wanted, draw):
    """All units of one constraint, then of another one, until there are as many as are wanted."""
    scopes, chosen = view.structure.scopes, set()
    for _ in range(20):
        scope = draw.choice(scopes)
        if len(chosen) + len(scope) <= wanted * 3 // 2:
            chosen.update(scope)
        if len(chosen) >= wanted:
            break
    return filled(view, chosen, wanted, draw)


def tour(view, wanted, draw):
    """Of a circuit: up to three stretches of the tour."""
    order = tour_of(draw.choice(view.structure.circuits), view.value)
    chosen, parts = set(), draw.randint(1, 3)
    for part in range(parts):
        first, length = draw.randrange(len(order)), (wanted - len(chosen)) // (parts - part)
        chosen.update(order[(first + step) % len(order)] for step in range(length))
    return filled(view, chosen - {None}, wanted, draw)


def tour_of(places, successor):
    """The units of a circuit's places in the order of the tour from its first place, as far as their values tell; `successor` gives them."""
    order, at = [], 0
    while at is not None and len(order) < len(places):
        order.append(places[at])
        following = successor(places[at]) - 1 if places[at] is not None else -1
        at = following if 0 <= following < len(places) else None
    return order


def kinds_for(structure):
    """The kinds that make sense of a model, by name."""
    kinds = {'random': at_random, 'window': window, 'stretch': stretch}
    if structure.scopes:
        kinds['walk'] = walk
    if sum(len(scope) <= LARGEST * len(structure.units) for scope in structure.scopes) > 1:
        kinds['whole'] = whole
    if len(structure.terms) > 1:
        kinds['costly'] = costly
        if structure.scopes:
            kinds['costly walk'] = costly_walk
    if structure.circuits:
        kinds['tour'] = tour
    return kinds
