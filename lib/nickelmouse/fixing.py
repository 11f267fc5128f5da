"""What a neighbourhood adds to a file behind its last constraint: that all but its units keep their values, and that a solution is better."""
from nickelmouse.starting import equation


def bound(goal, variable, value):
    """The constraint that the objective is better than a value."""
    if goal == 'minimize':
        return f'constraint int_le({variable.name},{value - 1}); '
    return f'constraint int_le({value + 1},{variable.name}); '


def in_order(items, view, free):
    """The constraints that tasks of which no Boolean says which is first begin one after the other as before, but for free ones."""
    structure = view.structure
    fixed = sorted((place for place in structure.chains if place not in free), key=view.value)
    names = [items.variable(structure.units[place]).name for place in fixed]
    return [f'constraint int_le({one},{other}); ' for one, other in zip(names, names[1:])]


def fixings(items, view, free):
    """The constraints that fix all but these units. The order of two tasks stays as it is, unless one of them is free."""
    structure, values = view.structure, view.values
    found = [equation(items.variable(number), values[number - 1]) for place, number in enumerate(structure.units)
             if place not in free and place not in structure.starts]
    for order in structure.orders:
        if order.one not in free and order.other not in free and values[order.boolean - 1]:
            found.append(f'constraint bool_eq({items.variable(order.boolean).name},true); ')
    return found + in_order(items, view, free)


class Insertion:
    """A file to which constraints are added in front of its solve item. `by_cost` is another solve item, with which the terms of the objective
    are decided first, the one that can be best before others; nothing, where there are no several integers among them."""

    def __init__(self, items, text, structure):
        self.items = items
        first, behind = items.goal.span.first, items.goal.span.behind
        self.front, self.goal, self.behind = text[:first], text[first:behind], text[behind:]
        self.by_cost = self.goal_by_cost(structure)

    def goal_by_cost(self, structure):
        """The solve item that decides the terms of the objective first."""
        goal, variables = self.items.goal, [self.items.variable(number) for number in structure.costs]
        names = [variable.name for variable in variables if variable.declared is not None]
        if len(names) < 2:
            return None
        choice = 'smallest,indomain_min' if goal.word == 'minimize' else 'largest,indomain_max'
        objective = self.items.variable(goal.variable).name
        return f'solve :: int_search([{",".join(names)}],{choice},complete) {goal.word} {objective};'.encode()

    def text(self, constraints, goal=None):
        """The file with these constraints, and another solve item where one is given."""
        return b''.join([self.front, ''.join(constraints).encode(), goal or self.goal, self.behind])

    def neighbourhood(self, view, solution, free):
        """The constraints of a neighbourhood of a solution."""
        goal = self.items.goal
        return [*fixings(self.items, view, free), bound(goal.word, self.items.variable(goal.variable), solution.value)]
