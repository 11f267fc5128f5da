"""The sections of a page about an answer: the search, tasks over time, tours. Each has its charts and what stands in their place."""
from dataclasses import dataclass, field

from nickelmouse.report import charts
from nickelmouse.report.course import thinned
from nickelmouse.report.html import figure, folded, plural, said, section, table
from nickelmouse.report.orders import common_indices

# So many rows of a table are shown, and so many cumulatives and tours have a chart of their own.
ROWS, OWN, STEPS = 1_000, 12, 40


@dataclass
class Part:
    """A section to be: its title, the note below it, its chart, the caption of that, and the same as a table, with how it is called."""
    title: str
    note: str
    chart: dict
    caption: str
    summary: str
    table: str

    def section(self, picture):
        """The section, with its picture and below it the folded table, or with the table alone."""
        if picture is None:
            return section(self.title, self.table, note=self.note)
        return section(self.title, figure(picture, self.caption), folded(self.summary, self.table), note=self.note)


def seconds_text(seconds):
    """Seconds, as a reader wants them."""
    return f'{seconds:.2f}' if seconds < 10 else f'{seconds:.0f}'


def course_part(course, name):
    """How the search went."""
    chart = charts.course_chart(course, name)
    rows = sorted([(seconds, name, value) for seconds, value in thinned(chart['best'], STEPS)]
                  + [(seconds, 'bound', value) for seconds, value in thinned(chart['proved'], STEPS)])
    listed = table(['second', '', 'value'], [(seconds_text(seconds), what, f'{value:,}') for seconds, what, value in rows], [0, 2])
    side = 'least' if course.is_minimized else 'greatest'
    note = (f'The values of {name} that were found, and the {side} value that was still possible, once more was proved than its declared '
            'set says.')
    is_dashed = any(value != chart['best'][-1][1] for _, value in chart['proved'])
    return Part('The search', note, chart, 'Dashed: what was still possible.' if is_dashed else '',
                plural(len(rows), 'step as a table', 'steps as a table'), listed)


def task_rows(cumulative, names):
    """The rows of a table of tasks, in the order of their starts."""
    ordered = sorted(cumulative.working, key=lambda task: (task.start, task.end))
    return [(names.variable(task.variable) if task.variable is not None else '', task.start, task.duration, task.end, task.use)
            for task in ordered[:ROWS]]


def task_table(cumulatives, labels, names):
    """What a table of tasks is called, and the table, up to some length."""
    rows = [(label, *row) for cumulative, label in zip(cumulatives, labels) for row in task_rows(cumulative, names)]
    count = sum(len(cumulative.working) for cumulative in cumulatives)
    kept = rows[:ROWS]
    listed = table(['', 'task', 'start', 'lasts', 'end', 'uses'], kept, [2, 3, 4, 5])
    if len(labels) == 1:
        listed = table(['task', 'start', 'lasts', 'end', 'uses'], [row[1:] for row in kept], [1, 2, 3, 4])
    first = f', the first {len(kept):,} of them' if len(kept) < count else ''
    return plural(count, 'task as a table', 'tasks as a table') + first, listed


def merged_note(chart, count):
    """What is said of a chart that was thinned out."""
    if chart['merged']:
        return f' Of {count:,} tasks those that touch at this width are drawn as one bar.'
    return ''


def label_of(cumulative, names, is_one_place):
    """The label of a cumulative's row: the loop's indices, with the line where several places have such rows; in a file that was not
    compiled the name of the array that has its starts, or the number of the constraint."""
    place, text, indices = names.constraint(cumulative.constraint)
    if not text:
        name = grouped_name([cumulative], names)
        return name if name.isidentifier() else f'constraint {cumulative.constraint.number}'
    at = 'line ' + place.rpartition(' column ')[0].rpartition(' line ')[2]
    if not indices:
        return at
    return indices if is_one_place else f'{at}: {indices}'


def grouped_name(cumulatives, names):
    """The name of the array that the tasks' starts belong to, where it is one."""
    found = {names.variable(task.variable).partition('[')[0] for cumulative in cumulatives for task in cumulative.working
             if task.variable is not None}
    return found.pop() if len(found) == 1 else 'its start'


def places_text(cumulatives, names):
    """The first places of cumulatives in a model with what stands there, each once."""
    found = dict.fromkeys(names.constraint(one.constraint)[:2] for one in cumulatives)
    return '; '.join([f'{place}: {text}' for place, text in found if text][:3])


def machines_part(cumulatives, names):
    """Cumulatives whose tasks stand one behind the other, as one chart with a row for each."""
    places = {names.constraint(one.constraint)[0] for one in cumulatives}
    colours = charts.Colours(names)
    labels = [label_of(one, names, len(places) == 1) for one in cumulatives]
    if len(set(labels)) < len(labels):
        labels = [f'constraint {one.constraint.number}' for one in cumulatives]
    chart = charts.by_machine(cumulatives, labels, colours)
    count = sum(len(one.working) for one in cumulatives)
    groups = f' Number and colour of a bar: the first index of {grouped_name(cumulatives, names)}.' if colours.groups else ''
    caption = 'Each row has one task at a time.' + groups + merged_note(chart, count)
    return Part('One task at a time', places_text(cumulatives, names), chart, caption, *task_table(cumulatives, labels, names))


def orders_part(rows, names):
    """Rows of tasks that are ordered two by two, as one chart."""
    cumulatives, colours = [row.cumulative for row in rows], charts.Colours(names)
    labels = [label or f'row {number}' for number, label in enumerate(common_indices(rows, names), 1)]
    chart = charts.by_machine(cumulatives, labels, colours)
    count = sum(len(one.working) for one in cumulatives)
    groups = f' Number and colour of a bar: the first index of {grouped_name(cumulatives, names)}.' if colours.groups else ''
    caption = 'The model orders the tasks of each row two by two. A bar is as long as the next one has to wait.'
    caption += groups + merged_note(chart, count)
    return Part('One task at a time', places_text(cumulatives, names), chart, caption, *task_table(cumulatives, labels, names))


def cumulative_part(cumulative, names):
    """One cumulative: its tasks and what they use."""
    place, text, indices = names.constraint(cumulative.constraint)
    chart = charts.of_cumulative(cumulative, names, charts.Colours(names))
    most = max((use for _, use in cumulative.load()), default=0)
    count = len(cumulative.working)
    bars = 'The number in a bar is what the task uses. ' if any(label for *_, label in chart['bars']) else ''
    caption = f'{bars}Below: what all of them use, {most:,} of {cumulative.capacity:,} at most.' + merged_note(chart, count)
    idle = len(cumulative.tasks) - count
    caption += f' {idle:,} tasks use nothing or last no time, and are left out.' if idle else ''
    note = ', '.join(filter(None, [place if text else '', indices]))
    return Part(text or place, note, chart, caption, *task_table([cumulative], [''], names))


def tour_part(tour, names):
    """One circuit: its tour."""
    place, text, indices = names.constraint(tour.constraint)
    chart = charts.of_tour([str(one) for one in tour.places])
    last = ['…'] if len(tour.places) > ROWS else tour.places[:1]
    listed = said('p', ' → '.join(map(str, [*tour.places[:ROWS], *last])), class_='code')
    some = ' Some of the places have a label.' if not all(chart['places']) else ''
    caption = (f'{len(tour.places):,} places, numbered from 1, in the order in which they are visited, clockwise from the top; how far they '
               'are apart is not shown.')
    note = ', '.join(filter(None, [place if text else '', indices]))
    return Part(text or place, note, chart, caption + some, 'the tour as a list', listed)


@dataclass
class Parts:
    """The sections to be, and what is said of those that have no chart."""
    parts: list = field(default_factory=list)
    left: str = ''


def parts_of(known, orders, names):
    """The sections of what is known of a file's cumulatives, circuits and ordered tasks."""
    working = [one for one in known.cumulatives if one.working]
    single = [one for one in working if one.is_one_at_a_time()]
    others = [one for one in working if not one.is_one_at_a_time()]
    parts = [machines_part(single, names)] if single else []
    parts += [cumulative_part(one, names) for one in others[:OWN]] + [tour_part(one, names) for one in known.tours[:OWN] if one.places]
    if orders is not None and orders.rows:
        parts.append(orders_part(orders.rows, names))
    left = known.passed_over + max(0, len(others) - OWN) + max(0, len(known.tours) - OWN)
    lines = []
    if left:
        lines.append(f'{left:,} further cumulatives and circuits have no chart here.')
    if known.unknown:
        lines.append(f'Of {known.unknown:,} cumulatives and circuits the arguments could not be told.')
    if orders is not None and orders.rows and orders.unknown:
        lines.append(f'{orders.unknown:,} further rows of tasks that are ordered two by two have no chart here.')
    return Parts(parts, ' '.join(lines))
