"""Why, on a page: the texts of the model with the lines marked that clash, and the cases beside them."""
from dataclasses import dataclass, field

from nickelmouse.report.html import element, escaped, said

# A file with more lines is shown around its marks alone, with so many lines above and below.
WHOLE, AROUND = 250, 3
# So many cases of one place are listed.
CASES = 24


@dataclass
class Marked:
    """A mark on a text, from a line and a column to others, all counted from 1 and included: whether it is on a declaration that counts as
    given, and the cases beside it."""
    begin: tuple
    end: tuple
    is_given: bool
    cases: list = field(default_factory=list)

    def columns(self, number, line):
        """The characters of a line that the mark is on, as a slice has them."""
        first = self.begin[1] - 1 if number == self.begin[0] else len(line) - len(line.lstrip())
        return first, self.end[1] if number == self.end[0] else len(line)


def marks_on(marks, number):
    """The marks on a line."""
    return [mark for mark in marks if mark.begin[0] <= number <= mark.end[0]]


def kind_of(marks):
    """How a line with these marks is shown: a clash goes before what is given."""
    return '' if not marks else 'given' if all(mark.is_given for mark in marks) else 'clash'


def underlined(line, marks, number):
    """A line as HTML, with what clashes there underlined."""
    pieces, last = [], 0
    for first, behind in sorted(mark.columns(number, line) for mark in marks if not mark.is_given):
        first, behind = max(first, last), min(behind, len(line))
        if first < behind:
            pieces += [escaped(line[last:first]), said('mark', line[first:behind])]
            last = behind
    return ''.join(pieces) + escaped(line[last:])


def shown_lines(count, marks):
    """The numbers of the lines that are shown."""
    if count <= WHOLE:
        return list(range(1, count + 1))
    shown = {number for mark in marks for number in range(mark.begin[0] - AROUND, mark.end[0] + AROUND + 1)}
    return sorted(number for number in shown if 1 <= number <= count)


def cases_at(marks, number):
    """What stands beside a line: the cases of the marks that begin there."""
    cases = []
    for mark in marks:
        if mark.begin[0] == number:
            cases += mark.cases[:CASES] + ([f'and {len(mark.cases) - CASES:,} more'] if len(mark.cases) > CASES else [])
    return element('ul', ''.join(said('li', case) for case in cases)) if cases else ''


def listing(lines, marks):
    """A text, by its lines, with its marks."""
    rows, last = [], 0
    lines = lines[:-1] if lines and not lines[-1] else lines
    for number in shown_lines(len(lines), marks):
        if number != last + 1:
            rows.append(element('tr', element('td', '') + said('td', '…') + element('td', ''), class_='gap'))
        last, here = number, marks_on(marks, number)
        cells = said('td', number, class_='line') + element('td', underlined(lines[number - 1], here, number) or ' ', class_='code')
        rows.append(element('tr', cells + element('td', cases_at(here, number), class_='cases'), class_=kind_of(here)))
    return element('div', element('table', '\n'.join(rows), class_='model'), class_='wide')


def marks_of_model(model, parts):
    """The marks on the files of a MiniZinc model, by the paths of these: of parts, and of what is given for them."""
    files, marks = {}, {}
    for part in parts:
        if part.step is None:
            continue
        key = part.step.file, part.step.begin, part.step.end
        if key not in marks:
            marks[key] = Marked(*model.source.span(part.step), False)
            files.setdefault(part.step.file, []).append(marks[key])
        if part.indices:
            marks[key].cases.append(part.indices)
    for step, sets in model.given_for(parts):
        files.setdefault(step.file, []).append(Marked(step.begin, step.end, True, ['given: in ' + ' or '.join(sorted(sets))]))
    return files


def marks_of_file(model, parts):
    """The marks on a FlatZinc file: a constraint may go over several lines."""
    marks = []
    for one in (model.constraints[number] for part in parts for number in part.constraints):
        lines = model.text_of(one.number).split('\n')
        end = len(lines[-1]) + (one.column - 1 if len(lines) == 1 else 0)
        marks.append(Marked((one.line, one.column), (one.line + len(lines) - 1, end), False, [f'constraint {one.number}']))
    return marks
