"""The two kinds of pages: about an answer, and about why there is none, or none better."""
import os

from nickelmouse.kept import BOUND_CERTIFICATE
from nickelmouse.proved import UNPROVED, is_proved
from nickelmouse.report.foot import Checked, foot
from nickelmouse.report.html import element, page, plural, said, section
from nickelmouse.report.listing import listing, marks_of_file, marks_of_model
from nickelmouse.report.pictures import pictures_of
from nickelmouse.report.sections import course_part, parts_of, seconds_text
from nickelmouse.report.state import State
from nickelmouse.report.target import read_by
from nickelmouse.why import Compiled
from nickelmouse.words import default_jobs

LEAD = ('fznsolve has searched, and written a certificate of its answer. fzncheck, a separate program, has read the compiled file and the '
        'certificate, and has found that the answer follows. ')
PROVED = 'fzncheck is proved: what it accepts is true of the compiled file, whatever the search did.'
UNCERTAIN = 'This fzncheck was built without proof: that it is right is believed.'
COMPILER = ' The step from the model to the compiled file is the work of MiniZinc, which is trusted.'


def title_of(asked):
    """What a page is called: the names of the model and its data."""
    return ' '.join(os.path.basename(path) for path in asked.files)


def head(asked, verdict, last, facts):
    """The head of a page: what it is about, the answer in one line, what was checked, and a few numbers."""
    is_sure = UNPROVED not in last
    lines = said('h1', title_of(asked)) + said('p', verdict, class_='verdict')
    lines += said('p', last, class_='checked' if is_sure else 'unproved')
    if facts:
        lines += element('dl', ''.join(element('div', said('dt', name) + said('dd', value)) for name, value in facts), class_='facts')
    return element('header', lines) + '\n'


def lead_of(asked, programs):
    """What is said above the sums."""
    return LEAD + (PROVED if is_proved(programs.check) else UNCERTAIN) + ('' if asked.is_flat else COMPILER)


def words_again(asked, **others):
    """The command line, as far as it makes the same page: the model and what goes with it."""
    words = ['nickelmouse', *(['--why'] if asked.explaining else []), *(word for word in asked.solving if word != '--progress')]
    jobs = None if asked.explaining or asked.jobs == default_jobs() else asked.jobs
    others = {'jobs': jobs, 'bounds': asked.bounds, 'try-nodes': asked.try_nodes, 'time-limit': asked.time_limit, 'start': asked.start,
              **others}
    for name, value in others.items():
        if value is not None:
            words += [f'--{name}', f'{value:g}' if isinstance(value, float) else str(value)]
    return words + (asked.files if asked.is_flat else asked.compiling)


def verdict_of(state, lines):
    """The answer in one line."""
    if state.goal is not None and state.solution is not None:
        best = f'{state.objective()} = {state.solution[state.goal - 1]}'
        if state.is_closed():
            return f'{best}, and no solution is better'
        return lines[0] if len(lines) > 1 else f'{best}; better ones may be left'
    if state.solution is not None:
        return 'There is a solution' if not state.is_closed() else 'These are all solutions'
    return 'There is no solution' if state.is_closed() else 'No solution was found before the search ended'


def facts_of(state):
    """A few numbers about an answer."""
    facts = []
    if state.course is not None:
        best, proved = state.course.best(), state.course.proved()
        if best:
            facts += [('best found', f'{best[-1][1]:,}'), ('found after', f'{seconds_text(best[-1][0])} s')]
        if proved:
            facts.append(('none below' if state.course.is_minimized else 'none above', f'{proved[-1][1]:,}'))
    facts.append(('solutions', f'{state.solutions:,}'))
    return facts + [('search', f'{seconds_text(state.growth.seconds())} s')]


def answer_section(state, lines):
    """The answer, as it was printed, with its last lines."""
    text, is_whole = state.answer()
    return section('The answer', said('pre', text + ('' if is_whole else '\n..\n') + '\n'.join(lines)),
                   note='' if is_whole else 'Its beginning and its last lines; what stands between was printed.')


def made_in(files, *names):
    """The files of a run that are there, with what they are."""
    return [(what, files.path(name)) for what, name in names if os.path.exists(files.path(name))]


def answer_page(reporting, files, growth, lines):
    """The page about an answer."""
    asked, programs = reporting.asked, reporting.programs
    state = State(programs, files, growth, (reporting.values, reporting.bounds), lines)
    parts = [course_part(state.course, state.objective())] if state.course is not None and state.course.values else []
    known, orders = state.known()
    left = ''
    if known is not None:
        found = parts_of(known, orders, state.names)
        parts, left = parts + found.parts, found.left
    pictures, missing = pictures_of([part.chart for part in parts])
    body = head(asked, verdict_of(state, lines), lines[-1], facts_of(state))
    body += said('p', missing, class_='note') if missing else ''
    charts = [part.section(pictures[place] if pictures is not None else None) for place, part in enumerate(parts)]
    body += answer_section(state, lines) + ''.join(charts) + (said('p', left, class_='note') if left else '')
    made = made_in(files, ('compiled file' if not asked.is_flat else 'file as solved', 'model.fzn'), ('certificate', 'model.fzc'),
                   ('certificate of the bound', BOUND_CERTIFICATE))
    checked = Checked(read_by(asked.files, asked.compiling, asked.start), made, asked.keep, words_again(asked, keep='FOLDER'))
    return page(title_of(asked), body + foot(checked, programs, lead_of(asked, programs)))


def why_page(asked, programs, files, why, lines):
    """The page about why there is no solution, or none better. The lines were printed last: within which bounds that is so."""
    model = why.model
    best, does = ('There is no solution', 'clash') if why.end.best is None else (
        f'{model.objective()} = {why.end.best} is the best', 'rule out a better one')
    last = ' '.join(['checked', *lines]) + ('' if is_proved(programs.check) else f', {UNPROVED}')
    body = head(asked, f'{best}: {plural(len(why.kept), "constraint", "constraints")} of {len(model.parts):,} {does}', last, [])
    note = f'The answer follows from the marked lines alone, in the cases beside them. {minimal_text(why)}'
    body += why_sections(files, model, why.kept, note)
    body += section('As printed', said('pre', '\n'.join(why.lines()), class_='wrapped'))
    made = made_in(files, ('compiled file' if not asked.is_flat else 'file as solved', 'model.fzn'))
    checked = Checked(read_by(asked.files, asked.compiling, asked.start), made, asked.keep, words_again(asked), True)
    lead = ('fzncheck --core has found in the compiled file that the answer follows from these constraints, with a proof behind it. '
            'A constraint counts as needed where fzncheck has accepted another answer without it. ')
    return page(title_of(asked), body + foot(checked, programs, lead + (PROVED if is_proved(programs.check) else UNCERTAIN)))


def minimal_text(why):
    """Whether all that is marked is needed."""
    if not why.undecided:
        return 'Without any one of them there is another answer.'
    return f'Of {plural(len(why.undecided), "constraint", "constraints")} it is open whether the answer needs them.'


def why_sections(files, model, shown, note):
    """The texts with the lines marked that clash, a section for each file."""
    if not isinstance(model, Compiled):
        text = files.read('model.fzn').decode('latin-1').split('\n')
        return section('What clashes', listing(text, marks_of_file(model, shown)), note=note)
    body = ''
    for path, marks in sorted(marks_of_model(model, shown).items()):
        body += section(os.path.relpath(path) if not os.path.relpath(path).startswith('..') else path,
                        listing(model.source.lines(path), marks), note=note)
        note = ''
    return body
