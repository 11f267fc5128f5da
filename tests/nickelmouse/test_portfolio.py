"""Portfolios: small scripts stand for the two programs. That of fznsolve knows by the path of its certificate which worker it is."""
import contextlib
import io
import os
import tempfile
import threading
import time
import unittest

from nickelmouse import portfolio
from nickelmouse.bound import Bound
from nickelmouse.files import Files
from nickelmouse.mending import Mended
from nickelmouse.portfolio import Portfolio, Setting
from nickelmouse.running import Ended, Programs, Refused

TEXT = b'var 0..9: x;\nvar 0..9: y;\nvar 0..99: z :: output_var;\nconstraint int_le(x,9);\nsolve minimize z;\n'
GOALS = {'minimize': 'goal minimize 3 bytes 73..89', 'satisfy': 'goal satisfy bytes 73..89'}
ITEMS = """var 1 x int 0..9 bytes 1..12
var 2 y int 0..9 bytes 14..25
var 3 z int 0..99 bytes 27..54 output
constraint 1 int_le line 4 column 1 bytes 56..78 : 1
search input_order indomain_min : 1 2
%s
end parameters 0 variables 3 arrays 0 constraints 1 mended 0
"""
# Prints the solutions of a certificate, all where it is asked for, and whether it is closed; and behind that a bound, which stands in it as a
# comment does not.
CHECK = """every=; bound=
while :; do case "$1" in -a) every=yes ;; --bound) bound=yes ;; *) break ;; esac; shift; done
cat "$2" >"$0.$$"
if grep -q wrong "$0.$$"; then rm "$0.$$"; echo 'certificate line 3: fault 31 Step' >&2; exit 1; fi
if [ $every ]; then grep '^s ' "$0.$$"; else grep '^s ' "$0.$$" | tail -1; fi
grep -q closed "$0.$$" && echo ==========
if [ $bound ]; then
    value=$(grep '^s ' "$0.$$" | tail -1 | cut -d' ' -f4); least=$(grep '^d ' "$0.$$" | tail -1 | cut -d' ' -f2)
    if grep -q closed "$0.$$"; then echo "z = $value, the best"; elif [ $value ]; then echo "z = $value, at least ${least:-0}"
    else echo "at least ${least:-0}"; fi
fi
rm "$0.$$"
"""
HEAD = "printf 'fzc 2\\nvars 3 cons 1\\n' >$cert\n"
# Waits until the plain run has been handed this solution of a neighbourhood.
HANDED = "until grep -qs 's 1 1 5' $(dirname $cert)/hints; do sleep 0.02; done"
PATIENCE = 30  # seconds


class PortfolioTest(unittest.TestCase):
    """Who ends a run, and whose certificate is the answer."""

    def setUp(self):
        self.folder = tempfile.TemporaryDirectory()
        self.files = Files(self.folder.name)
        self.files.write('model.fzn', TEXT)
        self.kept = portfolio.ALONE
        portfolio.ALONE = 0.05

    def tearDown(self):
        portfolio.ALONE = self.kept
        self.folder.cleanup()

    def script(self, name, text):
        """Writes a program."""
        self.files.write(name, b'#!/bin/sh\n' + text.encode())
        os.chmod(self.files.path(name), 0o755)
        return self.files.path(name)

    def portfolio(self, plain, other='exec sleep 60', near='exec sleep 60', jobs=3, goal='minimize', derived='echo fzc 2 >$cert', **options):
        """Several workers: what the plain run does, what another whole run does, what a run over a neighbourhood does, what one
        does that derives constraints and decides nothing."""
        solve = self.script('solve', f"""for word; do [ "$before" = --cert ] && cert=$word; before=$word; model=$word; done
case $model:$cert in
*/model.fzn:*/model.fzc) {HEAD}{plain} ;;
*/model.fzn:*/derived.fzc) {derived} ;;
*/model.fzn:*) {HEAD}{other} ;;
*) {HEAD}{near} ;;
esac
""")
        self.files.write('items', (ITEMS % GOALS[goal]).encode())
        check = self.script('check', f'if [ "$1" = --items ]; then cat {self.files.path("items")}; exit 0; fi\n{CHECK}')
        options = {'checking': ['--bound'] if goal == 'minimize' else [], 'keeps': True, **options}
        return Portfolio(Setting(Programs(solve, check), self.files, [], jobs=jobs, **options), Mended(TEXT, False, goal))

    def handed(self, solution=b's 1 1 5\n'):
        """Whether the whole runs have been handed a solution of a neighbourhood."""
        return os.path.exists(self.files.path('hints')) and solution in self.files.read('hints')

    def cut(self, run, is_time):
        """Cuts a run as soon as it is time, and in any case after PATIENCE."""
        end = time.monotonic() + PATIENCE
        while not is_time() and time.monotonic() < end:
            time.sleep(0.02)
        run.cut()

    def told(self, run, is_time=None):
        """The answer of a run, which is cut where that is said as soon as it is time, and its certificate without its first two lines."""
        if is_time is not None:
            threading.Thread(target=self.cut, args=(run, is_time), daemon=True).start()
        with contextlib.redirect_stderr(io.StringIO()) as said:
            run.run()
        self.said = said.getvalue()
        self.assertEqual([name for name in os.listdir(self.folder.name) if 'worker' in name], [])
        return self.files.read('model.answer').decode().splitlines(), self.files.read('model.fzc').decode().splitlines()[2:]

    def test_alone(self):
        """A plain run that ends soon has no others beside it."""
        portfolio.ALONE = 30
        answer, lines = self.told(self.portfolio("printf 's 1 1 2\\ne closed\\n' >>$cert", other="touch $0.begun"))
        self.assertEqual((answer, lines), (['s 1 1 2', '=' * 10], ['s 1 1 2', 'e closed']))
        self.assertFalse(os.path.exists(self.files.path('solve.begun')))

    def test_another_ends(self):
        """The first whole run that ends closed ends all."""
        run = self.portfolio("printf 's 1 1 5\\n' >>$cert; exec sleep 60", "printf 's 1 1 2\\ne closed\\n' >>$cert")
        self.assertEqual(self.told(run), (['s 1 1 2', '=' * 10], ['s 1 1 2', 'e closed']))
        self.assertIsNone(run.bound)

    def test_derives(self):
        """Where constraints are derived one of the others derives them; where that takes too long, or fails, none does."""
        cases = [('echo fzc 3 >$cert', True), ('echo fzc 2 >$cert', False), ('exec sleep 60', False), ('exit 5', False)]
        for derived, is_so in cases:
            other = "printf 's 1 1 2\\ne closed\\n' >>$cert; echo $* >$0.words"
            run = self.portfolio("printf 's 1 1 5\\n' >>$cert; exec sleep 60", other, derived=derived)
            self.assertEqual(self.told(run), (['s 1 1 2', '=' * 10], ['s 1 1 2', 'e closed']))
            self.assertEqual(b'--derive' in self.files.read('solve.words'), is_so, derived)

    def test_another_is_open(self):
        """A further run that has made its last decision does not end the plain one."""
        run = self.portfolio("sleep 0.5; printf 's 1 1 2\\ne closed\\n' >>$cert", "printf 's 1 1 5\\ne open\\n' >>$cert")
        self.assertEqual(self.told(run)[0], ['s 1 1 2', '=' * 10])

    def test_closed_neighbourhoods(self):
        """Neighbourhoods without a solution are closed, while the whole has a better one."""
        near = 'echo >>$0.tried; echo e closed >>$cert'
        plain = "until [ $(cat $0.tried | wc -l) -gt 8 ]; do sleep 0.02; done 2>$0.waited"
        run = self.portfolio(f"printf 's 1 1 5\\n' >>$cert; {plain}; printf 's 2 1 3\\ne closed\\n' >>$cert", near=near)
        self.assertEqual(self.told(run), (['s 2 1 3', '=' * 10], ['s 1 1 5', 's 2 1 3', 'e closed']))
        self.assertGreater(sum(run.neighbours[0].trials.values()), 5)
        self.assertEqual(sum(run.neighbours[0].gains.values()), 0)
        run = self.portfolio("printf 's 1 1 5\\n' >>$cert; exec sleep 60", near=near)
        tried = self.files.path('solve.tried')
        os.remove(tried)
        self.assertEqual(self.told(run, lambda: os.path.exists(tried)), (['s 1 1 5'], ['s 1 1 5', 'e open']))

    def test_exhausted(self):
        """Where neighbourhoods are of no more use, a worker makes a whole run in their place."""
        other = "case $cert in *worker3*) printf 's 1 1 2\ne closed\n' >>$cert ;; *) exec sleep 60 ;; esac"
        run = self.portfolio("printf 's 1 1 5\n' >>$cert; exec sleep 60", other, 'echo e closed >>$cert', 4)
        self.assertEqual(self.told(run), (['s 1 1 2', '=' * 10], ['s 1 1 2', 'e closed']))
        self.assertEqual([whole.search.name for whole in run.others], ['worker2', 'worker3'])

    def test_a_better_one_of_a_neighbourhood(self):
        """At the end of the time the best solution is shown, with the best bound that a whole run has proved; the next ones are handed on."""
        near = "grep -q 'int_le(z,8)' $model && printf 's 1 1 5\\ns 1 1 4\\n' >>$cert; echo e closed >>$cert"
        run = self.portfolio("printf 's 9 9 9\\n' >>$cert; exec sleep 60", "printf 'd 3\\n' >>$cert; exec sleep 60", near)
        self.assertEqual(self.told(run, lambda: self.handed(b's 1 1 4\n')), (['s 1 1 4'], ['s 1 1 4', 'e open']))
        self.assertEqual((run.bound, run.value), (Bound('z', 4, 'at least', 3), 4))
        self.assertEqual(self.files.read('bound.fzc'), b'fzc 2\nvars 3 cons 1\nd 3\ne open\n')
        self.assertEqual(self.files.read('hints'), b's 9 9 9\ns 1 1 4\n')

    def test_hints(self):
        """What a neighbourhood has found goes into the certificate of a run that reads it."""
        plain = f"printf 's 9 9 9\\n' >>$cert; {HANDED}; tail -1 $(dirname $cert)/hints >>$cert; touch $0.read; exec sleep 60"
        run = self.portfolio(plain, near="printf 's 1 1 5\\ne closed\\n' >>$cert")
        self.assertEqual(self.told(run, lambda: os.path.exists(self.files.path('solve.read'))), (['s 1 1 5'], ['s 9 9 9', 's 1 1 5', 'e open']))

    def test_every_solution(self):
        """Where every solution is printed, each that was better than all before it."""
        run = self.portfolio("printf 's 9 9 9\\n' >>$cert; exec sleep 60", near="printf 's 1 1 5\\ne closed\\n' >>$cert", checking=['-a', '--bound'])
        self.assertEqual(self.told(run, self.handed), (['s 9 9 9', 's 1 1 5'], ['s 9 9 9', 's 1 1 5', 'e open']))

    def test_a_wrong_one(self):
        """A solution that is none is not accepted: the best of the whole runs is the answer."""
        run = self.portfolio("printf 's 9 9 9\\n' >>$cert; exec sleep 60", near="printf 's wrong 1 5\\ne closed\\n' >>$cert")
        self.assertEqual(self.told(run, lambda: run.neighbours and not run.neighbours[0].is_alive()), (['s 9 9 9'], ['s 9 9 9', 'e open']))

    def test_a_run_dies(self):
        """One that is killed is left out, whichever it is."""
        closed = "sleep 0.5; printf 's 1 1 2\\ne closed\\n' >>$cert"
        for plain, other, near in ((closed, 'kill -9 $$', 'kill -9 $$'), ('sleep 0.2; kill -9 $$', closed, 'exit 5'), (closed, 'exit 2', 'exit 3')):
            self.assertEqual(self.told(self.portfolio(plain, other, near, 4))[0], ['s 1 1 2', '=' * 10])

    def test_all_die(self):
        """What was found before is the answer."""
        run = self.portfolio("printf 's 9 9 9\\n' >>$cert; sleep 0.5; kill -9 $$", 'kill -9 $$', 'kill -9 $$')
        self.assertEqual(self.told(run), (['s 9 9 9'], ['s 9 9 9', 'e open']))
        self.assertEqual(self.said, 'the search ended early: killed by signal 9\n')

    def test_refused(self):
        with self.assertRaises(Refused):
            self.told(self.portfolio('echo line 1 column 1: fault 3 Syntax >&2; exit 2'))

    def test_rejected(self):
        with self.assertRaises(Ended) as end:
            self.told(self.portfolio("sleep 0.2; printf 'wrong\\ne closed\\n' >>$cert"))
        self.assertEqual(end.exception.lines, ('the certificate is rejected',))

    def test_its_own_limit(self):
        """The plain run's last decision ends all; a better solution of a neighbourhood is shown."""
        run = self.portfolio(f"printf 's 9 9 9\\n' >>$cert; {HANDED}; printf 'e open\\n' >>$cert", near="printf 's 1 1 5\\ne closed\\n' >>$cert")
        self.assertEqual(self.told(run), (['s 1 1 5'], ['s 1 1 5', 'e open']))

    def test_satisfaction(self):
        """The first with as many solutions as are wanted, or with all, ends all."""
        for wanted, other, answer in ((1, "printf 's 1 2 3\\ne open\\n' >>$cert", ['s 1 2 3']), (1, 'echo e closed >>$cert', ['=' * 10]),
                                      (2, "printf 's 1 2 3\\ns 2 2 3\\ne open\\n' >>$cert", ['s 1 2 3', 's 2 2 3']),
                                      (None, "printf 's 1 2 3\\ne closed\\n' >>$cert", ['s 1 2 3', '=' * 10])):
            run = self.portfolio('exec sleep 60', other, goal='satisfy', jobs=2, wanted=wanted, checking=['-a'])
            self.assertEqual(self.told(run)[0], answer)

    def test_satisfaction_left_open(self):
        """At the end of the time the solutions of one run are the answer, those of the plain one where it has as many."""
        plain = "printf 's 1 1 1\\n' >>$cert; exec sleep 60"
        found = self.files.path('solve.found')
        for other, answer in (("printf 's 2 2 2\\n' >>$cert; touch $0.found; exec sleep 60", ['s 1 1 1']),
                              ("printf 's 2 2 2\\ns 3 3 3\\n' >>$cert; touch $0.found; exec sleep 60", ['s 2 2 2', 's 3 3 3'])):
            run = self.portfolio(plain, other, goal='satisfy', jobs=2, wanted=None, checking=['-a'])
            self.assertEqual(self.told(run, lambda: os.path.exists(found))[0], answer)
            os.remove(found)

    def test_shown(self):
        """What is printed as it is found is the plain run's, and the beginning of the answer."""
        shown = io.BytesIO()
        plain = "printf 's 9 9 9\\n' >>$cert; printf 's 9 9 9\\n'; exec sleep 60"
        run = self.portfolio(plain, near="printf 's 1 1 5\\ne closed\\n' >>$cert", shown=shown, checking=['-a', '--bound'])
        self.assertEqual(self.told(run, self.handed)[0], ['s 9 9 9', 's 1 1 5'])
        self.assertEqual((shown.getvalue(), run.others), (b's 9 9 9\n', []))


if __name__ == '__main__':
    unittest.main()
