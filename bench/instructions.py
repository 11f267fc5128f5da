#!/usr/bin/env python3
"""What a change costs, counted and not timed: instructions, wrong jumps and cache misses of two builds of fznsolve, by callgrind.

    bench/instructions.py [--nodes N] [--words 'WORDS'] [--plain] BEFORE AFTER MODEL ..

Each model is run by both programs with `-f`, or the words, up to N decisions (700), with a certificate. A row has the model, what both did (millions
of instructions, of jumps that were foreseen wrongly, of misses of a first cache of 32 KB and of a second of 1 MB), the ratio of the sums by these
weights: 0.05 ns an instruction, 10 a wrong jump, 3.7 and 18 a miss, and whether answers and certificates are the same bytes. With --plain
instructions alone are counted, three times as fast, and the ratio is theirs. The last line has the geometric mean, the greatest ratio, and how many
certificates differ; the status is 1 where one does."""
import argparse
import math
import os
import re
import shlex
import subprocess
import sys
import tempfile

CACHES = ['--branch-sim=yes', '--cache-sim=yes', '--I1=32768,8,64', '--D1=32768,8,64', '--LL=1048576,16,64']
WEIGHTS = {'instructions': 0.05, 'jumps': 10, 'first': 3.7, 'second': 18}


def total(said, name):
    """A number of callgrind's summary, 0 where it has none of this name."""
    found = re.search(name + r'\s*:\s*([\d,]+)', said)
    return int(found[1].replace(',', '')) if found else 0


def counted(program, options, model, folder):
    """What a run counts, and the bytes of its answer and its certificate."""
    certificate = os.path.join(folder, 'certificate')
    counting = ['valgrind', '--tool=callgrind', f'--callgrind-out-file={os.devnull}', *([] if options.plain else CACHES)]
    command = [*counting, program, *shlex.split(options.words), '--nodes', str(options.nodes), '--cert', certificate, model]
    done = subprocess.run(command, capture_output=True)
    said = done.stderr.decode('utf-8', 'replace')
    numbers = {'instructions': total(said, 'I +refs') or total(said, 'Collected'), 'jumps': total(said, 'Mispredicts'),
               'first': total(said, 'I1 +misses') + total(said, 'D1 +misses'), 'second': total(said, 'LL misses')}
    with open(certificate, 'rb') as file:
        return numbers, (done.stdout, file.read())


def main():
    words = argparse.ArgumentParser(description=__doc__, formatter_class=argparse.RawDescriptionHelpFormatter)
    words.add_argument('before')
    words.add_argument('after')
    words.add_argument('models', nargs='+', metavar='MODEL')
    words.add_argument('--nodes', type=int, default=700)
    words.add_argument('--words', default='-f')
    words.add_argument('--plain', action='store_true')
    options = words.parse_args()
    ratios, differing = [], 0
    for model in options.models:
        with tempfile.TemporaryDirectory() as folder:
            (before, old), (after, new) = (counted(program, options, model, folder) for program in (options.before, options.after))
        cost = [sum(weight * run[name] for name, weight in WEIGHTS.items()) for run in (before, after)]
        ratios.append(cost[1] / max(cost[0], 1))
        differing += old != new
        pairs = ''.join(f'  {before[name] / 1e6:8.2f} {after[name] / 1e6:8.2f}' for name in WEIGHTS if not options.plain or name == 'instructions')
        print(f'{os.path.basename(model).removesuffix(".fzn"):20}{pairs}  {ratios[-1]:.3f}  {"same" if old == new else "OTHER"}', flush=True)
    mean = math.exp(sum(map(math.log, ratios)) / len(ratios))
    print(f'{len(ratios)} models: {mean:.3f} in the geometric mean, {max(ratios):.3f} at most, {differing} certificates differ')
    return 1 if differing else 0


if __name__ == '__main__':
    sys.exit(main())
