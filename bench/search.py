"""search.py OUT [--seed N] [--rounds N]: looks for the table and the record whose step executes the most instructions, of ours and of fast.c.

First trials (bench/trial.h) are drawn by chance. The dearest of them climb: in each round every climber has children, which differ from it by a few
changes, and the dearest child takes its place, unless it is cheaper. From time to time only the dearer half climbs on, until one climber has
all the children. OUT has the program `search`, which makes the trials and runs them under `count`, and gets what that writes.

The worst trials found so far are kept in bench/worst; a worse one takes the place of a kept one."""
import argparse
import os
import platform
import subprocess

HERE = os.path.dirname(os.path.abspath(__file__))
STEPS = {'ours': 'locktable_step', 'fast': 'fast_step'}
TRIAL = 882 + 4  # bytes: a table and a record
DRAWN, CLIMBERS, HALVINGS, CHILDREN = 20000, 32, 5, 3000
TRIALS, CLIMBING, CALLS, COUNTS = 'search.trials', 'search.climbing', 'search.calls', 'search.count'


def program(*words):
    """What `search` writes, as bytes."""
    run = [] if platform.machine() == 'x86_64' else ['qemu-x86_64']
    return subprocess.run(run + ['./search'] + [str(w) for w in words], stdout=subprocess.PIPE, check=True).stdout


def cut(trials):
    return [trials[i:i + TRIAL] for i in range(0, len(trials), TRIAL)]


def write(path, trials):
    with open(path, 'wb') as f:
        f.write(b''.join(trials))


def counted(side, trials):
    """Each trial with what its step costs before it."""
    write(TRIALS, trials)
    subprocess.run([f'{HERE}/count', '-t', '0', '-f', STEPS[side], '-e', CALLS, './search', 'run', side, TRIALS],
                   env=dict(os.environ, COUNT_OUT=COUNTS), check=True)
    costs = [int(line.split()[1]) for line in open(CALLS)]
    assert len(costs) == len(trials), f'{len(trials)} trials, {len(costs)} counts'
    return list(zip(costs, trials))


def dearest(found, most):
    """So many of the dearest; of equals those that were found first."""
    return sorted(found, key=lambda pair: -pair[0])[:most]


def climb(side, climbers, seed):
    """One round. An equal child takes the climber's place too: so it comes past places where no single change makes it dearer."""
    write(CLIMBING, [trial for _, trial in climbers])
    after = list(climbers)
    for i, child in enumerate(counted(side, cut(program('climb', seed, CHILDREN, CLIMBING)))):
        k = i % len(climbers)
        if child[0] >= after[k][0]:
            after[k] = child
    return after


def tidied(side, found):
    """The same with small numbers, unless that is cheaper."""
    write(CLIMBING, [found[1]])
    return max(counted(side, [program('tidy', CLIMBING), found[1]]), key=lambda pair: pair[0])


def search(side, seed, rounds):
    """The dearest trial found, with its cost before it."""
    climbers = dearest(counted(side, cut(program('draw', seed * 1000000, DRAWN))), CLIMBERS)
    print(f'{side}: {climbers[0][0]:,} of {DRAWN:,} trials by chance', flush=True)
    for n in range(1, rounds + 1):
        climbers = dearest(climb(side, climbers, seed * 1000000 + n), CLIMBERS >> n * (HALVINGS + 1) // (rounds + 1))
        if n * 10 // rounds > (n - 1) * 10 // rounds:
            print(f'{side}: {climbers[0][0]:,} after {n} rounds, climbing: {len(climbers)}', flush=True)
    return tidied(side, climbers[0])


def keep(side, found, command):
    """Writes the trial to bench/worst if it is worse than the kept one, and says what was found either way."""
    path = f'{HERE}/worst/{side}.table'
    cost, trial = found
    kept = counted(side, [program('take', path)])[0][0] if os.path.exists(path) else 0
    write(CLIMBING, [trial])
    text = program('show', CLIMBING).decode()
    print(f'{side}: the worst found takes {cost:,} instructions:\n{text}', end='')
    if cost <= kept:
        print(f'{side}: nothing worse was found than the kept one, which takes {kept:,}; bench/worst/{side}.table stays')
        return
    with open(path, 'w') as f:
        f.write(f'# The worst table found for {STEPS[side]}, by {command}:\n# {cost:,} instructions then. bench/trial.h says how to read it.\n{text}')
    print(f'{side}: worse than the kept one, which takes {kept:,}; written: bench/worst/{side}.table')


def main():
    words = argparse.ArgumentParser()
    words.add_argument('out')
    words.add_argument('--seed', type=int, default=1)
    words.add_argument('--rounds', type=int, default=150)
    given = words.parse_args()
    os.chdir(given.out)
    for side in STEPS:
        keep(side, search(side, given.seed, given.rounds), f'bench/run --search --seed {given.seed} --rounds {given.rounds}')


main()
