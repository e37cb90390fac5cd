"""figures.py DIR: the figures that `bench/run --figures` counted in DIR, as a page.

A goal that is not met is said so on the page, in the sentence with the figure."""
import os
import sys

BENCH = os.path.dirname(os.path.abspath(__file__))

WORKLOADS = {
    'small': 'the vector `small`',
    'contended': 'the records `contended`',
    'chain_of_16': 'the vector `chain_of_16`',
    'live_2': 'busy history, 2 live threads',
    'live_8': 'busy history, 8 live threads',
    'live_32': 'busy history, 32 live threads',
    'rising_32': 'chain of sixteen holders, rising ids, growing to 32 live threads',
    'falling_32': 'the same chain, falling ids',
    'falling_apart_32': 'the same chain, falling ids, set times 64 apart',
    'crowd_32': '31 threads wait at one resource, growing to 32 live threads',
    'chains_32': '1,000 made chains of sixteen holders, 32 live threads',
    'chains_apart_32': '1,000 such chains, set times 64 apart',
    'made_32': 'one event on each of 2,000 made tables, 29 to 32 live threads',
    'worst_ours_32': 'the worst table found for ours',
    'worst_fast_32': 'the worst table found for `fast.c`',
}
# Of the log: what the block has before the call, and what comes of it.
LOGS = {
    'log_fresh': 'a record that starts a block',
    'log_1': 'behind 1 record',
    'log_62': 'behind 62 records',
    'log_124': 'behind 124 records',
    'log_goes_on': 'behind 1 to 124 records, the mean',
    'log_block': 'all 125 records of a block, the mean',
    'log_refused': 'refused with 14: one byte of 62 records changed',
}
# Of a log that is read back, one full block: the history in it, by its live threads; and how it is read, with the call that is counted.
READ_THREADS, BLOCK_RECORDS = [2, 8, 32], 125
WAYS_TO_READ = {'whole': 'replay', 'changed': 'replay', 'stepped': 'step'}
# Of the terminal, on the table of a shipment that has just started: the call, and what it does or why it is refused.
TASKS = {
    'terminal_start': ('terminal_start', 'a shipment starts'),
    'terminal_added': ('terminal_spare', 'a spare task without a priority'),
    'terminal_added_at': ('terminal_spare_at', 'a spare task with one'),
    'terminal_created': ('step', 'the same Create'),
    'terminal_outside': ('terminal_spare_at', 'refused with 17: the id of a fixed task'),
    'terminal_live': ('terminal_spare_at', 'refused with 6: live already'),
}
# What was found by the search, one event each.
FOUND = ['worst_ours_32', 'worst_fast_32']
KINDS = {
    'create': 'Create', 'exit': 'Exit', 'set': 'Set', 'p_free': 'P, free', 'p_taken': 'P, taken',
    'v_last': 'V, nobody waits', 'v_heir': 'V, somebody waits', 'refused': 'refused',
}
EVENTS, P, V = ['', 'Create', 'Exit', 'Set', 'P', 'V'], 4, 5
RESOURCES, MARKS = 16, 64  # MARKS as in crates/slots/src/times.rt
CALLS = ['step', 'running', 'thread', 'resource', 'empty', 'log', 'replay', 'terminal_start', 'terminal_spare', 'terminal_spare_at']
# How the names of each version's calls begin, and the head of its column.
VERSIONS = {'locktable': 'ours', 'fast': 'fast.c', 'best': 'best.c', 'nosse': 'fast.c without SSE'}
THREE = ['locktable', 'fast', 'best']
# The test whether a table is sound, a function of its own in each version, in the same order; a step and a query make it once.
TESTS = ['soundness::check::passes', 'fast_look', 'best_look', 'nosse_look']
# The loads and figures that goals are set for; and of a plain C version, measured the same way, what is known of it.
GOALS = [('small', 'mean'), ('contended', 'mean'), ('chain_of_16', 'worst')]
PLAIN = {('small', 'mean'): 4000, ('chain_of_16', 'worst'): 8500}
MOST_TO_C, MOST_AT_32, MOST_STACK, MOST_STACK_TO_C = 1.4, 12000, 5120, 256


def named(call, versions=VERSIONS):
    """The functions of one call, one of each version. Ours of the terminal go by that name alone."""
    ours = call if call.startswith('terminal_') else f'locktable_{call}'
    return [ours if version == 'locktable' else f'{version}_{call}' for version in versions]


def read_counts(path):
    """function -> times, mean, worst, stack, total; each kind's function is one jump to the step, which is taken off."""
    found = {}
    for line in open(path):
        w = line.split()
        if w[0] == 'function' and int(w[3]) > 0:
            jump = 1 if w[1].partition('_')[2] in KINDS else 0
            found[w[1]] = {'times': int(w[3]), 'mean': float(w[7]) - jump, 'worst': int(w[11]) - jump, 'stack': int(w[15]),
                           'total': int(w[5]) - jump * int(w[3])}
    return found


def read_history(path, functions):
    """The counts of one run, in which these functions, one of each version, have to be called, and equally often."""
    found = read_counts(path)
    if any(function not in found or found[function]['times'] != found[functions[0]]['times'] for function in functions):
        sys.exit(f'figures.py: {path}: {", ".join(functions)} were not called equally often; is one inlined, or renamed?')
    return found


def read_depths(path):
    """function -> deepest stack with callees, by the machine code; what the C library adds is not in it."""
    rows = [line.split() for line in open(path)]
    return {w[2]: int(w[1].rstrip('+')) for w in rows if w and w[0].isdigit()}


def number(x):
    return f'{round(x):,}'


def table(head, rows):
    lines = ['| ' + ' | '.join(r) + ' |' for r in [head, ['---'] + ['---:'] * (len(head) - 1)] + rows]
    return '\n'.join(lines) + '\n'


def times(ours, other):
    return f'{ours / other:.2f}'


def history_table(counts, functions, what):
    """The mean or the worst of one function of each version, a row for each history, and how many times as much ours is."""
    rows = []
    for name, words in WORKLOADS.items():
        ours, *others = [counts[name][function] for function in functions]
        figures = [number(c[what]) for c in [ours] + others]
        rows.append([words, number(ours['times'])] + figures + [times(ours[what], c[what]) for c in others[:2]])
    return table(['', 'calls'] + list(VERSIONS.values()) + ['ours / fast.c', 'ours / best.c'], rows)


def history_tables(counts, functions):
    return f"Mean:\n\n{history_table(counts, functions, 'mean')}\nWorst:\n\n{history_table(counts, functions, 'worst')}"


THREE_HEAD = ['mean', 'fast.c', 'best.c', '/ fast.c', '/ best.c', 'worst', 'fast.c', 'best.c', '/ fast.c', '/ best.c']


def three(counts, ours, fast, best):
    """Mean and worst of three functions, and how many times as much the first is as the others."""
    cells = []
    for what in ('mean', 'worst'):
        first, *others = [counts[function][what] for function in (ours, fast, best)]
        cells += [number(x) for x in [first] + others] + [times(first, x) for x in others]
    return cells


def query_table(counts):
    rows = []
    for name in ('live_2', 'live_8', 'live_32'):
        for call in ('running', 'thread', 'resource'):
            functions = named(call, THREE)
            rows.append([f'`{functions[0]}`, {WORKLOADS[name]}'] + three(counts[name], *functions))
    return table([''] + THREE_HEAD, rows)


def kind_table(counts):
    rows = []
    for kind, words in KINDS.items():
        functions = [f'{version}_{kind}' for version in ('ours', 'fast', 'best')]
        if functions[0] in counts:
            rows.append([words, number(counts[functions[0]]['times'])] + three(counts, *functions))
    return table(['', 'calls'] + THREE_HEAD, rows)


def most_touched(counts):
    """function -> the deepest stack of all histories, in bytes."""
    most = {}
    for found in counts.values():
        for name, c in found.items():
            most[name] = max(most.get(name, 0), c['stack'])
    return most


def stack_table(touched, depths):
    rows = []
    for call in CALLS:
        functions = named(call, THREE)
        rows.append([f'`{functions[0]}`'] + [number(stack[function]) for stack in (touched, depths) for function in functions])
    return table(['', 'touched', 'fast.c', 'best.c', 'frames', 'fast.c', 'best.c'], rows)


def version_table(rows):
    """Rows of words and a figure of each version, with how many times as much ours is."""
    cells = [[r[0]] + [number(x) for x in r[1:]] + [times(r[1], x) for x in r[2:4]] for r in rows]
    return table([''] + list(VERSIONS.values()) + ['ours / fast.c', 'ours / best.c'], cells)


def log_table(counts):
    """The mean of each row's calls, and as the last row the dearest call of all."""
    rows, functions = [], named('log')
    for name, words in LOGS.items():
        rows.append([words] + [counts[name][function]['mean'] for function in functions])
    rows.append(['the dearest of these'] + [max(counts[name][function]['worst'] for name in LOGS) for function in functions])
    return version_table(rows)


def reading(counts, threads, how):
    """What a block costs, read back in one way, for each version. Where it is stepped that is the sum of all its steps."""
    return [counts[f'replay_{threads}_{how}'][function]['total'] for function in named(WAYS_TO_READ[how])]


def replay_table(counts):
    rows = []
    for threads in READ_THREADS:
        whole, steps = (reading(counts, threads, how) for how in ('whole', 'stepped'))
        rows.append([f'a full block, busy history of {threads} live threads'] + whole)
        rows.append(['a record of it'] + [x / BLOCK_RECORDS for x in whole])
        rows.append([f'its {BLOCK_RECORDS} steps, one call each'] + steps)
        rows.append(['what is left besides the steps, a record'] + [(x - y) / BLOCK_RECORDS for x, y in zip(whole, steps)])
    changed = [max(of_one) for of_one in zip(*[reading(counts, threads, 'changed') for threads in READ_THREADS])]
    rows.append(['one pass and no step: refused with 14, since one byte of a full block is changed'] + changed)
    return version_table(rows)


def terminal_table(counts):
    """The mean of sixteen calls each."""
    rows = []
    for name, (call, words) in TASKS.items():
        functions = named(call)
        rows.append([f'`{functions[0]}`, {words}'] + [counts[name][function]['mean'] for function in functions])
    return version_table(rows)


def goal_row(words, figure, limit, why):
    met = 'met' if figure <= limit else f'**no, {figure / limit:.2f} times the goal**'
    return [words, number(figure), number(limit), why, met]


def step_goals(counts, touched):
    """Each goal: what it is of, our figure, the most it should be, where that comes from, and whether it is met."""
    rows = []
    for name, what in GOALS:
        fast = counts[name]['fast_step'][what]
        plain = PLAIN.get((name, what), fast)
        why = f'{MOST_TO_C} times {number(min(fast, plain))}, ' + ('`fast.c`' if fast <= plain else 'plain C')
        rows.append(goal_row(f'{WORKLOADS[name]}, {what}', counts[name]['locktable_step'][what], MOST_TO_C * min(fast, plain), why))
    at_32 = max(counts[n]['locktable_step']['worst'] for n in WORKLOADS if n.endswith('_32'))
    rows.append(goal_row('worst step of those with up to 32 live threads', at_32, MOST_AT_32, 'fixed'))
    rows.append(goal_row('stack of the step, bytes', touched['locktable_step'], MOST_STACK, 'fixed'))
    return rows


def log_goals(counts, touched):
    rows = []
    for name in ('log_fresh', 'log_goes_on'):
        ours, fast = (counts[name][function]['mean'] for function in ('locktable_log', 'fast_log'))
        rows.append(goal_row(f'the log, {LOGS[name]}', ours, MOST_TO_C * fast, f'{MOST_TO_C} times {number(fast)}, `fast.c`'))
    most = touched['fast_log'] + MOST_STACK_TO_C
    rows.append(goal_row('stack of the log, bytes', touched['locktable_log'], most, f"{MOST_STACK_TO_C} more than `fast.c`"))
    return rows


def unmet(rows):
    return sum(1 for r in rows if r[-1] != 'met')


def verdict(counts, of_step, of_log):
    if unmet(of_step + of_log) == 0:
        return 'All are met.'
    words = [f'**{unmet(of_step + of_log)} of {len(of_step + of_log)} are not met.** `docs/DECISIONS.md` says what was tried.']
    if unmet(of_step) == 0:
        return words[0]
    words.append("""The step is a function from a table to a table, as it is proved, and the thin call stores its result, so the
table is copied in and out, which C that changes bytes in place does not do.""")
    rising, falling = (counts[name][TESTS[0]]['worst'] for name in ('rising_32', 'falling_32'))
    if falling > 1.2 * rising:
        words.append(f"""The order of ids matters: on the same chain the soundness test takes {number(rising)} at worst with rising ids and
{number(falling)} with falling ones.""")
    return '\n'.join(words)


def beside_plain(counts):
    """The plain C version's figures, each with how many times as much ours is."""
    parts = []
    for (name, what), plain in PLAIN.items():
        ours = counts[name]['locktable_step'][what]
        parts.append(f'{number(plain)} {what} on `{name}` (ours is {ours / plain:.2f} times that)')
    return ',\n'.join(parts)


PAGE = """# Figures

Written by `bench/run --figures`; do not edit. Instructions that an x86-64 processor executes, counted exactly, callees
included, the C library's memcpy in its SSE2 form. They depend on the compiler and not on the machine or its load; a
copy's count varies by a few with where it lies. Kit: `{version}`.

"Ours" is the linked library, called as in `include/locktable.h` and `include/terminal.h`. The others are the same
calls in C, which change the table in place: `fast.c` as one writes it for a kernel, and `best.c` with SSE2 by hand, the
height to aim at. Both are compiled as the library is (`bench/cc64`), by the kit's {compiler} with
`-O3 -march=x86-64 -fPIC -ffunction-sections -fdata-sections`. "fast.c without SSE" is `fast.c` as kernels are
compiled, by the same clang with `-mgeneral-regs-only -mno-red-zone` besides. All ran in the same process on the same
events, and their tables and logs were equal after each. Of the C library the C versions call memset alone, to empty a
table, also where a shipment starts, and in `fast.c` to start a block of the log.

A plain C version that is not in this tree was measured at
{plain},
and 560 bytes of stack.

What is counted: in a busy history accepted events only. The vectors, the records `contended` (`bench/contended.in`)
and the made tables have refused ones too, which the tables by kind of event show apart. Set times 64 apart share a mark in the test whether they differ, in the library
and in `best.c`, so that it compares each with all others.

## Against the goals

{verdict}

{goals}
## The step

{step}
## The worst tables found

`bench/run --search` looks for the table and the record whose step takes the most instructions: by chance, and then by
small changes to the dearest that it has. Any sound table will do, whether events lead to it or not. What it finds is a
lower bound and no proof: there may be a worse table. Searches from several seeds came to the same figure, or within two
in a hundred of it. The worst that were found are kept in `bench/worst`, with every number in them, and are counted here
like the other histories.

Dear for both are waiters: the test passes over each of them, and over each resource that is waited for. A V passes once
more over those who wait for what it releases, to find who follows and to move up those behind, and over those who wait
for what its thread still holds. Dear for ours are besides set times that share a mark, since each is compared with all
others; ids that rise from waiters to holders, since the circle test then starts anew from more of them; and a high id
of the thread that runs, before and after, since of all below it is asked whether they wait.

{worst}
## The test whether the table is sound

The test alone: the function `soundness::check::passes` of the library, and `fast_look` in `fast.c` and `best_look` in
`best.c`, which are kept out of line for this. All also work out what the rest of a call needs; but the numbers of the
precedences are lent to ours by the call, which works them out first, some 200 instructions that are not in here. Every
call makes the test once: the step on the table before the event, and the three queries, asked after each event, on the
table after it.

What the two rules on the totals took when they came is in `docs/changes/K2.md`, of an older form and an older kit.

{sound}
## The queries

The test, and what is asked for. Ours copies the table once before that, since the query that is proved takes it by
value. "/ fast.c" and "/ best.c" say how many times as much ours is.

{queries}
## The log

What a record of the log costs besides the step that accepted it. One that starts a block writes the block fresh. For
any other the block is tested first: used records are weighed, and unused ones only have to be zero, so the cost grows
with the place in the block. It depends on nothing else, except that a refusal may come early: the one counted here
comes last, since only the check tells that a byte has changed.

{logs}
## Reading a log back

`locktable_replay` on a log of one full block, 125 records that are accepted from the empty table on: the whole call, a
record's share, and the same records by 125 calls of the step. A log of n records takes n steps and one pass over each
of its blocks. The C versions make the same steps, each with its test whether the table is sound. A block that is
refused as a whole costs the pass alone.

{replays}
## The terminal

The calls of `include/terminal.h`, on the table of a shipment that has just started: sixteen live threads, and nobody
holds or waits. `terminal_start` makes sixteen steps, each with its test whether the table is sound, because it is
proved from what the step states; C writes down the table that comes of them. It is called once a shipment. A spare
task is one step, with an id that no spare task has too: that step is refused for the kind of its record.

{terminal}
## The step by kind of event

{kinds}## Stack

Bytes below the call's return address, callees included. Touched: down to the lowest byte that any of these runs
touched, the red zone of the deepest function with it. Frames: pushes and frames on the deepest way, by the machine
code, without a red zone. The 560 bytes of the plain C version are to be compared with the frames of `fast.c`'s step,
{fast_frames}.

{stack}
## Commands

    bench/run --figures
    bench/run --search

or by hand, after it has built the programs once:

    bench/count -s -f locktable_step -f best_step target/bench/cost vector crates/drill_vectors/data/small.in
    bench/count -s -f locktable_step -f nosse_step target/bench/cost live 32 3000
    bench/count -f soundness::check::passes -f fast_look -f best_look target/bench/cost chain falling 64
    bench/count -f locktable_step -f fast_step target/bench/cost trial bench/worst/ours.table
    bench/count -s -f locktable_log -f fast_log -f best_log target/bench/cost log 1 124
    bench/count -s -f locktable_replay -f fast_replay -f best_replay target/bench/cost replay 8 whole
    bench/count -s -f terminal_start -f fast_terminal_start target/bench/cost terminal start
    bench/stack target/bench/cost

The names of `fast.c` without SSE begin with `nosse_`. `bench/count` with `-f ours_p_taken -f fast_p_taken` and so on
gives one kind; `usage` in `bench/cost.c` lists the histories.
"""


def kind_tables(counts):
    histories = {name: words for name, words in WORKLOADS.items() if name not in FOUND}
    return '\n'.join(f'{words[0].upper()}{words[1:]}:\n\n{kind_table(counts[name])}' for name, words in histories.items())


def found_parts(counts):
    """How the step on the worst table goes: the soundness test, and what is left, for each of the two."""
    rows = []
    for name in FOUND:
        for version, test in zip(list(VERSIONS)[:3], TESTS):
            step, look = counts[name][f'{version}_step']['worst'], counts[name][test]['worst']
            rows.append([f'{WORKLOADS[name]}, {VERSIONS[version]}', number(step), number(look), number(step - look)])
    return table(['', 'step', 'soundness test', 'the rest'], rows)


def read_table(path):
    """A table as bench/trial.h says: the record, thread -> its six numbers, and resource -> holder and waiters."""
    found = {'record': [], 'thread': {}, 'resource': {}}
    for line in open(path):
        word, *rest = line.split()
        if word in ('thread', 'resource'):
            found[word][int(rest[0])] = [int(n) for n in rest[1:]]
        elif word == 'record':
            found['record'] = [int(n) for n in rest]
    return found


def longest_chain(queues):
    """The most holders on a way from a waiter to its holder, from there to whom that one waits for, and so on."""
    up = {waiter: queue[0] for queue in queues.values() for waiter in queue[1:]}
    most = 0
    for thread in up:
        holders = 0
        while thread in up:
            thread, holders = up[thread], holders + 1
        most = max(most, holders)
    return most


def table_facts(found):
    """What a kept table is like, and the record with it: words -> figure."""
    kind, thread, argument, _ = found['record']
    queues = found['resource']
    of_resource = kind in (P, V)
    waiters, holders = {t for q in queues.values() for t in q[1:]}, {q[0] for q in queues.values()}
    there = set(queues.get(argument, [])[1:]) if of_resource else set()
    return {
        'the record': f'{EVENTS[kind]} by thread {thread}' + (f' of resource {argument}' if of_resource else ''),
        'threads that wait for that resource': len(there),
        'of these hold another one': len(there & holders),
        'live threads': len(found['thread']),
        'threads that wait': len(waiters),
        'threads that hold': len(holders),
        'resources that are held': len(queues),
        'resources that are waited for': sum(len(q) > 1 for q in queues.values()),
        'holders on the longest chain': longest_chain(queues),
        'marks of the set times': len({numbers[1] % MARKS for numbers in found['thread'].values()}),
    }


def queue_rows(kept):
    """Who holds each resource, and who waits for it, on both tables."""
    rows = []
    for r in range(RESOURCES):
        queues = [[str(t) for t in found['resource'].get(r, [])] for found in kept]
        rows.append([str(r)] + [cell for q in queues for cell in (' '.join(q[:1]), ' '.join(q[1:]))])
    return rows


def worst_found(counts):
    """The tables of the section on what `--search` found."""
    kept = [read_table(f'{BENCH}/worst/{side}.table') for side in ('ours', 'fast')]
    ours, fast = (table_facts(found) for found in kept)
    facts = [[words, str(ours[words]), str(fast[words])] for words in ours]
    return '\n'.join([found_parts(counts), table(['', 'found for ours', 'found for `fast.c`'], facts),
                      table(['resource', 'ours: holder', 'waiters', '`fast.c`: holder', 'waiters'], queue_rows(kept))])


def page(counts, depths, version, compiler):
    touched = most_touched(counts)
    of_step, of_log = step_goals(counts, touched), log_goals(counts, touched)
    return PAGE.format(version=version, compiler=compiler, plain=beside_plain(counts), verdict=verdict(counts, of_step, of_log),
                       goals=table(['', 'ours', 'at most', 'which is', 'met'], of_step + of_log),
                       step=history_tables(counts, named('step')),
                       worst=worst_found(counts), sound=history_tables(counts, TESTS),
                       queries=query_table(counts), logs=log_table(counts), replays=replay_table(counts),
                       terminal=terminal_table(counts),
                       kinds=kind_tables(counts) + '\n',
                       stack=stack_table(touched, depths), fast_frames=number(depths['fast_step']))


def read_line(path):
    return open(path).read().strip()


def main(folder):
    counts = {name: read_history(f'{folder}/{name}.count', TESTS) for name in WORKLOADS}
    counts.update({name: read_history(f'{folder}/{name}.count', named('log')) for name in LOGS})
    for threads in READ_THREADS:
        for how, call in WAYS_TO_READ.items():
            name = f'replay_{threads}_{how}'
            counts[name] = read_history(f'{folder}/{name}.count', named(call))
    counts.update({name: read_history(f'{folder}/{name}.count', named(call)) for name, (call, _) in TASKS.items()})
    depths = read_depths(f'{folder}/frames')
    print(page(counts, depths, read_line(f'{folder}/version'), read_line(f'{folder}/compiler')), end='')


main(sys.argv[1])
