#!/usr/bin/env python3
"""Runs a command (default: rt ci, in the current folder) and prints what the prover's processes cost, in processor seconds, by crate
and kind: gate_cost.py [COMMAND WORD..]

Kinds: proof (a crate's own), cases (a program of cases, or a crate with its #[test]s), edits (must-fail: the seed and the wrong
bodies), other. It samples the processes named rattle that start below the command, once a second, so one that lives for less
than a second may be missed. The status is the command's. Figures of a machine that does other work too are up to a third too high."""
import collections, os, re, subprocess, sys, threading, time

HZ = os.sysconf('SC_CLK_TCK')


def children_of(root):
    """All processes below root, by their parents."""
    parents = {}
    for p in os.listdir('/proc'):
        if p.isdigit():
            try:
                parents[int(p)] = int(open(f'/proc/{p}/stat').read().rsplit(')', 1)[1].split()[1])
            except OSError:
                pass
    found, todo = set(), {root}
    while todo:
        todo = {p for p, up in parents.items() if up in todo and p not in found}
        found |= todo
    return found


def kind_of(name, words, cwd):
    if 'rt-edit' in cwd or 'must-fail' in cwd:
        return 'edits'
    if '--test' in words or name.endswith('_cases'):
        return 'cases'
    return 'proof' if 'build' in words or 'check' in words else 'other'


def sample(root, seen):
    for p in children_of(root):
        try:
            words = open(f'/proc/{p}/cmdline', 'rb').read().decode(errors='replace').split('\0')
            if not words[0].endswith('/rattle'):
                continue
            stat = open(f'/proc/{p}/stat').read().rsplit(')', 1)[1].split()
            name = words[words.index('--crate-name') + 1] if '--crate-name' in words else '?'
            key = (p, stat[19])
            seconds = (int(stat[11]) + int(stat[12])) / HZ
            kind = seen[key][1] if key in seen else kind_of(name, words, os.readlink(f'/proc/{p}/cwd'))
            seen[key] = (name, kind, max(seconds, seen.get(key, ('', '', 0))[2]))
        except (OSError, ValueError):
            pass


def main(command):
    start = time.time()
    work = subprocess.Popen(command)
    seen, done = {}, threading.Event()

    def watch():
        while not done.wait(1):
            sample(work.pid, seen)
    watcher = threading.Thread(target=watch)
    watcher.start()
    status = work.wait()
    done.set()
    watcher.join()
    table = collections.defaultdict(lambda: collections.defaultdict(float))
    for name, kind, seconds in seen.values():
        table[name][kind] += seconds
    kinds = ['proof', 'cases', 'edits', 'other']
    print(f"{'crate':28}" + ''.join(f'{k:>8}' for k in kinds) + '     sum')
    for name in sorted(table, key=lambda n: -sum(table[n].values())):
        row = table[name]
        print(f'{name:28}' + ''.join(f'{row[k]:8.0f}' for k in kinds) + f'{sum(row.values()):8.0f}')
    sums = {k: sum(r[k] for r in table.values()) for k in kinds}
    print(f"{'all, in minutes':28}" + ''.join(f'{sums[k] / 60:8.1f}' for k in kinds) + f'{sum(sums.values()) / 60:8.1f}')
    print(f'on the clock: {(time.time() - start) / 60:.1f} minutes')
    return status


if __name__ == '__main__':
    sys.exit(main(sys.argv[1:] or ['rt', 'ci']))
