"""What the programs print of a run: the ledger, the report, the state and the tables at a tick, and the
configuration that they read."""

from configuration import blocking_of, demand_of, failing_level


def toml_of(config):
    lines = [f'version = {config.version}', '[costs]', f'switch = {config.switch}', f'call = {config.call}']
    for period, release in zip(config.periods, config.releases):
        lines += ['[[level]]', f'period = {period}', f'release = {release}']
    for p in config.processes:
        lines += ['[[process]]', f'name = "{p.name}"', f'program = "{p.name}.bin"', f'level = {p.level}',
                  f'budget = {p.budget}', f'memory = {p.memory}', f'threads = {p.threads}',
                  f'slack = {str(p.slack).lower()}']
        if config.version == 2:
            lines.append(f'max_level = {p.max_level}')
    for m in config.mutexes:
        users = ', '.join(f'"{config.processes[u].name}"' for u in m.users)
        lines += ['[[mutex]]', f'name = "{m.name}"', f'ceiling = {m.ceiling}', f'hold = {m.hold}',
                  f'users = [{users}]']
    return '\n'.join(lines) + '\n'


def table(config):
    lines = []
    for j, period in enumerate(config.periods):
        demand, blocking = demand_of(config, j), blocking_of(config, j)
        lines.append(f'level {j} period {period} demand {demand} blocking {blocking} '
                     f'spare {period - demand - blocking}')
    return lines


def text(lines):
    return ''.join(line + '\n' for line in lines)


def certificate(config):
    """What `certify` prints, and its status."""
    failing = failing_level(config)
    if failing is None:
        return text(table(config) + ['certified']), 0
    needs = demand_of(config, failing) + blocking_of(config, failing)
    return text([f'not certified: level {failing} needs {needs} of {config.periods[failing]}']), 3


def header(config):
    return table(config) + [f'process {p.name} level {p.level} budget {p.budget}' for p in config.processes]


def ledger(config, entries):
    lines, start = header(config), 0
    for at, (label, event) in enumerate(entries):
        follows = at + 1 < len(entries) and entries[at + 1][0] == label and event is None
        if not follows:
            lines.append(f'{start} {at + 1 - start} {label}' + (f' {event}' if event else ''))
            start = at + 1
    return text(lines + [f'end {len(entries)}'])


def report(config, entries):
    names = [p.name for p in config.processes]
    kernel = [0] * len(config.periods)
    counts = {name: dict.fromkeys(KINDS, 0) for name in names}
    idle = 0
    for label, event in entries:
        words = label.split()
        if words[0] == 'idle':
            idle += 1
            continue
        if words[0] == 'kernel':
            kernel[int(words[1])] += 1
            continue
        kind = words[1] if words[0] == 'slack' else words[0]
        of = counts[words[-1].split('.')[0]]
        of[kind] += 1
        if event:
            of[{'create': 'created', 'refused': 'refused', 'fault': 'faults'}.get(event.split()[0], 'others')] += 1
    sums = [sum(of[kind] for of in counts.values() for kind in kinds)
            for kinds in (('in', 'out'), ('run', 'call'), ('timeline', 'reclaimed'))]
    lines = header(config)
    lines.append('total {} kernel {} switch {} body {} slack {} idle {}'.format(
        len(entries), sum(kernel), *sums, idle))
    lines += [f'kernel level {j} ticks {ticks}' for j, ticks in enumerate(kernel)]
    lines += [f'process {name} ' + ' '.join(f'{kind} {counts[name][kind]}' for kind in KINDS[:-1]) for name in names]
    return text(lines + [f'end {len(entries)}'])


KINDS = ['in', 'run', 'call', 'out', 'timeline', 'reclaimed', 'created', 'refused', 'faults', 'others']


def state(world):
    """The state before the present tick."""
    config, now = world.config, world.now
    lines = [f'tick {now}']
    for j in range(len(config.periods)):
        lines.append(f'level {j} own {world.own(j)} remaining {world.remaining(j)} '
                     f'blocking {world.blocking(j)} left {world.window_end(j, now) - now}')
    denied = world.choice()[1]
    lines.append(f'denied {"none" if denied is None else denied}')
    for x in world.threads():
        standing = 'stopped' if x.stop is not None else 'starting' if now < x.start else 'live'
        registers = ' '.join(str(r) for r in x.registers)
        lines.append(f'thread {config.processes[x.process].name}.{x.serial} {standing} '
                     f'pc {x.pc} left {x.call_left} regs {registers}')
    return text(lines + [f'end {now}'])


def tables(world):
    """The tables before the present tick, with threads and levels by their numbers."""
    def name(x):
        return f'{x.process}.{x.serial}'
    lines = [f'tick {world.now}']
    for level in range(len(world.config.periods)):
        holder = world.holder_at(level)
        queue = ''.join(' ' + name(x) for x in world.ready(level))
        lines.append(f'level {level} holder {name(holder) if holder else "none"} ready{queue}')
    for x in world.threads():
        phase = world.phase(x) if world.rem(x) > 0 else 'none'
        entering = ' entering' if world.is_entering(x) else ''
        lines.append(f'thread {name(x)} rem {world.rem(x)} phase {phase} want {world.want(x)}{entering}')
    return text(lines)
