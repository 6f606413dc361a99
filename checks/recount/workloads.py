"""Workloads: those that `gen` makes from a number, and random configurations with hostile programs."""

import random

from configuration import Configuration, Mutex, Process, failing_level


def instruction(kind, a=0, b=0, c=0):
    return bytes((kind, a, b, c))


def load(register, value):
    return instruction(1, register, value % 256, value // 256)


def jump(to):
    return instruction(17, 0, to % 256, to // 256)


def trap(number):
    return instruction(22, number)


def generated(number):
    """The configuration and the programs of `gen`, as docs/FORMATS.md tells them."""
    state = number

    def draw(below):
        nonlocal state
        state = (state * 6364136223846793005 + 1442695040888963407) % 2**64
        return state // 2**33 % below

    periods = [100 * (1 + draw(9))]
    for _ in range(2):
        periods.append(periods[-1] * (2 + draw(3)))
    releases = [draw(4) for _ in range(3)]
    switch = draw(3)
    call = 1 + draw(2)
    count = 3 + draw(6)
    processes, programs = [], []
    for i in range(count):
        level = i % 3
        budget = 2 * switch + 1 + draw(periods[level] // (2 * count))
        processes.append(Process(f'g{i}', level, budget, 64, 2, True, 2))
        template = draw(5)
        if template == 0:
            program = jump(0)
        elif template == 1:
            program = trap(1) + jump(0)
        elif template == 2:
            program = load(1, 1 + draw(1000)) + trap(7) + jump(0)
        elif template == 3:
            program = b''.join(instruction(draw(23), draw(8), draw(8), draw(8)) for _ in range(32))
        else:
            program = (load(1, 2) + load(2, 1 + draw(4)) + load(3, 6) + trap(3) + trap(1) + jump(4)
                       + trap(8) + trap(2))
        programs.append(program)
    mutexes = [Mutex('m0', 0, 1 + draw(periods[0] // 20), list(range(count)))]
    return Configuration(periods, releases, processes, mutexes, switch, call), programs


def hostile(seed):
    """A certified configuration, its programs made of all ten calls and of bytes at random."""
    chance = random.Random(seed)
    while True:
        config = some_configuration(chance)
        if failing_level(config) is None:
            fill(chance, config)
            return config, [some_program(chance, config, p) for p in config.processes]


def fill(chance, config):
    """Raises budgets while the configuration is still certified, so that little is idle."""
    for process in chance.choices(config.processes, k=chance.randrange(3 * len(config.processes))):
        more = chance.randrange(1, 1 + config.periods[process.level] // 4)
        process.budget += more
        if failing_level(config) is not None:
            process.budget -= more


def some_configuration(chance):
    levels = chance.choice((1, 2, 2, 3, 3, 4, 5))
    periods = [chance.randrange(8, 60)]
    while len(periods) < levels:
        periods.append(periods[-1] * chance.choice((2, 2, 3, 4)))
    version = chance.choice((1, 2))
    switch = chance.choice((0, 0, 0, 1, 2))
    releases = [chance.choice((0, 0, 0, 1, 2)) for _ in periods]
    processes = []
    count = chance.randrange(1, 8)
    for i in range(count):
        level = chance.randrange(levels)
        least = 2 * switch + 1
        budget = least + chance.randrange(1 + 3 * periods[level] // (count + 1))
        most = chance.randrange(level, levels) if version == 2 else levels - 1
        processes.append(Process(f'p{i}', level, budget, chance.choice((0, 1, 16)), chance.choice((0, 1, 2, 8)),
                                 chance.random() < 0.6, most))
    mutexes = []
    for i in range(chance.choice((0, 1, 2, 4))):
        ceiling = chance.randrange(levels)
        users = [u for u, p in enumerate(processes) if p.level >= ceiling and chance.random() < 0.8]
        if users:
            mutexes.append(Mutex(f'm{len(mutexes)}', ceiling, chance.randrange(1, 9), users))
    return Configuration(periods, releases, processes, mutexes, switch, chance.randrange(1, 4), version)


def some_program(chance, config, process):
    """A loop of calls with fitting and unfitting arguments, of sums and jumps; one in three has bytes at random."""
    length, wild = chance.randrange(4, 40), chance.random() < 0.3
    program = b''
    while len(program) < 4 * length:
        program += some_piece(chance, config, process, length, wild)
    return program + jump(chance.choice((0, 0, chance.randrange(length))))


def some_piece(chance, config, process, length, wild):
    kinds = ['load', 'create', 'hold', 'slack', 'call', 'sum', 'memory', 'delete']
    kinds += ['bytes', 'end', 'jump'] if wild else []
    kind = chance.choice(kinds)
    if kind == 'load':
        return load(chance.randrange(8), chance.choice((0, 1, 2, 3, 5, 8, 40, 300)))
    if kind == 'create':
        level = chance.choice((process.level, process.level, chance.randrange(len(config.periods))))
        quota = chance.choice((1, 2 * config.switch + 1, 1 + process.budget // 3, process.budget))
        return load(1, level) + load(2, quota) + load(3, chance.randrange(length)) + trap(3)
    if kind == 'hold':
        return some_holds(chance, config)
    if kind == 'slack':
        return load(1, chance.choice((0, 1, 3, 9, 200))) + trap(7)
    if kind == 'call':
        return trap(chance.choice((1, 3, 4, 5, 6, 7, 8, 9, 10)))
    if kind == 'delete':
        return load(1, chance.randrange(6)) + trap(4)
    if kind == 'sum':
        return instruction(chance.choice((0, 4, 5, 6, 9, 10, 11, 12, 13, 14, 20)), *chance.choices(range(8), k=3))
    if kind == 'memory':
        address = chance.randrange(max(process.memory, 1) + wild)
        return load(4, address) + instruction(chance.choice((15, 16)), 5, 4, 0) if wild or process.memory else b''
    if kind == 'bytes':
        return bytes(chance.randrange(256) for _ in range(4))
    if kind == 'end':
        return trap(chance.choice((2, 0, 11)))
    return instruction(chance.choice((18, 19)), chance.randrange(8), chance.randrange(length), 0)


def some_holds(chance, config):
    """Locks, one inside another, with some work between and mostly the unlocks that belong to them."""
    rows = chance.sample(range(1 + len(config.mutexes)), chance.randrange(1, min(3, 1 + len(config.mutexes)) + 1))
    program = b''
    for row in rows:
        program += load(1, row) + trap(5) + instruction(0) * chance.randrange(2)
    for row in reversed(rows):
        if chance.random() < 0.9:
            program += load(1, row) + trap(6)
    return program


def changed(chance, config, entries):
    """The entries with one of them changed: its label, its work, or its event."""
    entries = list(entries)
    at = chance.choice((0, len(entries) - 1, chance.randrange(len(entries)), chance.randrange(len(entries))))
    label, event = entries[at]
    kind = chance.randrange(4)
    if kind == 0:
        label = some_label(chance, config)
    elif kind == 1 and 'run ' in label:
        label = label.replace('run ', 'call ')
    elif kind == 1 and 'call ' in label:
        label = label.replace('call ', 'run ')
    else:
        event = some_event(chance, config)
    executes = label != 'idle' and label.split()[-2] in ('run', 'call')
    entries[at] = (label, event if executes else None)
    return entries


def some_label(chance, config):
    thread = f'{chance.choice(config.processes).name}.{chance.choice((0, 0, 1, 2))}'
    level = chance.randrange(len(config.periods))
    work = chance.choice(('in', 'run', 'call'))
    return chance.choice(('idle', f'kernel {level}', f'{work} {thread}', f'out {thread}',
                          f'slack timeline {work} {thread}', f'slack reclaimed {level} {work} {thread}'))


def some_event(chance, config):
    number, level = chance.randrange(4), chance.randrange(len(config.periods))
    return chance.choice((
        None, 'wait', 'exit', 'fault hold', 'fault memory', f'create {number} {level} {1 + number}',
        f'delete {number}', f'lock {number}', f'unlock {number}', f'slack {10 * number}', f'put {number}',
        f'refused {1 + chance.randrange(15)}'))
