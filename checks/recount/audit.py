"""Whether a list of entries follows the rules, whatever the programs were."""

from tables import Tables

CALLS = {'wait': 1, 'exit': 2, 'create': 3, 'delete': 4, 'lock': 5, 'unlock': 6, 'slack': 7}


def finding(config, entries):
    """What `audit` prints of entries under the right header."""
    tables = Tables(config)
    for tick, (label, event) in enumerate(entries):
        (kind, who, phase), _ = tables.choice()
        if label not in labels_of(tables, kind, who, phase):
            return f'audit: tick {tick} label\n'
        last = kind in ('budget', 'slack') and bool(who.holds) and who.holds[-1].left == 1
        tables.book(kind, who, phase)
        if phase == 'body':
            works = 'call' in label.split()[:4]
            if not follows(tables, who, works, event, last):
                return f'audit: tick {tick} event\n'
        elif event:
            return f'audit: tick {tick} event\n'
        tables.next_tick()
    return f'audit: passed {len(entries)}\n'


def labels_of(tables, kind, who, phase):
    if kind == 'kernel':
        return [f'kernel {who}']
    if kind == 'idle':
        return ['idle']
    name = f'{tables.config.processes[who.process].name}.{who.serial}'
    before = f'slack {tables.source()} ' if kind == 'slack' else ''
    works = ['run', 'call'] if phase == 'body' else [phase]
    return [f'{before}{work} {name}' for work in works]


def follows(tables, x, calls, event, last):
    """Whether the event may end a tick of the body of x; where it may, its effect is done."""
    words = event.split() if event else []
    word = words[0] if words else None
    if word == 'fault':
        allowed = last if event == 'fault hold' else not calls
        if allowed:
            tables.stop(x)
        return allowed
    if word is not None and not calls:
        return False
    if last and word not in ('exit', 'unlock'):
        return False
    if word not in CALLS:
        return True  # none, a put, or a refusal
    serial, numbers = None, [int(n) for n in words[1:]]
    if word == 'create':
        serial, *numbers = numbers
    told, refusal, effect = tables.call(x, CALLS[word], (numbers + [0] * 4)[:4], 1)
    if refusal or told != event:
        return False
    if last and word == 'unlock' and x.holds[-1].mutex != numbers[0]:
        return False
    effect()
    return True
