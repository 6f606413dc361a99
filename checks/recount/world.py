"""The one run of a configuration and its programs, tick by tick."""

from processor import body_tick
from tables import Tables


class World(Tables):
    def __init__(self, config, programs):
        super().__init__(config)
        self.programs = programs
        self.memories = [[0] * p.memory for p in config.processes]

    def tick(self):
        """Does the present tick, and answers its label and its event as the ledger has them."""
        (kind, who, phase), _ = self.choice()
        source = self.source()
        self.book(kind, who, phase)
        if kind in ('idle', 'kernel'):
            label, event = (f'kernel {who}' if kind == 'kernel' else 'idle'), None
        else:
            work, event = self.body(who) if phase == 'body' else (phase, None)
            name = f'{self.config.processes[who.process].name}.{who.serial}'
            label = f'slack {source} {work} {name}' if kind == 'slack' else f'{work} {name}'
        self.next_tick()
        return label, event

    def body(self, x):
        """A tick in which x executes: whether it was of a call, and the event."""
        code = self.programs[x.process]
        outcome, effect = body_tick(x, code, self.memories[x.process], self.config.call)
        if outcome.startswith('fault'):
            self.stop(x)
            return 'run', outcome
        number, event, refusal, done = None, None, 0, None
        if outcome == 'done':
            number = code[4 * x.pc + 1]
            event, refusal, done = self.call(x, number, x.registers[1:5], len(code) // 4)
        work = 'run' if outcome == 'ran' else 'call'
        ends_the_hold = number in (2, 6) and refusal == 0
        if x.holds and x.holds[-1].left == 0 and not ends_the_hold:
            self.stop(x)
            return work, 'fault hold'
        effect()
        if done is None:
            return work, None
        x.registers[0] = refusal
        if refusal:
            return work, f'refused {refusal}'
        value = done()
        if value is not None:
            x.registers[1] = value
        return work, event
