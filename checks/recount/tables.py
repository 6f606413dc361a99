"""The rules of a run, written plainly: who has a tick, and what ticks and kernel calls change.

Each quantity is counted where it is asked for, from what happened in the present windows; nothing is kept
by event. docs/RULES.md tells the rules in words, and the functions below stand in its order."""

from configuration import blocking_of, demand_of


class Hold:
    def __init__(self, mutex, left):
        self.mutex, self.left = mutex, left


class Thread:
    """A thread's row, its context, and what happened to it in the present window of its level."""

    def __init__(self, process, serial, level, quota, start, entry, argument):
        self.process, self.serial, self.level, self.quota = process, serial, level, quota
        self.start, self.stop = start, None
        self.registers, self.pc, self.call_left = [0, argument] + [0] * 6, entry, 0
        self.holds = []  # the innermost last
        self.open_window(0)

    def open_window(self, window):
        self.window = window  # the tick at which it began
        self.used, self.out, self.closed = 0, 0, False
        self.wish, self.had, self.asked_at = 0, 0, None


class Tables:
    def __init__(self, config):
        self.config, self.now = config, 0
        self.mains = [Thread(i, 0, p.level, None, 0, 0, 0) for i, p in enumerate(config.processes)]
        self.children = [[] for _ in config.processes]  # those that haven't ended and aren't void
        self.serials = [0] * len(config.processes)
        self.kernel_used = [0] * len(config.periods)
        self.unclaimed = [0] * len(config.periods)  # U
        self.spare = [p - demand_of(config, j) - blocking_of(config, j) for j, p in enumerate(config.periods)]

    # Windows and threads

    def window_end(self, level, tick):
        return tick - tick % self.config.periods[level] + self.config.periods[level]

    def threads(self):
        for main, children in zip(self.mains, self.children):
            yield main
            yield from children

    def is_void(self, x):
        return x.serial > 0 and x.stop is not None and x.stop < x.start

    def end_of(self, x):
        return None if x.stop is None else self.window_end(x.level, x.stop)

    # Shares and phases

    def share(self, x, start):
        """The share of x in the window of its level that begins at start, as if no event followed."""
        if x.stop is not None and x.stop < start:
            return 0
        process = self.config.processes[x.process]
        if x.serial > 0:
            ratio = self.config.periods[x.level] // self.config.periods[process.level]
            return x.quota * ratio if x.start <= start and not self.is_void(x) else 0
        lent = 0
        for child in self.children[x.process]:
            end = self.end_of(child)
            if not self.is_void(child) and child.start <= start and (end is None or end > start):
                lent += child.quota
        return process.budget - lent

    def rem(self, x):
        if x.closed:
            return self.config.switch - x.out if x.used > 0 else 0
        return self.share(x, x.window) - x.used

    def body_left(self, x):
        return 0 if x.closed else max(0, self.share(x, x.window) - x.used - self.config.switch)

    def phase(self, x):
        if x.closed:
            return 'out'
        if x.used < self.config.switch:
            return 'in'
        return 'body' if self.body_left(x) > 0 else 'out'

    def kernel_rem(self, level):
        return self.config.releases[level] - self.kernel_used[level]

    # Holds

    def effective_level(self, x):
        return min((self.config.mutexes[h.mutex].ceiling for h in x.holds), default=x.level)

    def holder_at(self, level):
        """The holder that runs at the level, or None."""
        return next((x for x in self.threads() if x.holds and self.effective_level(x) == level), None)

    def ready(self, level):
        """The threads of the level that have something left, by process and then serial."""
        return [x for x in self.threads() if x.level == level and self.rem(x) > 0]

    # Demand

    def own(self, level):
        return self.kernel_rem(level) + sum(self.rem(x) for x in self.threads() if x.level == level)

    def remaining(self, level):
        end = self.window_end(level, self.now)
        total = 0
        for i in range(level + 1):
            starts = range(self.window_end(i, self.now), end, self.config.periods[i])
            total += self.kernel_rem(i) + self.config.releases[i] * len(starts)
            for x in self.threads():
                if x.level == i:
                    total += self.rem(x) + self.shares_to_come(x, starts)
        return total

    def shares_to_come(self, x, starts):
        if x.serial == 0 and not self.children[x.process]:
            return self.share(x, starts[0]) * len(starts) if starts else 0
        return sum(self.share(x, start) for start in starts)

    def blocking(self, level):
        total = 0
        for x in self.threads():
            if x.level > level:
                lefts = (h.left for h in x.holds if self.config.mutexes[h.mutex].ceiling <= level)
                total += max(lefts, default=0)
        return total

    # Slack

    def unfit(self):
        """The first level with unfinished work that can't wait one tick more, or None."""
        for level in range(len(self.config.periods)):
            if self.own(level) > 0:
                left = self.window_end(level, self.now) - self.now
                if self.remaining(level) + self.blocking(level) + 1 > left:
                    return level
        return None

    def want(self, x):
        return 0 if x.closed or x.asked_at is None else x.wish - x.had

    def is_entering(self, x):
        """Whether the next tick of slack of x is of its switch in."""
        return self.want(x) > 0 and x.had < 2 * self.config.switch

    def source(self):
        for level, unclaimed in enumerate(self.unclaimed):
            if unclaimed >= self.spare[level]:
                return f'reclaimed {level}'
        return 'timeline'

    # The choice

    def choice(self):
        """Who has the present tick (kind, level or thread, phase), and the level that slack is denied for."""
        holders = {self.effective_level(x): x for x in self.threads() if x.holds}
        ready, asking = {}, {}
        for x in self.threads():
            if self.rem(x) > 0:
                ready.setdefault(x.level, x)
            elif self.want(x) > 0 and (x.level not in asking or x.asked_at < asking[x.level].asked_at):
                asking[x.level] = x
        denied = None
        for level in range(len(self.config.periods)):
            if self.kernel_rem(level) > 0:
                return ('kernel', level, None), denied
            x = holders.get(level) or ready.get(level)
            if x is not None:
                return ('budget', x, self.phase(x)), denied
            if level in asking and denied is None:
                denied = self.unfit()
                if denied is None:
                    x = asking[level]
                    return ('slack', x, 'in' if self.is_entering(x) else 'body'), None
        return ('idle', None, None), denied

    # The kernel calls. Each answers its event, its refusal (0 for none), and a function that does its effect
    # and gives what it leaves in r1, if anything. The present tick is among those that x used and held.

    def call(self, x, number, arguments, instructions):
        r1, r2, r3, r4 = arguments
        if number == 1:
            return 'wait', 12 if x.holds else 0, lambda: setattr(x, 'closed', True)
        if number == 2:
            return 'exit', 0, lambda: self.stop(x)
        if number == 3:
            return self.create(x, r1, r2, r3, r4, instructions)
        if number == 4:
            live = [c for c in self.children[x.process] if c.serial == r1 and c.stop is None]
            return f'delete {r1}', 1 if x.serial else 0 if live else 7, lambda: self.stop(live[0])
        if number == 5:
            return self.lock(x, r1)
        if number == 6:
            held = any(h.mutex == r1 for h in x.holds)
            refusal = 11 if not held else 15 if x.holds[-1].mutex != r1 else 0
            return f'unlock {r1}', refusal, lambda: x.holds.pop() and None
        if number == 7:
            slack = self.config.processes[x.process].slack
            return f'slack {r1}', 13 if not slack else 0 if 1 <= r1 <= 1000000 else 14, lambda: self.ask(x, r1)
        if number == 8:
            return f'put {r1}', 0, lambda: None
        value = self.now if number == 9 else self.body_left(x)
        return None, 0, lambda: value

    def create(self, x, level, quota, entry, argument, instructions):
        process, here = self.config.processes[x.process], self.children[x.process]
        least = 2 * self.config.switch + 1
        serial = self.serials[x.process] + 1
        if x.serial:
            refusal = 1
        elif not process.level <= level <= process.max_level:
            refusal = 2
        elif entry >= instructions:
            refusal = 3
        elif len(here) >= process.threads:
            refusal = 4
        elif quota * (self.config.periods[level] // self.config.periods[process.level]) < least:
            refusal = 5
        elif sum(c.quota for c in here) + quota + least > process.budget:
            refusal = 6
        else:
            refusal = 0

        def born():
            start = self.window_end(level, self.now)
            child = Thread(x.process, serial, level, quota, start, entry, argument)
            child.open_window(start - self.config.periods[level])
            here.append(child)
            self.serials[x.process] = serial
            return serial
        return f'create {serial} {level} {quota}', refusal, born

    def lock(self, x, number):
        mutex = self.config.mutexes[number] if number < len(self.config.mutexes) else None
        if mutex is None or x.process not in mutex.users:
            refusal = 8
        elif any(h.mutex == number for h in x.holds):
            refusal = 9
        elif self.body_left(x) < mutex.hold or (x.holds and x.holds[-1].left <= mutex.hold):
            refusal = 10
        else:
            refusal = 0

        def taken():
            assert not any(h.mutex == number for y in self.threads() for h in y.holds), 'held by another'
            x.holds.append(Hold(number, mutex.hold))
        return f'lock {number}', refusal, taken

    def ask(self, x, amount):
        x.wish, x.had, x.asked_at = amount, 0, self.now

    def stop(self, x):
        for y in [x] if x.serial else [x] + self.children[x.process]:
            if y.stop is None:
                y.stop, y.closed, y.holds = self.now, True, []

    # A tick

    def book(self, kind, who, phase):
        """Counts the present tick, before its event is known."""
        for level in range(len(self.config.periods)):
            works = (kind == 'kernel' and who <= level) or (kind == 'budget' and who.level <= level)
            self.unclaimed[level] += not works
        if kind == 'kernel':
            self.kernel_used[who] += 1
        if kind == 'budget':
            who.used += 1
            who.out += phase == 'out'
        if kind == 'slack':
            who.had += 1
        for hold in who.holds if kind in ('budget', 'slack') else ():
            hold.left -= 1

    def next_tick(self):
        self.now += 1
        for level, period in enumerate(self.config.periods):
            if self.now % period == 0:
                self.kernel_used[level], self.unclaimed[level] = 0, 0
        for x in self.threads():
            if self.now % self.config.periods[x.level] == 0:
                self.check_received(x)
                x.open_window(self.now)
        for process, children in enumerate(self.children):
            self.children[process] = [
                c for c in children
                if not self.is_void(c) and (c.stop is None or self.end_of(c) > self.now)
            ]

    def check_received(self, x):
        """What the program promises of each completed window."""
        if x.window >= x.start and (x.stop is None or x.stop >= x.window):
            share = self.share(x, x.window)
            assert x.used <= share, 'more than its share'
            assert x.used == share or x.closed, 'less than its share'
            assert not x.closed or x.used == 0 or x.out == self.config.switch, 'a way out not paid'
