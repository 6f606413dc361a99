"""A configuration, and its certification."""

from dataclasses import dataclass, field


@dataclass
class Process:
    name: str
    level: int
    budget: int
    memory: int = 0
    threads: int = 0
    slack: bool = False
    max_level: int = 0


@dataclass
class Mutex:
    name: str
    ceiling: int
    hold: int
    users: list  # of processes' numbers


@dataclass
class Configuration:
    periods: list
    releases: list
    processes: list
    mutexes: list = field(default_factory=list)
    switch: int = 0
    call: int = 1
    version: int = 1


def demand_of(config, level):
    """The ticks that all levels up to this one ask for in one of its windows."""
    total = 0
    for i in range(level + 1):
        each = config.releases[i] + sum(p.budget for p in config.processes if p.level == i)
        total += each * (config.periods[level] // config.periods[i])
    return total


def blocking_of(config, level):
    """The longest hold by which a slower thread can keep this level waiting."""
    longest = 0
    for mutex in config.mutexes:
        users = [config.processes[u] for u in mutex.users]
        slower = any(p.level > level or (p.threads > 0 and p.max_level > level) for p in users)
        if mutex.ceiling <= level and slower:
            longest = max(longest, mutex.hold)
    return longest


def failing_level(config):
    """The first level whose demand and blocking don't fit its period, or None."""
    for level, period in enumerate(config.periods):
        if demand_of(config, level) + blocking_of(config, level) > period:
            return level
    return None
