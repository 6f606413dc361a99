"""How soon in its window a main can have its ticks, by the rule, tick by tick."""


def soonest(config, process, needed):
    """The least number of ticks of its window with room for so many of the main and for the kernel's own work before them."""
    own = config.processes[process]
    faster = [mutex.ceiling for mutex in config.mutexes if process in mutex.users]
    for ticks in range(needed, config.periods[own.level]):
        work = 0
        for level in range(own.level + 1):
            period = config.periods[level]
            passed = any(ceiling < level for ceiling in faster)
            work += config.releases[level] * (max(1, ticks // period) if passed else -(-ticks // period))
        if work + needed <= ticks:
            return ticks
    return config.periods[own.level]
