"""One tick of a program on the simulated processor."""

WORD = 1 << 32

# What an instruction leaves in register a, of the registers and its bytes.
RESULTS = {
    1: lambda r, a, b, c, imm: imm,
    2: lambda r, a, b, c, imm: imm * 65536 + r[a] % 65536,
    3: lambda r, a, b, c, imm: r[b],
    4: lambda r, a, b, c, imm: r[b] + r[c],
    5: lambda r, a, b, c, imm: r[b] - r[c],
    6: lambda r, a, b, c, imm: r[b] * r[c],
    7: lambda r, a, b, c, imm: r[b] // r[c],
    8: lambda r, a, b, c, imm: r[b] % r[c],
    9: lambda r, a, b, c, imm: r[b] & r[c],
    10: lambda r, a, b, c, imm: r[b] | r[c],
    11: lambda r, a, b, c, imm: r[b] ^ r[c],
    12: lambda r, a, b, c, imm: r[b] << r[c] % 32,
    13: lambda r, a, b, c, imm: r[b] >> r[c] % 32,
    14: lambda r, a, b, c, imm: r[a] + imm - (65536 if imm >= 32768 else 0),
    20: lambda r, a, b, c, imm: 1 if r[b] < r[c] else 0,
}

# What the bytes after the code must be: a register (a), anything (n), or 0 (-).
OPERANDS = {0: '---', 1: 'ann', 2: 'ann', 3: 'aa-', 14: 'ann', 15: 'aan', 16: 'aan', 17: '-nn', 18: 'ann',
            19: 'ann', 21: 'a--', 22: 'n--'}


def decodes(word):
    if word[0] > 22:
        return False
    fields = zip(OPERANDS.get(word[0], 'aaa'), word[1:])
    return not any((kind == 'a' and byte > 7) or (kind == '-' and byte != 0) for kind, byte in fields)


def body_tick(x, code, memory, cost):
    """The outcome of one tick of thread x, and a function that does what it does to context and memory."""
    pc, registers = x.pc, x.registers
    if 4 * pc + 4 > len(code):
        return 'fault fetch', None
    word = code[4 * pc:4 * pc + 4]
    if not decodes(word):
        return 'fault decode', None
    kind, a, b, c = word
    if kind == 22:
        if not 1 <= a <= 10:
            return 'fault call', None
        left = (x.call_left or cost) - 1

        def call():
            x.call_left = left
            x.pc = pc + (left == 0)
        return ('done' if left == 0 else 'in call'), call
    if kind in (7, 8) and registers[c] == 0:
        return 'fault divide', None
    if kind in (15, 16) and registers[b] + c >= len(memory):
        return 'fault memory', None

    def run():
        imm = b + 256 * c
        x.pc = pc + 1
        if kind in RESULTS:
            registers[a] = RESULTS[kind](registers, a, b, c, imm) % WORD
        elif kind == 15:
            registers[a] = memory[registers[b] + c]
        elif kind == 16:
            memory[registers[b] + c] = registers[a]
        elif kind == 17 or (kind == 18 and registers[a] == 0) or (kind == 19 and registers[a] != 0):
            x.pc = imm
        elif kind == 21:
            x.pc = registers[a]
    return 'ran', run
