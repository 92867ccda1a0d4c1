"""Compares single instructions of the crate run65 with those of cc65's simulator sim65, from random states.

Each state sets memory, the registers and the flags, and one instruction runs. Then the registers, the flags, where code
goes on, and the memory that it reads and writes must be the same. The opcodes are those of the tables in crates/isa65,
each of them as often as every other one of its CPU; half of the sums are decimal. sim65 has no 65SC02, so its opcodes
run on sim65's 65C02. --states says how many states there are of each CPU, and --seed which."""
import collections, itertools, random, re, struct, subprocess
import pytest
from conftest import ROOT, command, fails, lack, read, write

POKES, PEEKS = 18, 6
STATE = struct.Struct('<5BH' + POKES * 'HB' + f'{PEEKS}H')
# After `rol abs,x` sim65 2.19 goes on at the last byte of the instruction: a `jmp` in each state, which leads back too.
ROL_ABSX = 0x3E
PUSHES, PULLS = {'Pha': 1, 'Phx': 1, 'Phy': 1, 'Php': 1, 'Jsr': 2, 'Brk': 3}, {'Pla', 'Plx', 'Ply', 'Plp', 'Rts', 'Rti'}
Result = collections.namedtuple('Result', 'a x y s p pc memory')


def digits_less(a, b, borrow, is_cmos):
    """a - b - borrow in decimal digits, as the CPUs have it, also where the halves of a byte are no digits."""
    low = (a & 15) - (b & 15) - borrow
    if is_cmos:
        whole = a - b - borrow
        return (whole - (0x60 if whole < 0 else 0) - (6 if low < 0 else 0)) & 255
    if low < 0:
        low = (low - 6 & 15) - 16
    whole = (a & 0xF0) - (b & 0xF0) + low
    return (whole - (0x60 if whole < 0 else 0)) & 255


def by_data_sheet(state, its):
    """What an instruction does: what sim65 says, unless sim65 2.19 does not do what the data sheets say."""
    p, kind = state.p | 0x30, state.mnemonic[:3]
    nz = lambda p, n: p & 0x7D | n & 0x80 | (2 if n == 0 else 0)
    # It has no bit instructions of the 65C02.
    if kind in ('Rmb', 'Smb', 'Bbr', 'Bbs'):
        bit = 1 << int(state.mnemonic[3])
        goes = kind[0] == 'B' and bool(state.byte & bit) == (kind == 'Bbs')
        byte = {'Rmb': state.byte & ~bit, 'Smb': state.byte | bit}.get(kind, state.byte)
        return Result(state.a, state.x, state.y, state.s, p, state.to if goes else state.next, [byte])
    if kind == 'Sbc' and p & 8:
        borrow = 1 - (p & 1)
        plain, a = state.a - state.byte - borrow, digits_less(state.a, state.byte, borrow, state.is_cmos)
        v = 0x40 if (state.a ^ state.byte) & (state.a ^ plain) & 0x80 else 0
        return its._replace(a=a, p=nz(p & 0xBE | v | (plain >= 0), a if state.is_cmos else plain & 255))
    # N and Z of decimal sums on the 65C02
    if kind == 'Adc' and p & 8 and state.is_cmos:
        return its._replace(p=nz(its.p, its.a))
    # N and V of `bit #`
    if kind == 'Bit' and state.mode == 'Imm':
        return its._replace(p=its.p & 0x3F | p & 0xC0)
    # A pointer at $FF
    if kind == 'Cmp' and state.mode in ('Indy', 'Zpind') and state.near == 0xFF:
        difference = state.a - state.byte
        return its._replace(p=nz(p & 0xFE | (difference >= 0), difference & 255))
    return its


class State:
    """Registers, what is written to memory before an instruction, and where it may lead."""

    def __init__(self, rng, code, mnemonic, mode, here, there):
        self.code, self.pokes, self.peeks, self.mnemonic, self.mode = code, [], [], mnemonic, mode
        byte = lambda: rng.choice((rng.randrange(256), rng.randrange(256), 0, 0x7F, 0x80, 0xFF))
        self.p, self.a, self.x, self.y, self.s = byte(), byte(), byte(), byte(), byte()
        self.p = self.p & 0xF7 if mnemonic not in ('Adc', 'Sbc') or rng.random() < 0.5 else self.p | 8
        if mnemonic in ('Php', 'Brk', 'Cld', 'Plp', 'Rti') and rng.random() < 0.5:
            self.p |= 8
        self.start, self.to = rng.randrange(0x8000, 0xA000), rng.randrange(0xA000, 0xC000)
        operand = self.operand(rng)
        self.next = self.start + 1 + len(operand)
        if mode in ('Rel', 'Zprel'):
            distance = rng.choice((rng.randrange(3, 128), rng.randrange(-128, -3 - len(operand))))
            operand[-1] = distance & 255
            self.to = self.next + distance
        # The flags are pulled from memory.
        self.poke(0x100 + self.s, [self.p])
        self.poke(self.start, [code, *operand, 0x4C, *self.word(here)])
        if code == ROL_ABSX:
            self.poke((here & 255) << 8 | 0x4C, [0x4C, *self.word(here)])
        self.poke(self.to, [0x4C, *self.word(there)])
        self.stack(rng)

    def poke(self, at, data):
        for k, byte in enumerate(data):
            self.pokes.append(((at + k) & 0xFFFF, byte))

    def word(self, address):
        return [address & 255, address >> 8 & 255]

    def operand(self, rng):
        """The bytes behind the opcode; memory is set to what they need."""
        mode, far, near = self.mode, rng.randrange(0x3000, 0x7FFE), rng.randrange(256)
        self.near = near
        byte = self.byte = rng.choice((rng.randrange(256), rng.randrange(256),
                                       rng.randrange(10) * 16 + rng.randrange(10), 0, 0x80, 0xFF))
        if rng.random() < 0.2:
            far |= 0xFF
        index = {'x': self.x, 'y': self.y}.get(mode[-1], 0)
        if mode in ('Zp', 'Zpx', 'Zpy', 'Zprel'):
            self.poke(near, [byte])
            self.peeks.append(near)
            return [near - index & 255] + [0] * (mode == 'Zprel')
        if mode in ('Indx', 'Indy', 'Zpind'):
            low, high = self.word(far - (self.y if mode == 'Indy' else 0))
            for at, what in (far, byte), (near, low), (near + 1 & 255, high):
                self.poke(at, [what])
                self.peeks.append(at)
            return [near - (self.x if mode == 'Indx' else 0) & 255]
        if mode in ('Abs', 'Absx', 'Absy') and self.mnemonic not in ('Jmp', 'Jsr'):
            if self.code == ROL_ABSX:
                far = 0x4C00 + near + self.x
            self.poke(far, [byte])
            self.peeks.append(far)
            return self.word(far - index)
        if mode in ('Ind', 'Absindx'):
            other = far + 1 if mode == 'Absindx' or self.is_cmos or far & 255 != 255 else far & 0xFF00
            self.poke(far, self.word(self.to)[:1])
            self.poke(other, self.word(self.to)[1:])
            return self.word(far - index)
        if mode == 'Abs':
            return self.word(self.to)
        return {'Imm': [byte], 'Rel': [0]}.get(mode, [])

    def stack(self, rng):
        """Memory and peeks of what is pushed and pulled."""
        cell = lambda k: 0x100 + (self.s + k & 255)
        self.peeks += [cell(-k) for k in range(PUSHES.get(self.mnemonic, 0))]
        if self.mnemonic in PULLS:
            byte = [rng.randrange(256)]
            data = {'Rts': self.word(self.to - 1), 'Rti': byte + self.word(self.to)}.get(self.mnemonic, byte)
            for k, byte in enumerate(data):
                self.poke(cell(k + 1), [byte])
        if self.mnemonic == 'Brk':
            self.poke(0xFFFE, self.word(self.to))

    def bytes(self):
        pokes = self.pokes + [(0x2F00, 0)] * (POKES - len(self.pokes))
        peeks = [at & 0xFFFF for at in self.peeks] + [0x2F00] * (PEEKS - len(self.peeks))
        return STATE.pack(self.p, self.a, self.x, self.y, self.s, self.start, *itertools.chain(*pokes), *peeks)


def results(command, states, size):
    """What a program reports of each state, in so many bytes."""
    write('states', b''.join(state.bytes() for state in states))
    out = subprocess.run(command, stdin=open('states', 'rb'), stdout=subprocess.PIPE, check=True).stdout
    assert len(out) == len(states) * size
    return [out[k:k + size] for k in range(0, len(out), size)]


def test_cc65_is_installed():
    """ca65, ld65 and sim65 judge what the programs write, so they may be missing only if CA65=skip is set."""
    assert lack('ca65') in (None, 'CA65=skip is set'), 'install cc65, or set CA65=skip'


@pytest.mark.ca65
@pytest.mark.parametrize('cpu, tables, kind', [
    ('6502', 'mos_6502', 0), ('65SC02', 'mos_6502 cmos_65sc02', 1),
    ('65C02', 'mos_6502 cmos_65sc02 rockwell_65c02', 1)])
def test_states(step65, cpu, tables, kind, request):
    """In each state run65 does what sim65 does, or, where that differs from the data sheets, what these say."""
    defined = f'-D KIND={kind} -D STATE={STATE.size} -D POKES={POKES * 3} -D PEEKS={PEEKS}'
    command(f'ca65 -g {defined} -o driver.o {ROOT}/tests/run65.s')
    command(f'ld65 -C {ROOT}/tests/run65.cfg -Ln driver.map -o driver driver.o')
    places = re.findall(r'al ([0-9A-F]{6}) \.(here|there)', read('driver.map').decode())
    labels = {name: int(value, 16) for value, name in places}
    count, seed = map(request.config.getoption, ('--states', '--seed'))
    text = ''.join((ROOT / f'crates/isa65/src/{name}.rt').read_text() for name in tables.split())
    rows = {int(code, 16): (mnemonic, mode) for code, mnemonic, mode in re.findall(
        r'(0x[0-9A-F]{2}) => op\(Mnemonic::(\w+), Mode::(\w+)\)', text)}
    State.is_cmos, draw = cpu != '6502', random.Random(f'{seed} {cpu}')
    states = [State(draw, code, *rows[code], labels['here'], labels['there'])
              for code in itertools.islice(itertools.cycle(sorted(rows)), count)]
    known = [state for state in states if not state.mnemonic[-1].isdigit()]
    theirs, differ = iter(results(['sim65', '-x', '4000000000', 'driver'], known, 12)), collections.defaultdict(list)
    for state, (a, x, y, s, p, low, high, *memory) in zip(states, results([step65.path, cpu], states, 13)):
        mine, its = Result(a, x, y, s, p, low + 256 * high, memory[:len(state.peeks)]), None
        if not state.mnemonic[-1].isdigit():
            a, x, y, s, p, jumps, *memory = next(theirs)
            its = Result(a, x, y, s, p, state.to if jumps else state.next, memory[:len(state.peeks)])
        wanted = by_data_sheet(state, its)
        if mine != wanted:
            before = 'P %02X A %02X X %02X Y %02X S %02X, %02X at $%04X' % (
                state.p, state.a, state.x, state.y, state.s, state.byte, state.start)
            differ[state.mnemonic + ' ' + state.mode].append(f'{before}: {mine}, and not {wanted}')
    if differ:
        fails('\n'.join(f'{len(found)} times {name}, as {found[0]}' for name, found in sorted(differ.items())))
