"""Random jobs, and what orders their packets, as sets, straight from the definitions."""
import itertools
import os
import subprocess

HSAQ = os.path.join(os.path.dirname(os.path.abspath(__file__)), '..', 'crates', 'hq_cli', 'out', 'hq_cli')
BASE, SIZE = 4096, 24
NONE, AGENT, SYSTEM = 0, 1, 2


def number(value, size):
    return value.to_bytes(size, 'little')


class Packet:
    """A packet: its queue, agent and kind, the bytes that it reads and writes, the handles that it waits for and completes on, its body."""

    def __init__(self, queue, kind, head, body, reads=(), writes=(), waits=(), done=0):
        self.queue, self.kind, self.head, self.body = queue, kind, head, body
        self.reads, self.writes, self.waits, self.done = set(reads), set(writes), waits, done


class Job:
    """A random job without rings; `packets` are by number, queue by queue."""

    def __init__(self, pick, most):
        self.pick, self.lines, self.signals = pick, [], []
        self.agents = [pick.choice('aac') for _ in range(pick.randint(1, 3))]
        rows = [[] for _ in self.agents]
        for _ in range(pick.randint(1, most)):
            queue = pick.randrange(len(rows))
            rows[queue].append(self.barrier(queue) if self.others(queue) and pick.random() < 0.45 else self.kernel(queue, sum(map(len, rows))))
        self.rows = rows
        self.packets = [packet for row in rows for packet in row]

    def others(self, queue):
        return [handle for handle, of in self.signals if of != queue]

    def head(self):
        return (int(self.pick.random() < 0.6), self.pick.choice([0, 1, 2, 2]), self.pick.choice([0, 1, 2, 2]))

    def done(self, queue):
        if self.pick.random() < 0.3:
            return 0
        self.signals.append((100 + len(self.signals), queue))
        return self.signals[-1][0]

    def barrier(self, queue):
        waits = self.pick.sample(self.others(queue), min(len(self.others(queue)), self.pick.choice([1, 1, 2])))
        done = self.done(queue)
        body = number(0, 6) + b''.join(number(handle, 8) for handle in waits + [0] * (5 - len(waits))) + number(0, 8) + number(done, 8)
        return Packet(queue, self.pick.choice([3, 3, 5]), self.head(), body, waits=waits, done=done)

    def kernel(self, queue, place):
        count, block, done = self.pick.randint(1, 4), 8192 + 64 * place, self.done(queue)
        at = [self.pick.randrange(SIZE - count + 1) for _ in range(2)]
        is_fill = self.pick.random() < 0.5
        words = [BASE + at[1], 7] if is_fill else [BASE + at[0], BASE + at[1]]
        reads = [] if is_fill else range(at[0], at[0] + count)
        return self.dispatch(queue, place, block, words, done, reads, range(at[1], at[1] + count))

    def dispatch(self, queue, place, block, words, done, reads, writes):
        """A fill where nothing is read, and else a copy."""
        self.lines.append(f'args k{place} {block} ' + b''.join(number(word, 8) for word in words).hex())
        body = (number(1, 2) + number(1, 2) * 3 + number(0, 2) + number(len(writes), 4) + number(1, 4) * 2 + number(0, 8)
                + number(2 if reads else 1, 8) + number(block, 8) + number(0, 8) + number(done, 8))
        return Packet(queue, 2, self.head(), body, reads, writes, done=done)

    def heads(self):
        return [packet.head for packet in self.packets]

    def text(self, heads):
        lines = ['hsaq 1', 'agent a', 'agent c', f'buffer b {BASE} {SIZE}', *self.lines, 'kernel f 1 fill', 'kernel c 2 copy']
        lines += [f'signal s{handle} {handle} 1' for handle, _ in self.signals]
        of_packet = iter(heads)
        for place, row in enumerate(self.rows):
            lines.append(f'queue q{place} {self.agents[place]} {max(16, 1 << (len(row) - 1).bit_length() if row else 0)}')
            for packet in row:
                bit, acquire, release = next(of_packet)
                lines.append('packet ' + (number(packet.kind | bit << 8 | acquire << 9 | release << 11, 2) + packet.body).hex())
        return '\n'.join(lines + ['end', ''])


def before_of(job, bits):
    """For each packet those that it is before."""
    packets, count = job.packets, len(job.packets)
    after = [set() for _ in packets]
    for p, r in itertools.combinations(range(count), 2):
        if packets[p].queue == packets[r].queue and (packets[p].kind != 2 or any(bits[p + 1:r + 1])):
            after[p].add(r)
    completes = {handle: [p for p in range(count) if packets[p].done == handle] for handle, _ in job.signals}
    for r, packet in enumerate(packets):
        if packet.kind == 3:
            for handle in packet.waits:
                for p in completes[handle]:
                    after[p].add(r)
    while True:
        size = sum(map(len, after))
        for p in range(count):
            for m in list(after[p]):
                after[p] |= after[m]
            for r, packet in enumerate(packets):
                if packet.kind == 5 and all(any(d == p or d in after[p] for d in completes[handle]) for handle in packet.waits):
                    after[p].add(r)
        if sum(map(len, after)) == size:
            return after


def is_shown(job, heads, after, p, r):
    """Whether all conflicts of p with r, p first, are ordered."""
    packets, agents = job.packets, job.agents
    first, second = packets[p], packets[r]
    wr, ww, rw = first.writes & second.reads, first.writes & second.writes, first.reads & second.writes
    if not (wr or ww or rw):
        return True
    if r not in after[p]:
        return False
    needed = AGENT if agents[first.queue] == agents[second.queue] else SYSTEM
    agent = [agents[packet.queue] for packet in packets]
    own = [x for x in range(len(packets)) if packets[x].queue == first.queue and (x == p or x in after[p])]
    ends = {x for x in own if heads[x][2] >= needed}
    if needed == SYSTEM:
        ends |= {m for x in own if heads[x][2] >= AGENT for m in after[x] if agent[m] == agent[p] and heads[m][2] == SYSTEM}
    theirs = [y for y in range(len(packets)) if packets[y].queue == second.queue and (y == r or r in after[y])]
    begins = {y for y in theirs if heads[y][1] >= needed}
    if needed == SYSTEM:
        begins |= {m for m in range(len(packets)) if agent[m] == agent[r] and heads[m][1] == SYSTEM and any(y in after[m] and heads[y][1] >= AGENT for y in theirs)}
    if ww and not any(r in after[x] for x in ends):
        return False
    return not wr or any(y in after[x] for x in ends for y in begins)


def is_ordered(job, heads):
    after = before_of(job, [head[0] for head in heads])
    pairs = itertools.combinations(range(len(heads)), 2)
    return all(is_shown(job, heads, after, p, r) or is_shown(job, heads, after, r, p) for p, r in pairs)


def hsaq(command, text):
    done = subprocess.run([HSAQ, command, '@'], input=text, capture_output=True, text=True, timeout=60)
    return done.returncode, done.stdout
