"""A plain machine, in which a state is byte maps: what a job text says, and the steps that its packets may take."""
import copy
import struct

NONE, AGENT, SYSTEM = 0, 1, 2


class Packet:
    """A packet as the machine sees it: lists of byte numbers for its ranges, and what it writes of what it reads."""


def product(numbers):
    result = 1
    for number in numbers:
        result *= number
    return result


def little(number):
    return list(struct.pack('<Q', number % 2 ** 64))


class Job:
    def __init__(self, text):
        self.agents, self.buffers, self.memory, self.args, self.signals = [], [], [], {}, {}
        self.kernels, self.queues, self.lines, self.starts = {}, [], [], []
        for line in text.split('\n'):
            self.take(line.split(' '))
        self.packets, self.submissions = [], [None] * len(self.lines)
        for queue in range(len(self.queues)):
            for place, (of, raw) in enumerate(self.lines):
                if of == queue:
                    self.submissions[place] = len(self.packets)
                    self.packets.append(self.packet(queue, raw))

    def take(self, words):
        if words[0] == 'hsaq':
            self.rings = words[1] == '2'
        elif words[0] == 'agent':
            self.agents.append(words[1])
        elif words[0] == 'buffer':
            self.buffers.append((words[1], int(words[2]), int(words[3]), len(self.memory)))
            self.memory += list(bytes.fromhex(words[4])) if len(words) > 4 else [0] * int(words[3])
        elif words[0] == 'args':
            self.args[int(words[2])] = bytes.fromhex(words[3])
        elif words[0] == 'signal':
            self.signals[int(words[2])] = len(self.starts)
            self.starts.append(int(words[3]))
        elif words[0] == 'kernel':
            self.kernels[int(words[2])] = words[3]
        elif words[0] == 'queue':
            self.queues.append((words[1], self.agents.index(words[2]), int(words[3])))
            self.current = len(self.queues) - 1
        elif words[0] == 'to':
            self.current = [queue[0] for queue in self.queues].index(words[1])
        elif words[0] == 'packet':
            self.lines.append((self.current, bytes.fromhex(words[1])))

    def bytes_of(self, at, count):
        for _, start, size, first in self.buffers:
            if count and start <= at and at + count <= start + size:
                return list(range(first + at - start, first + at - start + count))
        return []

    def packet(self, queue, raw):
        p = Packet()
        p.queue = queue
        p.agent = self.queues[queue][1]
        header = struct.unpack_from('<H', raw)[0]
        p.bit, p.acquire, p.release = header >> 8 & 1, header >> 9 & 3, header >> 11 & 3
        p.kind = header & 255
        p.done = self.signals.get(struct.unpack_from('<Q', raw, 56)[0])
        p.deps, p.reads, p.writes, p.result = [None] * 5, [], [], lambda read: []
        if p.kind == 2:
            self.kernel(p, raw)
        elif p.kind == 4:
            self.service(p, raw)
        else:
            p.deps = [self.signals.get(h) for h in struct.unpack_from('<5Q', raw, 8)]
        return p

    def kernel(self, p, raw):
        dimensions = struct.unpack_from('<H', raw, 2)[0] & 3
        n = product(struct.unpack_from('<3I', raw, 12)[:dimensions])
        code = self.kernels[struct.unpack_from('<Q', raw, 32)[0]]
        block = self.args[struct.unpack_from('<Q', raw, 40)[0]]
        args = [struct.unpack_from('<Q', block, k)[0] for k in range(0, len(block) - 7, 8)]
        if code == 'fill':
            p.writes, p.result = self.bytes_of(args[0], n), lambda read: [args[1] % 256] * n
        elif code in ('copy', 'rev'):
            p.reads, p.writes = self.bytes_of(args[0], n), self.bytes_of(args[1], n)
            p.result = (lambda read: read) if code == 'copy' else (lambda read: read[::-1])
        elif code in ('xor', 'add'):
            p.reads = self.bytes_of(args[0], n) + self.bytes_of(args[1], n)
            p.writes = self.bytes_of(args[2], n)
            p.result = lambda read: [x ^ y if code == 'xor' else (x + y) % 256 for x, y in zip(read[:n], read[n:])]
        else:
            p.reads, p.writes = self.bytes_of(args[0], n), self.bytes_of(args[1], 8)
            p.result = lambda read: little(sum(read))

    def service(self, p, raw):
        kind, ret = struct.unpack_from('<H', raw, 2)[0], struct.unpack_from('<Q', raw, 8)[0]
        args = struct.unpack_from('<4Q', raw, 16)
        if ret and kind == 32768:
            p.writes, p.result = self.bytes_of(ret, 8), lambda read: little(args[0])
        elif ret and kind == 32769:
            p.reads, p.writes = self.bytes_of(args[0], args[1]), self.bytes_of(ret, 8)
            p.result = lambda read: little(read.count(args[2] % 256))


class State:
    def __init__(self, job):
        self.job, n = job, len(job.packets)
        self.phase = ['waiting' if job.rings else 'queued'] * n
        self.observed, self.read, self.stored = [set() for _ in range(n)], [{} for _ in range(n)], [set() for _ in range(n)]
        self.signals, self.memory = list(job.starts), list(job.memory)
        self.agents, self.lanes = [{} for _ in job.agents], [{} for _ in range(n)]

    def of(self, queue):
        return [p for p, packet in enumerate(self.job.packets) if packet.queue == queue]

    def under(self, agent, byte):
        return self.agents[agent][byte][0] if byte in self.agents[agent] else self.memory[byte]

    def is_dirty(self, copies):
        return any(dirty for _, dirty in copies.values())

    def submit(self):
        for p in self.job.submissions:
            if self.phase[p] == 'waiting':
                queue = self.of(self.job.packets[p].queue)
                size = self.job.queues[self.job.packets[p].queue][2]
                if any(self.phase[e] != 'complete' for e in queue[:max(0, queue.index(p) - size + 1)]):
                    return False
                self.phase[p] = 'queued'
                return True
        return False

    def launch(self, queue):
        before = []
        for p in self.of(queue) if queue < len(self.job.queues) else []:
            if self.phase[p] in ('waiting', 'queued'):
                bars = [e for e in before if self.job.packets[p].bit or self.job.packets[e].kind in (3, 5)]
                if self.phase[p] == 'waiting' or any(self.phase[e] != 'complete' for e in bars):
                    return False
                self.phase[p] = 'launched'
                return True
            before.append(p)
        return False

    def observe(self, p, slot):
        if not self.has(p) or slot > 4 or self.job.packets[p].kind not in (3, 5) or self.phase[p] != 'launched':
            return False
        signal = self.job.packets[p].deps[slot]
        if signal is None or self.signals[signal] or slot in self.observed[p]:
            return False
        self.observed[p].add(slot)
        return True

    def has(self, p):
        return p < len(self.job.packets)

    def enter(self, p):
        if not self.has(p) or self.phase[p] != 'launched':
            return False
        packet = self.job.packets[p]
        slots = {slot for slot, signal in enumerate(packet.deps) if signal is not None}
        if packet.kind == 3 and slots - self.observed[p] or packet.kind == 5 and not self.observed[p]:
            return False
        if packet.acquire >= AGENT:
            for lane in self.of(packet.queue):
                self.lanes[lane] = {b: c for b, c in self.lanes[lane].items() if c[1]}
        if packet.acquire >= SYSTEM:
            self.agents[packet.agent] = {b: c for b, c in self.agents[packet.agent].items() if c[1]}
        self.phase[p] = 'active'
        return True

    def do_read(self, p, i):
        if not self.has(p) or self.phase[p] != 'active' or i >= len(self.job.packets[p].reads) or i in self.read[p]:
            return False
        byte = self.job.packets[p].reads[i]
        self.read[p][i] = self.lanes[p][byte][0] if byte in self.lanes[p] else self.under(self.job.packets[p].agent, byte)
        return True

    def store(self, p, i):
        if not self.has(p) or self.phase[p] != 'active' or len(self.read[p]) < len(self.job.packets[p].reads):
            return False
        packet = self.job.packets[p]
        if i >= len(packet.writes) or i in self.stored[p]:
            return False
        self.lanes[p][packet.writes[i]] = (packet.result([self.read[p][k] for k in range(len(packet.reads))])[i], True)
        self.stored[p].add(i)
        return True

    def finish(self, p):
        if not self.has(p) or self.phase[p] != 'active':
            return False
        packet = self.job.packets[p]
        if len(self.read[p]) < len(packet.reads) or len(self.stored[p]) < len(packet.writes):
            return False
        if packet.release >= AGENT and any(self.is_dirty(self.lanes[lane]) for lane in self.of(packet.queue)):
            return False
        if packet.release >= SYSTEM and self.is_dirty(self.agents[packet.agent]):
            return False
        self.phase[p] = 'complete'
        if packet.done is not None:
            self.signals[packet.done] -= 1
        return True

    def pushlane(self, p, byte):
        if not self.has(p) or not self.lanes[p].get(byte, (0, False))[1]:
            return False
        value = self.lanes[p][byte][0]
        self.lanes[p][byte] = (value, False)
        self.agents[self.job.packets[p].agent][byte] = (value, True)
        return True

    def pushagent(self, agent, byte):
        if agent >= len(self.agents) or not self.agents[agent].get(byte, (0, False))[1]:
            return False
        self.memory[byte] = self.agents[agent][byte][0]
        self.agents[agent][byte] = (self.memory[byte], False)
        return True

    def filllane(self, p, byte):
        if not self.has(p) or byte >= len(self.memory) or byte in self.lanes[p]:
            return False
        self.lanes[p][byte] = (self.under(self.job.packets[p].agent, byte), False)
        return True

    def fillagent(self, agent, byte):
        if agent >= len(self.agents) or byte >= len(self.memory) or byte in self.agents[agent]:
            return False
        self.agents[agent][byte] = (self.memory[byte], False)
        return True

    def droplane(self, p, byte):
        if not self.has(p) or self.lanes[p].get(byte, (0, True))[1]:
            return False
        del self.lanes[p][byte]
        return True

    def dropagent(self, agent, byte):
        if agent >= len(self.agents) or self.agents[agent].get(byte, (0, True))[1]:
            return False
        del self.agents[agent][byte]
        return True

    def parts(self):
        """All that the state has, copied."""
        return {name: [copy.copy(part) for part in parts] for name, parts in vars(self).items() if name != 'job'}

    def copied(self):
        other = State(self.job)
        vars(other).update(self.parts())
        return other

    def whole(self, steps):
        """Whether all steps of the list, which is made as it goes, were enabled; if not, nothing has changed."""
        saved = self.parts()
        if all(steps):
            return True
        vars(self).update(saved)
        return False

    def dirty_bytes(self, copies):
        return sorted(byte for byte, (_, dirty) in copies.items() if dirty)

    def push_lanes(self, lanes):
        return (self.pushlane(lane, byte) for lane in lanes for byte in self.dirty_bytes(self.lanes[lane]))

    def push_agents(self, agents):
        return (self.pushagent(agent, byte) for agent in agents for byte in self.dirty_bytes(self.agents[agent]))

    def fetch(self, p):
        return self.has(p) and self.whole(self.do_read(p, i) for i in range(len(self.job.packets[p].reads)))

    def deliver(self, p):
        return self.has(p) and self.whole(self.store(p, i) for i in range(len(self.job.packets[p].writes)))

    def release(self, p):
        packet = self.job.packets[p]
        yield from self.push_lanes(self.of(packet.queue) if packet.release >= AGENT else [])
        yield from self.push_agents([packet.agent] if packet.release >= SYSTEM else [])
        yield self.finish(p)

    def complete(self, p):
        return self.has(p) and self.whole(self.release(p))

    def rest(self):
        return self.whole(self.push_lanes(range(len(self.lanes)))) and self.whole(self.push_agents(range(len(self.agents))))

    def events(self):
        """All names of events with their method and the numbers that they may take."""
        n, memory = len(self.job.packets), len(self.memory)
        most = max([len(p.reads) for p in self.job.packets] + [len(p.writes) for p in self.job.packets] + [1])
        return [('submit', self.submit, []), ('launch', self.launch, [len(self.job.queues)]), ('observe', self.observe, [n, 5]),
                ('enter', self.enter, [n]), ('read', self.do_read, [n, most]), ('store', self.store, [n, most]), ('finish', self.finish, [n]),
                ('pushlane', self.pushlane, [n, memory]), ('pushagent', self.pushagent, [len(self.agents), memory]),
                ('filllane', self.filllane, [n, memory]), ('fillagent', self.fillagent, [len(self.agents), memory]),
                ('droplane', self.droplane, [n, memory]), ('dropagent', self.dropagent, [len(self.agents), memory]),
                ('fetch', self.fetch, [n]), ('deliver', self.deliver, [n]), ('complete', self.complete, [n]), ('rest', self.rest, [])]

    def work_left(self):
        """An enabled work step's line, done; or None."""
        n = len(self.job.packets)
        tries = [('submit', self.submit, ())] + [('launch', self.launch, (q,)) for q in range(len(self.job.queues))]
        for p in range(n):
            tries += [('observe', self.observe, (p, slot)) for slot in range(5)] + [('enter', self.enter, (p,))]
            tries += [('read', self.do_read, (p, i)) for i in range(len(self.job.packets[p].reads))]
            tries += [('store', self.store, (p, i)) for i in range(len(self.job.packets[p].writes))] + [('finish', self.finish, (p,))]
            tries += [('pushlane', self.pushlane, (p, b)) for b in self.lanes[p]]
        for a in range(len(self.agents)):
            tries += [('pushagent', self.pushagent, (a, b)) for b in self.agents[a]]
        for name, method, numbers in tries:
            if method(*numbers):
                return ' '.join([name] + [str(k) for k in numbers])
        return None
