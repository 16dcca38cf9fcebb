"""Draws texts at random, with no code of any judge: runs that keep the rules, the same with something broken, and the limits."""
import collections, random, re

# A text, and its answer's first line where the way it was made decides that.
Drawn = collections.namedtuple('Drawn', 'text first', defaults=(None,))

TASKS = LOCATIONS = 1024
EVENTS = 2048


def line(task, what, operand, source=1):
    mark = 'T' if what in ('fork', 'join') else 'V'
    return b'T%d|%s(%s%d)|%d\n' % (task, what.encode(), mark.encode(), operand, source)


class Run:
    """A run that keeps the rules, as lines. Of its first `careful` events no two race."""

    def __init__(self, rng, locations, careful):
        self.rng, self.locations, self.careful = rng, locations, careful
        self.lines, self.events = [], 0
        self.halts = 0  # that the next line puts in
        self.active = [0]  # each forked by the one before it; the last runs
        self.in_line = [0]  # from left to right
        self.fresh = rng.sample(range(1, TASKS), rng.choice([5, 60, TASKS - 1]))
        self.known = {0: 0}  # of each task, the accesses that come before its next event, as bits
        self.reads, self.writes = collections.Counter(), collections.Counter()  # of each location, likewise
        self.accesses = 0

    def add(self, what, operand):
        self.lines.append(line(self.active[-1], what, operand, self.rng.choice([0, 7, 65535, self.rng.randrange(65536)])))
        self.events += self.halts + 1
        self.halts = 0

    def resume(self):
        """A paused task acts next: the halts of those above it are put in."""
        halts = self.rng.randrange(len(self.active))
        self.halts += halts
        del self.active[len(self.active) - halts:]

    def fork(self):
        parent, child = self.active[-1], self.fresh.pop()
        self.add('fork', child)
        self.in_line.insert(self.in_line.index(parent), child)
        self.known[child] = self.known[parent]
        self.active.append(child)

    def left(self):
        """The task immediately left of the running one, or none."""
        at = self.in_line.index(self.active[-1])
        return self.in_line[at - 1] if at else None

    def join(self):
        joined = self.left()
        self.add('join', joined)
        self.in_line.remove(joined)
        self.known[self.active[-1]] |= self.known[joined]

    def access(self, writes):
        task, location = self.active[-1], self.rng.choice(self.locations)
        conflicting = self.writes[location] | (self.reads[location] if writes else 0)
        if self.events < self.careful and conflicting & ~self.known[task]:
            return
        self.add('w' if writes else 'r', location)
        bit = 1 << self.accesses
        self.accesses += 1
        self.known[task] |= bit
        (self.writes if writes else self.reads)[location] |= bit

    def step(self, weights):
        if self.rng.random() < weights['back']:
            self.resume()
        kind = self.rng.choices(['fork', 'join', 'w', 'r'], [weights[kind] for kind in ('fork', 'join', 'w', 'r')])[0]
        if kind == 'fork' and self.fresh:
            self.fork()
        elif kind == 'join' and self.left() is not None:
            self.join()
        else:
            self.access(kind == 'w')


def run(rng, events, careful):
    """A run of so many events at the most, and mostly of nearly as many. The first `careful` of them do not race."""
    locations = rng.sample(range(LOCATIONS), rng.choice([1, 2, 4, 12]))
    weights = {'back': rng.choice([0.2, 0.4, 0.7]),
               'fork': rng.choice([1, 3]), 'join': rng.choice([0.5, 2, 5]), 'w': rng.choice([0.3, 2, 4]), 'r': rng.choice([1, 3])}
    drawn = Run(rng, locations, careful)
    for _ in range(4 * events):
        if drawn.events + drawn.halts + len(drawn.active) > events:  # one more step might put in halts for all
            break
        drawn.step(weights)
    return drawn


def kept(rng, events):
    """A run that keeps the rules; of three one is clean by the way it is made."""
    careful = rng.choice([events, rng.randrange(events), rng.randrange(events)])
    drawn = run(rng, events, careful)
    return Drawn(b''.join(drawn.lines), b'clean %d\n' % drawn.events if careful == events else None)


def broken(rng, events):
    """A run with a line put in that breaks a rule, or nearly: by its task, its location, or the task that is forked or joined."""
    lines = run(rng, events, events).lines
    at = rng.randrange(len(lines) + 1)
    task = int(re.match(rb'T(\d+)', lines[min(at, len(lines) - 1)])[1]) if lines else 0  # it runs there, or resumes
    number = rng.choice([rng.randrange(8), rng.randrange(TASKS), TASKS - 1, TASKS, 65535])
    lines.insert(at, rng.choice([
        line(number, 'r', 5), line(task, 'w', number), line(task, 'r', rng.choice([LOCATIONS, 65535])), line(task, 'fork', number),
        line(task, 'fork', task), line(task, 'fork', rng.choice([TASKS, 65535])), line(task, 'join', number)]))
    return Drawn(b''.join(lines))


# Bytes that a line may have, and some that it may not.
BYTES = b'T0159|rwforkjoin(V)\n\r \t\0\xff'

# What a line has, and what it may not have in that place.
SLIPS = [(b'\n', b'\r\n'), (b'\n', b' \n'), (b'\n', b'\n\n'), (b'\n', b''), (b'T', b't'), (b'T', b' T'), (b'|', b'||'), (b'|', b' |'),
         (b'(T', b'(V'), (b'(V', b'(T'), (b'(V', b'('), (b')', b''), (b'T0', b'T00'), (b'T', b'T0'), (b'(V', b'(V0'),
         (b'|1\n', b'|01\n'), (b'|1\n', b'|65536\n'), (b'|1\n', b'|\n'),
         (b'T0|', b'T65536|'), (b'T0|', b'T-0|'), (b'fork', b'Fork'), (b'fork', b'for'), (b'join', b'joins'), (b'|r(', b'|s('), (b'|w(', b'|halt(')]


def malformed(rng, events):
    """A run with a slip in it: a byte changed, put in or taken out, the end cut off, or a piece of a line that is nearly right."""
    text = b''.join(run(rng, events, events).lines) + line(0, 'r', 5)
    at, byte = rng.randrange(len(text)), bytes([rng.choice(BYTES)])
    slip = rng.randrange(6)
    if slip < 3:
        piece, other = rng.choice(SLIPS)
        places = [found.start() for found in re.finditer(re.escape(piece), text)]
        at = rng.choice(places) if places else at
        return Drawn(text[:at] + other + text[at + len(piece):])
    return Drawn({3: text[:at] + byte + text[at + 1:], 4: text[:at] + byte + text[at:], 5: text[:at]}[slip])


def noise(rng, _):
    """Lines of any small numbers, or bytes of any kind."""
    if rng.random() < 0.2:
        return Drawn(bytes(rng.choice(BYTES) for _ in range(rng.randrange(60))))
    kinds = ['r', 'w', 'fork', 'join']
    return Drawn(b''.join(line(rng.randrange(3), rng.choice(kinds), rng.randrange(4)) for _ in range(rng.randrange(9))))


def nest():
    """The most forks, each by the child of the one before, and then a line of task 0 before which all halt: 2,047 events."""
    return b''.join(line(task, 'fork', task + 1) for task in range(TASKS - 1)) + line(0, 'w', 5)


def limits():
    """Texts at the limits, with what is said of them."""
    read, write = line(0, 'r', 1023, 65535), line(0, 'w', 1023, 65535)
    child = line(0, 'fork', 1023) + line(1023, 'w', 0, 65535)
    joined = b''.join(line(0, 'fork', task) + line(task, 'w', task) + line(0, 'join', task) for task in range(1, 512))
    for text, answer in [
            (b'', 'clean 0'),
            (read, 'clean 1'),
            (read * EVENTS, 'clean 2048'),
            (read * EVENTS + write, 'refused 15 2048'),
            (nest() + read, 'clean 2048'),
            (nest() + read * 2, 'refused 15 1025'),
            (joined + read * 4, 'clean 2048'),
            (joined + read * 5, 'refused 15 1537'),
            (child + read * 2044 + line(0, 'r', 0), 'race 1 2047'),
            (child + read * 2045 + line(0, 'r', 0), 'refused 15 2047'),
            (read * 2048 + b'T', 'refused 14 2048'),
            (line(0, 'r', 1024), 'refused 8 0'),
            (line(0, 'fork', 1024), 'refused 9 0'),
            (line(0, 'fork', 0), 'refused 10 0'),
            (line(0, 'join', 1), 'refused 11 0'),
            (line(1, 'r', 0), 'refused 7 0')]:
        yield Drawn(text, answer.encode() + b'\n')


def texts(seed, number):
    """So many texts at random."""
    rng = random.Random(seed)
    for _ in range(number):
        form = rng.choices([kept, broken, malformed, noise], [12, 5, 2, 1])[0]
        yield form(rng, rng.choices([12, 60, 400, 2048], [20, 20, 6, 3])[0])
