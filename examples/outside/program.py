"""Runs the text program, or one in its place, and says what it did. Needs Linux, for pipes that keep packets apart."""
import collections, json, os, resource, signal, subprocess, tempfile, threading

ROOT = os.path.dirname(os.path.dirname(os.path.dirname(os.path.abspath(__file__))))
CRATE = os.path.join(ROOT, 'crates', 'racejudge')

# What a run writes on standard output and on standard error, its exit status (below 0: the signal that ended it), and what it leaves unread of a pipe.
Ran = collections.namedtuple('Ran', 'out err status left', defaults=(b'', b'', 0, b''))

# What is told on standard error.
UNREAD = b'racejudge: cannot read standard input\n'
UNWRITTEN = b'racejudge: cannot write standard output\n'
ARGUMENTS = b'racejudge: takes no arguments; give it the trace text on standard input: racejudge < TEXT\n'

# So many bytes of a text decide, and no more are read: 2,049 lines of 26 bytes, the longest that there are.
TEXT_BYTES = 53274


def built(path=None):
    """The program at `path`; without one the proved program, which `rt run` proves and builds anew where what it is made from has changed, and runs once."""
    if path:
        return os.path.abspath(path)
    subprocess.run(['rt', 'run'], cwd=CRATE, check=True, stdin=subprocess.DEVNULL, stdout=subprocess.DEVNULL)
    return os.path.join(CRATE, 'out', 'racejudge')


def slow_judge(path=None):
    """The slow judge at `path`; without one the program that `bench/slow` runs, built by cargo."""
    if path:
        return os.path.abspath(path)
    words = ['cargo', 'build', '--release', '--offline', '--quiet', '--no-default-features', '--bin', 'slow', '--message-format=json']
    told = subprocess.run(words, cwd=os.path.join(ROOT, 'bench'), check=True, stdout=subprocess.PIPE).stdout
    return next(path for path in (json.loads(line).get('executable') for line in told.splitlines()) if path)


def run(program, text=b'', words=(), **how):
    """A run with `text` on standard input."""
    how = {'stdin': subprocess.PIPE, 'stdout': subprocess.PIPE, 'stderr': subprocess.PIPE, **how}
    child = subprocess.Popen([program, *words], **how)
    try:
        out, err = child.communicate(text if how['stdin'] == subprocess.PIPE else None, timeout=20)
    except subprocess.TimeoutExpired:
        child.kill()
        return Ran(b'(it does not end)', child.communicate()[1], child.returncode)
    return Ran(out or b'', err or b'', child.returncode)


def from_file(program, text):
    """A run with `text` in a file."""
    with tempfile.TemporaryFile() as file:
        file.write(text)
        file.seek(0)
        return run(program, stdin=file)


def in_packets(program, text, *ends):
    """A run in which each read gives one packet of the text. The packets end at these places, and at the text's end.

    Such a pipe keeps packets apart, however late the program is.
    """
    here, there = os.pipe2(os.O_DIRECT)

    def write():
        for start, end in zip((0, *ends), (*ends, len(text))):
            os.write(there, text[start:end])
        os.close(there)

    writer = threading.Thread(target=write, daemon=True)
    writer.start()
    ran = run(program, stdin=here)
    while os.read(here, 4096):  # a program that leaves some must not keep the writer waiting
        pass
    writer.join()
    os.close(here)
    return ran


def in_packets_of(program, size, text):
    """A run in which each read gives so many bytes, 4,096 at the most."""
    return in_packets(program, text, *range(size, len(text), size))


def from_pipe(program, text, words=(), ends=True):
    """A run with `text` in a pipe, and what it leaves there. A pipe that does not end gives an error behind the text, and does not wait."""
    here, there = os.pipe()
    os.write(there, text)
    os.set_blocking(here, ends)
    if ends:
        os.close(there)
    ran = run(program, words=words, stdin=here)
    if not ends:
        os.close(there)
    left = os.read(here, 65536)
    os.close(here)
    return ran._replace(left=left)


def to_full_disk(program, text):
    with open('/dev/full', 'wb') as full:
        return run(program, text, stdout=full)


def to_short_disk(program, text, room):
    """A run whose output goes to a file with room for so many bytes."""
    def limit():
        signal.signal(signal.SIGXFSZ, signal.SIG_IGN)  # so that the write fails, and does not end the program
        resource.setrlimit(resource.RLIMIT_FSIZE, (room, room))

    with tempfile.TemporaryFile() as file:
        ran = run(program, text, stdout=file, preexec_fn=limit, restore_signals=False)
        file.seek(0)
        return ran._replace(out=file.read())


def to_no_reader(program, text):
    """A run whose output goes to a pipe that nobody reads any more."""
    here, there = os.pipe()
    os.close(here)
    ran = run(program, text, stdout=there)
    os.close(there)
    return ran


def with_closed(program, text, number):
    """A run that has no such descriptor."""
    stream = {0: 'stdin', 1: 'stdout'}[number]
    return run(program, text, **{stream: None, 'preexec_fn': lambda: os.close(number)})
