"""Runs hsaq and another program of the same command line in turn, and says what each took."""
import hashlib
import os
import statistics
import subprocess
import tempfile
import time

HERE = os.path.dirname(os.path.abspath(__file__))
# nothing is printed to where this is called
SILENT = [(os.POSIX_SPAWN_OPEN, stream, os.devnull, os.O_WRONLY, 0) for stream in (1, 2)]
# the program with all commands, as users get it
HSAQ = subprocess.run([os.path.join(HERE, '..', 'tools', 'whole'), 'hq_cli'], stdout=subprocess.PIPE, text=True, check=True).stdout.strip()


def surroundings():
    """What the script `hsaq` asks the C library for."""
    with open(os.path.join(HERE, '..', 'hsaq')) as file:
        tunables = [line.split('=', 1)[1].strip() for line in file if line.strip().startswith('tunables=')]
    os.environ.setdefault('GLIBC_TUNABLES', tunables[0])


class Times:
    """The processor times on one processor and the times by the clock on all of the runs so far, and the memory of one, in KB."""

    def __init__(self):
        self.one, self.all, self.memory = [], [], 0

    def run(self, words, core):
        """Runs the words once more, on one processor or, with None, on all. No copy of this process is made for that, whose time would count."""
        every = os.sched_getaffinity(0)
        os.sched_setaffinity(0, every if core is None else {core})
        start = time.perf_counter()
        child = os.posix_spawnp(words[0], words, os.environ, file_actions=SILENT)
        _, _, use = os.wait4(child, 0)
        took = time.perf_counter() - start
        os.sched_setaffinity(0, every)
        if core is None:
            self.all.append(took)
        else:
            self.one.append(use.ru_utime + use.ru_stime)

    def weigh(self, words, note):
        """Runs the words once more, under a small program that tells how much memory they took."""
        subprocess.run(['/usr/bin/time', '-f', '%M', '-o', note] + words, stdout=subprocess.DEVNULL, stderr=subprocess.DEVNULL)
        with open(note) as file:
            self.memory = int(file.read().split()[-1])


def words_for(command, other, job, scratch):
    """The words of a command behind the program's name; what it reads beside the job is made by OTHER."""
    if command == 'check':
        certificate = os.path.join(scratch, 'certificate')
        with open(certificate, 'wb') as file:
            subprocess.run([other, 'audit', job], stdout=file, stderr=subprocess.DEVNULL)
        return [command, job, certificate]
    if command == 'replay':
        timeline = os.path.splitext(job)[0] + '.timeline'
        if not os.path.exists(timeline):
            timeline = os.path.join(scratch, 'timeline')
            subprocess.run([other, 'run', job, '--timeline', timeline], stdout=subprocess.DEVNULL, check=True)
        return [command, job, timeline]
    return [command, job]


def digest(words):
    return hashlib.sha256(subprocess.run(words, stdout=subprocess.PIPE, stderr=subprocess.DEVNULL).stdout).digest()


def compared(hsaq, other, command, job, runs, core):
    """The times of both programs, which take turns, and whether both write the same."""
    with tempfile.TemporaryDirectory() as scratch:
        words = words_for(command, other, job, scratch)
        times = [(hsaq, Times()), (other, Times())]
        for _ in range(runs):
            for where in (core, None):
                for program, it in times:
                    it.run([program] + words, where)
        for program, it in times:
            it.weigh([program] + words, os.path.join(scratch, 'note'))
        return times[0][1], times[1][1], digest([hsaq] + words) == digest([other] + words)


HEAD = '%-20s %8s %8s %6s %6s %9s %8s %6s %6s %9s %6s' % ('job', 'one, ms', 'other', 'ratio', 'half', 'all, ms', 'other', 'ratio', 'half', 'KB', 'ratio')


def told(ours, theirs):
    """The least of these times, in ms, and the ratios of the least and of the medians: those of half of the runs are below."""
    half = statistics.median(ours) / statistics.median(theirs)
    return '%8.2f %8.2f %6.2f %6.2f' % (min(ours) * 1000, min(theirs) * 1000, min(ours) / min(theirs), half)


def line(job, ours, theirs, same):
    """A line of the table: what both took, and the ratios."""
    name = os.path.splitext(os.path.basename(job))[0]
    text = '%-20s %s  %s' % (name, told(ours.one, theirs.one), told(ours.all, theirs.all))
    return text + ' %9d %6.2f%s' % (ours.memory, ours.memory / theirs.memory, '' if same else '  DIFFERENT')
