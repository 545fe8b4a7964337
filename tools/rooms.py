"""What tools/edits and tools/mutate share: a copy of the crates in which the prover judges a changed one in seconds, what it said of
each function, and where the functions of a source file stand."""
import fcntl, hashlib, os, re, shutil, subprocess, tempfile
from concurrent.futures import ThreadPoolExecutor
from contextlib import contextmanager
from queue import Queue

ROOT = os.path.dirname(os.path.dirname(os.path.abspath(__file__)))
PARTS = 'src', 'specs', 'proofs'  # what a check reads of a crate
KILLED = -9, 137


def dependencies():
    """What each crate stands on, by crates.txt."""
    lines = [line.split('#')[0].partition(':') for line in read('crates.txt').splitlines()]
    return {names.split()[0]: rest.split() for names, colon, rest in lines if names.split()}


def reached(crate):
    """The crates of the repository that a crate stands on, directly or not."""
    below = dependencies()
    found, todo = [], [crate]
    while todo:
        todo = [d for name in todo for d in below[name] if d in below and d not in found]
        found += dict.fromkeys(todo)
    return found


def link(one, other):
    """What was proved gets a second name, where that can be: the prover replaces such a file and never writes into it."""
    try:
        if one.endswith('.oantt') or '/out/rlib/' in one:
            return os.link(one, other)
    except OSError:
        pass
    return shutil.copy2(one, other)


class Room:
    """A copy of the crates' files, with the libraries that `rt check` built of them."""

    def __init__(self, place):
        self.place = place
        os.makedirs(place)
        for name in ('crates.txt', 'HANDLES'):
            if os.path.exists(os.path.join(ROOT, name)):
                shutil.copy(os.path.join(ROOT, name), place)
        for crate in dependencies():
            for part in PARTS:
                if os.path.isdir(os.path.join(ROOT, 'crates', crate, part)):
                    shutil.copytree(os.path.join(ROOT, 'crates', crate, part), os.path.join(place, 'crates', crate, part))
            self.renew(crate, 'rlib')

    def renew(self, crate, *parts):
        """Has a part of a crate's out/ be what it is in the repository."""
        for part in parts:
            kept, here = (os.path.join(place, 'crates', crate, 'out', part) for place in (ROOT, self.place))
            shutil.rmtree(here, ignore_errors=True)
            if os.path.isdir(kept):
                shutil.copytree(kept, here, copy_function=link)

    def rt(self, crate, *words):
        """The status and words of one call of rt in a crate's folder."""
        run = subprocess.run(['rt', *words, '--jobs', '1'], cwd=os.path.join(self.place, 'crates', crate), stdin=subprocess.DEVNULL,
                             stdout=subprocess.PIPE, stderr=subprocess.STDOUT, text=True, errors='replace')
        return run.returncode, run.stdout

    def check(self, crate, texts, seeded=True):
        """The prover's status and words on a crate in which these files have these texts; seeded: with what `rt check` proved of it at
        hand. One that is killed, most likely for memory, is run again."""
        with self.texts(crate, texts):
            for _ in range(2):
                self.renew(crate, *['incremental'] * seeded)
                if not seeded:
                    shutil.rmtree(os.path.join(self.place, 'crates', crate, 'out/incremental'), ignore_errors=True)
                status, said = self.rt(crate, 'check')
                if status not in KILLED:
                    break
        return status, said

    @contextmanager
    def texts(self, crate, texts):
        """The files of a crate have these texts meanwhile."""
        for path, text in texts.items():
            write(os.path.join(self.place, 'crates', crate, path), text)
        try:
            yield
        finally:
            for path in texts:
                shutil.copy(os.path.join(ROOT, 'crates', crate, path), os.path.join(self.place, 'crates', crate, path))


def prove(crates, kind):
    """Proves what of these crates is not proved as it stands, and builds the libraries."""
    every = sorted(dependencies(), key=lambda crate: len(reached(crate)))
    if 2 * len(crates) > len(every):
        return run_or_stop(['rt', 'all', 'check'], ROOT, kind)
    for crate in [crate for crate in every if crate in crates]:
        run_or_stop(['rt', 'check'], os.path.join(ROOT, 'crates', crate), kind)


def run_or_stop(words, folder, kind):
    run = subprocess.run(words, cwd=folder, stdin=subprocess.DEVNULL, stdout=subprocess.PIPE, stderr=subprocess.STDOUT, text=True, errors='replace')
    if run.returncode != 0:
        raise SystemExit(f'{run.stdout[-4000:]}{kind}: the crates are not proved as they stand')


def at_once():
    """How many checks to run at once: RT_JOBS, or one a processor, as many as the memory holds at 2 GB each."""
    if os.environ.get('RT_JOBS'):
        return int(os.environ['RT_JOBS'])
    with open('/proc/meminfo') as file:
        free = int(re.search(r'MemAvailable:\s+(\d+)', file.read())[1]) // 2_000_000
    return max(1, min(len(os.sched_getaffinity(0)), free))


@contextmanager
def rooms(jobs, kind):
    """Gives a function that runs a job on each item of a list, each in a free room, and yields items and results in order. The crates
    that a job changes are proved as they stand. The rooms stand among the temporary files, one set for each checkout."""
    place = os.path.join(tempfile.gettempdir(), f'{kind}-{os.getuid()}-{hashlib.sha256(ROOT.encode()).hexdigest()[:12]}')
    free = Queue()

    def inside(job):
        def one(item):
            room = free.get()
            try:
                return job(room, item)
            finally:
                free.put(room)
        return one
    with open(place + '.lock', 'w') as lock:
        fcntl.flock(lock, fcntl.LOCK_EX)
        try:
            shutil.rmtree(place, ignore_errors=True)
            os.makedirs(place, 0o700)
            for n in range(jobs):
                free.put(Room(os.path.join(place, str(n))))
            with ThreadPoolExecutor(jobs) as pool:
                yield lambda job, items: zip(items, pool.map(inside(job), items))
        finally:
            shutil.rmtree(place, ignore_errors=True)


# An error that follows from another one, and one that tells of no fact: a name that a proof no longer finds, a loop's invariant and
# measure that are not over the variables that the loop has, an answer that is asked for under another name.
FOLLOWS = re.compile(r"that depends? on `|was not admitted|was rejected")
SHAPE = re.compile(r"can be named from here|is not in scope|has no field|has no `|exports no|expected an? (measure|invariant)|is no name that rattle asks for")
# antt could not read a text.
UNREAD = re.compile(r"is not in scope|has no field|is no name|operand is missing|expected the end|cannot continue")


def lines_of(said):
    """The lines of what a check said, an error whose second line tells what its record or module lacks in one."""
    return re.sub(r'\n +(?=has no )', ' ', said).splitlines()


def errors(said):
    """What a check found wrong: the file, the function it is of, if that is told, and the words."""
    found, notes = [], []
    for line in lines_of(said):
        at = re.match(r'(?:\./)?((?:src|specs|proofs)/[^\s:]+)(?::\d+:\d+)?: error(?:\[[\w-]+\])?: (.*)', line)
        if at:
            of = re.match(r'proofs/([^/]+)/', at[1])
            found.append((at[1], of and of[1], at[0].lstrip('./')))
        elif re.match(r'note: src/\S+ it is not proved that ', line):
            notes.append(line[len('note: '):])
        told = re.match(r'fn \w+::(\S+): (proved|not? proof|not proved)(.*)', line)
        if told:
            name = re.split(r'::|\+', told[1])[-1]
            if told[2] != 'proved' and 'did not prove `' in told[3]:
                found.append((f'proofs/{name}', name, notes[0] if notes else line))
            elif told[2] != 'proved' and notes:
                found.append((f'proofs/{name}', name, notes[0]))
            elif 'expected a' in told[3]:
                found.append((f'proofs/{name}', name, line))
            notes = []
    return [e for e in found if not FOLLOWS.search(e[2])]


def facts_and_shapes(said, function=None):
    """The errors, those of a function alone if one is named: facts that no longer hold; and what tells of no fact."""
    own = [text for _, of, text in errors(said) if function in (None, of)]
    return [e for e in own if not SHAPE.search(e)], [e for e in own if SHAPE.search(e)]


def unread(said, changed):
    """The first line by which the compiler or antt could not read a text of src/, of specs/ or of a changed file."""
    for line in lines_of(said):
        if re.match(r'\S+: error\[[\w-]+\]: ', line):
            return line
        at = re.match(r'(?:\./)?(\S+?):\d+:\d+: error: (?:(`[^`]*`): )?(.*)', line)
        if at and (at[1] in changed or at[1].startswith(('src/', 'specs/'))) and not FOLLOWS.search(line):
            if not at[2] or UNREAD.search(re.sub(r'`[^`]*`', '', at[3])):
                return line
    return None


def functions(text):
    """The functions of a file: name, start, start and end of the body."""
    found = []
    for m in re.finditer(r'^( *)(?:pub )?(?:extern "C" )?fn (\w+)', text, re.M):
        start = text.find(f'\n{m.group(1)}{{', m.end())
        same = text.find(' {\n', m.end())
        if start < 0 or (0 <= same < start and not re.search(r'requires|ensures', text[m.end():same])):
            start = same
        end = text.find(f'\n{m.group(1)}}}', start + 1)
        found.append((m.group(2), m.start(), start, end if end >= 0 else len(text)))
    return found


def calling(crate):
    """For each function of a crate those of the crate that it calls, directly or not: a check tries a function's goals only where what it
    calls is proved."""
    bodies = {}
    folder = os.path.join(ROOT, 'crates', crate, 'src')
    for name in sorted(os.listdir(folder)):
        text = read(folder, name)
        for function, _, start, end in functions(text):
            bodies[function] = bodies.get(function, '') + text[start:end]
    calls = {f: {g for g in bodies if g != f and re.search(rf'\b{g}\b', bodies[f])} for f in bodies}
    found = {}
    for function in bodies:
        seen, todo = set(), [function]
        while todo:
            more = calls[todo.pop()] - seen
            seen |= more
            todo += more
        found[function] = seen
    return found


def batches(crate, changes, function):
    """The changes of a crate in batches to be tried together, none in a function that another one of the batch is in or calls; one of no
    single function stands alone."""
    shared, alone, calls = [], [], calling(crate)

    def apart(one, other):
        return one != other and one not in calls.get(other, ()) and other not in calls.get(one, ())
    for change in changes:
        name = function(change)
        if name is None:
            alone.append([change])
            continue
        room = next((b for b in shared if all(apart(name, function(o)) for o in b)), None)
        if room is None:
            shared.append([change])
        else:
            room.append(change)
    return shared + alone


def read(*parts):
    with open(os.path.join(ROOT, *parts), encoding='utf-8') as f:
        return f.read()


def write(file, text):
    with open(file, 'w', encoding='utf-8') as f:
        f.write(text)
