"""What the commands share: a proved program is built where it is not, under a lock; it is run; and what it wrote is handed on.

A program counts as built where its stamp holds: the stamp is written after a build that succeeded, over the contents of crates/ and
crates.txt and the toolchain's version, and over the program itself."""
import collections, contextlib, fcntl, hashlib, os, re, shutil, signal, subprocess, sys, tempfile, threading

ROOT = os.path.dirname(os.path.dirname(os.path.realpath(__file__)))
TARGET = os.path.join(ROOT, 'target')
CRATES = os.path.join(ROOT, 'crates')
PROVED = os.path.join(TARGET, 'proved')  # a copy of each program, which has no permission to be executed, and its stamp
NOTHING = 3  # the exit code of a call by which nothing was checked
command = 'program'
closed = []  # the standard files, by number, that the caller had closed


class Trouble(Exception):
    """What is wrong, in one line: the command says it and ends with NOTHING."""


class Stopped(Exception):
    """A signal asks the command to end."""


def say(line):
    with contextlib.suppress(OSError):
        os.write(2, f'{command}: {line}\n'.encode(errors='surrogateescape'))


def shown(name):
    """A file's name on one line: control characters, and the % that marks them, as % and two hex digits."""
    return re.sub('[\0-\x1f\x7f%]', lambda found: f'%{ord(found[0]):02X}', name)


def because(path, error):
    return Trouble(f'{shown(path)}: {error.strerror or error}')


# ---- the command line

def options(words, flags, valued):
    """The options among the words, each with its value, and the names. `--` ends the options, and `-` is a name."""
    given, names, words = {}, [], list(words)
    while words:
        word = words.pop(0)
        option, equals, value = word.partition('=')
        if word == '--':
            names, words = names + words, []
        elif word in flags:
            given[word] = True
        elif option in valued and option not in given and (value or not equals and words and words[0]):
            given[option] = value if equals else words.pop(0)
        elif option in valued:
            raise Trouble(f'{option} takes one word behind it, and is given once')
        elif word.startswith('-') and word != '-':
            raise Trouble(f'{shown(word)}: there is no such option; a name that begins with a dash is given as ./{shown(word)} or behind --')
        else:
            names.append(word)
    if '' in names:
        raise Trouble('a name is empty')
    return given, names


ASKED = '-h', '--help', '--version'  # flags that every command has


def told(given, text, programs):
    """Whether help or the version was asked for, which is then written. The command ends with NOTHING then: it gave no answer."""
    if '-h' in given or '--help' in given:
        hand_on(text.encode())
    elif '--version' in given:
        hand_on(identity(programs).encode())
    return any(each in given for each in ASKED)


def identity(programs):
    """What a command is made of: the crates by their contents, and the toolchain."""
    toolchain, recorded = version(), recorded_version()
    proved = 'proved and built here' if all(holds(name, key_of(toolchain)) for name in programs) else 'not proved here yet'
    named = 'which toolchain.txt names' if toolchain == recorded else f"and toolchain.txt names '{recorded}'"
    return f"{command} of Itanropen: crates {contents()[:16]}, {proved}; toolchain '{toolchain}', {named}\n"


def input_text(name, most):
    """The bytes of a file, or of standard input where the name is -, as far as so many."""
    if name == '-' and 0 in closed:
        raise Trouble('standard input is closed')
    if name == '-' and os.isatty(0):
        say('standard input is read from the terminal; Ctrl-D ends it')
    try:
        with open(0 if name == '-' else name, 'rb', closefd=name != '-') as file:
            return file.read(most)
    except OSError as why:
        raise because('standard input' if name == '-' else name, why) from None


# ---- the toolchain

def ask(*words):
    try:
        run = subprocess.run(['rt', *words], stdin=subprocess.DEVNULL, stdout=subprocess.PIPE, text=True, errors='replace')
    except FileNotFoundError:
        raise Trouble("the Rattle toolchain is missing: there is no command 'rt' on the path") from None
    except OSError as why:
        raise because('rt', why) from None
    if run.returncode:
        raise Trouble(f"'rt {' '.join(words)}' ended with {run.returncode}")
    return run.stdout.strip()


def version():
    return ask('version')


def recorded_version():
    try:
        with open(os.path.join(ROOT, 'toolchain.txt'), encoding='utf-8') as file:
            return file.read().strip()
    except OSError as why:
        raise because('toolchain.txt', why) from None


def command_line(name, *words):
    """The words that run a built program, with the toolchain's own loader and C library."""
    if os.uname().machine != 'x86_64':
        raise Trouble(f'the toolchain builds programs for x86-64, and this is {os.uname().machine}')
    libraries = os.path.join(os.path.dirname(ask('doc')), 'toolchain/lib')
    return [os.path.join(libraries, 'ld-linux-x86-64.so.2'), '--library-path', libraries, os.path.join(PROVED, name), *words]


# ---- the stamp

def contents():
    """A sum over all that is proved: crates.txt, HANDLES and the files of crates/ but the must-fail edits and what was built, by name and
    content."""
    def unreadable(why):
        raise why
    paths = [path for path in (os.path.join(ROOT, name) for name in ('crates.txt', 'HANDLES')) if os.path.lexists(path)]
    try:
        for folder, folders, files in os.walk(CRATES, onerror=unreadable):
            folders[:] = [each for each in folders if each not in ('must-fail', 'out')]
            paths += [os.path.join(folder, file) for file in files]
        whole = hashlib.sha256()
        for path in sorted(paths):
            with open(path, 'rb') as file:
                text = file.read()
            whole.update(b'%s\0%d\0%s' % (os.fsencode(os.path.relpath(path, ROOT)), len(text), text))
    except OSError as why:
        raise because(os.path.relpath(why.filename or ROOT, ROOT), why) from None
    return whole.hexdigest()


def key_of(toolchain):
    return hashlib.sha256(f'{toolchain}\n{os.uname().machine}\n{contents()}'.encode()).hexdigest()


def stamp_of(name, key):
    with open(os.path.join(PROVED, name), 'rb') as file:
        return f'{key} {hashlib.sha256(file.read()).hexdigest()}\n'


def holds(name, key):
    try:
        with open(os.path.join(PROVED, name + '.stamp'), encoding='utf-8', errors='replace') as file:
            return file.read() == stamp_of(name, key)
    except OSError:
        return False


def linked(name):
    """Where rt links a program."""
    return os.path.join(CRATES, name, 'out', name)


def keep(name, key):
    """Copies the program that was built, without permission to execute it, then writes its stamp. Each comes into place whole."""
    place = os.path.join(PROVED, name)
    for end in ('.new', '.stamp.new'):
        with contextlib.suppress(FileNotFoundError):
            os.unlink(place + end)
    shutil.copyfile(linked(name), place + '.new')
    os.chmod(place + '.new', 0o444)
    os.replace(place + '.new', place)
    with open(place + '.stamp.new', 'w', encoding='utf-8') as file:
        file.write(stamp_of(name, key))
    os.replace(place + '.stamp.new', place + '.stamp')


# ---- the build

def ready(*names):
    """Has the programs proved and built, where their stamps do not hold."""
    toolchain, recorded = version(), recorded_version()
    if toolchain != recorded:
        say(f"the toolchain is '{toolchain}', and toolchain.txt names '{recorded}': what runs is proved with the first")
    for name in names:
        if not re.fullmatch('[a-z][a-z0-9_]*', name) or not os.path.isfile(os.path.join(CRATES, name, 'src/main.rt')):
            raise Trouble(f'{shown(name)}: there is no such program under crates/')
    key = key_of(toolchain)
    if all(holds(name, key) for name in names):
        return shut(names)
    with locked() as lock:
        key = key_of(toolchain)
        if not all(holds(name, key) for name in names):
            build(names, lock)
            if key_of(toolchain) != key:
                raise Trouble('a file of crates/ changed while it was proved: call again')
            keep_all(names, key)
    shut(names)


def keep_all(names, key):
    try:
        for name in names:
            keep(name, key)
    except OSError as why:
        raise because(why.filename or PROVED, why) from None


def take(key):
    """Keeps every program as a run of `rt ci` that has just passed over these contents left it."""
    if key_of(version()) != key:
        raise Trouble('a file of crates/ changed while it was proved: call again')
    names = sorted(each for each in os.listdir(CRATES) if os.path.isfile(os.path.join(CRATES, each, 'src/main.rt')))
    with locked():
        keep_all(names, key)
    shut(names)


def shut(names):
    """Removes the programs that rt has linked, which are not to be called: what runs is the copy that was kept."""
    for name in names:
        for path in (linked(name), linked(name) + '.by-rattle'):
            with contextlib.suppress(OSError):
                os.unlink(path)


@contextlib.contextmanager
def locked():
    """Holds the lock of this folder's builds, which what is started with it holds too."""
    path = os.path.join(TARGET, 'lock')
    writable()
    while True:
        try:
            lock = os.open(path, os.O_RDWR | os.O_CREAT, 0o666)
        except OSError as why:
            raise because(path, why) from None
        try:
            try:
                fcntl.flock(lock, fcntl.LOCK_EX | fcntl.LOCK_NB)
            except BlockingIOError:
                say('another call proves and builds in this folder; waiting for it')
                fcntl.flock(lock, fcntl.LOCK_EX)
            if os.path.exists(path) and os.path.samestat(os.fstat(lock), os.stat(path)):
                yield lock
                return
        finally:
            os.close(lock)


def writable():
    """What is built goes into target/: says so in one line where it cannot."""
    try:
        os.makedirs(PROVED, exist_ok=True)
    except OSError as why:
        raise Trouble(f'{shown(why.filename or TARGET)}: {why.strerror}; the programs are to be proved and built in target/ first') from None
    for folder in [TARGET] + [each.path for each in os.scandir(TARGET) if each.is_dir()]:
        if not os.access(folder, os.W_OK | os.X_OK):
            raise Trouble(f'{shown(folder)}: it cannot be written to; the programs are to be proved and built in target/ first')


def needed_by(names):
    """The crates that the programs stand on, themselves included."""
    with open(os.path.join(ROOT, 'crates.txt'), encoding='utf-8') as file:
        lines = [line.split('#')[0].partition(':') for line in file]
    under = {names.split()[0]: deps.split() for names, _, deps in lines if names.split()}
    found, todo = set(), list(names)
    while todo:
        name = todo.pop()
        if name in under and name not in found:
            found.add(name)
            todo += under[name]
    return found


def build(names, lock):
    """Proves, builds and runs the programs."""
    crates, done = needed_by(names), set()
    say(f'{len(crates)} crates are proved and built first, as far as they are not yet: some minutes where none is')
    for name in names:
        check(name, crates, done, lock)


# what `rt` says of a crate where nothing is wrong
NOISE = re.compile(r'library |statements |crate |logic |logic=proved|axioms |linked |checked |note: |\S*: note: |(fn|enum|struct|impl) .*: proved$|rt: ')


def file_of(name, file):
    """What a program is run on and must write: the bytes of a file beside its src/, none where there is none."""
    try:
        with open(os.path.join(CRATES, name, file), 'rb') as found:
            return found.read()
    except FileNotFoundError:
        return b''
    except OSError as why:
        raise because(f'crates/{name}/{file}', why) from None


def check(name, crates, done, lock):
    """Runs `rt run` on a program, which proves and builds it and what it stands on, holds its run to what it must write, and says which
    crate of how many is proved. Its temporary files and all that it started go when it ends, also where it is stopped."""
    last, proving = collections.deque(maxlen=20), name
    place = next((each for each in ('/tmp', '/var/tmp') if os.access(each, os.W_OK | os.X_OK)), tempfile.gettempdir())
    room = tempfile.mkdtemp(prefix=command + '.', dir=place)
    environment = {name: value for name, value in os.environ.items() if name != 'CDPATH'}
    child = None
    with contextlib.suppress(OSError):
        os.unlink(linked(name) + '.stamp')  # one that was proved before is linked again
    try:
        given, wrote = os.path.join(room, 'stdin'), os.path.join(room, 'stdout')
        with open(given, 'wb') as file:
            file.write(file_of(name, 'stdin'))
        words = file_of(name, 'args').decode(errors='surrogateescape').splitlines()
        with open(given, 'rb') as standard, open(wrote, 'wb') as output:
            child = subprocess.Popen(['rt', 'run', '--', *words], cwd=os.path.join(CRATES, name), stdin=standard, stdout=output, stderr=subprocess.PIPE,
                                     text=True, errors='replace', env=dict(environment, TMPDIR=room), start_new_session=True, pass_fds=[lock])
            for line in child.stderr:
                if not NOISE.match(line):
                    last.append(line)
                proving = (re.match(r'crate (\w+): ', line) or [line, proving])[1]
                if line.startswith('logic=proved') and proving not in done:
                    done.add(proving)
                    say(f'crate {len(done)} of {len(crates)} is proved: {proving}')
            status = child.wait()
        with open(wrote, 'rb') as file:
            as_wanted = file.read() == file_of(name, 'stdout') and status == int(file_of(name, 'status') or 0)
        if status == 0 and not as_wanted:
            last.append(f'{name}: its run wrote something else than its file stdout has\n')
    finally:
        end(child)
        shutil.rmtree(room, ignore_errors=True)
    if not as_wanted:
        with contextlib.suppress(OSError):
            os.write(2, ''.join(last).encode(errors='replace'))
        raise Trouble(f"{name} could not be proved and built: what 'rt run' said last stands above")


def end(child):
    """Ends what was started in a session of its own and still runs, with all that it started."""
    if child is None or child.poll() is not None:
        return
    for number in (signal.SIGTERM, signal.SIGKILL):
        with contextlib.suppress(ProcessLookupError):
            os.killpg(child.pid, number)
        with contextlib.suppress(subprocess.TimeoutExpired):
            child.wait(5)


# ---- the run

@contextlib.contextmanager
def running(name):
    try:
        child = subprocess.Popen(command_line(name), stdin=subprocess.PIPE, stdout=subprocess.PIPE, env={})
    except OSError as why:
        raise because(f'the program {name} could not be run', why) from None
    try:
        yield child
    finally:
        child.kill()
        child.wait()


def ended_well(child):
    status = child.wait()
    if status:
        raise Trouble(f'the program ended with {status}: nothing is handed on')


def output_of(name, text):
    """What one run of a program writes on this standard input."""
    with running(name) as child:
        wrote = child.communicate(text)[0]
        ended_well(child)
    return wrote


LONGEST_FRAME = 99999


def framed(text):
    """A text in frames: each has the longest size but the last, which is shorter."""
    parts = [text[at:at + LONGEST_FRAME] for at in range(0, len(text) + 1, LONGEST_FRAME)]
    return b''.join(b'#%d\n%s' % (len(part), part) for part in parts)


def read_frame(stream):
    """What is in the next frame, or None at the end of the stream."""
    line = stream.readline(8)
    if not line:
        return None
    head = re.fullmatch(rb'#(0|[1-9][0-9]{0,4})\n', line)
    text = stream.read(int(head[1])) if head else b''
    if not head or len(text) != int(head[1]):
        raise Trouble('what the program wrote is no whole frame: nothing is handed on')
    return text


def read_text(stream):
    """The next text, which goes on behind a frame of the longest size, or None at the end of the stream."""
    parts = [read_frame(stream)]
    while parts[-1] is not None and len(parts[-1]) == LONGEST_FRAME:
        parts.append(read_frame(stream))
    if parts == [None]:
        return None
    if parts[-1] is None:
        raise Trouble('what the program wrote is no whole text: nothing is handed on')
    return b''.join(parts)


def feed(stream, requests, sent, wrong):
    """Writes each request's frames; what went wrong in making one is kept for who reads the answers."""
    try:
        for request in requests:
            sent.append(len(request))
            stream.write(b''.join(map(framed, request)))
    except BrokenPipeError:
        pass
    except Exception as why:
        wrong.append(why)
    finally:
        with contextlib.suppress(OSError):
            stream.close()


def answers_of(name, requests):
    """One run of a program over requests, each a list of texts that are sent in frames: yields the text that answers each, and
    ends where every one was answered."""
    sent, wrong, answered = [], [], 0
    with running(name) as child:
        feeder = threading.Thread(target=feed, args=[child.stdin, requests, sent, wrong], daemon=True)
        feeder.start()
        text = read_text(child.stdout)
        while text is not None:
            answered += 1
            if answered > len(sent):
                raise Trouble('the program answered what it was not asked: nothing is handed on')
            yield text
            text = read_text(child.stdout)
        ended_well(child)
        feeder.join()
    if wrong:
        raise wrong[0]
    if answered != len(sent):
        raise Trouble(f'the program answered {answered} of {len(sent)} requests: nothing is handed on')


# ---- handing on

def hand_on(text):
    """Writes all of a text to standard output."""
    try:
        left = memoryview(text)
        while left:
            left = left[os.write(1, left):]
    except OSError as why:
        raise because('standard output', why) from None


def standard_files():
    """No file that is opened later takes the place of a standard one that is closed."""
    for number in (0, 1, 2):
        try:
            os.fstat(number)
        except OSError:
            closed.append(number)
            os.open(os.devnull, os.O_RDWR)
    if 1 in closed:
        raise Trouble('standard output is closed')


def close_output():
    """A file system may say only now that what was written found no room."""
    try:
        os.close(1)
    except OSError as why:
        raise because('standard output', why) from None


def main(name, run):
    """Runs a command's function over its words, and ends with the exit code that it gives."""
    global command
    command = name

    stops = [each for each in (signal.SIGINT, signal.SIGTERM, signal.SIGHUP) if signal.getsignal(each) != signal.SIG_IGN]

    def stop(number, _):
        for each in stops:  # what is cleared away now is not stopped again
            signal.signal(each, signal.SIG_IGN)
        raise Stopped(number)
    for each in stops:
        signal.signal(each, stop)
    try:
        standard_files()
        code = run(sys.argv[1:])
        close_output()
    except Trouble as why:
        say(why)
        code = NOTHING
    except Stopped as why:
        code = 128 + why.args[0]
        signal.signal(why.args[0], signal.SIG_DFL)
        os.kill(os.getpid(), why.args[0])
    except Exception as why:
        say(f'{type(why).__name__}: {why}')
        code = NOTHING
    os._exit(code)
