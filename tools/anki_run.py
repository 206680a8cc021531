"""Runs the program with these words, and says in one sentence on standard error how it ended if it did not end with status 0.

    python3 -I -S tools/anki_run.py [--input=9] PROGRAM FILE SERVER WORD...

Nothing stands between the program and its streams: it reads and writes the very input and output that this process was given.
So bytes and their order, an output that is closed early and an answer at once for each line are the program's own. This process
waits, passes on each signal that it is sent, and ends as the program ended. If it is killed, so is the program.

Before the program starts, a file name that nobody has yet is replaced by `-` for the commands that need a collection or use
none: they then print and answer the same, and leave no file. With ANKI_QUIET=1 nothing is said.

With --input=9 the program's input is that of descriptor 9: Python itself can't begin over a folder, and the program can.
"""
import os
import signal
import sys
import time

sys.dont_write_bytecode = True
sys.path.insert(0, os.path.dirname(os.path.dirname(os.path.realpath(__file__))))

from front.names import journal_path  # noqa: E402

# The commands that never put a collection where there is none.
MAKE_NOTHING = ("desk", "lab", "sync", "upload", "download", "import", "export", "make")

# A name must leave room for `-wal` behind it, in bytes.
LONGEST_NAME = 255 - len("-wal")

# What a new file needs of its disk, in bytes, with room to spare.
ROOM_FOR_A_FILE = 1 << 20

# When progress is told first, and how often then, in seconds.
FIRST_PROGRESS, NEXT_PROGRESS, NEXT_LINE_OF_PROGRESS = 2.0, 1.0, 10.0


class Run:
    """One run of the program: its words as they were given, and what was there before it."""

    def __init__(self, program, words, input_stream):
        self.program, self.words, self.input_stream = program, words, input_stream
        self.file = words[0] if words else ""
        self.command = words[2] if len(words) > 2 else ""
        self.is_journal = journal_path(self.file) is not None
        self.path = journal_path(self.file) if self.is_journal else self.file
        self.had_file = self.file == "-" or os.path.lexists(self.path)
        # A journal is one file, and has no log beside it.
        self.had_log = self.is_journal or os.path.lexists(log_of(self.file))
        self.input, self.output = regular_place(input_stream), regular_place(1)

    def words_to_run(self):
        """The words for the program, `-` in place of a file that is not there and would be left behind."""
        if self.had_file or self.command not in MAKE_NOTHING or not could_be_made(self.path, self.is_journal):
            return self.words
        return ["-"] + self.words[1:]

    def needs_cleaning(self, words):
        """Whether the program may leave a file that it should not."""
        return not self.had_file and words[:1] != ["-"] or not self.had_log and self.file != "-"


def log_of(path):
    """The second file of a collection, beside the one to which links lead."""
    return os.path.realpath(path) + "-wal" if path else ""


def regular_place(stream):
    """Where a stream stands in its file, if that is a regular file, else None."""
    import stat

    try:
        if stat.S_ISREG(os.fstat(stream).st_mode):
            return os.lseek(stream, 0, os.SEEK_CUR)
    except OSError:
        pass
    return None


def is_terminal(stream):
    try:
        return os.isatty(stream)
    except OSError:
        return False


def could_be_made(path, is_journal):
    """Whether the program would make a file of this name, so that it would end with another status than 6."""
    folder, name = os.path.split(path)
    if not name or not is_journal and (name == ":memory:" or path.startswith("file:")):
        return False
    try:
        if len(path.encode("utf-8")) > 4000 or len(name.encode("utf-8")) > LONGEST_NAME:
            return False
        if not os.access(folder or ".", os.W_OK | os.X_OK):
            return False
        disk = os.statvfs(folder or ".")
    except (OSError, ValueError):
        return False
    return disk.f_bavail * disk.f_frsize >= ROOM_FOR_A_FILE


def passed_on():
    """The signals that are passed on to the program: all that can be, but those of faults of this process itself."""
    own = {
        signal.SIGKILL, signal.SIGSTOP, signal.SIGCHLD, signal.SIGSEGV, signal.SIGBUS, signal.SIGFPE, signal.SIGILL,
        signal.SIGTRAP, signal.SIGABRT, signal.SIGSYS, signal.SIGPIPE, signal.SIGXFSZ, signal.SIGWINCH, signal.SIGURG,
        signal.SIGTTOU, signal.SIGTTIN,
    }
    return {number for number in range(1, signal.NSIG) if number not in own and number not in (32, 33)}


def end_with_parent(parent):
    """The kernel kills the program if this process is killed, so that none is left over its file."""
    try:
        import ctypes

        ctypes.CDLL(None).prctl(1, signal.SIGKILL, 0, 0, 0)
    except (ImportError, OSError, AttributeError):
        return
    if os.getppid() != parent:
        os._exit(137)


def restore_signals():
    """Python ignores these two, and the program is to have them as it would without it."""
    signal.signal(signal.SIGPIPE, signal.SIG_DFL)
    signal.signal(signal.SIGXFSZ, signal.SIG_DFL)


def start(run, words, mask, child_signal):
    """Starts the program with the streams, signals and folder of this process, and returns its number."""
    program = run.program
    parent = os.getpid()
    child = os.fork()
    if child:
        return child
    try:
        end_with_parent(parent)
        restore_signals()
        if child_signal == signal.SIG_IGN:
            signal.signal(signal.SIGCHLD, signal.SIG_IGN)
        signal.pthread_sigmask(signal.SIG_SETMASK, mask)
        take_input(run)
        os.execv(program, [program] + words)
    except OSError as fault:
        say("%s can't be started: %s" % (program, fault.strerror))
    finally:
        os._exit(126)


def take_input(run):
    if run.input_stream != 0:
        os.dup2(run.input_stream, 0)
        os.close(run.input_stream)


def let_go(run):
    """Closes the streams here that are no regular files, so that whoever is at their other end sees the program's end alone."""
    take_input(run)
    nothing = os.open(os.devnull, os.O_RDWR)
    for stream, place in ((0, run.input), (1, run.output)):
        if place is None:
            os.dup2(nothing, stream)
    if nothing > 2:
        os.close(nothing)


def wait(child, signals, progress):
    """Waits for the program's end, passing signals on, and returns its status as the system tells it."""
    awaited = signals | {signal.SIGCHLD}
    while True:
        came = signal.sigtimedwait(awaited, progress.seconds())
        if came is None:
            progress.tell()
            continue
        if came.si_signo != signal.SIGCHLD:
            os.kill(child, came.si_signo)
            continue
        ended, status = os.waitpid(child, os.WNOHANG | os.WUNTRACED)
        if ended and os.WIFSTOPPED(status):
            stop_as(os.WSTOPSIG(status))
        elif ended:
            progress.erase()
            return status


def stop_as(number):
    """Stops this process by the signal that stopped the program, until it is told to go on."""
    if number == signal.SIGSTOP:
        os.kill(os.getpid(), number)
        return
    mask = signal.pthread_sigmask(signal.SIG_UNBLOCK, {number})
    os.kill(os.getpid(), number)
    signal.pthread_sigmask(signal.SIG_SETMASK, mask)


class Progress:
    """How far a long run has read its input, told on standard error if that is a terminal and the input is a file."""

    def __init__(self, run):
        self.start, self.is_shown = run.input, False
        self.size = 0
        self.is_told = run.input is not None and run.command in ("desk", "lab") and is_terminal(2)
        if self.is_told:
            self.size = os.fstat(0).st_size - run.input
            self.is_told = self.size > 0
        # Where the answers come on the same terminal, whole lines are told among them, and seldom.
        self.is_among_answers = is_terminal(1)
        self.next = time.monotonic() + FIRST_PROGRESS

    def seconds(self):
        return max(0.0, self.next - time.monotonic()) if self.is_told else 1e6

    def tell(self):
        if not self.is_told:
            return
        read = os.lseek(0, 0, os.SEEK_CUR) - self.start
        text = "anki: %d %% of the input is read" % (100 * read // self.size)
        write_error(text + "\n" if self.is_among_answers else "\r" + text)
        self.is_shown = not self.is_among_answers
        self.next = time.monotonic() + (NEXT_LINE_OF_PROGRESS if self.is_among_answers else NEXT_PROGRESS)

    def erase(self):
        if self.is_shown:
            write_error("\r\033[K")


def say(text):
    write_error("anki: %s\n" % text)


def write_error(text):
    """Writes to standard error if it takes it at once: a run never waits for whoever reads its sentence."""
    import select

    try:
        poll = select.poll()
        poll.register(2, select.POLLOUT)
        if any(event & select.POLLOUT for _, event in poll.poll(0)):
            os.write(2, text.encode("utf-8", "backslashreplace"))
    except OSError:
        pass


def end_as(status):
    """Ends this process as the program ended."""
    if not os.WIFSIGNALED(status):
        os._exit(os.WEXITSTATUS(status))
    number = os.WTERMSIG(status)
    import resource

    # The program has left its own memory image, if any.
    resource.setrlimit(resource.RLIMIT_CORE, (0, resource.getrlimit(resource.RLIMIT_CORE)[1]))
    if number not in (signal.SIGKILL, signal.SIGSTOP):
        signal.signal(number, signal.SIG_DFL)
        signal.pthread_sigmask(signal.SIG_UNBLOCK, {number})
    os.kill(os.getpid(), number)
    os._exit(128 + number)


def after(run, words, status, is_quiet):
    """Takes back the files that should not be left, and says how the run ended."""
    from tools import after_run

    after_run.take_back(run, words, status)
    if not is_quiet:
        sentence = after_run.sentence_of(run, status)
        if sentence:
            say(sentence)


def main(program, words, input_stream):
    is_quiet = os.environ.get("ANKI_QUIET") == "1"
    run = Run(program, words, input_stream)
    to_run = run.words_to_run()
    if is_quiet and not run.needs_cleaning(to_run):
        take_input(run)
        restore_signals()
        os.execv(program, [program] + to_run)
    signals = passed_on()
    child_signal = signal.signal(signal.SIGCHLD, signal.SIG_DFL)
    mask = signal.pthread_sigmask(signal.SIG_BLOCK, signals | {signal.SIGCHLD})
    child = start(run, to_run, mask, child_signal)
    let_go(run)
    status = wait(child, signals, Progress(run))
    if status or run.needs_cleaning(to_run):
        try:
            after(run, to_run, status, is_quiet)
        except Exception as fault:  # What is said afterwards must not change how the run ended.
            if not is_quiet:
                say("(what is said after a run failed: %r)" % fault)
    end_as(status)


if __name__ == "__main__":
    has_other_input = sys.argv[1:2] == ["--input=9"]
    given = sys.argv[2:] if has_other_input else sys.argv[1:]
    if not given:
        print(__doc__, file=sys.stderr)
        sys.exit(2)
    main(given[0], given[1:], 9 if has_other_input else 0)
