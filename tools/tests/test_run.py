"""What stands around a run changes nothing of it, and says in one sentence how it ended."""
import os
import pty
import select
import signal
import subprocess
import sys
import time
import unittest

from tools.tests.support import RUN, TOP, Case, note, run


def eventually(is_so, seconds=20):
    """Whether something comes to be so within some seconds."""
    end = time.monotonic() + seconds
    while time.monotonic() < end:
        if is_so():
            return True
        time.sleep(0.02)
    return False


# A shell that runs one job in front, and goes on with it once it stopped.
SHELL = """
import os, signal, sys
signal.signal(signal.SIGTTOU, signal.SIG_IGN)
job = os.fork()
if job == 0:
    os.setpgid(0, 0)
    os.tcsetpgrp(0, os.getpid())
    signal.signal(signal.SIGTTOU, signal.SIG_DFL)
    os.execv(sys.argv[1], sys.argv[1:])
while True:
    _, status = os.waitpid(job, os.WUNTRACED)
    os.tcsetpgrp(0, os.getpgrp())
    if not os.WIFSTOPPED(status):
        break
    print("stopped by", os.WSTOPSIG(status), flush=True)
    os.tcsetpgrp(0, job)
    os.killpg(job, signal.SIGCONT)
print("ended by", os.WTERMSIG(status), flush=True)
"""


def read_at_once(terminal, seen):
    """All that a terminal has shown so far, which is kept in this list."""
    while select.select([terminal], [], [], 0)[0]:
        try:
            seen.append(os.read(terminal, 4096))
        except OSError:
            break
    return b"".join(seen)


def state_of(process):
    """The state of a process by its letter; None if it is gone."""
    try:
        with open("/proc/%d/stat" % process) as stat:
            return stat.read().rsplit(") ", 1)[1][0]
    except OSError:
        return None


class Unchanged(Case):
    """Bytes, order, status, signals and streams are the program's own."""

    def same(self, text, **more):
        """What a program of this text does alone and with what stands around it."""
        program = self.script(text)
        alone = run([program, "-", "-", "desk"], **more)
        around = run([RUN, program, "-", "-", "desk"], **more)
        self.assertEqual((alone.returncode, alone.stdout), (around.returncode, around.stdout))
        return around

    def test_bytes_and_statuses(self):
        for status in (0, 1, 2, 3, 4, 5, 6, 7, 8, 10, 15, 77, 255):
            self.same("printf 'a\\000\\377\\r\\nb'; cat; exit %d" % status, input=b"in\x00\xffput")

    def test_words_and_environment(self):
        program = self.script('printf "<%s>" "$0" "$@" "$KEPT" "$PWD"; umask; ulimit -n')
        for words in (["-", "-", "desk", "", "a b", "*", "\udcff"], ["-", "-", "--help"]):
            environment = dict(os.environ, KEPT="kept\n")
            alone, around = (run(first + words, env=environment, cwd=self.folder) for first in ([program], [RUN, program]))
            self.assertEqual(alone.stdout, around.stdout)

    def test_signals_that_end_the_program(self):
        for number in (signal.SIGTERM, signal.SIGINT, signal.SIGHUP, signal.SIGUSR1, signal.SIGALRM, signal.SIGKILL, signal.SIGSEGV):
            ended = self.same("echo begun; kill -%d $$" % number)
            self.assertEqual(-number, ended.returncode)

    def test_signals_are_passed_on(self):
        program = self.script("echo $$; while :; do sleep 0.05; done")
        for number in (signal.SIGTERM, signal.SIGINT, signal.SIGHUP, signal.SIGQUIT, signal.SIGUSR2, signal.SIGRTMIN + 3, signal.SIGKILL):
            ran = self.open_desk(words=[RUN, program, "-", "-", "desk"])
            inner = int(ran.stdout.readline())
            ran.send_signal(number)
            self.assertEqual(-number, ran.wait(timeout=20), number)
            self.assertTrue(eventually(lambda: state_of(inner) in (None, "Z")), number)

    def test_a_caught_signal_does_what_the_program_does(self):
        program = self.script("trap 'echo caught; exit 9' TERM; echo begun; while :; do sleep 0.05; done")
        ran = self.open_desk(words=[RUN, program, "-", "-", "desk"])
        ran.stdout.readline()
        ran.send_signal(signal.SIGTERM)
        self.assertEqual((9, b"caught\n"), (ran.wait(timeout=20), ran.stdout.read()))

    def test_ignored_signals_stay_ignored(self):
        program = self.script("grep SigIgn /proc/$$/status")
        for number in (None, signal.SIGHUP, signal.SIGINT, signal.SIGTERM):
            def ignore(number=number):
                if number:
                    signal.signal(number, signal.SIG_IGN)
            alone, around = (run(first + ["-", "-", "desk"], preexec_fn=ignore) for first in ([program], [RUN, program]))
            self.assertEqual(alone.stdout, around.stdout)

    def test_stop_and_go_on(self):
        program = self.script("echo $$; while :; do sleep 0.05; done")
        # In a group of its own: of a group that no shell looks after nobody is stopped.
        ran = self.open_desk(words=[RUN, program, "-", "-", "desk"], preexec_fn=os.setpgrp)
        inner = int(ran.stdout.readline())
        ran.send_signal(signal.SIGTSTP)
        self.assertTrue(eventually(lambda: state_of(inner) == "T" and state_of(ran.pid) == "T"))
        ran.send_signal(signal.SIGCONT)
        self.assertTrue(eventually(lambda: state_of(inner) in "SR" and state_of(ran.pid) in "SR"))
        ran.terminate()
        ran.wait(timeout=20)

    def test_an_answer_at_once_for_each_line(self):
        self.make(note("a"))
        desk = self.open_desk(words=[RUN, self.program, self.file, "-", "desk"])
        for _ in range(3):
            self.assertEqual("sound", self.ask(desk, "check"))
        desk.stdin.close()
        self.assertEqual(0, desk.wait(timeout=60))

    def test_keys_of_a_terminal(self):
        """Ctrl-Z and Ctrl-C reach the program and what is around it."""
        for first in ([], [RUN]):
            child, terminal = pty.fork()
            if child == 0:
                os.execv(sys.executable, [sys.executable, "-c", SHELL] + first + [self.program, "-", "-", "lab"])
            for key, shown in ((b"count server\n", b"notes 0 cards"), (b"\x1a", b"stopped by 20"), (b"count server\n", b"notes 0 cards"), (b"\x03", b"ended by 2")):
                os.write(terminal, key)
                seen = []
                self.assertTrue(eventually(lambda: shown in read_at_once(terminal, seen)), (first, shown, seen))
            os.close(terminal)
            os.waitpid(child, 0)

    def test_an_output_closed_early(self):
        for first in ([self.program], [RUN, self.program]):
            desk = self.open_desk(words=first + ["-", "-", "lab"])
            desk.stdin.write(b"count server\n")
            desk.stdin.flush()
            self.assertTrue(desk.stdout.readline().startswith(b"notes 0 "))
            desk.stdout.close()
            desk.stdin.write(b"count server\n")
            desk.stdin.close()
            self.assertEqual(5, desk.wait(timeout=60))

    def test_an_input_whose_reader_ended(self):
        ran = self.open_desk(words=[RUN, self.script("sleep 0.2; exit 3"), "-", "-", "desk"])
        self.assertEqual(3, ran.wait(timeout=20))
        with self.assertRaises(BrokenPipeError):
            os.write(ran.stdin.fileno(), b"x" * 100000)

    def test_streams_that_fail(self):
        for words, status in (("> /dev/full", 5), ("< %s" % self.folder, 4), ("<&-", 4), (">&-", 5)):
            lines = "" if "<" in words else "echo count server | "
            for first in (self.program, "%s %s" % (RUN, self.program)):
                ran = run(["sh", "-c", "%s%s - - lab %s" % (lines, first, words)])
                self.assertEqual((status, b""), (ran.returncode, ran.stdout), words)
        self.assertEqual(0, run(["sh", "-c", "echo count server | %s %s - - lab 2>&-" % (RUN, self.program)]).returncode)

    def test_a_standard_error_that_nobody_reads(self):
        read, write = os.pipe()
        os.set_blocking(write, False)
        try:
            while True:
                os.write(write, b"x" * 4096)
        except BlockingIOError:
            os.set_blocking(write, True)
        self.assertEqual(3, self.around("-", "-", "desk", stderr=write).returncode)
        os.close(read)
        os.close(write)

    def test_the_program_itself(self):
        with open(os.path.join(TOP, "examples", "first-sync.lab"), "rb") as script:
            lines = script.read() + b"sync Z\n"
        alone = run([self.program, "-", "-", "lab"], input=lines)
        around = self.around("-", "-", "lab", lines=lines)
        self.assertEqual((3, alone.stdout), (around.returncode, around.stdout))

    @unittest.skipUnless(os.environ.get("ANKI_TEST_LARGE"), "1 GiB of input takes a while: ANKI_TEST_LARGE=1 tries it")
    def test_an_input_of_one_gibibyte(self):
        line = b"#" * 63 + b"\n"
        counted = self.script("cksum")
        for first in ([counted], [RUN, counted], [self.program], [RUN, self.program]):
            ran = subprocess.Popen(first + ["-", "-", "lab"], stdin=subprocess.PIPE, stdout=subprocess.PIPE, stderr=subprocess.PIPE)
            block = line * (1 << 14)
            for _ in range(1 << 10):
                ran.stdin.write(block)
            out, error = ran.communicate()
            self.assertEqual((0, b""), (ran.returncode, error))
            print(first, out, file=sys.stderr)


class Sentences(Case):
    """One sentence on standard error after each end but 0, and none in quiet."""

    def said(self, *words, status, program=None, **more):
        """The sentence after a run with this status. It is a line of its own, and the same run in quiet says nothing."""
        ran = self.around(*words, program=program, **more)
        self.assertEqual(status, ran.returncode, ran.stderr)
        text = ran.stderr.decode()
        self.assertRegex(text, r"\Aanki: [^\n]+\n\Z")
        return text

    def test_nothing_after_an_end_in_order(self):
        ran = self.around("-", "-", "lab", lines=b"count server\n")
        self.assertEqual((0, b""), (ran.returncode, ran.stderr))

    def test_each_status(self):
        for status in (2, 4, 5, 7, 8, 10, 11, 12, 13, 14, 15, 77):
            self.said("-", "-", "desk", status=status, program=self.script("exit %d" % status))

    def test_quiet(self):
        for status in (2, 3, 6):
            ran = self.around("-", "-", "desk", program=self.script("exit %d" % status), env=dict(os.environ, ANKI_QUIET="1"))
            self.assertEqual((status, b""), (ran.returncode, ran.stderr))

    def test_usage(self):
        self.assertIn("--help", self.said(self.file, "-", "dekc", status=2))

    def test_a_refused_line_with_its_text(self):
        self.make()
        lines, out = self.write("lines", note("a") + "\nnote 1 1\n" + note("b") + "\n"), open(self.path("out"), "wb")
        with out, open(lines, "rb") as given:
            text = self.said(self.file, "-", "desk", status=3, stdin=given, stdout=out)
        self.assertIn("line 2, 'note 1 1', was refused (bad line)", text)
        self.assertIn("what the lines before it did is kept", text)
        self.assertEqual(["a"], self.notes())

    def test_a_refused_line_by_its_number(self):
        with open(self.path("out"), "wb") as out:
            out.write(b"line 7: of another run\n")
            out.flush()
            text = self.said("-", "-", "lab", status=3, lines=b"\nsync Z\n", stdout=out)
        self.assertIn("line 2 was refused (no device Z)", text)
        self.assertIn("device <name>", text)

    def test_a_refused_line_in_a_pipe(self):
        self.assertIn("the last line of the output", self.said("-", "-", "lab", status=3, lines=b"sync Z\n"))

    def test_lines_that_end_with_cr_lf(self):
        with open(self.write("lines", b"count server\r\n"), "rb") as lines:
            self.assertIn("CR LF", self.said("-", "-", "lab", status=3, stdin=lines))

    def test_a_refused_record(self):
        self.make()
        refuses = self.script("cat >/dev/null; echo 'line 2: csv fault 1 at 2'; exit 3")
        with open(self.path("out"), "wb") as out:
            text = self.said(self.file, "-", "import", "1", "1", status=3, program=refuses, lines=b"g1,,a,b\n\ng2\n", stdout=out)
        self.assertIn("record 2 was refused (csv fault 1 at 2); nothing of the input was taken; of a text that Anki exported", text)
        self.assertIn("a record was refused, and the output has its number", self.said(self.file, "-", "import", "1", "1", status=3, program=refuses))

    def test_a_note_of_a_record_that_is_refused(self):
        self.make()
        refuses = self.script("cat >/dev/null; echo 'line 1: no such deck 9'; exit 3")
        with open(self.path("out"), "wb") as out:
            text = self.said(self.file, "-", "import", "1", "9", status=3, program=refuses, lines=b"g1,,a,b\n", stdout=out)
        self.assertIn("record 1 was refused (no such deck 9); nothing of the input was taken; 'bin/anki show FILE decks'", text)

    def test_an_import_that_is_too_long(self):
        self.make()
        with open(self.path("out"), "wb") as out:
            text = self.said(self.file, "-", "import", "1", "1", status=3, program=self.script("echo 'line 0: long input'; exit 3"), stdout=out)
        self.assertIn("the input was refused (long input); nothing of the input was taken; part the file", text)

    def test_an_import_without_a_collection(self):
        self.assertIn("there is no file", self.said(self.path("other"), "-", "import", "1", "1", status=3))

    def test_an_import_whose_input_fails(self):
        text = self.said(self.file, "-", "import", "1", "1", status=4, program=self.script("exit 4"))
        self.assertIn("; nothing of the input was taken; see to the input", text)

    def test_make_without_its_line(self):
        text = self.said("-", "-", "make", "7", "1", status=8, program=self.script("exit 8"))
        self.assertIn("memory ran out, or what was made is not what its size comes to; free memory, or take a smaller size", text)

    def test_no_collection(self):
        self.make()
        self.assertIn("there is no file", self.said(self.path("other"), "-", "desk", status=3))
        self.assertIn("did you mean %s?" % self.file, self.said(self.path("mi.anki"), "-", "desk", status=3))
        self.assertIn("holds a collection already", self.said(self.file, "-", "init", status=3))

    def test_a_file_that_is_refused(self):
        self.assertIn("no SQLite file", self.said(self.write("text", "hello\n"), "-", "desk", status=6))
        self.assertIn("is a folder", self.said(self.folder, "-", "desk", status=6))

    def test_a_signal(self):
        self.assertIn("SIGTERM", self.said("-", "-", "desk", status=-15, program=self.script("kill -TERM $$")))


class Progress(Case):
    """A long run over a file tells on a terminal how far it is, and never elsewhere."""

    def told(self, stderr_is_terminal):
        program = self.script("head -c 512 >/dev/null; sleep 2.6; exit 0")
        with open(self.write("lines", b"#" * 1024), "rb") as lines:
            if not stderr_is_terminal:
                return self.around("-", "-", "lab", program=program, stdin=lines).stderr
            here, there = pty.openpty()
            ran = subprocess.Popen([RUN, program, "-", "-", "lab"], stdin=lines, stdout=subprocess.PIPE, stderr=there)
            os.close(there)
            ran.communicate()
            told = os.read(here, 10000)
            os.close(here)
            return told

    def test_on_a_terminal(self):
        self.assertRegex(self.told(True), rb"anki: \d+ % of the input is read")

    def test_not_elsewhere(self):
        self.assertEqual(b"", self.told(False))


class NoFiles(Case):
    """No file is left where there was none."""

    def test_on_a_name_where_there_is_none(self):
        for words in (["desk"], ["lab"], ["sync", "0" * 32], ["upload", "0" * 32], ["download", "0" * 32], ["import", "1", "1"], ["export", "1"], ["make", "7", "1"], ["dekc"], []):
            for environment in (dict(os.environ), dict(os.environ, ANKI_QUIET="1")):
                alone = run([self.program, self.path("alone"), "-"] + words, input=b"")
                ran = self.around(self.path("new"), "-", *words, env=environment)
                self.assertEqual((alone.returncode, alone.stdout), (ran.returncode, ran.stdout), words)
                self.assertEqual(["alone", "alone-wal"], self.names())
                for name in self.names():
                    os.remove(self.path(name))

    def test_init_makes_one(self):
        self.assertEqual(0, self.around(self.file, "-", "init").returncode)
        self.assertEqual(["my.anki", "my.anki-wal"], self.names())

    def test_beside_a_file_that_is_refused(self):
        path = self.write("text", "hello\n")
        self.assertEqual(6, self.around(path, "-", "desk").returncode)
        self.assertEqual(["text"], self.names())

    def test_what_could_not_be_made(self):
        for path in (self.path("none/x"), self.path("a" * 253), "", ":memory:", self.folder + "/"):
            alone = run([self.program, path, "-", "desk"], input=b"")
            ran = self.around(path, "-", "desk")
            self.assertEqual((alone.returncode, alone.stdout), (ran.returncode, ran.stdout), path)

    def test_a_name_that_is_no_text(self):
        self.assertEqual(2, self.around(self.path("x") + "\udcff", "-", "desk").returncode)


if __name__ == "__main__":
    unittest.main()
