#!/usr/bin/env python3
"""Lets each call for memory of `anki` and `ankid` fail in its turn, and looks at what is left: real processes, real files.

    deploy/try_memory.py [--anki PATH] [--ankid PATH] [--step N] [--first N] [TRIAL ...]

Each trial counts the calls of malloc and realloc of a run, and makes the run again with the first of them failing, the next, and so on; with --step
each Nth. Each try begins with the same files. Trials:

    desk      a day at the desk: no run ends by a signal or goes on for 60 s; what was printed is the front of what a whole run prints; the file
              is sound and holds what the printed lines did, and at most the line that was not printed; with status 8 not that either
    device    a sync with memory failing at the device: the outcome is a documented one; the device holds what it held, or what the server holds; the next
              sync is finished or `no changes`, both sides hold the same, and nothing of the device's is lost
    server    the same with memory failing at the server, from its start on

A C compiler (`cc`) is needed, for the few lines of failing_memory.c that are loaded into the programs. How often each end came is told. The status is 1 if a
trial saw what it should not.
"""
import argparse
import collections
import os
import shutil
import struct
import subprocess
import sys
import tempfile
import time

HERE = os.path.dirname(os.path.realpath(__file__))
sys.dont_write_bytecode = True
sys.path.insert(0, HERE)

from try_server import Device, Server, Tools, Wrong, content, copy_files, devices_of, expect, integrity, wait_for_port  # noqa: E402

TYPE = '''type {"flds":[{"name":"Word"}],"id":1,"mod":0,"name":"Word","sortf":0,"tmpls":[{"afmt":"{{Word}}","name":"One","ord":0,"qfmt":"{{Word}}"}],"type":0,"usn":0}'''
# Each prints one line.
LINES = ('note 1 1 ["one","back"]', 'note 1 1 ["two","back"]', "counts 1", "next 1", "find deck:default", TYPE, "deck Two::Three", 'note 1 1 ["three","back"]',
         "spread 1", "undo", "find is:new", "check")


class Memory:
    """The library that lets calls fail, built in a folder, and the environment in which a program has it."""

    def __init__(self, room):
        self.library, self.counter = os.path.join(room, "failing_memory.so"), os.path.join(room, "count")
        subprocess.run(["cc", "-shared", "-fPIC", "-O2", "-o", self.library, os.path.join(HERE, "failing_memory.c"), "-ldl"], check=True)

    def environment(self, failing=None):
        told = dict(os.environ, LD_PRELOAD=self.library, FAILING_COUNTER=self.counter)
        return told if failing is None else dict(told, FAILING_CALL=str(failing))

    def calls(self):
        with open(self.counter, "rb") as file:
            return struct.unpack("l", file.read())[0]


class Hungry(Device):
    """A device one of whose calls for memory fails in each run while `failing` is set."""

    memory, failing = None, None

    def run(self, *words, given=""):
        environment = None if self.memory is None else self.memory.environment(self.failing)
        return subprocess.run([self.tools.anki, self.path, *words], input=given, stdout=subprocess.PIPE, stderr=subprocess.PIPE, text=True,
                              timeout=60, env=environment)


def numbers(count, words):
    return range(words.first, count, words.step)


def told(what, count, words, ends):
    print("%s: %d calls for memory, %d of them made to fail: %s"
          % (what, count, len(numbers(count, words)), ", ".join("%s %d times" % it for it in sorted(ends.items()))))


def shape(path):
    """How many rows of each table a collection holds."""
    found = content(path)
    return tuple(len(found[it]) for it in sorted(found))


def try_desk(tools, room, words):
    memory = Memory(room)
    base = Device(tools, os.path.join(room, "base.anki"), "")
    expect("init", base.run("-", "init").returncode, 0)
    given = "".join(line + "\n" for line in LINES)

    def ran(failing):
        device = Hungry(tools, os.path.join(room, "it.anki"), "")
        copy_files(base.path, device.path)
        device.memory, device.failing = memory, failing
        return device, device.run("-", "desk", given=given)

    device, whole = ran(None)
    expect("the whole run", whole.returncode, 0)
    count, ends, after = memory.calls(), collections.Counter(), shapes_of(tools, base, room)
    wanted = [words_of(it) for it in whole.stdout.splitlines()]
    for failing in numbers(count, words):
        device, it = ran(failing)
        printed = [words_of(line) for line in it.stdout.splitlines()]
        what = "call %d, status %d" % (failing, it.returncode)
        ends["status %d" % it.returncode] += 1
        expect(what, it.returncode, *range(0, 17))
        expect(what + ": what is printed", printed, wanted[:len(printed)])
        held = shape(device.path)
        # The answer of a line that is done is printed piece by piece where memory is out for its text: no run ends for that.
        expect(what + ": what is held", held, *after[len(printed):len(printed) + (1 if it.returncode == 8 else 2)])
        device.memory = None
        device.is_sound()
    told("desk", count, words, ends)


def words_of(line):
    """A printed line without its numbers: ids go by the clock."""
    return " ".join("N" if it.isdigit() else it for it in line.split())


def shapes_of(tools, base, room):
    """The numbers of rows after none, one, two and so on of the lines."""
    found = [shape(base.path)]
    for upto in range(1, len(LINES) + 1):
        device = Device(tools, os.path.join(room, "step.anki"), "")
        copy_files(base.path, device.path)
        expect("lines printed", len(device.desk(*LINES[:upto])), upto)
        found.append(shape(device.path))
    return found


def hold_the_same(device, server, what, before):
    """Syncs on without failing calls, and looks that both sides hold the same and all that the device had."""
    device.memory = None
    line = device.finish(server.port)
    held, there = content(device.path), content(server.file())
    expect(what + ": one content", held == there, True)
    for table in ("notes", "revlog"):
        expect(what + ": nothing is lost of " + table, {row[0] for row in before[table]} - {row[0] for row in held[table]}, set())
    return line


def hungry_device(tools, room, memory):
    server = Server(tools, os.path.join(room, "server"))
    one, = devices_of(tools, server, ("one",))
    device = Hungry(tools, one.path, one.key)
    return server, device, memory


def change(device, number):
    """Something of most tables that is to be sent."""
    device.memory = None
    told_note = device.desk('note 1 1 ["note %d","back"]' % number, "deck D%d" % number)[0].split()
    device.desk("answer %s 3 1000" % told_note[3], 'tags %s ["t%d"]' % (told_note[1], number))
    if number % 3 == 2:
        device.desk("delete %s" % told_note[1])


class Kept:
    """The files of a device and of its server, neither of which is open, as each try begins with them."""

    def __init__(self, device, server):
        self.paths = (device.path, server.file())
        for path in self.paths:
            copy_files(path, path + ".kept")

    def put_back(self):
        for path in self.paths:
            copy_files(path + ".kept", path)


def try_device(tools, room, words):
    server, device, memory = hungry_device(tools, room, Memory(room))
    change(device, 0)
    server.end()
    kept, before, there, ends = Kept(device, server), content(device.path), content(server.file()), collections.Counter()

    def synced(failing):
        kept.put_back()
        server.start()
        device.memory, device.failing = memory, failing
        return device.sync(server.port)

    expect("a whole sync", synced(None), (0, "finished"))
    count = memory.calls()
    server.end()
    for failing in numbers(count, words):
        status, line = synced(failing)
        ends["%d %s%s" % (status, line or "nothing printed", "" if content(server.file()) == there else ", the server has the join")] += 1
        expect("call %d: the status" % failing, status, *range(0, 17))
        held = content(device.path)
        expect("call %d: as before, or the server's" % failing, held == before or held == content(server.file()), True)
        if line == "finished":
            expect("call %d: finished" % failing, held == content(server.file()), True)
        hold_the_same(device, server, "call %d" % failing, before)
        server.end()
    device.is_sound()
    integrity(server.file())
    told("device", count, words, ends)


def try_server(tools, room, words):
    server, device, memory = hungry_device(tools, room, Memory(room))
    server.end()
    change(device, 0)
    kept, before, ends = Kept(device, server), content(device.path), collections.Counter()
    begin(server, memory.environment())
    expect("a whole sync", device.sync(server.port), (0, "finished"))
    server.end()
    count = memory.calls()
    for failing in numbers(count, words):
        kept.put_back()
        if begin(server, memory.environment(failing)) is None:
            ends["the server ends with %d" % server.process.wait()] += 1
            expect("call %d: the server's status" % failing, server.process.returncode, *range(1, 17))
            server.process.stdout.close()
        else:
            status, line = device.sync(server.port)
            ends["%d %s" % (status, line or "nothing printed")] += 1
            expect("call %d: the server goes on" % failing, server.process.poll(), None)
            held = content(device.path)
            expect("call %d: as before, or the server's" % failing, held == before or held == content(server.file()), True)
            server.end()
        server.start()
        hold_the_same(device, server, "call %d" % failing, before)
        server.end()
    device.is_sound()
    integrity(server.file())
    told("server", count, words, ends)


def begin(server, environment):
    """Starts the server in this environment, and waits until it answers; None if it ended before."""
    words = [server.tools.ankid, "--listen", "127.0.0.1:%d" % server.port, "--accounts", "accounts.toml"]
    server.process = subprocess.Popen(words, cwd=server.room, stdin=subprocess.DEVNULL, stdout=subprocess.PIPE, stderr=subprocess.DEVNULL, env=environment)
    server.tools.started.append(server.process)
    return wait_for_port(server.port, server.process)


TRIALS = {"desk": try_desk, "device": try_device, "server": try_server}


def main():
    reader = argparse.ArgumentParser(description=__doc__, formatter_class=argparse.RawDescriptionHelpFormatter)
    reader.add_argument("--anki")
    reader.add_argument("--ankid")
    reader.add_argument("--step", type=int, default=1)
    reader.add_argument("--first", type=int, default=0)
    reader.add_argument("trials", nargs="*", metavar="TRIAL", choices=[*TRIALS, []])
    words = reader.parse_args()
    tools, failed = Tools(words), 0
    for name in words.trials or TRIALS:
        print("== %s" % name, flush=True)
        room = tempfile.mkdtemp(prefix="memory-trial-")
        began = time.monotonic()
        try:
            TRIALS[name](tools, room, words)
            print("%s: passed, %.0f s" % (name, time.monotonic() - began), flush=True)
        except (Wrong, OSError, subprocess.SubprocessError) as fault:
            failed += 1
            print("%s: FAILED: %s %s" % (name, type(fault).__name__, fault), flush=True)
        finally:
            tools.end_all()
            shutil.rmtree(room, ignore_errors=True)
    return 1 if failed else 0


if __name__ == "__main__":
    sys.exit(main())
