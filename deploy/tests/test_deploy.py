"""What bin/ankid new-account prints, and what deploy/servers.py does, in folders of their own.

    python3 -m unittest discover -s deploy/tests
"""
import fcntl
import json
import os
import re
import shutil
import subprocess
import sys
import tempfile
import tomllib
import unittest
from unittest import mock

TOP = os.path.dirname(os.path.dirname(os.path.dirname(os.path.realpath(__file__))))
sys.dont_write_bytecode = True
sys.path.insert(0, os.path.join(TOP, "deploy"))

import servers  # noqa: E402
import try_server  # noqa: E402


class Rooms(unittest.TestCase):
    def setUp(self):
        self.room = tempfile.mkdtemp(prefix="ankid-test-")
        self.addCleanup(shutil.rmtree, self.room)

    def path(self, *names):
        return os.path.join(self.room, *names)

    def put(self, text, *names):
        os.makedirs(os.path.dirname(self.path(*names)), exist_ok=True)
        with open(self.path(*names), "w", encoding="utf-8") as file:
            file.write(text)

    def text(self, *names):
        with open(self.path(*names), encoding="utf-8") as file:
            return file.read()


class NewAccounts(Rooms):
    def new_account(self, *words):
        return subprocess.run([f"{TOP}/bin/ankid", "new-account", *words], stdout=subprocess.PIPE, stderr=subprocess.PIPE, text=True)

    def test_the_lines_are_an_account(self):
        ran = self.new_account("Zoë Müller", "files/zoë.anki")
        self.assertEqual((ran.returncode, ran.stderr), (0, ""))
        [account] = tomllib.loads(ran.stdout)["account"]
        self.assertEqual((account["name"], account["file"]), ("Zoë Müller", "files/zoë.anki"))
        self.assertRegex(account["key"], "^[0-9a-f]{32}$")

    def test_lines_of_several_accounts_stand_one_after_another(self):
        text = "".join(self.new_account(f"name {n}", f"{n}.anki").stdout for n in range(20))
        keys = {it["key"] for it in tomllib.loads(text)["account"]}
        self.assertEqual(len(keys), 20)

    def test_texts_that_would_have_to_be_escaped_are_refused(self):
        for words in ([], ["a"], ["a", "b", "c"], ["", "f"], ["a", ""], ['a"', "f"], ["a\\", "f"], ["a\nb", "f"], ["a\n", "f"], ["a", "f\t"], ["n" * 65, "f"]):
            ran = self.new_account(*words)
            self.assertEqual((ran.returncode, ran.stdout), (2, ""), words)
            self.assertTrue(ran.stderr.startswith("ankid: "), words)

    def test_a_name_of_64_bytes_is_taken(self):
        self.assertEqual(self.new_account("n" * 64, "f").returncode, 0)


class Statuses(Rooms):
    """bin/ankid over a stand-in for the program."""

    def setUp(self):
        super().setUp()
        for folder in ("bin", "deploy", "dist"):
            os.mkdir(self.path(folder))
        for name in ("bin/ankid", "deploy/ankid-statuses.txt"):
            shutil.copy(f"{TOP}/{name}", self.path(name))
        self.put("#!/bin/sh\n" + 'eval "$1"\n', "stand-in")
        os.chmod(self.path("stand-in"), 0o755)
        self.put(f"have_program() {{ built={self.path('stand-in')}; }}\n" + 'say() { echo "$program: $*" >&2; }\n', "bin", "program.sh")

    def test_each_status_has_its_sentence(self):
        for line in self.text("deploy", "ankid-statuses.txt").splitlines():
            if line.startswith("#"):
                continue
            status, *clauses = line.split("|")
            do = "kill -9 $$" if status == "signal" else f"exit {status}"
            ran = subprocess.run([self.path("bin", "ankid"), do], stdout=subprocess.PIPE, stderr=subprocess.PIPE, text=True)
            self.assertEqual((ran.stdout, ran.stderr.splitlines()[-1]), ("", "ankid: " + "; ".join(clauses)))
            self.assertEqual(ran.returncode, 137 if status == "signal" else int(status))

    def test_who_stops_the_script_stops_the_program(self):
        ran = subprocess.Popen([self.path("bin", "ankid"), "echo $$; exec sleep 60"], stdout=subprocess.PIPE, stderr=subprocess.PIPE, text=True)
        child = int(ran.stdout.readline())
        ran.terminate()
        told = ran.communicate(timeout=10)[1]
        self.assertEqual(ran.returncode, 143)
        self.assertIn("it was ended from outside by a signal", told)
        self.assertFalse(os.path.exists(f"/proc/{child}"))

    def test_the_page_has_the_table(self):
        with open(f"{TOP}/docs/OPERATORS.md", encoding="utf-8") as file:
            page = file.read()
        for line in self.text("deploy", "ankid-statuses.txt").splitlines():
            if not line.startswith("#"):
                self.assertIn("| " + " | ".join(line.split("|")) + " |\n", page)


class Servers(Rooms):
    def setUp(self):
        super().setUp()
        self.accounts = [{"name": f"n{n}", "key": f"{n:032x}", "file": f"n{n}.anki"} for n in range(7)]
        self.put_accounts()

    def put_accounts(self):
        self.put(servers.text_of(self.accounts), "accounts.toml")
        for it in self.accounts:
            self.put("collection of " + it["name"], it["file"])
        self.put("log of n3", "n3.anki-wal")

    def split(self, count=3):
        servers.split(self.path("accounts.toml"), self.path("servers"), count)

    def at(self, number):
        return [it["name"] for it in servers.read_accounts(self.path("servers", str(number), "accounts.toml"))]

    def test_a_text_of_accounts_is_read_again(self):
        odd = [{"name": 'a"b\\c\x7f\u00e9', "key": "k", "file": "\u65e5\n"}]
        self.assertEqual(tomllib.loads(servers.text_of(odd)), {"account": odd})
        self.assertEqual(tomllib.loads(servers.text_of([])), {"account": []})

    def test_split_gives_each_account_to_one_server_with_its_files(self):
        self.split()
        self.assertEqual([self.at(n) for n in (1, 2, 3)], [["n0", "n3", "n6"], ["n1", "n4"], ["n2", "n5"]])
        self.assertEqual(self.text("servers", "1", "n3.anki"), "collection of n3")
        self.assertEqual(self.text("servers", "1", "n3.anki-wal"), "log of n3")
        self.assertFalse(os.path.exists(self.path("n3.anki")) or os.path.exists(self.path("accounts.toml")))
        self.assertEqual(servers.check(self.path("servers")), 7)
        routes = re.findall(r'"([0-9a-f]{32})" 127.0.0.1:(\d+);', self.text("servers", "routes.map"))
        self.assertEqual({key: int(port) - 27710 for key, port in routes}, {f"{n:032x}": n % 3 + 1 for n in range(7)})
        for name in ("routes.map", "1/accounts.toml"):
            self.assertEqual(os.stat(self.path("servers", name)).st_mode & 0o777, 0o600)

    def test_split_refuses_before_anything_moves(self):
        for change in ({"key": f"{1:032x}"}, {"name": "n1"}, {"file": "/x.anki"}, {"file": "../x.anki"}, {"file": ""}):
            self.put(servers.text_of([{**self.accounts[0], **change}, *self.accounts[1:]]), "accounts.toml")
            with self.assertRaises(servers.Refused):
                self.split()
            self.assertTrue(os.path.exists(self.path("n3.anki")))
            self.assertFalse(os.path.exists(self.path("servers")))

    def hold(self, path):
        """Another process that has a file open as SQLite has it."""
        code = f"import fcntl,sys; f=open({path!r},'rb+'); fcntl.lockf(f,fcntl.LOCK_EX,512,0x40000000); print('held',flush=True); sys.stdin.read()"
        process = subprocess.Popen([sys.executable, "-c", code], stdin=subprocess.PIPE, stdout=subprocess.PIPE)
        process.stdout.readline()

        def end():
            process.stdin.close()
            process.wait()
            process.stdout.close()

        return end

    def test_a_collection_that_is_open_does_not_move(self):
        end = self.hold(self.path("n5.anki"))
        with self.assertRaisesRegex(servers.Refused, "open in a program"):
            self.split()
        end()
        self.split()
        end = self.hold(self.path("servers", "2", "n4.anki"))
        for name, to in (("n1", 3), ("n5", 2)):
            with self.assertRaisesRegex(servers.Refused, "open in a program"):
                servers.move(self.path("servers"), name, to)
        end()
        self.assertFalse(os.path.exists(self.path("servers", "moving.json")))
        self.assertEqual(self.at(2), ["n1", "n4"])

    def test_move_takes_account_files_and_route_along(self):
        self.split()
        servers.move(self.path("servers"), "n3", 2)
        self.assertEqual([self.at(n) for n in (1, 2, 3)], [["n0", "n6"], ["n1", "n4", "n3"], ["n2", "n5"]])
        self.assertEqual(self.text("servers", "2", "n3.anki") + self.text("servers", "2", "n3.anki-wal"), "collection of n3log of n3")
        self.assertIn(f'"{3:032x}" 127.0.0.1:27712;', self.text("servers", "routes.map"))
        self.assertFalse(os.path.exists(self.path("servers", "1", "n3.anki")))

    def test_move_refuses_what_is_not_there(self):
        self.split()
        for name, to in (("n9", 1), ("n3", 1), ("n3", 9)):
            with self.assertRaises(servers.Refused):
                servers.move(self.path("servers"), name, to)
        self.put("other", "servers", "2", "n3.anki")
        with self.assertRaisesRegex(servers.Refused, "already"):
            servers.move(self.path("servers"), "n3", 2)

    def test_a_move_stopped_anywhere_is_finished_by_the_next_call(self):
        for steps in range(40):
            with self.subTest(steps=steps):
                shutil.rmtree(self.room)
                os.mkdir(self.room)
                self.put_accounts()
                self.split()
                if not self.stop_move_after(steps):
                    return
                names = [name for number in (1, 2, 3) for name in self.at(number)]
                self.assertLessEqual(names.count("n3"), 1)
                if os.path.exists(self.path("servers", "moving.json")):
                    servers.main(["routes", self.path("servers")])
                    self.assertIn("n3", self.at(2))
                    self.assertEqual(self.text("servers", "2", "n3.anki") + self.text("servers", "2", "n3.anki-wal"), "collection of n3log of n3")
                self.assertEqual(servers.check(self.path("servers")), 7)
        self.fail("no move came to its end")

    def test_a_split_stopped_anywhere_goes_on(self):
        for steps in range(80):
            with self.subTest(steps=steps):
                shutil.rmtree(self.room)
                os.mkdir(self.room)
                self.put_accounts()
                if not self.stop_after(steps, self.split):
                    return
                if os.path.exists(self.path("servers", "splitting")):
                    with self.assertRaises(servers.Refused):
                        self.split(2)
                if os.path.exists(self.path("servers", "splitting")) or not os.path.exists(self.path("servers", "routes.map")):
                    self.split()
                self.assertEqual(servers.check(self.path("servers")), 7)
                self.assertEqual(self.text("servers", "1", "n3.anki") + self.text("servers", "1", "n3.anki-wal"), "collection of n3log of n3")
        self.fail("no split came to its end")

    def test_split_refuses_an_account_without_a_file(self):
        os.remove(self.path("n5.anki"))
        with self.assertRaisesRegex(servers.Refused, "there is no n5.anki"):
            self.split()
        self.assertTrue(os.path.exists(self.path("n3.anki")))

    def stop_move_after(self, steps):
        """Moves n3 to server 2 with so many renames and removals allowed; whether it was stopped."""
        return self.stop_after(steps, lambda: servers.move(self.path("servers"), "n3", 2))

    def stop_after(self, steps, work):
        left = [steps]

        def counted(call):
            def step(*words):
                if left[0] == 0:
                    raise KeyboardInterrupt
                left[0] -= 1
                return call(*words)

            return step

        with mock.patch.multiple(os, rename=counted(os.rename), replace=counted(os.replace), remove=counted(os.remove)):
            try:
                work()
            except KeyboardInterrupt:
                return True
        return False


class Trials(Rooms):
    """What the trials of the server make of an anki, by a stand-in for it."""

    def tools_of(self, said, status):
        """The tools of trials with an anki whose every command but init prints this and ends so."""
        self.put('#!/bin/sh\n[ "$3" = init ] && exit 0\necho "$*" >>%s\nprintf "%%s\\n" "%s"\nexit %d\n' % (self.path("asked"), said, status), "anki")
        os.chmod(self.path("anki"), 0o755)
        return try_server.Tools(mock.Mock(anki=self.path("anki"), ankid=self.path("anki")))

    def device(self, tools):
        return try_server.Device(tools, self.path("one.anki"), "a" * 32)

    def test_an_older_anki_is_known_by_its_usage(self):
        self.assertFalse(self.tools_of("usage", 2).has_transfers())
        tools = self.tools_of("lost", 7)
        self.assertTrue(tools.has_transfers())
        self.assertEqual([line.split()[1:3] for line in self.text("asked").splitlines()][-2:], [["-", "upload"], ["-", "download"]])
        self.assertEqual((try_server.ways(tools), try_server.in_step(tools)), ("upload and download", ("no changes",)))

    def test_the_ways_out_are_uploads_and_downloads_where_there_are_such(self):
        tools = self.tools_of("finished", 0)
        server = mock.Mock(port=5)
        try_server.device_wins(tools, server, self.device(tools))
        try_server.server_wins(tools, server, self.device(tools))
        self.assertEqual(self.text("asked").splitlines()[-2:], [f"{self.path('one.anki')} 127.0.0.1:5 {word} {'a' * 32}" for word in ("upload", "download")])
        server.end.assert_not_called()

    def test_an_upload_that_does_not_finish_fails_the_trial(self):
        for said, status in (("lost", 7), ("no changes", 0), ("finished", 1)):
            with self.assertRaises(try_server.Wrong):
                self.device(self.tools_of(said, status)).upload(5)

    def test_only_full_needed_needs_a_whole_collection(self):
        self.assertEqual(self.device(self.tools_of("full needed: schema 1 2", 10)).needs_whole(5), "full needed: schema 1 2")
        for said, status in (("finished", 0), ("lost", 7), ("full needed: schema 1 2", 0)):
            with self.assertRaises(try_server.Wrong):
                self.device(self.tools_of(said, status)).needs_whole(5)


if __name__ == "__main__":
    unittest.main()
