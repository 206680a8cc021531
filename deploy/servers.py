#!/usr/bin/env python3
"""Parts the accounts of one `ankid` among several, and moves an account from one to another. Each server has a folder of its own, in which it is started:

    SERVERS/1/accounts.toml     the accounts of server 1; their collections lie in SERVERS/1/ too
    SERVERS/2/accounts.toml
    SERVERS/routes.map          which server has which key, for the site deploy/nginx-many.conf

    deploy/servers.py split ACCOUNTS SERVERS N    makes the folders of N servers, 1 to 9; the collections, which lie beside ACCOUNTS, move into them
    deploy/servers.py move SERVERS NAME TO        moves the account NAME, with its collection, to server TO
    deploy/servers.py routes SERVERS              writes routes.map anew, after an account was added or taken away
    deploy/servers.py check SERVERS               looks whether any two accounts of all servers share a name, a key or a file

The servers that an account leaves and comes to are stopped before, and started after: a collection that a program has open is not moved. A move that was
stopped in its middle is finished by the next call, and a split by the same call; until then no server has the account.
"""
import contextlib
import fcntl
import json
import os
import shutil
import sys
import tomllib

# What belongs to a collection's file: SQLite's log with the commits that are not in the file yet.
LOG = "-wal"

# The bytes of a file that SQLite locks.
LOCK_START, LOCK_LENGTH = 0x40000000, 512

# The port of server 1 is this one plus 1.
FIRST_PORT = 27710


class Refused(Exception):
    """Why nothing was done, or where it stopped, in a sentence."""


def read_accounts(path):
    """The accounts that a file lists, in order."""
    try:
        with open(path, "rb") as file:
            told = tomllib.load(file)
    except (OSError, tomllib.TOMLDecodeError, UnicodeDecodeError) as fault:
        raise Refused("%s: %s" % (path, fault)) from None
    accounts = told.get("account")
    if set(told) != {"account"} or not isinstance(accounts, list):
        raise Refused("%s: it is not a list of accounts alone" % path)
    for it in accounts:
        if not isinstance(it, dict) or set(it) != {"name", "key", "file"} or not all(isinstance(value, str) for value in it.values()):
            raise Refused("%s: an account has a name, a key and a file, and nothing else" % path)
    return accounts


def quoted(text):
    """A text as a basic string of TOML, which JSON's form is but for the byte 0x7F."""
    return json.dumps(text, ensure_ascii=False).replace("\x7f", "\\u007F")


def text_of(accounts):
    """The text of an accounts' file."""
    if not accounts:
        return "account = []\n"
    return "\n".join("[[account]]\n" + "".join("%s = %s\n" % (key, quoted(it[key])) for key in ("name", "key", "file")) for it in accounts)


def write_secret(path, text):
    """Puts a file in the place of another at once, readable for its owner alone, and brings it to the disk."""
    new = path + ".new"
    with contextlib.suppress(FileNotFoundError):
        os.remove(new)
    file = os.open(new, os.O_WRONLY | os.O_CREAT | os.O_EXCL, 0o600)
    with os.fdopen(file, "w", encoding="utf-8") as out:
        out.write(text)
        out.flush()
        os.fsync(out.fileno())
    if os.path.exists(path):
        # Whoever could read the old one can read the new one.
        shutil.copystat(path, new)
        with contextlib.suppress(PermissionError):
            os.chown(new, os.stat(path).st_uid, os.stat(path).st_gid)
    os.replace(new, path)
    sync_folder(os.path.dirname(path))


def sync_folder(folder):
    """Brings the names in a folder to the disk."""
    file = os.open(folder or ".", os.O_RDONLY)
    try:
        os.fsync(file)
    finally:
        os.close(file)


def refuse_open(path):
    """Refuses a collection that a program has open."""
    if not os.path.exists(path):
        return
    with open(path, "rb+") as file:
        try:
            fcntl.lockf(file, fcntl.LOCK_EX | fcntl.LOCK_NB, LOCK_LENGTH, LOCK_START)
        except OSError:
            raise Refused("%s is open in a program: stop its server first" % path) from None


def move_file(old, new):
    """Moves a file; nothing is done if it moved already."""
    if not os.path.exists(old):
        return
    os.makedirs(os.path.dirname(new), exist_ok=True)
    try:
        os.rename(old, new)
    except OSError:
        # Another disk: the copy is whole and on the disk before the old one goes.
        shutil.copy2(old, new + ".new")
        with open(new + ".new", "rb") as copy:
            os.fsync(copy.fileno())
        os.replace(new + ".new", new)
        os.remove(old)
    sync_folder(os.path.dirname(new))
    sync_folder(os.path.dirname(old))


def move_collection(old, new):
    """Moves a collection with its log. No server has the account meanwhile."""
    for end in (LOG, ""):
        move_file(old + end, new + end)


def refuse_path(account):
    """Refuses an account whose file is not below its server's folder, since it would not move with it."""
    path = account["file"]
    if os.path.isabs(path) or ".." in path.split("/") or not path:
        raise Refused("the file of %s is %r: it can't move with its account unless it is a path below the server's folder" % (account["name"], path))


def refuse_twins(accounts):
    """Refuses two accounts with one name or one key."""
    for what in ("name", "key"):
        seen = set()
        for it in accounts:
            if it[what] in seen:
                raise Refused("two accounts have the %s of %s" % (what, it["name"]))
            seen.add(it[what])


def server_folders(servers):
    """The numbers of the servers, ascending, each with its folder."""
    numbers = sorted(int(it) for it in os.listdir(servers) if it.isdigit() and os.path.exists(os.path.join(servers, it, "accounts.toml")))
    if not numbers:
        raise Refused("%s has no server's folder" % servers)
    return {number: os.path.join(servers, str(number)) for number in numbers}


def accounts_path(folder):
    return os.path.join(folder, "accounts.toml")


def write_routes(servers):
    """Writes which server has which key."""
    lines = []
    for number, folder in server_folders(servers).items():
        for it in read_accounts(accounts_path(folder)):
            lines.append("%s 127.0.0.1:%d;\n" % (quoted(it["key"]), FIRST_PORT + number))
    write_secret(os.path.join(servers, "routes.map"), "".join(lines))


def check(servers):
    """Looks whether any two accounts share a name, a key, or a file of one folder, and answers how many there are."""
    every, places = [], set()
    for folder in server_folders(servers).values():
        accounts = read_accounts(accounts_path(folder))
        every += accounts
        for it in accounts:
            place = os.path.realpath(os.path.join(folder, it["file"]))
            if place in places:
                raise Refused("two accounts have the file %s" % place)
            places.add(place)
    refuse_twins(every)
    return len(every)


def split(accounts_file, servers, count):
    """Makes the folders of so many servers. The accounts go round, so that each has as many as any other, or one less. A split that was stopped goes on."""
    accounts = read_accounts(accounts_file)
    refuse_twins(accounts)
    home = os.path.dirname(os.path.realpath(accounts_file))
    folders = [os.path.join(servers, str(number)) for number in range(1, count + 1)]
    note = os.path.join(servers, "splitting")
    if os.path.exists(servers) and set(os.listdir(servers)) - {"splitting.new"} and not os.path.exists(note):
        raise Refused("%s is not empty" % servers)
    for place, it in enumerate(accounts):
        refuse_path(it)
        refuse_open(os.path.join(home, it["file"]))
        # It may have moved already, before this split was stopped.
        if not any(os.path.exists(os.path.join(folder, it["file"])) for folder in (home, folders[place % count])):
            raise Refused("there is no %s beside %s" % (it["file"], accounts_file))
    os.makedirs(servers, mode=0o700, exist_ok=True)
    begin_split(note, count)
    for number, folder in enumerate(folders):
        os.makedirs(folder, mode=0o700, exist_ok=True)
        mine = accounts[number::count]
        for it in mine:
            move_collection(os.path.join(home, it["file"]), os.path.join(folder, it["file"]))
        write_secret(accounts_path(folder), text_of(mine))
    write_routes(servers)
    os.remove(note)
    # The old file may not serve any more: its collections are elsewhere, and it would make empty ones.
    os.replace(accounts_file, accounts_file + ".split")


def begin_split(note, count):
    """Notes how many servers a split makes; one that goes on makes as many."""
    if not os.path.exists(note):
        write_secret(note, str(count))
    with open(note, encoding="utf-8") as file:
        begun = file.read()
    if begun != str(count):
        raise Refused("a split into %s servers was stopped here: go on with that number" % begun)


def begin_move(servers, name, to):
    """Notes a move, unless it can't be."""
    folders = server_folders(servers)
    if to not in folders:
        raise Refused("there is no server %d" % to)
    for number, folder in folders.items():
        for it in read_accounts(accounts_path(folder)):
            if it["name"] == name and number != to:
                refuse_path(it)
                if os.path.exists(os.path.join(folders[to], it["file"])):
                    raise Refused("server %d has a file %s already" % (to, it["file"]))
                write_secret(os.path.join(servers, "moving.json"), json.dumps({"account": it, "from": number, "to": to}))
                return
            if it["name"] == name:
                raise Refused("%s is at server %d already" % (name, to))
    raise Refused("no server has an account %s" % name)


def finish_move(servers):
    """Does the move that is noted, if one is, from wherever it was stopped: the account leaves, its files move, it comes."""
    note = os.path.join(servers, "moving.json")
    if not os.path.exists(note):
        return
    with open(note, encoding="utf-8") as file:
        told = json.load(file)
    account = told["account"]
    old, new = (os.path.join(servers, str(told[it])) for it in ("from", "to"))
    for folder in (old, new):
        for it in [*read_accounts(accounts_path(folder)), account]:
            refuse_open(os.path.join(folder, it["file"]))
    write_secret(accounts_path(old), text_of([it for it in read_accounts(accounts_path(old)) if it != account]))
    move_collection(os.path.join(old, account["file"]), os.path.join(new, account["file"]))
    write_secret(accounts_path(new), text_of([*(it for it in read_accounts(accounts_path(new)) if it != account), account]))
    write_routes(servers)
    os.remove(note)


def move(servers, name, to):
    finish_move(servers)
    begin_move(servers, name, to)
    try:
        finish_move(servers)
    except Refused:
        drop_unbegun(servers)
        raise


def drop_unbegun(servers):
    """Takes back the note of a move of which nothing was done."""
    note = os.path.join(servers, "moving.json")
    with open(note, encoding="utf-8") as file:
        told = json.load(file)
    if told["account"] in read_accounts(accounts_path(os.path.join(servers, str(told["from"])))):
        os.remove(note)


def main(words):
    match words:
        case ["split", accounts, servers, ("1" | "2" | "3" | "4" | "5" | "6" | "7" | "8" | "9") as count]:
            split(accounts, servers, int(count))
        case ["move", servers, name, to] if to.isdigit():
            move(servers, name, int(to))
        case ["routes", servers]:
            finish_move(servers)
            check(servers)
            write_routes(servers)
        case ["check", servers]:
            print("%d accounts, each at one server" % check(servers))
        case _:
            print(__doc__, file=sys.stderr)
            return 2
    return 0


if __name__ == "__main__":
    try:
        sys.exit(main(sys.argv[1:]))
    except Refused as fault:
        print("servers.py: %s" % fault, file=sys.stderr)
        sys.exit(1)
