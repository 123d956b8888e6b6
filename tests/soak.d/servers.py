"""A server under load, with a base that is locked and restarted: view_server over SQLite, or two edges over PostgreSQL.

  servers.py view_server|edges ROOM PROGRAM SEED    until SIGTERM

Each read is checked by the model in articles.py. Whoever is still without an answer at rest, where another is told
the article and all threads of the servers sleep, was forgotten.
"""
import array
import collections
import os
import pathlib
import random
import re
import signal
import sqlite3
import struct
import subprocess
import sys
import threading
import time

from articles import Article, at_failure, fails
from clients import Client, Leaver, Reader, Writer
from early import Early

ARTICLES = 60
READERS = 24
LOOKS = 30
CONFIGURATION = """
[source]
address = "{address}"
connections = {connections}
deadline = 60
lasting_slot = {is_lasting}

[cache]
keys = 20

[listen]
port = {port}
clients = {clients}

[[view]]
name = "votes"
table = "votes"
key = ["article"]
columns = ["voter", "weight"]
encoding = "arrays"

[[write]]
name = "vote"
statement = "INSERT INTO votes (article, voter, weight) VALUES ($1, $2, $3)"

[[write]]
name = "unvote"
statement = "DELETE FROM votes WHERE (article, voter, weight) = ($1, $2, $3)"
"""
EARLY = "answer of before a slot"


class Server:
    """A process that is started again at its port whenever it has ended."""

    def __init__(self, bed, name, words):
        self.bed, self.name, self.words, self.port, self.process = bed, name, words, 0, None
        self.start()

    def start(self):
        """The driver finds it by its number, and so measures it."""
        self.begin()
        self.work_at_once()
        (self.bed.room / f"{self.name}.pid").write_text(str(self.process.pid))

    def begin(self):
        """Without memory or a thread it may end at its start, and is started once more."""
        room = self.bed.room
        faults = {"LD_PRELOAD": str(room / "faults.so"), "SOAK_CONTROL": str(room / f"{self.bed.name}.control")}
        # To print one takes more memory than all else.
        faults["RUST_BACKTRACE"] = "0"
        while not (port := self.listens({**os.environ, **faults})):
            self.process.wait()
            self.bed.counts["not started"] += 1
        self.port = port

    def listens(self, env):
        """Starts the process: the port where it listens, or none where it has ended before."""
        port = ["--port", str(self.port)] if self.port else []
        with open(self.bed.room / f"{self.name}.errors", "ab") as errors:
            self.process = subprocess.Popen(self.words + port, stdout=subprocess.PIPE, stderr=errors, env=env)
        line = self.process.stdout.readline().decode()
        return int(line.rsplit(":")[-1]) if line.startswith("listening on") else None

    def work_at_once(self):
        """Has each session of it work, so that its memory isn't the more the more clients once came together."""
        try:
            clients = [Client(self.port, patience=5) for _ in range(READERS)]
            for client in clients:
                client.send("UNVOTE nothing 0 0")
            for client in clients:
                client.reply()
        except OSError:
            self.bed.counts["not warm"] += 1

    def mend(self):
        """What is refused memory ends, as each program of Rust does."""
        if self.process.poll() is None:
            return
        if self.process.returncode not in (-signal.SIGABRT, -signal.SIGKILL) or not self.bed.may_end(self):
            fails("ended", f"{self.name} with status {self.process.returncode}: see {self.name}.errors")
        self.bed.counts["started again"] += 1
        self.bed.after_kill(self)
        self.start()

    def kill(self):
        self.process.kill()
        self.process.wait()

    def sleeps(self):
        """Whether all of its threads do, by the system."""
        try:
            stats = [place.read_text() for place in pathlib.Path(f"/proc/{self.process.pid}/task").glob("*/stat")]
        except OSError:
            return False
        return all(stat.rpartition(")")[2].split()[0] == "S" for stat in stats)


class Edge(Server):
    """Its port stands in its configuration, and it says on standard error that it listens."""

    def listens(self, env):
        file, said = self.bed.room / f"{self.name}.toml", self.bed.room / f"{self.name}.errors"
        file.write_text(self.bed.configuration(self.name, self.port))
        with open(said, "ab") as errors:
            begun = errors.tell()
            self.process = subprocess.Popen([self.bed.program, "serve", str(file)], stderr=errors, env=env)
        while True:
            has_ended = self.process.poll() is not None
            if listens := re.search(rb"^edge: listens on 127\.0\.0\.1:(\d+)$", said.read_bytes()[begun:], re.M):
                return int(listens[1])
            if has_ended:
                return None
            time.sleep(0.01)


class Bed:
    def __init__(self, name, room, program, seed):
        self.name, self.room, self.program, self.dice = name, pathlib.Path(room), program, random.Random(seed)
        self.keys = array.array("I", (self.room / "keys").read_bytes()[:400000])
        self.articles = [Article(number) for number in range(ARTICLES)]
        self.counts, self.rests = collections.Counter(), threading.Event()
        self.servers = []
        at_failure.extend([self.explain, self.end])
        self.begin()
        kinds = [Reader] * 4 + [Writer] * 2 + [Leaver]
        self.workers = [kind(self, self.dice.random()) for kind in kinds]
        for worker in self.workers:
            worker.start()

    def key(self, article):
        return article.name

    def may_end(self, server):
        told = (self.room / f"{server.name}.errors").read_bytes()[-2000:]
        return server.process.returncode == -signal.SIGKILL or b"memory allocation of" in told

    def after_kill(self, server):
        pass

    def explain(self):
        pass

    def end(self):
        for server in self.servers:
            server.kill()

    def kill(self):
        """The longer the less often, so that servers live long."""
        if self.dice.random() * self.counts["server killed"] > 1:
            return
        server = self.dice.choice(self.servers)
        server.kill()
        self.after_kill(server)
        self.counts["server killed"] += 1
        self.start_again(server)

    def start_again(self, server):
        server.start()

    def rest(self):
        """Has all workers rest, and looks whether one is forgotten."""
        self.rests.set()
        self.await_all(self.workers)
        self.at_rest()
        for article in self.articles:
            self.is_told(article)
        self.rests.clear()
        self.counts["rests"] += 1

    def at_rest(self):
        pass

    def await_all(self, workers):
        """Until they rest. One is forgotten that is still without an answer some time after another was told the article."""
        looks, last, forgotten = 0, None, []
        while late := [worker for worker in workers if not worker.is_at_rest]:
            for server in self.servers:
                server.mend()
            time.sleep(0.02)
            state = late, sum(self.counts.values())
            if state != last:
                looks, last, forgotten = 0, state, []
            # Who was woken, or waits for a processor, doesn't sleep for the system: so looks are enough.
            looks += all(server.sleeps() for server in self.servers)
            if looks == LOOKS and forgotten:
                fails("asleep", f"nobody answers a GET of {forgotten[0].awaits.name}")
            if looks == LOOKS:
                # Who asks a server wakes it, and so it is looked at again.
                looks, forgotten = 0, [worker for worker in late if worker.awaits and self.is_told(worker.awaits)]

    def is_told(self, article):
        """Whether somebody else is told the article at each server, and rightly."""
        before = article.before()
        try:
            # Who asks beside one who is forgotten may be so too.
            clients = [Client(server.port, patience=5) for server in self.servers]
            replies = [client.ask(self.workers[0].get(article, before)) for client in clients]
        except OSError:
            return False
        for client, reply in zip(clients, replies):
            client.close()
            if not reply.startswith("-"):
                article.check(before, reply)
        return not any(reply.startswith("-") for reply in replies)

    def run(self, is_over):
        """Each fault comes once before one comes again."""
        self.rest()
        while not is_over.is_set():
            faults = [self.kill, self.lock, self.lock, self.rest, *self.others()]
            for fault in self.dice.sample(faults, len(faults)):
                if is_over.wait(0.1 + self.dice.random() * self.pause):
                    break
                for server in self.servers:
                    server.mend()
                fault()
        self.rest()
        for name, count in self.counts.items():
            print(f"{name}: {count}")
        self.end()


class ViewServer(Bed):
    has_tokens, pause = False, 1.0

    def begin(self):
        self.path = self.room / "votes.db"
        for left in self.room.glob("votes.db*"):
            left.unlink()
        with sqlite3.connect(self.path) as base:
            base.executescript(pathlib.Path(self.program).parents[2].joinpath("table.sql").read_text())
        words = [self.program, str(self.path), "--limit", "24", "--busy", "700", "--half", "300", "--errands", "6"]
        self.servers.append(Server(self, "view_server", words))

    def lock(self):
        base = sqlite3.connect(self.path, isolation_level=None, timeout=5)
        try:
            base.execute("BEGIN IMMEDIATE")
            time.sleep(self.dice.choice([0.1, 0.3, 1.0]))
            base.execute("ROLLBACK")
            self.counts["base locked"] += 1
        except sqlite3.OperationalError:
            self.counts["base not locked"] += 1
        base.close()

    def others(self):
        return [self.checkpoint]

    def start_again(self, server):
        """It works for a while with fewer threads, and so with less memory: the driver doesn't find it."""
        self.refuse_threads(6)
        server.begin()
        self.refuse_threads(0)
        time.sleep(self.dice.random())
        self.rest()
        server.kill()
        server.start()

    def refuse_threads(self, among):
        """One among so many."""
        with open(self.room / f"{self.name}.control", "r+b") as control:
            control.seek(8)
            control.write(struct.pack("Q", among))

    def checkpoint(self):
        """The log's file is written back and begins anew."""
        base = sqlite3.connect(self.path, timeout=5)
        base.execute("PRAGMA wal_checkpoint(TRUNCATE)")
        base.close()


class Edges(Bed):
    has_tokens, pause, connections = True, 1.5, 4

    def begin(self):
        script = [str(pathlib.Path(__file__).parent / "postgres"), str(pathlib.Path(self.program).parents[2])]
        self.base = subprocess.Popen(script, stdin=subprocess.PIPE, stdout=subprocess.PIPE, text=True)
        self.address = self.base.stdout.readline().strip()
        self.folder = pathlib.Path(self.address.split()[0].removeprefix("host="))
        file = self.room / "edge.toml"
        file.write_text(self.configuration("edge", 0))
        self.tell(f"prepare {file}")
        for name in ["edge_1", "edge_2"]:
            self.servers.append(Edge(self, name, []))

    def configuration(self, name, port):
        """The second edge's slot lasts."""
        return CONFIGURATION.format(
            address=f"{self.address} application_name={name}", port=port, clients=READERS, connections=self.connections,
            is_lasting=str(name == "edge_2").lower(),
        )

    def key(self, article):
        return f"votes:{article.name}"

    def tell(self, line):
        self.base.stdin.write(line + "\n")
        self.base.stdin.flush()
        if self.base.stdout.readline().strip() != "done":
            fails("setup", f"PostgreSQL: {line}")

    def explain(self):
        """What the base has, and what each edge holds, beside an answer that was wrong."""
        rows = "SELECT article, string_agg(voter || ':' || weight, ' ' ORDER BY voter) FROM votes GROUP BY 1 ORDER BY 1"
        subprocess.run(["psql", "-X", "-t", "-A", self.address, "-c", rows])
        for server in self.servers:
            try:
                client = Client(server.port, patience=5)
                held = [f"{article.name}|{client.ask(f'GET {self.key(article)}')}" for article in self.articles]
                print(server.name, client.ask("INFO"), *held, sep="\n", flush=True)
            except OSError as fault:
                print(server.name, fault, flush=True)

    def lock(self):
        self.tell("lock")
        self.counts["base locked"] += 1

    def at_rest(self):
        """Each edge in turn, which may end or refuse a thread, is told late what was asked before its slot."""
        for _ in range(3):
            server = self.servers[self.counts[EARLY] % 2]
            server.mend()
            try:
                Early(self, server).run()
            except OSError:
                continue
            self.counts[EARLY] += 1
            return

    def others(self):
        return [self.restart, self.crash, self.cut, self.drop, self.drop]

    def restart(self):
        self.tell("restart")
        self.counts["base restarted"] += 1

    def crash(self):
        """The base ends its other processes and recovers by itself."""
        self.tell("crash")
        self.counts["base's process killed"] += 1

    def cut(self):
        """One edge begins anew, and the other goes on, some times."""
        self.tell("cut")
        self.counts["streams cut"] += 1

    def drop(self):
        """Each edge begins anew with a new slot, while processes stop that answer upqueries of before."""
        is_over = threading.Event()
        stops = threading.Thread(target=self.stop, args=[is_over])
        stops.start()
        for _ in range(3):
            self.tell("drop")
            self.counts["slots dropped"] += 1
        is_over.set()
        stops.join()

    def stop(self, is_over):
        """Those of PostgreSQL's processes that are seen to answer an upquery, one at a time, for a while."""
        asking = "SELECT pid FROM pg_stat_activity WHERE query LIKE 'PREPARE view_%'"
        while not is_over.wait(0.002):
            told = subprocess.run(["psql", "-X", "-t", "-A", self.address, "-c", asking], capture_output=True, text=True)
            for process in told.stdout.split() * 50:
                try:
                    if b"SELECT" in pathlib.Path(f"/proc/{process}/cmdline").read_bytes():
                        os.kill(int(process), signal.SIGSTOP)
                        time.sleep(0.15)
                        os.kill(int(process), signal.SIGCONT)
                        self.counts["base's process stopped"] += 1
                        break
                except OSError:
                    continue

    def after_kill(self, server):
        """What its clients wrote may go on for a while."""
        self.tell(f"forget {server.name}")

    def end(self):
        super().end()
        self.base.stdin.close()
        self.base.wait()


def main():
    name, room, program, seed = sys.argv[1:]
    is_over = threading.Event()
    signal.signal(signal.SIGTERM, lambda *_: is_over.set())
    {"view_server": ViewServer, "edges": Edges}[name](name, room, program, int(seed)).run(is_over)


main()
