"""The edges' fault that isn't left to chance: an answer that is older than a slot comes after one that isn't, and two clients
wait for it.

A write is open while the edge's slot is dropped, so that only the new slot's snapshot sees it. The upquery has its own before
the write ends: it waits behind a lock, and then its process is stopped.
"""
import os
import re
import signal
import subprocess
import threading
import time

from articles import fails
from clients import Client

PATIENCE = 20  # seconds, since the edge may be stopped meanwhile
# Who has a slot ends some time after it is told. A temporary one is gone then.
DROP = """DO $$ DECLARE slot name; BEGIN
SELECT slot_name INTO slot FROM pg_replication_slots JOIN pg_stat_replication ON active_pid = pid WHERE application_name = '{0}';
LOOP BEGIN
    PERFORM pg_terminate_backend(active_pid), pg_sleep(0.005) FROM pg_replication_slots WHERE slot_name = slot AND active;
    PERFORM pg_drop_replication_slot(slot_name) FROM pg_replication_slots WHERE slot_name = slot;
    RETURN;
EXCEPTION WHEN object_in_use OR undefined_object THEN END; END LOOP; END $$"""
# By which an edge asks for rows.
ASKS = "query LIKE 'PREPARE view_%'"


class Psql:
    """A session with the base."""

    def __init__(self, address):
        pipes = {"stdin": subprocess.PIPE, "stdout": subprocess.PIPE, "stderr": subprocess.DEVNULL}
        self.process = subprocess.Popen(["psql", "-X", "-q", "-t", "-A", address], text=True, **pipes)

    def begin(self, sql):
        self.process.stdin.write(f"{sql};\n\\echo done\n")
        self.process.stdin.flush()

    def end(self):
        lines = []
        while (line := self.process.stdout.readline()) != "done\n":
            lines += [line.rstrip()] if line else fails("setup", "psql has ended")
        return lines

    def ask(self, sql):
        self.begin(sql)
        return self.end()


class Asker(threading.Thread):
    """Asks an edge for an article, and is told it or that it can't be had."""

    def __init__(self, server, article):
        super().__init__(daemon=True)
        self.server, self.awaits, self.is_at_rest = server, article, False
        self.start()

    def run(self):
        try:
            # With a token it would wait for the slot, and ask after that.
            Client(self.server.port).ask(f"GET {self.server.bed.key(self.awaits)}")
        except OSError:
            pass
        self.is_at_rest = True


class Early:
    """One such answer. OSError says that there was none, since the edge has ended or refused a thread."""

    def __init__(self, bed, server):
        self.bed, self.server, self.client = bed, server, Client(server.port, PATIENCE)
        self.writer, self.locker, self.eye = [Psql(bed.address) for _ in range(3)]
        self.article, self.locks, self.askers, self.upquery = None, False, [], 0

    def run(self):
        try:
            self.article = self.until(self.held)
            self.article.write(self.write)
            if not self.upquery:
                raise TimeoutError
            self.until(lambda: self.stat("following"))
            self.until(self.held)
        finally:
            self.end()
        # Before the edge evicts it.
        self.bed.is_told(self.article)

    def end(self):
        if self.upquery:
            os.kill(self.upquery, signal.SIGCONT)
        self.bed.await_all(self.askers)
        for session in [self.writer, self.locker, self.eye]:
            session.process.communicate()

    def write(self, line):
        """The reply of an edge that has no fault: the base has the write, whatever becomes of this edge."""
        what, name, vote, weight = line.split()
        adds = f"INSERT INTO votes (article, voter, weight) VALUES ('{name}', {vote}, {weight}) RETURNING 1"
        takes = f"DELETE FROM votes WHERE (article, voter) = ('{name}', {vote}) RETURNING 1"
        self.writer.ask("BEGIN")
        is_written = self.writer.ask(adds if what == "VOTE" else takes)
        if not is_written:
            self.writer.ask("ROLLBACK")
            return "-ERR there is no such vote"
        try:
            self.hold()
        except OSError:
            pass
        self.writer.ask("COMMIT")
        if self.locks:
            self.locker.end()
        return "+" + self.eye.ask("SELECT pg_current_wal_flush_lsn()")[0]

    def hold(self):
        """Has an upquery of after the slot's loss wait, and two clients for it."""
        self.eye.ask(DROP.format(self.server.name))
        self.until(lambda: not self.stat("following"))
        self.until(self.is_prepared)
        waits = self.stat("waits")
        self.locker.begin("BEGIN;\nLOCK TABLE votes;\nCOMMIT")
        self.locks = True
        self.until(lambda: self.waiting("query LIKE 'LOCK%'"))
        self.askers = [Asker(self.server, self.article) for _ in range(2)]
        self.until(lambda: self.stat("waits") > waits)
        self.upquery = int(self.until(lambda: self.waiting(f"{ASKS} AND application_name = '{self.server.name}'"))[0])
        os.kill(self.upquery, signal.SIGSTOP)

    def is_prepared(self):
        """Whether each connection of the edge has asked, which later ones do without a look at the table before."""
        self.held()
        used = f"FROM pg_stat_activity WHERE {ASKS} AND application_name"
        return self.eye.ask(f"SELECT count(*) {used} = '{self.server.name}'") == [str(self.bed.connections)]

    def waiting(self, which):
        """The base's processes that wait for the table, of those."""
        return self.eye.ask(f"SELECT pid FROM pg_stat_activity WHERE wait_event = 'relation' AND {which}")

    def held(self):
        """An article that the edge holds, and another one than before."""
        others = [article for article in self.bed.articles if article is not self.article]
        for article in self.bed.dice.sample(others, 9):
            self.client.ask(f"GET {self.bed.key(article)}")
            asked = self.stat("upqueries")
            if not self.client.ask(f"GET {self.bed.key(article)}").startswith("-") and self.stat("upqueries") == asked:
                return article
        return None

    def stat(self, name):
        told = re.search(rf"^{name}:(\d+)\r?$", self.client.ask("INFO"), re.M)
        if not told:
            raise ConnectionError("it has gone")
        return int(told[1])

    def until(self, is_so):
        """Waits for it, while nobody is told yet."""
        ends = time.monotonic() + PATIENCE
        while not (answer := is_so()):
            if time.monotonic() > ends or any(asker.is_at_rest for asker in self.askers):
                raise TimeoutError
            time.sleep(0.005)
        return answer
