"""Clients of a server that speaks the Redis protocol: readers, writers, and those who leave in the middle."""
import random
import socket
import struct
import threading
import time


class Client:
    def __init__(self, port, patience=None):
        self.socket = socket.create_connection(("127.0.0.1", port), patience)
        self.socket.setsockopt(socket.IPPROTO_TCP, socket.TCP_NODELAY, 1)
        self.file = self.socket.makefile("rb")

    def send(self, *lines):
        self.socket.sendall("".join(line + "\r\n" for line in lines).encode())

    def reply(self):
        line = self.file.readline().decode()
        if not line.endswith("\r\n"):
            raise ConnectionError("it has gone")
        if line[0] != "$" or line[1] == "-":
            return line.rstrip()
        text = self.file.read(int(line[1:]) + 2)
        if len(text) != int(line[1:]) + 2:
            raise ConnectionError("it has gone")
        return text[:-2].decode()

    def ask(self, line):
        self.send(line)
        return self.reply()

    def close(self):
        self.socket.close()
        self.file.close()

    def is_killed(self):
        """As a process that ends: what it didn't read is lost."""
        self.socket.setsockopt(socket.SOL_SOCKET, socket.SO_LINGER, struct.pack("ii", 1, 0))
        self.close()


class Worker(threading.Thread):
    """Works until it is told to rest, by one connection until that breaks."""

    def __init__(self, bed, seed):
        super().__init__(daemon=True)
        self.bed, self.dice = bed, random.Random(seed)
        self.client, self.is_at_rest, self.awaits = None, False, None

    def run(self):
        while True:
            self.is_at_rest = self.bed.rests.is_set()
            if self.is_at_rest:
                time.sleep(0.01)
                continue
            try:
                self.client = self.client or Client(self.dice.choice(self.bed.servers).port)
                self.work()
            except OSError:
                self.client = None
                time.sleep(0.02)
            if self.dice.random() < 0.02:
                self.client = None
            time.sleep(self.dice.random() * 0.012)

    def article(self):
        return self.bed.articles[self.dice.choice(self.bed.keys) % len(self.bed.articles)]

    def get(self, article, before):
        return f"GET {self.bed.key(article)} {before[3] if self.bed.has_tokens else ''}".rstrip()


class Reader(Worker):
    def work(self):
        """Some GETs in one breath."""
        articles = [self.article() for _ in range(self.dice.choice([1, 1, 1, 8]))]
        befores = [article.before() for article in articles]
        self.client.send(*map(self.get, articles, befores))
        for article, before in zip(articles, befores):
            self.awaits = article
            reply = self.client.reply()
            self.awaits = None
            self.bed.counts["refused reads" if reply.startswith("-") else "reads"] += 1
            if not reply.startswith("-"):
                article.check(before, reply)


class Writer(Worker):
    def ask(self, line):
        try:
            reply = self.client.ask(line)
        except OSError:
            self.client, reply = None, ""
        self.awaits = None
        self.bed.counts["writes" if reply.startswith("+") else "refused writes"] += 1
        return reply

    def work(self):
        article = self.article()
        if article.writing.acquire(blocking=False):
            self.awaits = article
            article.write(self.ask)
            article.writing.release()


class Leaver(Worker):
    """Leaves half a command, or what it asked for unread."""

    def work(self):
        article, count = self.article(), self.dice.randrange(1, 40)
        client = Client(self.dice.choice(self.bed.servers).port)
        if self.dice.random() < 0.5:
            key = self.bed.key(article)
            client.socket.sendall(f"*2\r\n$3\r\nGET\r\n${len(key)}\r\n{key[:4]}".encode()[:count])
            self.bed.counts["half a request"] += 1
            time.sleep(self.dice.random() * 0.1)
            return client.close()
        client.send(*[f"GET {self.bed.key(article)}"] * count)
        client.is_killed()
        self.bed.counts["client killed"] += 1
