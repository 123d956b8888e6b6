"""The model of a table of votes behind a server that holds a part of it: what each article's votes may be."""
import os
import re
import threading

KEPT = 6  # votes of an article
at_failure, ending = [], threading.Lock()  # what is called before the end, by the first who comes to it


def fails(check, text):
    print(f"failed {check}: {text}", flush=True)
    with ending:
        try:
            for end in at_failure:
                end()
        finally:
            os._exit(1)


def is_gone(reply):
    """Whether a server says that there was no such vote to take away."""
    return reply in ("-ERR there is no such vote", "-ERR no row was written")


class Article:
    """An article has one writer at a time, whose votes are its versions, with the article's own number as their weight."""

    def __init__(self, number):
        self.number, self.name = number, f"article{number}"
        self.guard, self.writing = threading.Lock(), threading.Lock()
        self.last, self.token = 0, ""
        # Votes that were acknowledged; those about which an answer is awaited or was a fault; those about which none came,
        # so that the base may still be at work; those of the last that were said to be gone; and others that were said to
        # be gone since the last token, so that who reads with it may be told them.
        self.sure, self.open, self.lost, self.doubtful, self.gone = set(), set(), set(), set(), set()

    def before(self):
        """What a read that begins now is checked with."""
        with self.guard:
            return set(self.sure), self.open | self.doubtful | self.gone, self.last, self.token

    def check(self, before, reply):
        """A vote that was there throughout is there, once, and none that was gone before is."""
        sure, maybe, last, _ = before
        rows = [(int(vote), int(weight)) for vote, weight in re.findall(r"(\d+)[:,](\d+)", reply)]
        votes = [vote for vote, _ in rows]
        with self.guard:
            throughout, newest = sure & self.sure, self.last
        told = f"{self.name} is '{reply}', where {sorted(sure)} were written, and {sorted(maybe)} perhaps"
        if any(weight != self.number for _, weight in rows):
            fails("another key", told)
        if len(votes) != len(set(votes)):
            fails("counted twice", told)
        if not throughout <= set(votes) or any(vote <= last and vote not in sure | maybe or vote > newest for vote in votes):
            fails("older value", told)

    def write(self, ask):
        """Adds a vote, or takes the oldest away. After a fault, or without a reply, nobody knows whether it was done."""
        with self.guard:
            votes = sorted(self.sure | self.open)
            adds = len(votes) < KEPT
            vote = self.last + 1 if adds else votes[0]
            self.last = max(self.last, vote)
            was_sure = vote in self.sure
            self.sure.discard(vote)
            self.open.add(vote)
        reply = ask(f"{'VOTE' if adds else 'UNVOTE'} {self.name} {vote} {self.number}")
        with self.guard:
            if reply.startswith("+"):
                self.open.discard(vote)
                self.token = reply[1:]
                self.gone.clear()
                if adds:
                    self.sure.add(vote)
            elif is_gone(reply):
                self.open.discard(vote)
                (self.doubtful if vote in self.lost else self.gone).add(vote)
            elif not reply or "memory" in reply:
                self.lost.add(vote)
        if was_sure and is_gone(reply):
            fails("lost write", f"vote {vote} of {self.name} was acknowledged, and is gone")
