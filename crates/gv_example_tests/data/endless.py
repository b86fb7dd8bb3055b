#!/usr/bin/env python3
"""A dialogue with `vmbind serve` without an end, cut off after many lines: settled and forgotten every 1,000 binds, it holds what it
still needs, in flat memory. Each reply is compared with one that is counted here, and the program's peak over all is at most 1.1 of
that of the first 100,000 lines.

    endless.py [PROGRAM [LINES]]     ./vmbind and 1,000,000 if left out; the peak is read from /proc
"""
import subprocess
import sys

PAGE, ROUND, PART, QUEUES, EARLY = 4096, 1000, 100, 16, 100_000


class Dialogue:
    """A program that answers, and what its queues and its journal were told so far."""

    def __init__(self, program):
        self.child = subprocess.Popen([program, "serve"], stdin=subprocess.PIPE, stdout=subprocess.PIPE)
        self.lines, self.item, self.settled, self.round = 0, 0, 0, 0
        self.told, self.forgotten = [0] * QUEUES, [0] * QUEUES
        self.asked, self.wanted = [], []

    def say(self, line, *replies):
        """A line for the next part, and what it is to be answered."""
        self.asked.append(line)
        self.wanted.extend(replies)

    def send(self):
        """Sends a part, and compares the replies. Both fit in the room of a pipe, so neither side waits for ever for the other."""
        lines, self.asked = self.asked, []
        wanted, self.wanted = self.wanted, []
        self.child.stdin.write("".join(line + "\n" for line in lines).encode())
        self.child.stdin.flush()
        got = [self.child.stdout.readline().decode().rstrip("\n") for _ in wanted]
        if got != wanted:
            at = next(at for at, reply in enumerate(wanted) if got[at] != reply)
            sys.exit(f"endless: a reply is {got[at]!r}, wanted: {wanted[at]!r}; lines {self.lines + 1} to {self.lines + len(lines)}")
        self.lines += len(lines)

    def peak(self):
        """The most memory that the program has had, in KiB."""
        with open(f"/proc/{self.child.pid}/status", encoding="ascii") as status:
            return next(int(line.split()[1]) for line in status if line.startswith("VmHWM:"))

    def end(self):
        self.child.stdin.close()
        rest, status = self.child.stdout.read(), self.child.wait()
        if rest or status:
            sys.exit(f"endless: status {status}, and more than was asked for: {rest!r}")

    def accepted(self, queue):
        """The reply to a request that is carried out."""
        self.item += 1
        self.told[queue] += 1
        return f"accepted {self.item - 1}"

    def bind(self, k, buffer):
        """Bind k of a round, of a page that no other one of it maps. One of a hundred is refused, one waits in vain, one is put and
        served, and one is withdrawn."""
        queue, page = k % QUEUES, (k * 7 + self.round) % ROUND * PAGE
        asks = f"queue {queue} ; map {page:#x} 0x1000 {buffer} {k * PAGE:#x}"
        if k % 100 == 50:
            self.told[queue] += 1
            self.say(f"bind queue {queue} ; map 0x1 0x1000 {buffer} 0x0", "refused 0 Unaligned")
        elif k % 100 == 60:
            self.say(f"put {asks} ; wait t {self.round + 2}", f"put {self.told[queue]}")
            self.say(f"turn {queue}", f"waits t {self.round + 2} have {self.round}")
            self.told[queue] += 1
            self.say(f"giveup {queue}", f"notready t {self.round + 2} have {self.round}")
        elif k % 100 == 70:
            self.say(f"put {asks} ; wait t {self.round}", f"put {self.told[queue]}")
            self.say(f"turn {queue}", self.accepted(queue))
            self.say(f"turn {queue}", "idle")
        else:
            self.say("bind " + asks, self.accepted(queue))
        if k % 100 == 99:
            self.say(f"withdraw {self.item - 1}", f"withdrawn {self.item - 1} as {self.item}")
            self.item += 1

    def let_go(self):
        """Settles and forgets all, where that is refused first."""
        self.say(f"forget 0 {self.told[0]}", f"refused Held {self.settled}")
        self.say(f"settle {self.item + 1}", "refused NoEntry")
        self.say(f"settle {self.item}", f"settled {self.item - self.settled}")
        self.settled = self.item
        self.say(f"forget 0 {self.told[0] + 1}", "refused NoOutcome")
        for queue, told in enumerate(self.told):
            self.say(f"forget {queue} {told}", f"forgot {told - self.forgotten[queue]}")
        self.forgotten = self.told[:]
        self.say("told 0", "empty")

    def go_round(self):
        """A round over one buffer, and under a job; what the one before maps there gives way."""
        buffer, job = "ab"[self.round % 2], f"job {self.round}"
        for k in range(ROUND):
            self.bind(k, buffer)
            if k == 0:
                self.say(f"job read {self.round % ROUND * PAGE + 5:#x}", job, f"{buffer} {5:016x} rw")
            if k % PART == PART - 1:
                self.send()
        self.say(f"end {self.round}", f"ended {self.round}")
        self.say(f"raise t {self.round + 1}", f"t {self.round + 1}")
        self.let_go()
        self.send()
        self.round += 1


def main(program="./vmbind", lines="1000000"):
    if int(lines) <= EARLY:
        sys.exit(f"endless: {EARLY} lines are too few to tell of the peak")
    dialogue, early = Dialogue(program), None
    for line in (f"buffer a {ROUND}", f"buffer b {ROUND}", "timeline t"):
        dialogue.say(line, "ok")
    dialogue.send()
    while dialogue.lines < int(lines):
        dialogue.go_round()
        if early is None and dialogue.lines >= EARLY:
            early = dialogue.peak()
    late = dialogue.peak()
    dialogue.end()
    print(f"{dialogue.lines} lines in {dialogue.round} rounds, at most {late} KiB, {early} of the first 100,000")
    if late * 10 > early * 11:
        sys.exit("endless: memory isn't flat")


if __name__ == "__main__":
    main(*sys.argv[1:])
