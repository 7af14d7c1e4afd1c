#!/usr/bin/env python3
"""examples/live/station.py [APD [CONFIG]]: a station of `apd live`, and a model for programs that attach to it.

It starts the access point APD (./apd) with CONFIG (examples/maps.toml), authenticates, associates, and opens a block
acknowledgement agreement. Then it sends numbered data, some of it late or twice or not at all, and replaces a program
meanwhile. It compares the answers to each line with those that are due, and prints them; its last line is "passed". The
status is 1 if an answer differs. Run it at the top of the repository: `load` takes paths relative to the working directory.
"""
import struct
import subprocess
import sys

ACCESS_POINT = bytes.fromhex("020000000001")
STATION = bytes.fromhex("02000000000a")
PEER = bytes.fromhex("0200000000ff")  # the data's destination, beyond the access point
NETWORK, RATES = b"lab", bytes.fromhex("82848b96")

# The first byte of each kind of frame, and flags of the second byte (IEEE 802.11-2016, 9.2.4.1).
ASSOCIATION_REQUEST, ASSOCIATION_RESPONSE, AUTHENTICATION, DEAUTHENTICATION, ACTION = 0x00, 0x10, 0xB0, 0xC0, 0xD0
BLOCK_ACK_REQUEST, BLOCK_ACK, QOS_DATA = 0x84, 0x94, 0x88
TO_DS, RETRY = 0x01, 0x08
# Fields (9.4.1 and 9.6.5).
OPEN_SYSTEM, SUCCESS, INFRASTRUCTURE = 0, 0, 1
ABOUT_BLOCK_ACK, ADDBA_REQUEST, ADDBA_RESPONSE, DELBA = 3, 0, 1, 2
LEAVING, NOT_ASSOCIATED, UNWANTED = 3, 7, 37


def words(*numbers):
    """Numbers of two bytes each, the low byte first."""
    return struct.pack(f"<{len(numbers)}H", *numbers)


def element(identifier, content):
    return bytes([identifier, len(content)]) + content


def header(first, receiver, sender, flags=0):
    """What every frame begins with: Frame Control, Duration and two addresses."""
    return bytes([first, flags]) + words(0) + receiver + sender


def request(first, number, fields):
    """A management frame to the access point."""
    return header(first, ACCESS_POINT, STATION) + ACCESS_POINT + words(number << 4) + fields


def reply(first, fields):
    """A management frame of the access point. All of its sequence numbers are 0: a radio fills them in."""
    return header(first, STATION, ACCESS_POINT) + ACCESS_POINT + words(0) + fields


def authentication(transaction):
    return words(OPEN_SYSTEM, transaction, SUCCESS)


def association(listen_interval):
    return words(INFRASTRUCTURE, listen_interval) + element(0, NETWORK) + element(1, RATES)


def associated(identifier):
    return words(INFRASTRUCTURE, SUCCESS, 0xC000 | identifier) + element(1, RATES)


def agreement(tid, size):
    """Block Ack Parameters: immediate acknowledgement, the TID, and how many numbers the window has."""
    return 1 << 1 | tid << 2 | size << 6


def addba_request(token, tid, size, timeout, start):
    return bytes([ABOUT_BLOCK_ACK, ADDBA_REQUEST, token]) + words(agreement(tid, size), timeout, start << 4)


def addba_response(token, tid, size, timeout):
    return bytes([ABOUT_BLOCK_ACK, ADDBA_RESPONSE, token]) + words(SUCCESS, agreement(tid, size), timeout)


def delba(tid, reason):
    """The station, which began the agreement, ends it."""
    return bytes([ABOUT_BLOCK_ACK, DELBA]) + words(1 << 11 | tid << 12, reason)


def qos_data(number, tid, body, repeated):
    flags = TO_DS | RETRY if repeated else TO_DS
    return header(QOS_DATA, ACCESS_POINT, STATION, flags) + PEER + words(number << 4, tid) + body


def block_ack(tid, start):
    """The control field of a BlockAckReq or a compressed BlockAck, and the first number of its window."""
    return words(1 << 2 | tid << 12, start << 4)


def bitmap(start, arrived):
    return struct.pack("<Q", sum(1 << (number - start) for number in arrived))


def sends(frame):
    """The answer that is due if the access point sends a frame."""
    return f"send {frame.hex()}"


def passes_up(number, mark, body, tid=0):
    """The answer that is due if the access point passes up the station's data."""
    return f"up {STATION.hex()} {PEER.hex()} {tid} {number} {mark} {body.hex()}"


def identifier_of(answers):
    """The association identifier in a response, or 0."""
    response = bytes.fromhex(answers[0].removeprefix("send ")) if answers else b""
    return int.from_bytes(response[28:30], "little") & 0x3FFF


def counts_of(row):
    """A row of `programs`: the numbers by their names, and what the program noted."""
    counts, _, says = row.partition(" says ")
    words = counts.split()[2:]  # behind `program HOOK`
    return dict(zip(words[::2], map(int, words[1::2]))), [int(note) for note in says.split()]


class Link:
    """An access point that runs as a process: lines go into one pipe, and answers come out of another."""

    # A line that has exactly one answer, and changes nothing. It needs a configuration that has a shared map.
    FENCE = "read 0 0 0"

    def __init__(self, apd, config):
        pipe = subprocess.PIPE
        self.process = subprocess.Popen([apd, "live", config], stdin=pipe, stdout=pipe, encoding="utf-8")
        self.number = 0  # of the last line that was written

    def ask(self, line):
        """Writes a line, and returns its answers, without its number. A line may have any number of answers, so the fence
        is written behind it: all answers that come before the fence's are the line's."""
        self.process.stdin.write(f"{line}\n{self.FENCE}\n")
        self.process.stdin.flush()
        self.number += 2
        answers = []
        while True:
            number, answer = self.read()
            if number == self.number:
                return answers
            answers.append(answer)

    def read(self):
        """The next answer, and the number of its line."""
        answer = self.process.stdout.readline()
        if not answer.endswith("\n"):
            raise EOFError(f"the access point has ended, with status {self.process.wait()}")
        number, _, text = answer[:-1].partition(" ")
        return int(number), text

    def quit(self):
        """Ends the access point, and returns its last line and its status."""
        last, _ = self.process.communicate("quit\n")
        return last.rstrip("\n"), self.process.returncode


class Station:
    """A station, which knows what is due to each of its frames."""

    def __init__(self, link):
        self.link = link
        self.frames, self.answers, self.differ = 0, [], 0

    def compare(self, what, due, answers):
        """Prints what came of something, and notes whether it differs from what is due."""
        for answer in answers or ["(nothing)"]:
            print(f"{what}: {answer}", flush=True)
        if answers != due:
            self.differ += 1
            print(f"{what}: DIFFERS: due is {due}", flush=True)

    def ask(self, line):
        answers = self.link.ask(line)
        self.answers += answers
        return answers

    def send(self, frame):
        self.frames += 1
        return self.ask(f"frame {frame.hex()}")

    def line(self, what, line, *due):
        self.compare(what, list(due), self.ask(line))

    def frame(self, what, frame, *due):
        self.compare(what, list(due), self.send(frame))

    def data(self, number, body, *due, repeated=False):
        what = f"data {number}, again" if repeated else f"data {number}"
        self.frame(what, qos_data(number, 0, body, repeated), *due)

    def join(self):
        """Authenticates and associates. The access point chooses the identifier, so that is read from its response."""
        ask, grant = authentication(1), authentication(2)
        self.frame("authentication", request(AUTHENTICATION, 1, ask), sends(reply(AUTHENTICATION, grant)))
        answers = self.send(request(ASSOCIATION_REQUEST, 2, association(10)))
        identifier = identifier_of(answers)
        self.compare("association", [sends(reply(ASSOCIATION_RESPONSE, associated(identifier)))], answers)

    def agree(self, size, start):
        ask, grant = addba_request(7, 0, size, 0, start), addba_response(7, 0, size, 0)
        self.frame("ADDBA", request(ACTION, 3, ask), sends(reply(ACTION, grant)))

    def lose_and_repeat(self):
        """The window holds what comes early, and passes up each number once, in order."""
        self.data(100, b"first", passes_up(100, 5, b"first"))
        self.data(102, b"third")  # waits for 101, which was lost
        self.data(104, b"fifth")
        self.data(102, b"third", repeated=True)
        self.data(101, b"second", passes_up(101, 5, b"second"), passes_up(102, 5, b"third"), repeated=True)
        self.data(101, b"second", repeated=True)
        self.data(105, b"x is dropped")  # by the program; but the window takes its number
        # The station gives up 103, and asks to go on at 104.
        ask = header(BLOCK_ACK_REQUEST, ACCESS_POINT, STATION) + block_ack(0, 104)
        tell = header(BLOCK_ACK, STATION, ACCESS_POINT) + block_ack(0, 104) + bitmap(104, [104, 105])
        self.frame("BlockAckReq 104", ask, passes_up(104, 5, b"fifth"), sends(tell))

    def programs(self, **due):
        """What was counted of the data program's runs since its load: these among others, and all of them agree."""
        row, end = self.ask("programs")
        counts, says = counts_of(row)
        agree = counts["runs"] == counts["pass"] + counts["drop"] and counts["most"] <= counts["budget"] and not says
        right = agree and all(counts[name] == number for name, number in due.items())
        self.compare("programs", [row if right else f"a row with {due}", "end 1"], [row, end])

    def replace(self):
        """Another program judges what comes from now on; what waits was judged when it came."""
        self.data(107, b"judged before")
        self.line("store", "store 0 0 0 9")
        self.programs(drop=1)
        self.line("load", "load data examples/mark_and_count.hex", "loaded 9")
        self.programs(runs=0, most=0, steps=0)
        self.data(106, b"judged after", passes_up(106, 9, b"judged after"), passes_up(107, 5, b"judged before"))
        self.line("sum", "sum 1 0 0", "word 1")
        self.programs(runs=1, drop=0)

    def leave(self):
        """A number beyond the window moves it; the end of the agreement passes up what waits."""
        self.data(109, b"early")
        self.data(117, b"far", passes_up(109, 9, b"early"))
        self.frame("DELBA", request(ACTION, 4, delba(0, UNWANTED)), passes_up(117, 9, b"far"))
        self.frame("deauthentication", request(DEAUTHENTICATION, 5, words(LEAVING)))
        self.data(118, b"late", sends(reply(DEAUTHENTICATION, words(NOT_ASSOCIATED))))

    def end(self):
        """The totals count what came: a fence is no event."""
        last, status = self.link.quit()
        counts = [sum(answer.startswith(kind) for answer in self.answers) for kind in ("send ", "up ", "note ")]
        totals = "total events {} sent {} up {} dropped 1 notes {}".format(self.frames, *counts)
        self.compare("quit", [totals], [last])
        self.compare("status", ["0"], [str(status)])


def main(apd="./apd", config="examples/maps.toml"):
    station = Station(Link(apd, config))
    station.join()
    station.line("load", "load data examples/mark_or_drop.hex", "loaded 9")
    station.agree(size=8, start=100)
    station.lose_and_repeat()
    station.replace()
    station.leave()
    station.end()
    print("failed" if station.differ else "passed")
    return 1 if station.differ else 0


if __name__ == "__main__":
    sys.exit(main(*sys.argv[1:]))
