"""What the tests of a served cluster share: a client, a cluster of the built program, publishers and subscribers at full speed, threads
that stand still, processors that are busy, and syncs that take long. Every wait is bounded, and end_all ends what was started.

It is a module, and also the program of its own helper processes (class Helper): clusters.py WORK OPTIONS, where WORK is `publish`,
`read`, `call` or `crawl`. WAMPD names a program to use in place of crates/wampd/out/wampd.
"""
import atexit
import collections
import contextlib
import ctypes
import json
import os
import random
import re
import select
import signal
import socket
import subprocess
import sys
import tempfile
import threading
import time

HERE = os.path.dirname(os.path.abspath(__file__))
PROGRAM = os.environ.get("WAMPD", os.path.join(HERE, "..", "crates", "wampd", "out", "wampd"))
# How many nodes a cluster has if no other number is given, and how many it has at most.
NODES = 3
MOST_NODES = 7
# Seconds to wait for one answer, and for a program to be up or to end.
PATIENCE = 30
PATIENCE_OF_RUNS = 60
# How many entries a node applies above its floor before it cuts its log.
ENTRIES_A_CUT = 4096
# Seconds after which a busy loop ends by itself.
PATIENCE_OF_LOOPS = 1800
# Seconds without an acknowledgement that count as a gap, and seconds between two notes of how much was sent.
GAP = 0.05
NOTE = 0.01
# Seconds that a subscriber waits between two reads, so that it takes many events at once; sockets hold far more.
NAP = 0.002
GREETING = bytes([0x7F, 0xF1, 0, 0])
ANSWER = bytes([0x7F, 0xB1, 0, 0])
# The answer of a node that has no room for one more connection.
REFUSAL = bytes([0x7F, 0x40, 0, 0])
# What may wait for a client at its node: octets, and then messages.
OCTETS_WAITING = 16 << 20
SAYINGS_WAITING = 8192
ROLES = {"publisher": {}, "subscriber": {}, "caller": {}, "callee": {}}


class Fault(Exception):
    """What a test found."""


class Refused(Fault):
    """A node has no room for one more connection."""


class Closed(Fault):
    """A connection ended where more was due."""


def hold(holds, what):
    if not holds:
        raise Fault(what)


# ---- frames


def frame(payload, kind=0):
    return bytes([kind]) + len(payload).to_bytes(3, "big") + payload


def message(*parts):
    """Returns a message's payload."""
    return json.dumps(parts, separators=(",", ":")).encode()


def frames(octets):
    """Returns the payloads of the whole frames at the beginning of these octets, and the octets after them."""
    payloads, at, end = [], 0, len(octets)
    while end - at >= 4:
        after = at + 4 + int.from_bytes(octets[at + 1 : at + 4], "big")
        if after > end:
            break
        payloads.append(octets[at + 4 : after])
        at = after
    return payloads, octets[at:]


# ---- clients


def opened(port, receive_buffer=None, patience=PATIENCE):
    """Returns a connected stream. Each of its reads and writes is bounded."""
    stream = socket.socket()
    stream.settimeout(patience)
    if receive_buffer:
        stream.setsockopt(socket.SOL_SOCKET, socket.SO_RCVBUF, receive_buffer)
    try:
        stream.connect(("127.0.0.1", port))
    except OSError:
        stream.close()
        raise
    stream.setsockopt(socket.IPPROTO_TCP, socket.TCP_NODELAY, 1)
    return stream


class Client:
    """A connection to a port, after the handshake."""

    def __init__(self, port, receive_buffer=None, greeting=GREETING, patience=PATIENCE):
        self.stream = opened(port, receive_buffer, patience)
        self.stream.sendall(greeting)
        answer = self.octets(4)
        if answer == REFUSAL:
            self.stream.close()
            raise Refused("a node has no room for one more connection")
        hold(answer == ANSWER, f"the handshake is answered by {answer.hex(' ')}")
        self.request = 0

    def octets(self, count):
        """Reads `count` octets. Raises EOFError if the connection ends before."""
        got = b""
        while len(got) < count:
            more = self.stream.recv(count - len(got))
            if not more:
                raise EOFError(f"the connection ended after {len(got)} of {count} octets")
            got += more
        return got

    def frame(self, kind, payload):
        self.stream.sendall(frame(payload, kind))

    def say(self, *parts):
        self.frame(0, message(*parts))

    def hear_frame(self):
        head = self.octets(4)
        return head[0], self.octets(int.from_bytes(head[1:], "big"))

    def hear(self, *front):
        """Reads the next message, which has to begin with `front`."""
        kind, payload = self.hear_frame()
        hold(kind == 0, f"a frame of type {kind} where a message was due")
        got = json.loads(payload)
        hold(got[: len(front)] == list(front), f"{got} where {list(front)}.. was due")
        return got

    def is_heard(self, seconds):
        """Returns whether something comes within this number of seconds."""
        return bool(select.select([self.stream], [], [], seconds)[0])

    def next_request(self):
        self.request += 1
        return self.request

    def join(self, realm="realm1", **features):
        self.say(1, realm, {"roles": {**ROLES, **features}})
        return self.hear(2)[1]

    def ask(self, code, answer, *rest):
        """Makes a request with options and `rest`. Returns what follows the request's number in the answer."""
        request = self.next_request()
        self.say(code, request, {}, *rest)
        return self.hear(answer, request)[2]

    def ask_for(self, code, answer, number):
        """Makes a request that takes back what has this number."""
        request = self.next_request()
        self.say(code, request, number)
        self.hear(answer, request)

    def subscribe(self, topic):
        return self.ask(32, 33, topic)

    def register(self, procedure):
        return self.ask(64, 65, procedure)

    def is_free(self, procedure):
        """Returns whether nobody has registered the procedure. If so, the client registers it and unregisters it again."""
        request = self.next_request()
        self.say(64, request, {}, procedure)
        answer = self.hear()
        if answer[:3] == [8, 64, request]:
            hold(answer[4] == "wamp.error.procedure_already_exists", f"{answer} where the procedure is registered")
            return False
        hold(answer[:2] == [65, request], f"{answer} to a REGISTER")
        self.ask_for(66, 67, answer[2])
        return True

    def say_publish(self, topic, *args):
        """Publishes, to be acknowledged. Returns the request's number."""
        request = self.next_request()
        self.say(16, request, {"acknowledge": True}, topic, list(args))
        return request

    def publish(self, topic, *args):
        """Publishes, waits for the acknowledgement, and returns the publication's id."""
        return self.hear(17, self.say_publish(topic, *args))[2]

    def call(self, procedure, *args):
        request = self.next_request()
        self.say(48, request, {}, procedure, list(args))
        return request

    def answer_calls(self, count):
        """Answers this number of calls, each with its arguments."""
        for _ in range(count):
            invocation = self.hear(68)
            self.say(70, invocation[1], {}, invocation[4])

    def ended(self):
        """Reads until the connection ends. Returns how many octets came."""
        count = 0
        while True:
            try:
                more = self.stream.recv(65536)
            except ConnectionError:
                return count
            if not more:
                return count
            count += len(more)

    def close(self):
        self.stream.close()


def welcomed(port, limit, begin=None):
    """Waits until a client is welcomed at this port. Returns the seconds from `begin` (by default now) until then, or None after `limit`
    seconds. Where nobody listens yet, or the node has no room, tries again; whatever else keeps a client from its WELCOME is a fault, and
    Closed if its connection ends."""
    begin = begin or time.monotonic()
    while (left := begin + limit - time.monotonic()) > 0:
        client = None
        try:
            client = Client(port, patience=left)
            client.stream.settimeout(max(0.001, begin + limit - time.monotonic()))
            client.join()
            return time.monotonic() - begin
        except (ConnectionRefusedError, Refused):
            time.sleep(0.005)
        except TimeoutError:
            break
        except (OSError, EOFError) as error:
            raise Closed(f"a client that waits for its WELCOME is closed: {error}") from None
        finally:
            if client:
                client.close()
    return None


# ---- clusters


# The ports that were given out last: a cluster that was just started may not listen yet.
GIVEN_OUT = collections.deque(maxlen=64)
GIVING_OUT = threading.Lock()


def free_port(nodes=NODES):
    """Returns the first of as many free ports as there are nodes, below those that the system hands out. Threads that call it at the same
    time get ports that are not each other's."""
    for _ in range(1000):
        port = random.randrange(10000, 32000, MOST_NODES)
        with GIVING_OUT:
            if port in GIVEN_OUT:
                continue
            GIVEN_OUT.append(port)
        try:
            for below in range(nodes):
                with socket.socket() as probe:
                    probe.bind(("127.0.0.1", port + below))
            return port
        except OSError:
            continue
    raise Fault("no free ports")


# The line of a node's status: how many entries it has applied, and how many of them its snapshot gives.
STATUS = re.compile(r"^node (\d): boot \d+, .*, (\d+) entries applied, (\d+) of them in its snapshot, ", re.M)


class Cluster:
    """A running `wampd serve`, or another program in its place; `environment` is added to this process's own."""

    running = []

    def __init__(self, *options, nodes=NODES, port=None, words=None, environment=None):
        self.nodes = nodes
        self.port = port or free_port(nodes)
        self.errors = tempfile.NamedTemporaryFile("a")
        words = words or [PROGRAM, "serve", "--nodes", str(nodes), "--port", str(self.port), "--key", "1", *options]
        given = {**os.environ, **(environment or {})}
        self.child = subprocess.Popen(words, stdin=subprocess.PIPE, stdout=subprocess.PIPE, stderr=self.errors, env=given)
        Cluster.running.append(self)

    def up(self):
        """Waits until each node has said that it listens."""
        want = "".join(f"node {node + 1} listens on 127.0.0.1:{self.port + node}\n" for node in range(self.nodes))
        got = b""
        until = time.monotonic() + PATIENCE_OF_RUNS
        while len(got) < len(want) and time.monotonic() < until:
            if select.select([self.child.stdout], [], [], 0.1)[0]:
                more = os.read(self.child.stdout.fileno(), 4096)
                if not more:
                    break
                got += more
        hold(got.decode() == want, f"it printed {got!r}, and has {self.told()!r} on standard error")
        return self

    def told(self):
        """Returns what was written to standard error so far."""
        with open(self.errors.name, errors="replace") as errors:
            return errors.read()

    def leaders(self):
        """Returns the nodes that have said that they lead, in that order."""
        return [int(node) for node in re.findall(r"^node (\d) leads$", self.told(), re.M)]

    def leader(self):
        """Returns the node that has said last that it leads. Waits until one has: a thread of its own writes the lines."""
        until = time.monotonic() + PATIENCE
        while not (leaders := self.leaders()):
            hold(time.monotonic() < until, f"no node says that it leads: {self.told()!r}")
            time.sleep(0.01)
        return leaders[-1]

    def takes_over(self, limit):
        """Returns the seconds from the moment at which the last node is up until one leads: the time to prepare a ballot, and to take over
        all votes that are reported. Returns None if that takes more than `limit` seconds."""
        until = time.monotonic() + limit
        up = None
        while time.monotonic() < until:
            lines = self.told()
            if up is None and len(re.findall(r"^node \d is up in boot", lines, re.M)) == self.nodes:
                up = time.monotonic()
            if up is not None and " leads\n" in lines:
                return time.monotonic() - up
            time.sleep(0.002)
        return None

    def client(self, node, **options):
        return Client(self.port + node - 1, **options)

    def clients(self):
        """Returns a client of each node, all of them joined."""
        clients = [self.client(node + 1) for node in range(self.nodes)]
        for client in clients:
            client.join()
        return clients

    def ports(self, count, nodes=None):
        """Returns the ports for this many clients, spread over these nodes, or over all."""
        nodes = nodes or range(1, self.nodes + 1)
        return [self.port + nodes[at % len(nodes)] - 1 for at in range(count)]

    def welcomes(self, limit, begin=None):
        """Returns for each node the seconds from `begin` until a client is welcomed at it, or None after `limit` seconds."""
        begin = begin or time.monotonic()
        answers = [in_thread(welcomed, self.port + node, limit, begin) for node in range(self.nodes)]
        return [answer(2 * limit) for answer in answers]

    def node_threads(self):
        """Returns the system's numbers of the nodes' threads, by node. In the order of their start the program's threads are the first one,
        that of the lines, the porters', the input's, and the nodes', the last node's first. Shows that each thread is its node's: while it
        stands still, its node answers no PING and its porter answers a handshake, and the other nodes answer."""
        folder = f"/proc/{self.child.pid}/task"
        until = time.monotonic() + PATIENCE
        while len(os.listdir(folder)) < 2 * self.nodes + 3:
            hold(time.monotonic() < until, f"it has {len(os.listdir(folder))} threads")
            time.sleep(0.01)
        threads = dict(enumerate(map(int, os.listdir(folder)[: -self.nodes - 1 : -1]), 1))
        clients = self.clients()
        for node, thread in threads.items():
            with held(thread):
                for client in clients:
                    client.frame(1, b"A")
                for at, client in enumerate(clients):
                    is_answered = client.is_heard(0.2 if at == node - 1 else PATIENCE)
                    hold(is_answered == (at != node - 1), f"with the thread of node {node} held, node {at + 1} answers: {is_answered}")
                self.client(node).close()
            for client in clients:
                hold(client.hear_frame() == (2, b"A"), "a PING is not answered by its PONG")
        for client in clients:
            client.close()
        return threads

    def end(self):
        """Waits for its end, and returns its status."""
        try:
            return self.child.wait(PATIENCE_OF_RUNS)
        except subprocess.TimeoutExpired:
            raise Fault("it does not end") from None

    def ends_within(self, seconds):
        """Returns whether it ends by itself within this time."""
        try:
            self.child.wait(seconds)
            return True
        except subprocess.TimeoutExpired:
            return False

    def tell(self, line):
        """Writes a line to its standard input."""
        self.child.stdin.write(line + b"\n")
        self.child.stdin.flush()

    def floors(self, nodes=None):
        """Asks for the status of these nodes, or of all. Returns for each how many entries it has applied, and how many of them its snapshot
        gives."""
        nodes = nodes or range(1, self.nodes + 1)
        before = len(STATUS.findall(self.told()))
        self.tell(b"status")
        until = time.monotonic() + PATIENCE
        found = {}
        while not all(node in found for node in nodes):
            hold(time.monotonic() < until, f"the nodes do not tell their status: {self.told()!r}")
            time.sleep(0.01)
            found = {int(node): (int(applied), int(floor)) for node, applied, floor in STATUS.findall(self.told())[before:]}
        return [found[node] for node in nodes]

    def left_behind(self):
        """Returns the nodes that have said that they were too far behind, in that order."""
        return [int(node) for node in re.findall(r"^node (\d) is restarted in boot \d+: it was too far behind$", self.told(), re.M)]

    def stop(self):
        """Ends its input. It has to end with status 0 then."""
        self.child.stdin.close()
        status = self.end()
        hold(status == 0, f"status {status} after the end of its input; standard error: {self.told()!r}")

    def kill(self):
        self.child.kill()
        self.child.wait()

    def forget(self):
        """Closes the files of a cluster that has ended."""
        Cluster.running.remove(self)
        for file in (self.child.stdin, self.child.stdout, self.errors):
            file.close()

    @staticmethod
    def end_all():
        for cluster in Cluster.running:
            if cluster.child.poll() is None:
                cluster.kill()
        Cluster.running.clear()


def in_thread(work, *args):
    """Runs `work` in a thread. Returns a function that waits for its end, and returns or raises what it returned or raised."""
    found = []

    def run():
        try:
            found.append((work(*args), None))
        except BaseException as error:
            found.append((None, error))

    thread = threading.Thread(target=run, daemon=True)
    thread.start()

    def result(patience=2 * PATIENCE):
        thread.join(patience)
        hold(found, "a thread of the test does not end")
        if found[0][1]:
            raise found[0][1]
        return found[0][0]

    return result


# ---- threads that stand still, and busy processors

SYSTEM = ctypes.CDLL(None, use_errno=True)
SYSTEM.ptrace.restype = ctypes.c_long
SYSTEM.ptrace.argtypes = [ctypes.c_long, ctypes.c_long, ctypes.c_void_p, ctypes.c_void_p]
SEIZE, INTERRUPT, DETACH, PEEK_USER = 0x4206, 0x4207, 17, 3
# Where the registers are that tell where a thread stands, in octets: the next instruction, and the number of the system call that it is in,
# negative if it is in none.
NEXT_INSTRUCTION, SYSTEM_CALL = 16 * 8, 15 * 8
# The system calls by which the allocator gets and gives back memory: mmap, mprotect, munmap, brk, mremap, madvise.
MEMORY_CALLS = {9, 10, 11, 12, 25, 28}
# How often a thread is let go and stopped again, so that it does not stand in the C library, and for how many seconds it runs between.
TRIES_TO_HOLD, BETWEEN_TRIES = 1000, 0.0005
# Lets waitpid(2) wait for a thread of another process.
ANY_THREAD = 0x40000000


def trace(request, thread):
    if SYSTEM.ptrace(request, thread, None, None) == -1:
        number = ctypes.get_errno()
        raise OSError(number, f"ptrace: {os.strerror(number)}")


def await_stop(thread):
    """Waits until a thread that was interrupted stands still."""
    until = time.monotonic() + PATIENCE
    while os.waitpid(thread, ANY_THREAD | os.WNOHANG)[0] == 0:
        hold(time.monotonic() < until, f"thread {thread} does not stop")
        time.sleep(0.001)


def register(thread, place):
    """Returns a register of a thread that stands still."""
    return SYSTEM.ptrace(PEEK_USER, thread, ctypes.c_void_p(place), None)


def stands_in_library(thread):
    """Returns whether a thread that stands still is in the C library or in a system call for memory, but in no other one. Then it may have a
    lock of the allocator, for which each thread waits that gives memory back to it."""
    call = register(thread, SYSTEM_CALL)
    if call >= 0:
        return call in MEMORY_CALLS
    at = register(thread, NEXT_INSTRUCTION)
    with open(f"/proc/{thread}/maps") as maps:
        for line in maps:
            first, last = (int(end, 16) for end in line.split(" ", 1)[0].split("-"))
            if first <= at < last:
                return "/libc" in line
    return False


def stop(thread):
    """Stops a thread at a moment at which it has no lock of the C library."""
    for _ in range(TRIES_TO_HOLD):
        trace(SEIZE, thread)
        try:
            trace(INTERRUPT, thread)
            await_stop(thread)
            if not stands_in_library(thread):
                return
        except BaseException:
            let_go(thread)
            raise
        let_go(thread)
        time.sleep(BETWEEN_TRIES)
    raise Fault(f"thread {thread} is always in the C library")


def let_go(thread):
    try:
        trace(DETACH, thread)
    except OSError:
        # Its process was killed: it is gone once its end has been taken.
        with contextlib.suppress(OSError):
            os.waitpid(thread, ANY_THREAD | os.WNOHANG)


@contextlib.contextmanager
def held(*threads):
    """Holds these threads of a child: they get no processor inside the block (ptrace(2), which needs root, or permission for the same user).
    None stands where the others need what it has: in the allocator. The child's other threads go on. The thread that enters the block has to
    leave it, too; if this process ends, they are released."""
    taken = []
    try:
        for thread in threads:
            stop(thread)
            taken.append(thread)
        yield
    finally:
        for thread in taken:
            let_go(thread)


BUSY = """
import os, time
parent, until = os.getppid(), time.monotonic() + {seconds}
while os.getppid() == parent and time.monotonic() < until:
    for _ in range(1000000):
        pass
"""


@contextlib.contextmanager
def busy(count):
    """Runs `count` busy loops inside the block. They end by themselves if this process ends."""
    text = BUSY.format(seconds=PATIENCE_OF_LOOPS)
    loops = [subprocess.Popen([sys.executable, "-c", text], stdin=subprocess.DEVNULL) for _ in range(count)]
    try:
        yield
    finally:
        for loop in loops:
            loop.kill()
        for loop in loops:
            loop.wait()


# ---- libraries that are loaded before the C library

SYNC_LIBRARY = r"""
#define _GNU_SOURCE
#include <dlfcn.h>
#include <stdlib.h>
#include <time.h>
static void rest(void) {
    struct timespec time = {0, atol(getenv("SYNC_MILLISECONDS")) * 1000000};
    nanosleep(&time, NULL);
}
int fdatasync(int file) { rest(); return ((int (*)(int))dlsym(RTLD_NEXT, "fdatasync"))(file); }
int fsync(int file) { rest(); return ((int (*)(int))dlsym(RTLD_NEXT, "fsync"))(file); }
"""


def preloaded(folder, text):
    """Returns what a program's environment needs, so that this library is loaded before the C library. It is compiled in the folder."""
    source, library = os.path.join(folder, "preloaded.c"), os.path.join(folder, "preloaded.so")
    with open(source, "w") as file:
        file.write(text)
    subprocess.run(["cc", "-O2", "-shared", "-fPIC", "-o", library, source, "-ldl"], check=True)
    return {"LD_PRELOAD": library}


def slowed(folder, milliseconds):
    """Returns what a program's environment needs, so that its syncs take this much more."""
    return {**preloaded(folder, SYNC_LIBRARY), "SYNC_MILLISECONDS": str(milliseconds)}


# ---- publishers at full speed


class Publisher:
    """A client of a Load: how many publications it has sent, and how many of them are acknowledged."""

    def __init__(self, port, number, topic, octets):
        client = Client(port)
        client.join()
        self.stream = client.stream
        self.number = number
        self.front = b'{"acknowledge":true},"%s",[%d' % (topic.encode(), number)
        self.back = b'"%s"' % (b"x" * octets)
        self.sent = self.done = 0
        self.rest = b""
        # When each publication that is not acknowledged yet was sent.
        self.times = collections.deque()

    def send(self, count):
        """Sends `count` more publications at once."""
        now = time.monotonic()
        out = []
        for at in range(self.sent, self.sent + count):
            out.append(frame(b"[16,%d,%s,%d,%s]]" % (at + 1, self.front, at, self.back)))
            self.times.append(now)
        self.sent += count
        self.stream.sendall(b"".join(out))

    def take(self):
        """Takes the acknowledgements that have come. Returns the seconds that each of these publications took."""
        more = self.stream.recv(1 << 18)
        hold(more, "a publisher was closed")
        payloads, self.rest = frames(self.rest + more)
        now = time.monotonic()
        for payload in payloads:
            self.done += 1
            hold(payload.startswith(b"[17,%d," % self.done), f"{payload[:200]!r} instead of the acknowledgement of publication {self.done}")
        return [now - self.times.popleft() for _ in payloads]


class Load:
    """Publishers, one at each of these ports. Each keeps `flight` acknowledged publications under way, and makes `each` of them in all, if
    that is given; after an acknowledgement it waits for `pause` seconds. The arguments of a publication are its publisher's number, its own
    number, from 0 on, and `octets` letters."""

    def __init__(self, ports, flight=16, each=None, topic="test.topic", octets=32, pause=0):
        self.flight = flight
        self.each = each
        self.pause = pause
        # The publishers that pause: until when, and how many publications each makes then.
        self.pausing = collections.deque()
        self.publishers = [Publisher(port, number, topic, octets) for number, port in enumerate(ports)]
        self.poll = select.epoll()
        self.at = {}
        for publisher in self.publishers:
            self.poll.register(publisher.stream.fileno(), select.EPOLLIN)
            self.at[publisher.stream.fileno()] = publisher
        self.is_open = True
        self.sent = self.done = 0
        # The seconds that each publication took; the gaps in which nothing was acknowledged, as when each began and how long it lasted, and
        # the longest of all; and how many publications had been sent by which time.
        self.took = []
        self.gaps = []
        self.longest = 0.0
        self.notes = []
        self.last = time.monotonic()

    def send(self, publisher, count):
        if self.each is not None:
            count = min(count, self.each - publisher.sent)
        if count > 0:
            publisher.send(count)
            self.sent += count

    def begin(self):
        """Sends the first publications."""
        self.last = time.monotonic()
        for publisher in self.publishers:
            self.send(publisher, self.flight)

    def turn(self, seconds=0.1):
        """Takes what comes within `seconds`, and sends as many new publications. Returns which of the other files that it polls have
        something to read."""
        others = []
        if self.pausing:
            seconds = min(seconds, max(0, self.pausing[0][0] - time.monotonic()))
        for number, _ in self.poll.poll(seconds):
            publisher = self.at.get(number)
            if publisher is None:
                others.append(number)
                continue
            took = publisher.take()
            if took:
                self.took += took
                self.done += len(took)
                self.note(time.monotonic())
                if self.pause:
                    self.pausing.append((time.monotonic() + self.pause, publisher, len(took)))
                elif self.is_open:
                    self.send(publisher, len(took))
        while self.pausing and self.pausing[0][0] <= time.monotonic():
            _, publisher, count = self.pausing.popleft()
            if self.is_open:
                self.send(publisher, count)
        return others

    def note(self, now):
        """Notes that something was acknowledged now."""
        self.longest = max(self.longest, now - self.last)
        if now - self.last >= GAP:
            self.gaps.append((self.last, now - self.last))
        self.last = now
        if not self.notes or now - self.notes[-1][0] >= NOTE:
            self.notes.append((now, self.sent))

    def is_done(self):
        """Returns whether all is acknowledged."""
        return self.done == self.sent and (self.each is None or self.sent == self.each * len(self.publishers))

    def run(self, limit, until=None):
        """Goes on until all is acknowledged, or `until()` holds."""
        end = time.monotonic() + limit
        while not (until() if until else self.is_done()):
            hold(time.monotonic() < end, f"of {self.sent} publications {self.done} are acknowledged after {limit} s")
            self.turn()

    def finish(self, limit=PATIENCE):
        """Sends no more, and waits until all is acknowledged. If it gives up after `limit` seconds, notes these as a gap, too."""
        self.is_open = False
        self.each = None
        end = time.monotonic() + limit
        while not self.is_done() and time.monotonic() < end:
            self.turn()
        if not self.is_done():
            self.note(time.monotonic())

    def close(self):
        for publisher in self.publishers:
            publisher.stream.close()
        self.poll.close()


def fill(cluster, count, clients=16, flight=16, limit=600):
    """Lets `clients` clients of a cluster have `count` publications acknowledged. Returns how many seconds that took."""
    load = Load(cluster.ports(clients), flight, each=max(1, count // clients))
    begin = time.monotonic()
    load.begin()
    load.run(limit)
    load.close()
    return time.monotonic() - begin


def raise_floors(cluster, limit=600):
    """Has publications of a cluster acknowledged until the floor of each node is above ENTRIES_A_CUT. Returns these floors."""
    until = time.monotonic() + limit
    while min(floors := [floor for _, floor in cluster.floors()]) <= ENTRIES_A_CUT:
        hold(time.monotonic() < until, f"after {limit} s of publications the nodes have the floors {floors}")
        fill(cluster, ENTRIES_A_CUT // 4)
    return floors


def share_of(values, share):
    """Returns the value that this share of the values does not exceed; 0 if there are none."""
    values = sorted(values)
    return values[min(len(values) - 1, int(share * len(values)))] if values else 0.0


# ---- helper processes


class Helper:
    """A process that does one of WORKS with these options. It and the program exchange lines of JSON. It ends when its input ends."""

    running = []
    # Which program does the work.
    FILE = os.path.abspath(__file__)

    def __init__(self, work, **options):
        words = [sys.executable, "-B", self.FILE, work, json.dumps(options)]
        self.work = work
        self.child = subprocess.Popen(words, stdin=subprocess.PIPE, stdout=subprocess.PIPE)
        self.rest = b""
        Helper.running.append(self)

    def tell(self, value):
        """Sends it this value, unless it has ended: what it said before can still be read."""
        with contextlib.suppress(BrokenPipeError):
            self.child.stdin.write(json.dumps(value).encode() + b"\n")
            self.child.stdin.flush()

    def is_heard(self, seconds):
        """Returns whether it says something, or ends, within this number of seconds."""
        return b"\n" in self.rest or bool(select.select([self.child.stdout], [], [], seconds)[0])

    def hear(self, limit):
        """Returns the next value that it sends."""
        until = time.monotonic() + limit
        while b"\n" not in self.rest:
            left = until - time.monotonic()
            hold(left > 0, f"{self.work} has said nothing for {limit} s")
            if select.select([self.child.stdout], [], [], left)[0]:
                more = os.read(self.child.stdout.fileno(), 1 << 16)
                hold(more, f"{self.work} has ended by status {self.child.poll()}")
                self.rest += more
        line, self.rest = self.rest.split(b"\n", 1)
        return json.loads(line)

    def kill(self):
        self.child.kill()
        self.child.wait()

    def forget(self):
        """Closes the files of a helper that has ended."""
        Helper.running.remove(self)
        for file in (self.child.stdin, self.child.stdout):
            with contextlib.suppress(BrokenPipeError):
                file.close()

    @staticmethod
    def end_all():
        for helper in Helper.running:
            if helper.child.poll() is None:
                helper.kill()
        Helper.running.clear()


def end_all():
    Helper.end_all()
    Cluster.end_all()


atexit.register(end_all)


def say(value):
    print(json.dumps(value), flush=True)


def work_publish(ports, flight=16, topic="test.topic", octets=32, pause=0, limit=PATIENCE):
    """Runs a Load that begins with the first line and ends with the next, and then says what it saw. Gives up a publication that is not
    acknowledged `limit` seconds later."""
    load = Load(ports, flight, topic=topic, octets=octets, pause=pause)
    say("ready")
    if not sys.stdin.buffer.readline():
        return
    load.poll.register(0, select.EPOLLIN)
    begin = time.monotonic()
    load.begin()
    while 0 not in load.turn():
        pass
    load.poll.unregister(0)
    seconds = time.monotonic() - begin
    load.finish(limit)
    say(
        {
            "sent": [publisher.sent for publisher in load.publishers],
            "done": [publisher.done for publisher in load.publishers],
            "seconds": seconds,
            "gaps": load.gaps,
            "longest": load.longest,
            "notes": load.notes,
            "took": load.took,
        }
    )


# The beginning of an event's arguments: its publisher's number, and its own.
COUNTED = re.compile(rb"\{\},\[(\d+),(\d+),")


class Reader:
    """A subscriber that reads as fast as it can. Counts the publications that it had of each publisher, and notes the first one that came
    out of order."""

    def __init__(self, port, topic):
        client = Client(port)
        client.join()
        client.subscribe(topic)
        self.stream = client.stream
        self.counts = collections.Counter()
        self.next = collections.Counter()
        self.rest = b""
        self.wrong = None

    def take(self):
        """Takes what has come. Returns whether the connection is still open."""
        try:
            more = self.stream.recv(1 << 20)
        except ConnectionError:
            return False
        self.rest += more
        end = 0
        for found in COUNTED.finditer(self.rest):
            publisher, number = map(int, found.groups())
            if number != self.next[publisher]:
                self.wrong = self.wrong or [publisher, number, self.next[publisher]]
            self.next[publisher] = number + 1
            self.counts[publisher] += 1
            end = found.end()
        self.rest = self.rest[end:]
        return bool(more)

    def has_all(self, totals):
        return all(self.counts[publisher] >= total for publisher, total in enumerate(totals))


def work_read(port, topic="test.topic", limit=PATIENCE, nap=NAP):
    """Runs a Reader, which rests for `nap` seconds after each read. A line on its input gives the number of publications of each publisher. It
    says what it saw once it has had them all, or after `limit` seconds, or at once if it is closed."""
    reader = Reader(port, topic)
    say("ready")
    totals, until, is_closed = None, None, False
    while totals is None or time.monotonic() < until and not reader.has_all(totals):
        ready = select.select([reader.stream, sys.stdin] if totals is None else [reader.stream], [], [], 0.1)[0]
        if sys.stdin in ready:
            line = sys.stdin.readline()
            if not line:
                return
            totals, until = json.loads(line), time.monotonic() + limit
        if reader.stream in ready and not reader.take():
            is_closed = True
            break
        time.sleep(nap)
    say({"counts": reader.counts, "wrong": reader.wrong, "closed": is_closed})


def work_call(callers, callees, octets=32, pause=0, limit=PATIENCE):
    """Has a caller at each of the first ports call a callee at the second one in its place, one after another, from the first line on until
    the next. Each call has a number and `octets` letters, which its result has to have, too. It says how many calls were made, and how long
    each took."""
    pairs = []
    for at, (from_port, to_port) in enumerate(zip(callers, callees)):
        caller, callee = Client(from_port, patience=limit), Client(to_port, patience=limit)
        caller.join()
        callee.join()
        callee.register(f"test.called{at}")
        pairs.append((caller, callee, f"test.called{at}"))
    say("ready")
    if not sys.stdin.buffer.readline():
        return
    took = []
    while not select.select([sys.stdin], [], [], pause)[0]:
        for caller, callee, procedure in pairs:
            begin, args = time.monotonic(), [len(took), "x" * octets]
            request = caller.call(procedure, *args)
            callee.answer_calls(1)
            caller.hear(50, request, {}, args)
            took.append(time.monotonic() - begin)
    say({"done": len(took), "took": took})


def work_crawl(port, topic, rate, nap):
    """Runs a Reader that reads this number of events a second, so much at a time that it can nap for so many seconds between. A line on its
    input ends it. It says whether it was closed, and how many octets it read."""
    reader = Reader(port, topic)
    say("ready")
    first = b""
    while len(first) < 1 << 16 and not is_told():
        more = reader.stream.recv(1 << 12)
        if not more:
            break
        first += more
    octets, begin, is_closed = len(first), time.monotonic(), len(first) < 1 << 16
    size = len(first) / max(1, len(frames(first)[0]))
    while not is_told():
        due = int(rate * size * (time.monotonic() - begin)) + (1 << 16) - octets
        while due > 0 and not is_closed and not is_told():
            if not select.select([reader.stream], [], [], 0.1)[0]:
                break
            try:
                more = reader.stream.recv(min(due, 1 << 16))
            except ConnectionError:
                more = b""
            is_closed = not more
            octets, due = octets + len(more), due - len(more)
        time.sleep(nap)
    say({"closed": is_closed, "octets": octets})


def is_told():
    """Returns whether a line, or the end, is on the input."""
    return bool(select.select([sys.stdin], [], [], 0)[0])


WORKS = {"publish": work_publish, "read": work_read, "call": work_call, "crawl": work_crawl}


# ---- programs


def row(*cells):
    """Prints a row of a table."""
    print(f"| {' | '.join(map(str, cells))} |", flush=True)


def head(*cells):
    row(*cells)
    print("|---" * len(cells) + "|", flush=True)


def need_program(name):
    if not os.access(PROGRAM, os.X_OK):
        sys.exit(f"tests/{name}: build first: ./wampd --help")


def bounded(seconds):
    """Raises Fault after `seconds`. If the program is terminated, it ends what it started, too."""

    def out_of_time(_signal, _frame):
        raise Fault(f"all together took more than {seconds} s")

    signal.signal(signal.SIGALRM, out_of_time)
    signal.signal(signal.SIGTERM, lambda *_: sys.exit(143))
    signal.alarm(seconds)


if __name__ == "__main__":
    if len(sys.argv) != 3 or sys.argv[1] not in WORKS:
        sys.exit(__doc__)
    with contextlib.suppress(KeyboardInterrupt):
        WORKS[sys.argv[1]](**json.loads(sys.argv[2]))
