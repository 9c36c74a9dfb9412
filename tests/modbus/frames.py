# Sends frames, made here byte by byte, to the Modbus server and compares every byte that comes back. What must come follows from
# NAME.out, which the program `dispatch` prints for the case that is served. Usage: frames.py PORT PROCESS NAME.out GROUP...
# The groups of checks are at the end. It prints the number of requests that were answered as they must be, or what is wrong.
import os
import random
import socket
import struct
import sys
import time

HOST, PORT, PROCESS = "127.0.0.1", int(sys.argv[1]), int(sys.argv[2])
CLIENTS = 16  # at once
PATIENCE = 20  # seconds
answered = 0


def expect(holds, what):
    if not holds:
        sys.exit(f"modbus: {what}")


# ---- what must come


def reply_of(path):
    with open(path) as lines:
        units, evaluations, cost, gap, surplus = (int(word) for word in next(lines).split()[1::2])
        outputs = [int(line.split()[1]) for line in lines]
    return struct.pack(f">HHQQQ{units}H", units, evaluations, cost, gap, surplus, *outputs)


REPLY = reply_of(sys.argv[3])
REGISTERS = len(REPLY) // 2

# requests, in hexadecimal, and the answers to them
EXCEPTIONS = [
    ("0300000000", "8303"),  # quantities
    ("030000007E", "8303"),
    ("0300000100", "8303"),
    ("030000FFFF", "8303"),
    ("03FFFFFFFF", "8303"),
    ("03FFFF0000", "8303"),
    ("030000007D", "8302"),  # past the end
    ("03FFFF0001", "8302"),
    ("03FFFF007D", "8302"),
    ("0301000001", "8302"),
    ("0000000001", "8001"),  # other functions
    ("0100000001", "8101"),
    ("0400000001", "8401"),
    ("0600000001", "8601"),
    ("7F00000001", "FF01"),
    ("8300000001", "8301"),
    ("FF00000001", "FF01"),
    ("04FFFF0000", "8401"),
    ("03", "8301"),  # other lengths
    ("04", "8401"),
    ("83", "8301"),
    ("03000000", "8301"),
    ("2B0E0100", "AB01"),
    ("030000000100", "8301"),
    ("100000000102FFFF", "9001"),
    ("03" + 252 * "00", "8301"),
    ("03" + 252 * "FF", "8301"),
]


def answer_to(request):
    if len(request) != 5 or request[0] != 3:
        return bytes([request[0] | 0x80, 1])
    start, quantity = struct.unpack(">HH", request[1:])
    if not 1 <= quantity <= 125:
        return bytes([0x83, 3])
    if start + quantity > REGISTERS:
        return bytes([0x83, 2])
    values = REPLY[2 * start : 2 * (start + quantity)]
    return bytes([3, len(values)]) + values


def framed(transaction, unit, pdu, protocol=0, length=None):
    return struct.pack(">HHHB", transaction, protocol, 1 + len(pdu) if length is None else length, unit) + pdu


def pair(request, answer=None):
    """A request's frame and its answer's, with a transaction and a unit identifier that change from one to the next."""
    pair.count += 1
    transaction, unit = pair.count * 40503 & 0xFFFF, pair.count * 77 & 0xFF
    return framed(transaction, unit, request), framed(transaction, unit, answer_to(request) if answer is None else answer)


pair.count = 0


def reading(start, quantity):
    return struct.pack(">BHH", 3, start, quantity)


# ---- clients


def connected(room=None):
    client = socket.socket()
    client.settimeout(PATIENCE)
    client.setsockopt(socket.IPPROTO_TCP, socket.TCP_NODELAY, 1)
    if room is not None:
        client.setsockopt(socket.SOL_SOCKET, socket.SO_RCVBUF, room)
    client.connect((HOST, PORT))
    return client


def taken(client, length):
    """As many bytes, or less if the connection ends before."""
    came = bytearray()
    try:
        while len(came) < length:
            part = client.recv(length - len(came))
            if not part:
                break
            came += part
    except ConnectionResetError:
        pass
    return bytes(came)


def hear(client, answer, what, requests=1):
    global answered
    try:
        came = taken(client, len(answer))
    except socket.timeout:
        sys.exit(f"modbus: {what}: the answer does not come")
    if came != answer:
        at = len(os.path.commonprefix([came, answer]))
        sys.exit(f"modbus: {what}: from byte {at} on {came[at:at + 50].hex()} comes, and not {answer[at:at + 50].hex()}")
    answered += requests


def exchange(client, pairs, what):
    """Sends the requests in one segment."""
    client.sendall(b"".join(request for request, _ in pairs))
    hear(client, b"".join(answer for _, answer in pairs), what, len(pairs))


def ask(client, what):
    exchange(client, [pair(reading(0, REGISTERS))], what)


def ends(client, what):
    try:
        came = taken(client, 1)
    except socket.timeout:
        came = None
    expect(came == b"", f"{what}: the connection does not end")
    client.close()


def leave(client, what):
    """Nothing more comes, and the server ends what the client ends."""
    client.shutdown(socket.SHUT_WR)
    ends(client, what)


# ---- requests


def exceptions():
    client = connected()
    for request, answer in EXCEPTIONS:
        exchange(client, [pair(bytes.fromhex(request), bytes.fromhex(answer))], f"request {request}")
    leave(client, "exceptions")


def all_reads():
    client = connected()
    for start in range(REGISTERS + 2):
        exchange(client, [pair(reading(start, quantity)) for quantity in range(128)], f"reading from {start}")
    leave(client, "reading")


def identifiers():
    client = connected()
    for transaction in (0, 1, 0xFF, 0x100, 0x7FFF, 0xFFFF):
        for unit in (0, 1, 247, 255):
            frames = framed(transaction, unit, reading(0, 1)), framed(transaction, unit, b"\x03\x02" + REPLY[:2])
            exchange(client, [frames], f"transaction {transaction}, unit identifier {unit}")
    leave(client, "identifiers")


def slowly(client, request, pause):
    frame, answer = pair(request)
    for byte in frame:
        client.sendall(bytes([byte]))
        time.sleep(pause)
    hear(client, answer, "a frame in single bytes")


def single_bytes():
    client = connected()
    slowly(client, reading(1, REGISTERS - 1), 0.002)
    slowly(client, b"\x03" + bytes(252), 0)
    slowly(client, reading(0, 1), 0.002)
    leave(client, "single bytes")


def in_parts():
    """Frames of many lengths in one stream, cut in many ways."""
    client = connected()
    pairs = [pair(bytes([3, length]) + bytes(length)) for length in range(252)] + [pair(reading(0, REGISTERS))] * 20
    stream, answers = (b"".join(side) for side in zip(*pairs))
    for part in (7, 12, 259, 260, 261, 1000):
        for at in range(0, len(stream), part):
            client.sendall(stream[at : at + part])
        hear(client, answers, f"frames in parts of {part}", len(pairs))
    leave(client, "parts")


def no_frames():
    """Other protocols and lengths; what such a client has sent does not disturb the next one, in whatever pieces its frame comes."""
    request = reading(0, 1)
    for protocol, length in ((1, 6), (0x100, 6), (0xFFFF, 6), (0, 0), (0, 1), (0, 255), (0, 256), (0, 0x600), (0, 0xFFFF)):
        client = connected()
        client.sendall(framed(1, 1, request, protocol, length))
        ends(client, f"protocol {protocol}, length {length}")
        client = connected()
        slowly(client, request, 0.002)
        leave(client, "after what is no frame")
    client = connected()
    good, answer = pair(request)
    client.sendall(good + framed(1, 1, request, protocol=1))
    hear(client, answer, "a frame before another protocol's")
    ends(client, "another protocol's frame after a good one")


# ---- several clients


def at_once():
    clients = [connected() for _ in range(8)]
    for turn in range(20):
        pairs = [pair(reading(i, turn + 1)) for i, _ in enumerate(clients)]
        for cut in (slice(0, 1 + turn % 11), slice(1 + turn % 11, None)):
            for client, (request, _) in zip(clients, pairs):
                client.sendall(request[cut])
        for client, (_, answer) in reversed(list(zip(clients, pairs))):
            hear(client, answer, "eight clients")
    for client in clients:
        leave(client, "eight clients")


def half_a_frame():
    request, answer = pair(reading(0, REGISTERS))
    for half in (1, 6, 7, len(request) - 1):
        waiting, other = connected(), connected()
        waiting.sendall(request[:half])
        for _ in range(5):
            ask(other, "a client beside half a frame")
        waiting.sendall(request[half:])
        hear(waiting, answer, "the other half of a frame")
        leave(waiting, "half a frame")
        leave(other, "beside half a frame")


def closed(client):
    """Whether the server has closed a connection."""
    try:
        return taken(client, 1) == b""
    except ConnectionResetError:
        return True


def limit():
    """So many clients are served at once; the next one gets the place of the one that has been silent for longest, and so on."""
    for silent in (0, 5, CLIENTS - 1):
        clients = [connected() for _ in range(CLIENTS)]
        for client in clients:
            ask(client, "as many clients as there are places")
        for client in clients[:silent] + clients[silent + 1 :]:
            ask(client, "all clients but one")
        further = connected()
        ask(further, "a client more than there are places")
        expect(closed(clients.pop(silent)), "the client that was silent for longest keeps its place")
        for client in [*clients, further]:
            ask(client, "the clients beside one that had to go")
        for client in [*clients, further]:
            leave(client, "many clients")


# ---- clients that do not read, or hang up


def busy_for(seconds):
    """The processor time that the server takes meanwhile, in seconds."""

    def used():
        with open(f"/proc/{PROCESS}/stat") as stat:
            fields = stat.read().rpartition(")")[2].split()
        return (int(fields[11]) + int(fields[12])) / os.sysconf("SC_CLK_TCK")

    before = used()
    time.sleep(seconds)
    return used() - before


def rests(what):
    """The server comes to rest: there is half a second in which it does next to nothing."""
    until = time.monotonic() + PATIENCE
    while busy_for(0.5) > 0.1:
        expect(time.monotonic() < until, f"{what}: the server does not rest")


def slow():
    """A client that sends and does not read, until the server takes no more from it; then it reads, and every answer is there."""
    client, idle, half = connected(8192), connected(), connected()
    half.sendall(bytes(5))
    pairs = [pair(reading(i % 3, REGISTERS - 2)) for i in range(1000)]
    requests, answers = (b"".join(side) for side in zip(*pairs))
    client.settimeout(0.3)
    sent = 0
    try:
        while sent < 50000000:
            at = sent % len(requests)
            sent += client.send(requests[at : at + 4096])
    except socket.timeout:
        pass
    expect(sent < 50000000, "a client that does not read is read from on and on")
    rests("a client that does not read")
    for _ in range(20):
        ask(idle, "a client beside one that does not read")
    client.settimeout(PATIENCE)
    whole, length = sent // len(pairs[0][0]), len(pairs[0][1])
    for part in range(10):  # with pauses, in which the server has to wait again
        first, last = whole * part // 10, whole * (part + 1) // 10
        expected = (answers * (1 + last // len(pairs)))[first * length : last * length]
        hear(client, expected, "a client that reads late")
        time.sleep(0.05)
    client.close()
    leave(idle, "beside a client that reads late")
    half.close()


def hang_ups():
    """Answers on their way to clients that are gone."""
    for reset in (False, True) * 10:
        client = connected()
        client.sendall(b"".join(pair(reading(0, REGISTERS))[0] for _ in range(100)))
        if reset:
            client.setsockopt(socket.SOL_SOCKET, socket.SO_LINGER, struct.pack("ii", 1, 0))
        client.close()


def random_request(chance):
    if chance.random() < 0.5:
        return struct.pack(">BHH", 3, chance.randrange(REGISTERS + 2), chance.randrange(REGISTERS + 2))
    return bytes([chance.choice((3, 3, chance.randrange(256)))]) + chance.randbytes(chance.choice((4, chance.randrange(253))))


def random_frames():
    chance = random.Random(2)
    client = connected()
    for _ in range(300):
        exchange(client, [pair(random_request(chance)) for _ in range(chance.randrange(1, 20))], "random frames")
    leave(client, "random frames")


def garbage():
    """Random bytes and broken-off frames; then the client hangs up."""
    chance = random.Random(3)
    for _ in range(300):
        client = connected()
        frames = [pair(random_request(chance))[0] for _ in range(chance.randrange(20))]
        if chance.random() < 0.5:
            frames.append(chance.randbytes(chance.randrange(300)))
        else:
            frames.append(pair(random_request(chance))[0][: chance.randrange(8)])
        try:
            client.sendall(b"".join(frames))
        except (BrokenPipeError, ConnectionResetError):
            pass  # the server has closed it
        if chance.random() < 0.3:
            client.setsockopt(socket.SOL_SOCKET, socket.SO_LINGER, struct.pack("ii", 1, 0))
        client.close()


def recovers():
    """Clients that are gone keep no place: as many as there are places come, and all are served on."""
    clients = [connected() for _ in range(CLIENTS)]
    for _ in range(2):
        for client in clients:
            ask(client, "after clients that are gone")
    for client in clients:
        leave(client, "after clients that are gone")


# ---- the connection itself


def elsewhere():
    """No other address is listened on."""
    try:
        socket.create_connection(("127.0.0.2", PORT), PATIENCE).close()
    except ConnectionRefusedError:
        return
    expect(False, "127.0.0.2 is listened on")


def keepalive():
    """The system watches the server's side of a connection: /proc/net/tcp shows the timer 02 for it."""
    client = connected()
    ask(client, "keepalive")
    here, there = f"0100007F:{PORT:04X}", f"0100007F:{client.getsockname()[1]:04X}"
    with open("/proc/net/tcp") as table:
        timers = [row.split()[5][:2] for row in table if row.split()[1:3] == [here, there]]
    expect(timers == ["02"], "a connection has no keepalive")
    leave(client, "keepalive")


def prompt():
    """An answer does not wait until the one before it is acknowledged, which takes about 40 ms."""
    client = connected()
    quick = 0
    for _ in range(20):
        began = time.monotonic()
        exchange(client, [pair(reading(0, 1)), pair(reading(1, 1))], "two frames")
        quick += time.monotonic() - began < 0.03
    expect(quick >= 5, "answers wait for each other")
    leave(client, "two frames")


def starved():
    """Too few descriptors: a connection waits, the others are served, and it is served once a descriptor is free."""
    clients = []
    while True:
        client = connected()
        client.settimeout(0.5)
        request, answer = pair(reading(0, REGISTERS))
        client.sendall(request)
        try:
            expect(taken(client, len(answer)) == answer, "a connection is closed, or its answer is wrong")
        except socket.timeout:
            break
        clients.append(client)
        expect(len(clients) < CLIENTS, "the server has descriptors enough")
    rests("too few descriptors")
    for other in clients:
        ask(other, "clients of a server with too few descriptors")
    leave(clients.pop(), "a client of a server with too few descriptors")
    client.settimeout(PATIENCE)
    hear(client, answer, "a connection that waited for a descriptor")
    for other in clients + [client]:
        leave(other, "clients of a server with too few descriptors")


GROUPS = {
    "requests": (exceptions, all_reads, identifiers, single_bytes, in_parts, no_frames),
    "clients": (at_once, half_a_frame, limit, slow, hang_ups, recovers, random_frames, garbage, recovers, exceptions, all_reads),
    "connection": (elsewhere, keepalive, prompt),
    "starved": (starved,),
}
for group in sys.argv[4:]:
    for check in GROUPS[group]:
        try:
            check()
        except OSError as error:
            sys.exit(f"modbus: {check.__name__}: {error}")
print(answered)
