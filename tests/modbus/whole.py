# Polls a server while its case file is replaced again and again: every answer must be whole one of the two replies, and both must come.
# Usage: whole.py PORT CASE_FILE NAME NAME, of examples with as many units
import os
import shutil
import socket
import struct
import sys
import time

PORT, SERVED, NAMES = int(sys.argv[1]), sys.argv[2], sys.argv[3:]


def reply_of(path):
    with open(path) as lines:
        units, evaluations, cost, gap, surplus = (int(word) for word in next(lines).split()[1::2])
        return struct.pack(f">HHQQQ{units}H", units, evaluations, cost, gap, surplus, *(int(line.split()[1]) for line in lines))


def replace(name):
    shutil.copyfile(f"{name}.case", f"{SERVED}.next")
    os.replace(f"{SERVED}.next", SERVED)


def taken(server, count):
    came = b""
    while len(came) < count:
        part = server.recv(count - len(came))
        if not part:
            sys.exit("modbus: the connection is closed")
        came += part
    return came


replies = [reply_of(f"{name}.out") for name in NAMES]
assert len(replies[0]) == len(replies[1]), "examples with as many units"
replace(NAMES[0])
time.sleep(2)
seen, request = [0, 0], struct.pack(">HHHBBHH", 1, 0, 6, 1, 3, 0, len(replies[0]) // 2)
with socket.create_connection(("127.0.0.1", PORT), 20) as server:
    for turn in range(4):
        replace(NAMES[turn % 2])
        until = time.monotonic() + 1.5
        while time.monotonic() < until:
            server.sendall(request)
            body = taken(server, 9 + len(replies[0]))[9:]
            if body not in replies:
                sys.exit("modbus: an answer is of neither reply")
            seen[replies.index(body)] += 1
if not all(seen):
    sys.exit(f"modbus: the replies came {seen} times")
