# Reads register 0 from a server at any address, which must be the number of units. Usage: first.py ADDRESS PORT NAME.out
import socket
import sys

address = "127.0.0.1" if sys.argv[1] == "0.0.0.0" else sys.argv[1]
with socket.create_connection((address, int(sys.argv[2])), 20) as server:
    server.sendall(bytes.fromhex("000100000006010300000001"))
    answer = server.recv(11)
units = int(open(sys.argv[3]).readline().split()[1])
sys.exit(answer != bytes.fromhex("0001000000050103 02") + units.to_bytes(2, "big"))
