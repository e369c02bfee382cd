#!/usr/bin/env python3
"""Serves examples/laboratory.ldif with the given program and troubles it with clients of many kinds.

    bench/serve_clients.py PROGRAM [WORD..]

PROGRAM and its first words run the server: `serve FILE ADDRESS` is added. Each try prints a line: that a search is
answered as it was before, that more than 256 connections are closed, that a client that sends octet by octet is
answered, that one which never reads, one which resets and ones that send random octets trouble nobody else, how much
memory the server took, and whom `--idle` ends. The status is 1 where something was not as it should be.
"""

import os
import random
import socket
import struct
import subprocess
import sys
import time

from served import element, free_port

TOP = os.path.join(os.path.dirname(os.path.abspath(__file__)), "..")
DATA = os.path.join(TOP, "examples", "laboratory.ldif")
BIND = bytes.fromhex("300c020101600702010304008000")
BOUND = bytes.fromhex("300c02010161070a010004000400")
MOST_HELD = 256


def search(number, base, scope):
    operation = (element(4, base) + bytes([10, 1, scope, 10, 1, 0, 2, 1, 0, 2, 1, 0, 1, 1, 0])
                 + element(0x87, b"objectClass") + element(0x30, b""))
    return element(0x30, element(2, bytes([number])) + element(0x63, operation))


class Server:
    def __init__(self, words, *options):
        self.port = free_port()
        words = [*words, "serve", DATA, "127.0.0.1:%d" % self.port, *options]
        self.process = subprocess.Popen(words, stdout=subprocess.PIPE)
        self.process.stdout.readline()

    def connect(self, seconds=10):
        return socket.create_connection(("127.0.0.1", self.port), seconds)

    def memory(self):
        """The most resident memory so far, in MiB."""
        with open("/proc/%d/status" % self.process.pid, encoding="ascii") as status:
            for line in status:
                if line.startswith("VmHWM:"):
                    return int(line.split()[1]) / 1024
        return 0.0


def receive(connection, size):
    octets = b""
    while len(octets) < size:
        piece = connection.recv(size - len(octets))
        if not piece:
            break
        octets += piece
    return octets


def all_of(server):
    """What a search of the whole tree is answered, until the peer has closed."""
    with server.connect() as connection:
        connection.sendall(search(1, b"o=Saltmarsh", 2) + bytes.fromhex("30050201024200"))
        octets = b""
        while True:
            piece = connection.recv(65536)
            if not piece:
                return octets
            octets += piece


def held_and_closed(server, count):
    """Opens so many connections, and counts those that are answered and those that are closed."""
    connections = [server.connect() for _ in range(count)]
    held = closed = 0
    for connection in connections:
        try:
            connection.sendall(BIND)
            if receive(connection, len(BOUND)) == BOUND:
                held += 1
            else:
                closed += 1
        except OSError:
            closed += 1
    for connection in connections:
        connection.close()
    return held, closed


def octet_by_octet(server):
    with server.connect() as connection:
        connection.setsockopt(socket.IPPROTO_TCP, socket.TCP_NODELAY, 1)
        for octet in BIND:
            connection.sendall(bytes([octet]))
            time.sleep(0.001)
        return receive(connection, len(BOUND)) == BOUND


def never_reading(server):
    """A connection that sends searches until no more is taken, and reads nothing."""
    connection = server.connect()
    connection.setblocking(False)
    piece = search(1, b"o=Saltmarsh", 2) * 500
    sent = 0
    for _ in range(200):
        try:
            sent += connection.send(piece)
        except BlockingIOError:
            time.sleep(0.01)
    return connection, sent


def reset_in_the_middle(server):
    connection = server.connect()
    connection.sendall(search(1, b"o=Saltmarsh", 2) * 50 + b"\x30")
    connection.setsockopt(socket.SOL_SOCKET, socket.SO_LINGER, struct.pack("ii", 1, 0))
    connection.close()


def ends_for_silence(words, *options):
    """Whether a server with these options ends a client within five seconds of silence behind an answered bind."""
    server = Server(words, *options)
    try:
        with server.connect(5) as connection:
            connection.sendall(BIND)
            bound = receive(connection, len(BOUND)) == BOUND
            try:
                return bound and connection.recv(1) == b""
            except socket.timeout:
                return False
    finally:
        server.process.kill()


def random_octets(server, connections, size):
    source = random.Random(7)
    for _ in range(connections):
        try:
            with server.connect() as connection:
                for _ in range(size // 65536):
                    connection.sendall(source.randbytes(65536))
        except OSError:
            pass


def main():
    words = sys.argv[1:]
    if not words:
        sys.exit(__doc__)
    server = Server(words)
    faults = 0

    def told(what, good, more=""):
        nonlocal faults
        faults += not good
        print("%-60s %s %s" % (what, "as it should" if good else "NOT AS IT SHOULD", more), flush=True)

    try:
        answer = all_of(server)
        told("a search of the whole tree is answered", len(answer) > 100, "%d octets" % len(answer))
        told("one that sends octet by octet is answered", octet_by_octet(server))
        held, closed = held_and_closed(server, 300)
        told("of 300 connections 256 are held", held == MOST_HELD and closed == 300 - MOST_HELD,
             "%d held, %d closed" % (held, closed))
        time.sleep(0.2)
        told("the search is answered the same", all_of(server) == answer)
        silent, sent = never_reading(server)
        told("beside one that never reads", all_of(server) == answer, "it sent %d octets" % sent)
        reset_in_the_middle(server)
        told("after one that resets in the middle", all_of(server) == answer)
        random_octets(server, 20, 10 * 1024 * 1024 // 20)
        told("after 10 MB of random octets on 20 connections", all_of(server) == answer)
        silent.close()
        told("after the one that never read has gone", all_of(server) == answer)
        memory = server.memory()
        told("memory stays below 100 MiB", memory < 100, "%.0f MiB at most" % memory)
        told("the server still runs", server.process.poll() is None)
        told("--idle 1 ends a silent client", ends_for_silence(words, "--idle", "1"))
        told("without it a silent client stays", not ends_for_silence(words))
    finally:
        server.process.kill()
    sys.exit(1 if faults else 0)


if __name__ == "__main__":
    main()
