#!/usr/bin/env python3
"""Puts load on a server of this machine.

So many clients at the same time each set a value of 100 bytes and get it back, so often: under a key of their
own, or, --anew, under a new one each time. Of http each asks for a page, and of dns, over TCP, for a name
below `here`, which is to be 10.0.0.1 for an hour. With --in-step all have asked before the first answer is
read, and with --again each question has a connection of its own. A wrong answer ends it with status 1, and no
server on the port within a minute too."""

import argparse
import socket
import sys
import time
from concurrent.futures import ThreadPoolExecutor
from typing import Iterable, Iterator

# What a client sends, and the answer that it wants.
Exchange = tuple[bytes, bytes]


def memcached(key: bytes, value: bytes) -> Iterator[Exchange]:
    """What is asked, and the answers that are wanted."""
    yield b"set %s 0 0 %d\r\n%s\r\n" % (key, len(value), value), b"STORED\r\n"
    yield b"get %s\r\n" % key, b"VALUE %s 0 %d\r\n%s\r\nEND\r\n" % (key, len(value), value)


def redis(key: bytes, value: bytes) -> Iterator[Exchange]:
    yield b"*3\r\n$3\r\nSET\r\n$%d\r\n%s\r\n$%d\r\n%s\r\n" % (
        len(key),
        key,
        len(value),
        value,
    ), b"+OK\r\n"
    yield b"*2\r\n$3\r\nGET\r\n$%d\r\n%s\r\n" % (len(key), key), b"$%d\r\n%s\r\n" % (
        len(value),
        value,
    )


def http(key: bytes, value: bytes) -> Iterator[Exchange]:
    yield b"GET /%s HTTP/1.1\r\nHost: here\r\n\r\n" % key, b"HTTP/1.1 200 OK\r\n"


def dns(key: bytes, value: bytes) -> Iterator[Exchange]:
    question = b"".join(bytes([len(it)]) + it for it in (key, b"here")) + b"\0\0\1\0\1"
    asked = b"\x12\x34\1\0\0\1\0\0\0\0\0\0" + question
    reply = (
        b"\x12\x34\x85\x80\0\1\0\1\0\0\0\0"
        + question
        + b"\xc0\x0c\0\1\0\1"
        + (3600).to_bytes(4, "big")
        + b"\0\4\x0a\0\0\1"
    )
    yield len(asked).to_bytes(2, "big") + asked, len(reply).to_bytes(2, "big") + reply


def connect(port: int, until: float) -> socket.socket:
    while True:
        try:
            return socket.create_connection(("127.0.0.1", port), timeout=600)
        except ConnectionRefusedError:
            if time.monotonic() > until:
                sys.exit(f"no server on port {port}")
            time.sleep(0.1)


def receive(client: socket.socket, count: int) -> bytes:
    """So many bytes."""
    found = b""
    while len(found) < count:
        more = client.recv(count - len(found))
        if not more:
            break
        found += more
    return found


def check_answer(client: socket.socket, wanted: bytes) -> None:
    if receive(client, len(wanted)) != wanted:
        sys.exit("a wrong answer")


def exchange_each(client: socket.socket, own: Iterable[Exchange]) -> None:
    for asked, wanted in own:
        client.sendall(asked)
        check_answer(client, wanted)


def exchange_anew(port: int, until: float, own: Iterable[Exchange]) -> None:
    for exchange in own:
        with connect(port, until) as client:
            exchange_each(client, [exchange])


def exchange_in_step(clients: list[socket.socket], asked: list[list[Exchange]]) -> None:
    for step in zip(*asked):
        for client, (text, _) in zip(clients, step):
            client.sendall(text)
        for client, (_, wanted) in zip(clients, step):
            check_answer(client, wanted)


def main() -> None:
    parser = argparse.ArgumentParser(
        description=__doc__, formatter_class=argparse.RawDescriptionHelpFormatter
    )
    parser.add_argument("kind", choices=KINDS)
    parser.add_argument("port", type=int)
    parser.add_argument("clients", type=int)
    parser.add_argument("times", type=int)
    parser.add_argument("--anew", action="store_true", help="a new key for each value")
    parser.add_argument(
        "--in-step", action="store_true", help="all ask before the first answer is read"
    )
    parser.add_argument("--again", action="store_true", help="a connection for each question")
    call = parser.parse_args()
    kind, port, count, times = KINDS[call.kind], call.port, call.clients, call.times
    until = time.monotonic() + 60
    keys = [
        [
            b"key-%d-%d" % (client, turn) if call.anew else b"key-%d" % client
            for turn in range(times)
        ]
        for client in range(count)
    ]
    asked = [
        [it for turn, key in enumerate(own) for it in kind(key, bytes([97 + turn % 26]) * 100)]
        for own in keys
    ]
    with ThreadPoolExecutor(count) as pool:
        if call.again:
            list(pool.map(exchange_anew, [port] * count, [until] * count, asked))
            return
        clients = [connect(port, until) for _ in range(count)]
        if call.in_step:
            exchange_in_step(clients, asked)
        else:
            list(pool.map(exchange_each, clients, asked))


KINDS = {"memcached": memcached, "redis": redis, "http": http, "dns": dns}
if __name__ == "__main__":
    main()
