#!/usr/bin/env python3
"""Tests how a server takes its messages from a pipe, and what ends it: transport.py PROGRAM. A piece is written when
the one in front of it was read, so no read has bytes of two. The expected values are those of JSON-RPC 2.0 and of the
Language Server Protocol 3.17."""
import array
import fcntl
import os
import subprocess
import sys
import termios
import time

PROGRAM = sys.argv[1]
failed = 0


def expect(what, found, wanted):
    global failed
    if found != wanted:
        failed += 1
        print(f"transport: {what}: {found!r}, not {wanted!r}")


def frame(body):
    return b"Content-Length: %d\r\n\r\n" % len(body) + body


def request(number):
    return b'{"jsonrpc":"2.0","id":%d,"method":"x"}' % number


def refusal(number):
    return frame(b'{"jsonrpc":"2.0","id":%d,"error":{"code":-32002,"message":"not initialized"}}' % number)


EXIT = frame(b'{"jsonrpc":"2.0","method":"exit"}')
# A frame with another field and another case, and one as most clients write it.
TWO = b"content-length:  %d\r\nContent-Type: x\r\n\r\n" % len(request(1)) + request(1) + frame(request(2))


def wait_until_read(pipe):
    """Waits until the pipe is empty, at most some seconds."""
    unread = array.array("i", [1])
    for _ in range(100_000):
        fcntl.ioctl(pipe, termios.FIONREAD, unread)
        if unread[0] == 0:
            return
        time.sleep(0.0001)


def served(*pieces):
    """The status and the output of a server that gets these pieces, each in reads of its own."""
    with subprocess.Popen([PROGRAM], stdin=subprocess.PIPE, stdout=subprocess.PIPE, bufsize=0) as server:
        for piece in pieces:
            server.stdin.write(piece)
            wait_until_read(server.stdin)
        server.stdin.close()
        said = server.stdout.read()
    return server.returncode, said


def pieces_of(data, size):
    return [data[start:start + size] for start in range(0, len(data), size)]


def cuts():
    for size in range(1, len(TWO) + 1):
        expect(f"{size} bytes a read", served(*pieces_of(TWO, size)), (1, refusal(1) + refusal(2)))


def heads():
    """What begins no frame is passed over: a head without a length, one without an end, and a length beyond a
    gigabyte."""
    for head in [
        b"Content-Type: x\r\n\r\n", b"Content-Length: +1\r\n\r\n", b"Content-Length\r\n\r\n",
        b"Content-Length: 1073741825\r\n\r\n", b"X: " + b"x" * 4093 + b"\r\n\r\n",
    ]:
        expect(f"the message after {head[:40]}", served(head, frame(request(3))), (1, refusal(3)))


def ends():
    expect("a message after exit", served(frame(request(1)) + EXIT + frame(request(2))), (1, refusal(1)))
    expect("bytes that begin no frame", served(frame(request(1)), b"no frame\r\n\r\n", EXIT), (1, refusal(1)))
    expect("a message without its end", served(frame(request(1))[:-1]), (1, b""))
    for what, standard_input, standard_output, wanted in [
        ("an input that fails", "/", os.devnull, b"gqlls: cannot read\n"),
        ("an output that fails", None, "/dev/full", b"gqlls: cannot write\n"),
    ]:
        with open(standard_output, "wb") as output:
            given = {"stdin": os.open(standard_input, os.O_RDONLY)} if standard_input else {"input": frame(request(1))}
            ended = subprocess.run([PROGRAM], stdout=output, stderr=subprocess.PIPE, timeout=10, **given)
        expect(what, (ended.returncode, ended.stderr), (2, wanted))


TESTS = [cuts, heads, ends]
for test in TESTS:
    test()
print(f"transport: {len(TESTS)} tests, {failed} differences")
sys.exit(1 if failed else 0)
