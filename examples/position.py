#!/usr/bin/env python3
"""A position over a WebSocket, without any package. Prints each line that it sends, and its reply.

It files a flight and one that meets it as a feed does, then works as a position: it looks, tries a climb, accepts it, looks again and leaves.

Usage: examples/position.py [PORT]
"""

import base64
import os
import socket
import sys
import time

PORT = int(sys.argv[1]) if len(sys.argv) > 1 else 7700


class Position:
    """A WebSocket to the server, by RFC 6455: each line is one message."""

    def __init__(self):
        for _ in range(200):
            try:
                self.socket = socket.create_connection(("127.0.0.1", PORT))
                break
            except ConnectionRefusedError:
                time.sleep(0.05)
        else:
            sys.exit("position.py: no server answers at 127.0.0.1, port %d" % PORT)
        self.stream = self.socket.makefile("rb")
        key = base64.b64encode(os.urandom(16)).decode()
        self.socket.sendall(
            (
                "GET / HTTP/1.1\r\n"
                "Host: 127.0.0.1:%d\r\n"
                "Upgrade: websocket\r\n"
                "Connection: Upgrade\r\n"
                "Sec-WebSocket-Key: %s\r\n"
                "Sec-WebSocket-Version: 13\r\n\r\n" % (PORT, key)
            ).encode()
        )
        if b" 101 " not in self.stream.readline():
            sys.exit("position.py: the server takes no WebSocket")
        while self.stream.readline().strip():
            pass

    def send(self, kind, content):
        """Sends a frame, masked as a client's must be: 1 is a text, 8 a close."""
        size = len(content)
        head = bytes([0x80 | size]) if size < 126 else bytes([0xFE]) + size.to_bytes(2, "big")
        mask = os.urandom(4)
        masked = bytes(byte ^ mask[place % 4] for place, byte in enumerate(content))
        self.socket.sendall(bytes([0x80 | kind]) + head + mask + masked)

    def read(self, size):
        """So many bytes that the server sends."""
        content = self.stream.read(size)
        if len(content) < size:
            sys.exit("position.py: the server has ended the session")
        return content

    def receive(self):
        """The kind and the content of the next frame."""
        kind, size = self.read(2)
        if size == 126:
            size = int.from_bytes(self.read(2), "big")
        elif size == 127:
            size = int.from_bytes(self.read(8), "big")
        return kind & 0x0F, self.read(size)

    def ask(self, line):
        """Sends a line and prints it, and the reply."""
        self.send(1, line.encode())
        print("> " + line)
        print("< " + self.receive()[1].decode())

    def close(self):
        """Closes the socket, which ends the session as `bye` would, and says whether the server closed too."""
        self.send(8, (1000).to_bytes(2, "big"))
        print("closed" if self.receive()[0] == 8 else "not closed")


position = Position()
position.ask('{"do":"hello","role":"feed"}')
position.ask('{"do":"plan","call":"DDD1","type":"JA1","route":["Q0","Q1"],"at":0,"level":350}')
position.ask('{"do":"external","call":"JJJ1","from":0,"to":1200,"x":144000,"y":0,"z":2100000,"vx":-480}')
position.ask('{"do":"hello","role":"position"}')
position.ask('{"do":"list"}')
position.ask('{"do":"probe","call":"DDD1","level":360}')
position.ask('{"do":"accept","probe":1}')
position.ask('{"do":"list"}')
position.close()
