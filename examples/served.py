"""A program that serves, for a check: it can be frozen and killed, and a relay before it can be cut."""

import json
import os
import signal
import socket
import subprocess
import threading

import mtcd


def free_port():
    with socket.socket() as probe:
        probe.bind(("127.0.0.1", 0))
        return probe.getsockname()[1]


class Relay:
    """Stands between a page and the server, so that the connection can be cut."""

    def __init__(self, port):
        self.port = port
        self.listener = socket.create_server(("127.0.0.1", 0))
        self.links = []
        threading.Thread(target=self.serve, daemon=True).start()

    def address(self):
        return self.listener.getsockname()[1]

    def serve(self):
        while True:
            link, _ = self.listener.accept()
            try:
                server = socket.create_connection(("127.0.0.1", self.port))
            except OSError:
                link.close()
                continue
            self.links = [link, server]
            for one, other in ((link, server), (server, link)):
                threading.Thread(target=self.carry, args=(one, other), daemon=True).start()

    @staticmethod
    def carry(one, other):
        try:
            while True:
                part = one.recv(65536)
                if not part:
                    break
                other.sendall(part)
            other.shutdown(socket.SHUT_WR)
        except OSError:
            pass

    def cut(self):
        for link in self.links:
            link.shutdown(socket.SHUT_RDWR)


class Served:
    """A program that serves; its sessions may be used up, and its last line is told."""

    def __init__(self, program, setup, sessions):
        self.port, self.sessions = free_port(), sessions
        words = [program, "serve", "--port", str(self.port), "--sessions", str(sessions)]
        self.process = subprocess.Popen(words, stdin=subprocess.PIPE, stdout=subprocess.PIPE, text=True, start_new_session=True)
        self.process.stdin.write("\n".join(line if isinstance(line, str) else json.dumps(line) for line in setup) + "\n")
        self.process.stdin.close()

    def feed(self):
        client = mtcd.Client(port=self.port, wait=300, timeout=60)
        client.hello("feed")
        return client

    def signal(self, number):
        """Signals the program, and what it has started."""
        os.killpg(self.process.pid, number)

    def end(self):
        """Waits until it has ended, and gives how it summed up."""
        for _ in range(self.sessions):
            if self.process.poll() is None:
                try:
                    with socket.create_connection(("127.0.0.1", self.port), timeout=1) as link:
                        link.sendall(b'{"do":"bye"}\n')
                except OSError:
                    break
        self.process.wait(timeout=60)
        line = self.process.stdout.read().splitlines()[-1]
        print("the server: " + line, flush=True)
        return json.loads(line)

    def kill(self):
        if self.process.poll() is None:
            self.signal(signal.SIGKILL)
            self.process.wait()
