"""Stand-ins for a server, or for what is between it and its clients, for the scripts of tests/ that need one."""

import socket
import socketserver
import threading

from server import PATIENCE


class Serving:
    """A stand-in on a port, which answers each connection by a function, in a thread of its own."""

    def __init__(self, answer):
        class Handler(socketserver.BaseRequestHandler):
            def handle(self):
                try:
                    answer(self.request)
                except OSError:
                    pass

        class Door(socketserver.ThreadingTCPServer):
            allow_reuse_address = daemon_threads = True

        self.door = Door(("127.0.0.1", 0), Handler)
        self.url = f"http://127.0.0.1:{self.door.server_address[1]}"
        threading.Thread(target=self.door.serve_forever, args=(0.02,), daemon=True).start()

    def __enter__(self):
        return self

    def __exit__(self, *_):
        self.door.shutdown()
        self.door.server_close()


def whole(connection):
    """The bytes of one message, or b"" at the end."""
    held = b""
    while True:
        head, end, body = held.partition(b"\r\n\r\n")
        lengths = [line for line in head.lower().split(b"\r\n") if line.startswith(b"content-length:")]
        if end and len(body) >= (int(lengths[0].split(b":")[1]) if lengths else 0):
            return held
        piece = connection.recv(65536)
        if not piece:
            return b""
        held += piece


def losing(port, keeps):
    """A stand-in that hands each request on, and the reply back where `keeps` says so, once for each reply."""

    def answer(connection):
        with socket.create_connection(("127.0.0.1", port), PATIENCE) as server:
            while request := whole(connection):
                server.sendall(request)
                reply = whole(server)
                if not keeps(request):
                    return
                connection.sendall(reply)

    return Serving(answer)


def saying(replies, asked):
    """A stand-in that gives these replies, one a request, and notes the requests."""
    left = iter(replies)

    def answer(connection):
        while request := whole(connection):
            asked.append(request.partition(b"\r\n\r\n")[2])
            status, body = next(left)
            connection.sendall(b"HTTP/1.1 %d So\r\nContent-Length: %d\r\n\r\n" % (status, len(body)) + body)

    return Serving(answer)
