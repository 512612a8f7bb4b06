"""A websocket to a program on this machine, by the standard library alone."""
import base64
import os
import socket
import struct

PATIENCE = 600
FIRST_OF_TEXT, LAST_FRAME, MASKED, SHORT, MEDIUM, LONG = 0x81, 0x80, 0x80, 125, 126, 127


class Socket:
    def __init__(self, port, path):
        self.link = socket.create_connection(("127.0.0.1", port), PATIENCE)
        self.file = self.link.makefile("rb")
        key = base64.b64encode(os.urandom(16)).decode()
        self.link.sendall(
            (
                f"GET {path} HTTP/1.1\r\nHost: 127.0.0.1:{port}\r\nUpgrade: websocket\r\n"
                f"Connection: Upgrade\r\nSec-WebSocket-Key: {key}\r\n"
                "Sec-WebSocket-Version: 13\r\n\r\n"
            ).encode()
        )
        while self.file.readline().strip():
            pass

    def send(self, text):
        data, mask = text.encode(), os.urandom(4)
        size = len(data)
        if size <= SHORT:
            head = struct.pack("!BB", FIRST_OF_TEXT, MASKED | size)
        else:
            form, kind = ("!BBH", MEDIUM) if size < 2**16 else ("!BBQ", LONG)
            head = struct.pack(form, FIRST_OF_TEXT, MASKED | kind, size)
        stream = (mask * (size // 4 + 1))[:size]
        masked = (int.from_bytes(data, "big") ^ int.from_bytes(stream, "big")).to_bytes(size, "big")
        self.link.sendall(head + mask + masked)

    def receive(self):
        """Returns the next message, whose frames are joined."""
        message = b""
        while True:
            first, size = struct.unpack("!BB", self.file.read(2))
            if size == MEDIUM:
                (size,) = struct.unpack("!H", self.file.read(2))
            elif size == LONG:
                (size,) = struct.unpack("!Q", self.file.read(8))
            message += self.file.read(size)
            if first & LAST_FRAME:
                return message.decode()

    def close(self):
        self.file.close()
        self.link.close()
