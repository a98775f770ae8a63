"""Connections to servers, by a port or by the path of a socket."""
import socket

from .base import PATIENCE, Address, Lost


class Stream:
    """A connection. Its end is `Lost`."""

    def __init__(self, address: Address) -> None:
        try:
            if address.path:
                self.socket = socket.socket(socket.AF_UNIX)
                self.socket.settimeout(PATIENCE)
                self.socket.connect(address.path)
            else:
                self.socket = socket.create_connection((address.host, address.port), PATIENCE)
                self.socket.setsockopt(socket.IPPROTO_TCP, socket.TCP_NODELAY, 1)
        except OSError as fault:
            raise Lost(f"nobody answers at {address}: {fault}") from fault
        self.answers = self.socket.makefile("rb")

    def send(self, data: bytes) -> None:
        try:
            self.socket.sendall(data)
        except OSError as fault:
            raise Lost(str(fault)) from fault

    def read(self, count: int) -> bytes:
        """So many bytes."""
        try:
            found = self.answers.read(count)
        except OSError as fault:
            raise Lost(str(fault)) from fault
        if len(found) < count:
            raise Lost("the server has ended the connection")
        return found

    def line(self) -> bytes:
        """The bytes up to the end of a line, without this end."""
        try:
            found = self.answers.readline()
        except OSError as fault:
            raise Lost(str(fault)) from fault
        if not found.endswith(b"\n"):
            raise Lost("the server has ended the connection")
        return found.rstrip(b"\r\n")

    def close(self) -> None:
        self.answers.close()
        self.socket.close()
