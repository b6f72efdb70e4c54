"""A link to a device that cuts connections at random bytes, in either direction. The same seed cuts alike."""
import contextlib
import random
import socket
import threading


class CuttingLink:
    """Passes connections to 127.0.0.1:`to`, and cuts each after a random number of bytes of one direction: up to `most`
    toward the device or back. `on_piece` is called with each piece before it goes on to the device."""

    def __init__(self, to, seed, most, on_piece=None):
        self.to, self.random, self.most, self.on_piece = to, random.Random(seed), most, on_piece
        self.connections = self.cuts = 0
        self.listener = socket.create_server(("127.0.0.1", 0))
        self.port = self.listener.getsockname()[1]
        threading.Thread(target=self.accept, daemon=True).start()

    def accept(self):
        while True:
            client = self.listener.accept()[0]
            device = socket.create_connection(("127.0.0.1", self.to))
            self.connections += 1
            forward, back = self.random.randint(0, self.most), self.random.randint(0, self.most)
            for one, other, left, hook in ((client, device, forward, self.on_piece), (device, client, back, None)):
                threading.Thread(target=self.carry, args=(one, other, left, hook), daemon=True).start()

    def carry(self, one, other, left, hook):
        """Carries what one end sends to the other, and cuts both off after `left` bytes."""
        with contextlib.suppress(OSError):
            while piece := one.recv(4096):
                if hook is not None:
                    hook(piece[:left])
                if piece[:left]:
                    other.sendall(piece[:left])
                left -= len(piece)
                if left < 0:
                    self.cuts += 1
                    break
        for end in (one, other):
            with contextlib.suppress(OSError):
                end.shutdown(socket.SHUT_RDWR)
