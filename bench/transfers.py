"""What an upload, a sync and a download take on both sides, and how many bytes go over the link."""
import collections
import socket
import statistics
import threading

# What a transfer took: processor time in seconds and memory in MB at its peak, of the device's process and of the server's, time in seconds, and bytes each way.
Sides = collections.namedtuple("Sides", "device device_memory server server_memory elapsed sent received")


class Relay:
    """Hands each connection on to a port of this machine, and counts the bytes that go each way."""

    def __init__(self, port):
        self.there, self.sent, self.received, self.links, self.pumps = port, 0, 0, [], []
        self.listener = socket.create_server(("127.0.0.1", 0))
        self.port = self.listener.getsockname()[1]
        threading.Thread(target=self.accept, daemon=True).start()

    def accept(self):
        while True:
            try:
                near, _ = self.listener.accept()
            except OSError:
                return
            far = socket.create_connection(("127.0.0.1", self.there))
            self.links += [near, far]
            for job in ((near, far, "sent"), (far, near, "received")):
                pump = threading.Thread(target=self.pump, args=job, daemon=True)
                self.pumps.append(pump)
                pump.start()

    def pump(self, source, sink, name):
        """Hands bytes on until there are no more of them; each way has one thread, so none is counted twice."""
        try:
            while data := source.recv(65536):
                setattr(self, name, getattr(self, name) + len(data))
                sink.sendall(data)
            sink.shutdown(socket.SHUT_WR)
        except OSError:
            pass

    def end(self):
        """No more connections; gives the bytes that went there and back."""
        self.listener.close()
        for pump in self.pumps:
            pump.join(timeout=10)
        for link in self.links:
            link.close()
        return self.sent, self.received


def over_fresh_server(server, transfer):
    """Does a transfer with a server process of its own, and gives what the device took, and the server's processor time and memory in MB at its peak."""
    server.start()
    try:
        before = server.seconds()
        taken = transfer("127.0.0.1:%d" % server.port)
        return taken, server.seconds() - before, server.memory()[1] / 1024
    finally:
        server.end()


def bytes_of(server, transfer):
    """The bytes that go to the server and back in a transfer."""
    server.start()
    relay = Relay(server.port)
    try:
        transfer("127.0.0.1:%d" % relay.port)
        return relay.end()
    finally:
        server.end()


def median_of(runs, sent, received):
    """The median of what each of the runs took on both sides."""
    middle = lambda number: statistics.median(number(*run) for run in runs)
    return Sides(middle(lambda device, *_: device.processor), middle(lambda device, *_: device.memory), middle(lambda _, server, __: server),
                 middle(lambda _, __, memory: memory), middle(lambda device, *_: device.elapsed), sent, received)


def text_of(rows):
    """The table, of rows of a work, a number of notes, and what was taken."""
    head = ["| work | notes | device ms | device MB | server ms | server MB | elapsed ms | bytes to the server | bytes back |", "|---|" + "---:|" * 8]
    cells = lambda it: ("%.0f" % (1000 * it.device), "%.0f" % it.device_memory, "%.0f" % (1000 * it.server), "%.0f" % it.server_memory,
                        "%.0f" % (1000 * it.elapsed), "{:,}".format(it.sent), "{:,}".format(it.received))
    return "\n".join(head + ["| %s |" % " | ".join((work, "{:,}".format(notes), *cells(it))) for work, notes, it in rows]) + "\n"
