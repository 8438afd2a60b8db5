"""A folder that several machines see, which are network namespaces: one of this machine's own, or one over the network
through GlusterFS (Debian's glusterfs-server and glusterfs-client), without its management."""

import os
import subprocess

import brokers

SERVER, CLIENT = "/usr/sbin/glusterfsd", "/usr/sbin/glusterfs"
PORT = 24099
# A machine that says nothing for some seconds loses its locks (transport.*), and has no file any more that was open
# then (strict-locks): so it can't write behind the next holder's back. It keeps no pages (direct-io-mode): with them, a
# till that had been answered was told AHEAD behind a change of hands.
SERVED = f"""
volume files
  type storage/posix
  option directory FOLDER
end-volume
volume locks
  type features/locks
  subvolumes files
end-volume
volume server
  type protocol/server
  option transport-type tcp
  option transport.socket.bind-address ADDRESS
  option transport.socket.listen-port {PORT}
  option transport.tcp-user-timeout 4
  option transport.socket.keepalive-time 2
  option transport.socket.keepalive-interval 1
  option transport.socket.keepalive-count 2
  option auth.addr.locks.allow *
  subvolumes locks
end-volume
"""
SEEN = f"""
volume remote
  type protocol/client
  option transport-type tcp
  option remote-host ADDRESS
  option remote-port {PORT}
  option remote-subvolume locks
  option ping-timeout 4
  option strict-locks on
end-volume
"""


class Local:
    """The same folder for all."""

    def __init__(self, folder, _address):
        self.folder = folder

    def start(self):
        pass

    stop = start

    def seen(self, _net=None):
        return self.folder


class Glusterfs:
    """A server in this namespace, and a mounted folder for each that asks."""

    def __init__(self, folder, address):
        self.folder, self.mounts = folder, {}
        (folder / "disk").mkdir()
        for name, text in [("served.vol", SERVED), ("seen.vol", SEEN)]:
            text = text.replace("FOLDER", str(folder / "disk")).replace("ADDRESS", address)
            (folder / name).write_text(text)

    def start(self):
        self.server = brokers.Child([SERVER, "-N", "-f", self.folder / "served.vol"], self.folder / "served.log")

    def seen(self, net=None):
        """The folder as it is seen from this network namespace (None: from here), mounted anew where it fell."""
        place, old = self.folder / f"seen{net or ''}", self.mounts.get(net)
        if old and old.process.poll() is None:
            return place
        if old:
            subprocess.run(["umount", "-l", place], check=True)
        else:
            place.mkdir()
        there = ["nsenter", f"--net=/var/run/netns/{net}"] if net else []
        options = ["--attribute-timeout=0", "--entry-timeout=0", "--direct-io-mode=enable"]
        command = [*there, CLIENT, "-N", "-f", self.folder / "seen.vol", *options, place]
        self.mounts[net] = brokers.Child(command, self.folder / f"seen{net or ''}.log")
        below = os.stat(self.folder).st_dev
        brokers.until(lambda: is_other(place, below), 30, f"{place} isn't mounted")
        return place

    def stop(self):
        for net, child in self.mounts.items():
            child.end()
            subprocess.run(["umount", "-l", self.folder / f"seen{net or ''}"], check=True)
        self.server.end()


def is_other(place, device):
    """Whether this is a folder of another device than this one."""
    try:
        return os.stat(place).st_dev != device
    except OSError:
        return False
