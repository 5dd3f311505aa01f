#!/usr/bin/env python3
"""Measures a pull of the program over loopback: how long it takes beside its pauses, and its memory.

usage: pulling.py PROGRAM [SAMPLES [MANY]]         SAMPLES: 5 unless given, of a run with pauses; MANY: 2,000, of one without

The program sleeps a second between two samples, so samples a second say nothing. A peer of this script's own answers at once, and times the
program by what it asks: from the greeting to the first fetch, and from one result to the next fetch beside the pause, in which the sample is
logged and made sure. Then the program serves 1,024 metrics itself, and another one pulls some of them; its peak of memory is told. Where there is
a C compiler the pauses are left out: a library that is loaded before the program answers each sleep at once, which gives samples a second.
Nothing here is a promise: another machine gives other figures.
"""
import os
import shutil
import socket
import struct
import subprocess
import sys
import tempfile
import threading
import time

NULL = 0xFFFFFFFF
AT_ONCE = "#include <time.h>\nint nanosleep(const struct timespec *wanted, struct timespec *left) { return 0; }\n"
DOMAIN = 0x11800401
PLACE = "/dev/shm" if os.path.isdir("/dev/shm") else None


def big(*numbers):
    return b"".join(struct.pack(">I", number & NULL) for number in numbers)


def pdu(kind, body):
    return big(12 + len(body), kind, 0) + body


def text(name):
    return big(len(name)) + name + bytes(-len(name) % 4)


class Peer:
    """Answers one client: so many metrics, each with so many instances (none: a metric without a domain)."""

    def __init__(self, metrics, instances):
        self.pmids = [0x11800400 + k for k in range(metrics)]
        self.instances = instances
        self.listener = socket.create_server(("127.0.0.1", 0))
        self.port = self.listener.getsockname()[1]
        self.greeted, self.fetches, self.answered = 0, [], []

    def result(self):
        pairs = [(k, k) for k in range(self.instances)] or [(-1, 7)]
        stamp = divmod(time.time_ns() // 1000, 1000000)
        one = b"".join(big(*pair) for pair in pairs)
        return pdu(0x7001, big(*stamp, len(self.pmids)) + b"".join(big(pmid, len(pairs), 0) + one for pmid in self.pmids))

    def answer(self, kind, body):
        if kind == 0x700E:
            return pdu(0x700D, big(0, len(self.pmids), *self.pmids))
        if kind == 0x7004:
            return pdu(0x7005, body[:4] + big(1, DOMAIN if self.instances else NULL, 1, 0x00100000))
        if kind == 0x7006:
            return pdu(0x7007, body[:4] + big(self.instances) + b"".join(big(k) + text(b"%x" % k) for k in range(self.instances)))
        return b""

    def serve(self):
        client, _ = self.listener.accept()
        client.setsockopt(socket.IPPROTO_TCP, socket.TCP_NODELAY, 1)
        self.greeted = time.perf_counter()
        client.sendall(pdu(0x7000, big(0)))
        with client, client.makefile("rb") as asked:
            while head := asked.read(12):
                length, kind, _ = struct.unpack(">III", head)
                body = asked.read(length - 12)
                if kind == 0x7003:
                    self.fetches.append(time.perf_counter())
                    result = self.result()
                    self.answered.append(time.perf_counter())
                    client.sendall(result)
                else:
                    client.sendall(self.answer(kind, body))


def peak_of(child):
    """Waits for a process, and returns its status and its peak of memory in MiB (VmHWM)."""
    peak = 0
    while child.poll() is None:
        try:
            with open(f"/proc/{child.pid}/status", encoding="ascii") as it:
                peak = max([peak] + [int(line.split()[1]) for line in it if line.startswith("VmHWM")])
        except (OSError, ValueError):
            pass
        time.sleep(0.005)
    return child.returncode, peak / 1024


def pull(program, folder, base, port, samples, names, **how):
    return subprocess.Popen([program, base, "pull", str(port), str(samples), "1073741824", *names], cwd=folder,
                            stdin=subprocess.DEVNULL, stdout=subprocess.PIPE, stderr=subprocess.DEVNULL, **how)


def timed(program, folder, samples, metrics, instances):
    """Prints how long the program takes between what it asks of the peer."""
    peer = Peer(metrics, instances)
    serving = threading.Thread(target=peer.serve)
    serving.start()
    child = pull(program, folder, f"p{metrics}_{instances}", peer.port, samples, [f"m{k}" for k in range(metrics)])
    status, peak = peak_of(child)
    if not peer.greeted:
        sys.exit(f"status {status}: {child.stdout.read().decode()}")
    serving.join()
    opening = (peer.fetches[0] - peer.greeted) * 1000
    waits = sorted(fetch - answered - 1 for fetch, answered in zip(peer.fetches[1:], peer.answered))
    least, most = (waits[0] * 1000, waits[-1] * 1000) if waits else (0, 0)
    print(f"{metrics:4} metrics of {max(instances, 1):4} instances: opened in {opening:8.2f} ms; from a result to the next fetch, beside the second's "
          f"pause, {least:7.2f} to {most:7.2f} ms; {peak:6.1f} MiB  status {status}  {child.stdout.read().decode().strip()}", flush=True)


def free_port():
    with socket.create_server(("127.0.0.1", 0)) as it:
        return it.getsockname()[1]


def serving(program, folder):
    """Starts the program as a server of one client, which has 1,024 metrics, and gives it with its port once it listens."""
    lines = ["image A", "mmv 1 5 0 0 1"] + [f"metric m{k} {k} u32 counter 00100000 - - -" for k in range(1024)]
    lines += [f"value {k} - {k}" for k in range(1024)] + ["end", "region app A 32768 1", "start"]
    with open(f"{folder}/script", "w", encoding="ascii") as out:
        out.write("\n".join(lines) + "\n")
    port = free_port()
    with open(f"{folder}/script", "rb") as script:
        server = subprocess.Popen([program, "served", "serve", str(port), "1"], cwd=folder, stdin=script, stdout=subprocess.PIPE)
    # (without a connection, which would be the one that is served)
    while server.poll() is None and f":{port:04X} 00000000:0000 0A" not in open("/proc/net/tcp", encoding="ascii").read():
        time.sleep(0.01)
    return server, port


def served(program, folder, samples, count, **how):
    """Pulls so many of 1,024 metrics of the program's own server, and tells the time, the peak and how both ended."""
    server, port = serving(program, folder)
    names, began = [f"mmv.app.m{1024 // count * k}" for k in range(count)], time.perf_counter()
    child = pull(program, folder, f"pulled{count}_{samples}", port, samples, names, **how)
    status, peak = peak_of(child)
    took = time.perf_counter() - began
    told, all_served = child.stdout.read().decode().strip(), server.communicate()[0].decode().strip()
    print(f"{count:4} metrics of a server that has 1,024: {samples} samples in {took:.2f} s, {samples / took:.0f} a second; {peak:.1f} MiB  "
          f"status {status}  {told}; the server: status {server.returncode}  {all_served}", flush=True)


def unpaused(program, folder, samples):
    """The same without a pause."""
    compiler = shutil.which("cc")
    if not compiler:
        print("no C compiler, so nothing without pauses")
        return
    library = f"{folder}/at_once.so"
    subprocess.run([compiler, "-shared", "-fPIC", "-x", "c", "-", "-o", library], input=AT_ONCE, text=True, check=True)
    for count in (1, 64):
        served(program, folder, samples, count, env={**os.environ, "LD_PRELOAD": library})


def main(program, samples=5, many=2000):
    program, samples = os.path.realpath(program), int(samples)
    with tempfile.TemporaryDirectory(dir=PLACE) as folder:
        for metrics, instances in ((1, 0), (64, 0), (1, 5000), (64, 60)):
            timed(program, folder, samples, metrics, instances)
        served(program, folder, samples, 64)
        unpaused(program, folder, int(many))


if __name__ == "__main__":
    if len(sys.argv) < 2:
        sys.exit(__doc__)
    main(*sys.argv[1:])
