#!/usr/bin/env python3
"""Compares the log that `snmpsec datagrams` prints of captures with what tshark shows of them: captures.py PROGRAM

Captures are made of packets of each kind that the slow model writes, of examples/replay/captured.pcap, of that one by
editcap in other formats and cut, of all these in pcapng, and by tcpdump of the same exchange over the loopback link,
where it may listen there. Of tcpdump's dumps of captures with whole records `snmpsec datagrams --ip` prints the same
octets, and tells the same. What differs is printed, and the status is then 1. Of a datagram that is cut short and of a
first piece tshark shows what there is, so the records that the program tells are left out.
"""
import pathlib
import re
import shutil
import socket
import subprocess
import sys
import tempfile
import time

TOP = pathlib.Path(__file__).resolve().parents[2]
sys.dont_write_bytecode = True
sys.path.insert(0, str(TOP / "tools"))

from slow_model import captures  # noqa: E402

REPLAY = TOP / "examples" / "replay"
FIELDS = ["frame.time_epoch", "udp.payload", "frame.number"]
TOLD = re.compile(r"^snmpsec: record (\d+): ", re.M)


def shown(path, ports):
    """The moment, the datagram and the record's number of each that tshark finds."""
    wanted = f"udp.port in {{{','.join(map(str, ports))}}} and udp.payload"
    words = [
        "tshark",
        "-r",
        path,
        "-n",
        "-o",
        "ip.defragment:FALSE",
        "-o",
        "ipv6.defragment:FALSE",
        "-Y",
        wanted,
        "-T",
        "fields",
    ]
    done = subprocess.run(
        [*words, *(it for field in FIELDS for it in ("-e", field))], capture_output=True, text=True, check=False
    )
    for line in done.stdout.splitlines():
        moment, octets, number = line.split("\t")
        yield int(moment.split(".")[0]), octets.split(",")[0].replace(":", ""), int(number)


def differs(program, path, ports):
    """What the program and tshark say, where that isn't the same."""
    words = [it for port in ports for it in ("--port", str(port))]
    done = subprocess.run([program, "datagrams", *words, path], capture_output=True, text=True, check=False)
    told = {int(it) for it in TOLD.findall(done.stderr)}
    wanted = "".join(f"{moment} {octets}\n" for moment, octets, number in shown(path, ports) if number not in told)
    return None if (done.stdout, done.returncode) == (wanted, 0) else f"{path}: tshark: {wanted!r}, the program: {done}"


def dumps_differ(program, path):
    """What the program says of the records of a capture, and of tcpdump's dumps of them, where that isn't the same but
    for the moments."""
    dumps = subprocess.run(["tcpdump", "-r", path, "-n", "-x"], capture_output=True, check=False).stdout
    said = []
    for words in [path], ["--ip", "-"]:
        done = subprocess.run([program, "datagrams", *words], input=dumps, capture_output=True, check=False)
        said.append(([line.split()[1] for line in done.stdout.splitlines()], done.stderr, done.returncode))
    return None if said[0] == said[1] else f"{path}: by its records {said[0]}, by tcpdump's dumps {said[1]}"


def made():
    """Captures of each link in both orders, by name."""
    message = bytes.fromhex("3003020103")
    small = captures.udp(40000, 161, message)
    packets = [
        (0x0800, captures.ipv4(small)),
        (0x0800, captures.ipv4(captures.udp(161, 40000, message), options=b"\x01" * 8)),
        (0x0800, captures.ipv4(captures.udp(53, 40000, message))),
        (0x0800, captures.ipv4(small, piece=0x2000)),
        (0x0800, captures.ipv4(small, piece=5)),
        (0x0800, captures.ipv4(bytes(20), protocol=6)),
        (0x0800, captures.ipv4(captures.udp(162, 162, b""))),
        (0x86DD, captures.ipv6(small)),
        (0x86DD, captures.ipv6(bytes([60, 0, 1, 4, 0, 0, 0, 0, 17, 1, 1, 12]) + bytes(12) + small, kind=0)),
        (0x86DD, captures.ipv6(bytes([17, 0, 0, 0, 0, 0, 0, 7]) + small, kind=44)),
        (0x86DD, captures.ipv6(bytes([17, 0, 0, 1, 0, 0, 0, 7]) + small, kind=44)),
        (0x0806, bytes(28)),
    ]
    tagged = [(0x8100, b"\0\7" + kind.to_bytes(2, "big") + octets) for kind, octets in packets]
    tagged += [(0x88A8, b"\0\7\x81\0\0\7" + kind.to_bytes(2, "big") + octets) for kind, octets in packets]
    for link, order, magic, rows in [
        (1, "<", captures.MICROSECONDS, packets + tagged),
        (1, ">", captures.NANOSECONDS, packets),
        (101, "<", captures.NANOSECONDS, [it for it in packets if it[0] != 0x0806]),
        (113, ">", captures.MICROSECONDS, packets),
        (276, "<", captures.MICROSECONDS, packets + tagged),
    ]:
        frames = [captures.framed(link, *it) for it in rows]
        yield f"link{link}{'big' if order == '>' else ''}.pcap", captures.capture(
            order, magic, link, [(1700000000 + at, it, len(it)) for at, it in enumerate(frames)]
        )


def heard(path):
    """Sends the datagrams of the log over the loopback link while tcpdump listens; answers the port, or nothing where
    it may not."""
    with socket.socket(socket.AF_INET, socket.SOCK_DGRAM) as agent, socket.socket(
        socket.AF_INET, socket.SOCK_DGRAM
    ) as manager:
        agent.bind(("127.0.0.1", 0))
        manager.bind(("127.0.0.1", 0))
        port = agent.getsockname()[1]
        words = ["tcpdump", "-i", "lo", "-U", "-w", path, "udp", "port", str(port)]
        with subprocess.Popen(words, stdout=subprocess.DEVNULL, stderr=subprocess.DEVNULL) as listening:
            time.sleep(2)
            sent = [bytes.fromhex(line.split()[1]) for line in (REPLAY / "captured.log").read_text().splitlines()]
            for at, octets in enumerate(sent):
                one, other = (agent, manager) if at % 2 else (manager, agent)
                one.sendto(octets, other.getsockname())
            time.sleep(2)
            listening.terminate()
        return port if pathlib.Path(path).exists() and len(list(shown(path, [port]))) == len(sent) else None


def main():
    program = sys.argv[1]
    with tempfile.TemporaryDirectory(prefix="captures-") as room:
        tried = [(str(REPLAY / "captured.pcap"), [161, 162])]
        for name, octets in made():
            tried.append((f"{room}/{name}", [161, 162]))
            pathlib.Path(tried[-1][0]).write_bytes(octets)
        if shutil.which("editcap"):
            for name, words in [
                ("nano", ["-F", "nsecpcap"]),
                ("cut", ["-F", "pcap", "-s", "100"]),
                ("later", ["-F", "pcap", "-t", "3600.5"]),
            ]:
                tried.append((f"{room}/{name}.pcap", [161, 162]))
                subprocess.run(
                    ["editcap", *words, REPLAY / "captured.pcap", tried[-1][0]], check=True, stderr=subprocess.DEVNULL
                )
            for path, ports in list(tried):
                tried.append((f"{path}.pcapng", ports))
                subprocess.run(["editcap", "-F", "pcapng", path, tried[-1][0]], check=True, stderr=subprocess.DEVNULL)
        wrong = []
        if shutil.which("tcpdump"):
            # (in a cooked header tcpdump takes a tag of 802.1ad for no header, and begins its dump there)
            whole = [path for path, ports in tried if not path.endswith(("cut.pcap", ".pcapng", "link276.pcap"))]
            wrong = [it for it in (dumps_differ(program, path) for path in whole) if it]
        port = heard(f"{room}/heard.pcap") if shutil.which("tcpdump") else None
        if port:
            tried.append((f"{room}/heard.pcap", [port]))
        else:
            print("skipped: tcpdump isn't installed, or may not listen on the loopback link", file=sys.stderr)
        wrong += [it for it in (differs(program, path, ports) for path, ports in tried) if it]
    print("\n".join(wrong) if wrong else f"{len(tried)} captures as tshark shows them")
    return 1 if wrong else 0


sys.exit(main())
