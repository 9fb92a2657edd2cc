#!/usr/bin/env python3
"""Sends packets that were changed by chance to `shasta_view gdb`, and judges what comes back.

    bench/gdb_packets.py VIEWER [--packets N] [--seed S]

VIEWER is the built viewer (crates/shasta_view/out/shasta_view); it shows examples/tally.elf and
examples/tally.record. So many packets (100,000) are sent, in sessions of 500: requests that GDB
makes, of which two thirds are changed: bytes turned, left out, put in or doubled, checksums that
are wrong, numbers of 17 digits, threads and addresses that there aren't, bodies of a megabyte,
signs between packets, and input that ends within a packet.

A reader of its own says what is to come back: a sign for each packet, by its checksum, and one
packet for each request and for each that is too long. Each packet that comes back must have its
checksum. Each session must end by itself with status 0 and without a line of errors. Sessions that
don't are told; the last line says how many packets and bytes were sent, and how many sessions are
wrong."""
import argparse, pathlib, random, subprocess, sys

examples = pathlib.Path(__file__).resolve().parent.parent / "examples"
PACKET_SIZE = 4096
REQUESTS = """? g p0 p1f p20 p21 pffffffffffffffff m10000,4 m10094,40 m0,1 mffffffff,2
m10094,ffffffff
qSupported:multiprocess+;swbreak+ qXfer:features:read:target.xml:0,ffb qXfer:features:read::0,1
qfThreadInfo qsThreadInfo qThreadExtraInfo,1 qThreadExtraInfo,3 T1 T9 Hg1 Hg0 Hg-1 Hc0 Hc7 qC
qAttached qAttached:1 vCont? vCont;s:1 vCont;c vCont;c:2 vMustReplyEmpty c s bc bs S05 C05
Z0,10094,4 z0,10094,4 Z1,10098,4 z1,10098,4 Z2,20000,4 z2,20000,4 Z3,20000,4 Z4,20000,1 Z5,0,0
qRcmd,7768657265 qRcmd,6f7574707574 qRcmd,78 qRcmd,7 G00 P0=00000000 M10000,1:00 X10000,1:a
qRcmd,6d697373 qRcmd,6e6f64652030 qRcmd,6e6f64652032 qRcmd,6e6f6465203134
qRcmd,626c6f636b2030783230303030 qRcmd,626c6f636b203078313132383020
qRcmd,626c6f636b2030783131323830 qRcmd,6261636b2d746f2d77726974652030783131323830
qRcmd,6261636b2d746f2d7772697465203078
qTStatus qOffsets qSymbol:: !""".split()


def framed(body):
    return b"$" + body + b"#%02x" % (sum(body) % 256)


def changed(chance, body):
    """A body with some bytes changed, or a number or a length that there isn't."""
    way = chance.randrange(7)
    at = chance.randrange(len(body) + 1)
    if way == 0:
        return body[:at] + bytes([chance.randrange(256)]) + body[at + 1:]
    if way == 1:
        return body[:at] + body[at + 1:]
    if way == 2:
        return body[:at] + chance.randbytes(chance.randrange(1, 9)) + body[at:]
    if way == 3:
        return body + body
    if way == 4:
        return body + b"%017x" % chance.randrange(16 ** 17)
    if way == 5:
        return body[:at] + b"fffffff0,ffffffff"
    return body + b"0" * chance.choice((PACKET_SIZE - len(body), PACKET_SIZE, 5000))


def sent_for(chance, size):
    """What is sent for one request, most often changed."""
    body = chance.choice(REQUESTS).encode()
    way = chance.randrange(12)
    if way < 4:
        return framed(body)
    if way < 8:
        return framed(changed(chance, body))
    if way == 8:
        return b"$" + body + b"#%02x" % chance.randrange(256)
    if way == 9:
        return framed(body)[:chance.randrange(len(body) + 4)]
    if way == 10:
        return bytes(chance.choices((3, 43, 45, 0, 255, 36, 35, 125), k=chance.randrange(6)))
    if chance.randrange(50) == 0:
        return framed(b"m" + b"0" * size)
    return framed(changed(chance, changed(chance, body)))


def leaves(body):
    """Whether a request ends the session."""
    return body[:1] in (b"D", b"k") or body.startswith(b"vKill")


def read(sent):
    """What the protocol reads: `packet` with its body, `damaged`, `long`, or `again`, in order."""
    found, body, at = [], None, 0
    while at < len(sent):
        byte = sent[at]
        at += 1
        if body is None:
            if byte == 36:
                body, total, escaped, is_long = bytearray(), 0, False, False
            elif byte == 45:
                found.append(("again", b""))
        elif byte == 36:
            body, total, escaped, is_long = bytearray(), 0, False, False
        elif byte == 35 and is_long:
            found.append(("long", b""))
            body = None
        elif byte == 35:
            digits = sent[at:at + 2]
            at += 2
            if len(digits) == 2:
                is_number = all(it in b"0123456789abcdefABCDEF" for it in digits)
                is_right = is_number and int(digits, 16) == total
                found.append(("packet" if is_right else "damaged", bytes(body)))
            body = None
        elif is_long:
            pass
        elif byte == 125 and not escaped:
            total, escaped = (total + byte) % 256, True
        elif len(body) == PACKET_SIZE:
            is_long = True
        else:
            body.append(byte ^ 32 if escaped else byte)
            total, escaped = (total + byte) % 256, False
    return found


def is_answered(asks, came):
    """Whether what came back is a sign for each packet read, and a packet for each answer."""
    last, at = b"", 0
    for kind, body in asks:
        sign = {"again": b"", "damaged": b"-"}.get(kind, b"+")
        if not came.startswith(sign, at):
            return False
        at += len(sign)
        if kind in ("packet", "long") and body[:1] != b"k":
            end = came.find(b"#", at)
            last = came[at:end + 3]
            if end < 0 or last != framed(last[1:-3]):
                return False
        if kind != "damaged" and body[:1] != b"k":
            if not came.startswith(last, at):
                return False
            at += len(last)
        if kind == "packet" and leaves(body):
            break
    return at == len(came)


def main():
    parser = argparse.ArgumentParser(prog="bench/gdb_packets.py")
    parser.add_argument("viewer", type=pathlib.Path)
    parser.add_argument("--packets", type=int, default=100_000)
    parser.add_argument("--seed", type=int, default=1)
    asked = parser.parse_args()
    words = [asked.viewer.resolve(), "gdb", examples / "tally.elf", examples / "tally.record"]
    bytes_sent = wrong = 0
    for session in range(0, asked.packets, 500):
        chance = random.Random(f"{asked.seed} {session}")
        count = min(500, asked.packets - session)
        pieces = (sent_for(chance, 1 << 20) for _ in range(count))
        sent = b"".join(it for it in pieces if not any(leaves(body) for _, body in read(it)))
        ran = subprocess.run(words, input=sent, capture_output=True, timeout=600)
        bytes_sent += len(sent)
        asks = read(sent)
        if ran.returncode or ran.stderr or not is_answered(asks, ran.stdout):
            wrong += 1
            print(f"session {session} of seed {asked.seed}: status {ran.returncode}, "
                  f"{ran.stderr[:80]!r}", flush=True)
    print(f"{asked.packets:,} packets, {bytes_sent:,} bytes: {wrong} sessions are wrong")
    return 1 if wrong else 0


sys.exit(main())
