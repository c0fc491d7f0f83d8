#!/usr/bin/env python3
"""Writes the sample captures beside this file.

day.cap        a short day on channel 2011, told by two senders
malformed.cap  the third record is cut short
empty.cap      a header and no record
"""
from pathlib import Path
from struct import pack
from zlib import adler32

CHANNEL = 2011
START = 1
TOKEN = b'\x01\x02'

# bits of the flag
DUPLICATE = 1 << 15
APPLICATION = 1 << 13
RESEND = 1 << 12
SEALED = 1 << 8
LENGTHS = 1 << 7
FRAGMENT = 1 << 6
CHECKSUM = 1 << 5
DATA = APPLICATION | RESEND | LENGTHS

STREAM_HEARTBEAT = 0
STREAM_END = 65535


def datagram(sender, channel, number, count, flag, extra=b'', body=b''):
    """A datagram: header with its extra fields, coded body, trailer."""
    words = 5 + len(extra) // 4
    header = pack('>BBBBHHqHH', 0xFF, 1, words, sender, 1, channel, number, count, flag) + extra
    return header + body + pack('>I', adler32(header + body))


def plain_body(messages):
    """The lengths of the messages, then the messages."""
    return b''.join(pack('>I', len(m)) for m in messages) + b''.join(messages)


def packet(sender, first, messages, flag=DATA):
    """Messages from number first on, in one datagram."""
    return datagram(sender, CHANNEL, first, len(messages), flag, body=plain_body(messages))


def sealed_packet(sender, first, messages):
    """The same, its body XORed with the token over and over."""
    sealed = bytes(byte ^ TOKEN[i % len(TOKEN)] for i, byte in enumerate(plain_body(messages)))
    return datagram(sender, CHANNEL, first, len(messages), DATA | SEALED, body=sealed)


def fragments(sender, first, messages, size):
    """The same in pieces of this size, the last perhaps shorter, with the checksum of the whole body."""
    body = plain_body(messages)
    pieces = [body[at:at + size] for at in range(0, len(body), size)]
    flag = DATA | FRAGMENT | CHECKSUM
    return [datagram(sender, CHANNEL, first, len(messages), flag,
                     pack('>HHI', len(pieces), number, adler32(body)), piece)
            for number, piece in enumerate(pieces, 1)]


def multicast_heartbeat(sender):
    return datagram(sender, 0, 0, 0, 0)


def stream_heartbeat(sender, last):
    return datagram(sender, CHANNEL, last, STREAM_HEARTBEAT, 0)


def stream_end(sender, last):
    return datagram(sender, CHANNEL, last, STREAM_END, 0)


def damaged(whole):
    """The datagram with one bit of its trailer turned."""
    return whole[:-1] + bytes([whole[-1] ^ 1])


def arrival(data):
    return b'\x01' + pack('>H', len(data)) + data


def judge(number):
    return b'\x02' + pack('>Q', number)


def capture(*records):
    return b'MDC' + pack('>HHQ', 1, CHANNEL, START) + b''.join(records)


def day():
    """Sender 2 is ahead: its heartbeat tells of number 4 before sender 1 has sent 3."""
    return capture(
        arrival(packet(1, 1, [b'AB', b'C'])),
        arrival(packet(2, 1, [b'AB', b'C'], DATA | DUPLICATE)),
        arrival(stream_heartbeat(2, 4)),
        *map(arrival, fragments(1, 3, [b'in three pieces.'], 8)),
        arrival(sealed_packet(1, 4, [b'sealed'])),
        judge(5),
        arrival(packet(1, 5, [b'EE'])),
        arrival(damaged(packet(2, 5, [b'EE']))),
        arrival(multicast_heartbeat(2)),
        arrival(stream_end(1, 5)))


def malformed():
    """A packet, a heartbeat, and a packet without its last byte."""
    return capture(
        arrival(packet(1, 1, [b'AB', b'C'])),
        arrival(stream_heartbeat(1, 2)),
        arrival(packet(1, 3, [b'D']))[:-1])


if __name__ == '__main__':
    samples = Path(__file__).resolve().parent
    for name, content in (('day', day()), ('malformed', malformed()), ('empty', capture())):
        (samples / f'{name}.cap').write_bytes(content)
