#!/usr/bin/env python3
"""real_waves.py: what python3's wave module says of WAVE files and writes as one, for real_waves.

    real_waves.py report FILE        channels, bits, frames a second, frames
    real_waves.py numbers FILE       the numbers of its frames as they stand in it, on standard output
    real_waves.py write RAW FILE     a file of two channels of 16 bits at 44,100 from such numbers
    real_waves.py commands FILE..    for each file the command R of the program `waves`, with the room it needs
    real_waves.py lines FILE..       the lines that are right for them: 28 but for files of the one kind there is"""
import struct
import sys
import wave

KIND = (2, 16, 44100)
NUMBER_BEFORE = b'\x34\x12'


def opened(name):
    """Channels, bits, frames a second, frames, and the bytes of the frames."""
    with wave.open(name, 'rb') as file:
        frames = file.getnframes()
        return file.getnchannels(), 8 * file.getsampwidth(), file.getframerate(), frames, file.readframes(frames)


def write(raw, name):
    with open(raw, 'rb') as numbers, wave.open(name, 'wb') as file:
        file.setnchannels(2)
        file.setsampwidth(2)
        file.setframerate(44100)
        file.writeframes(numbers.read())


def room_of(data):
    """How many 16-bit numbers the bytes behind a heading of 44 are; no more than `waves` has room for."""
    return min(max(0, len(data) - 44) // 2, 8448)


def command(name):
    with open(name, 'rb') as file:
        data = file.read()
    return b'R' + struct.pack('<I', len(data)) + data + struct.pack('<I', room_of(data))


def hashed(data):
    """The FNV-1a hash of 64 bits."""
    value = 0xcbf29ce484222325
    for byte in data:
        value = (value ^ byte) * 0x100000001b3 & 0xffffffffffffffff
    return '%016x' % value


def line(name):
    """By the file's name, which says whether it is of the one kind: the reader is not asked."""
    with open(name, 'rb') as file:
        room = room_of(file.read())
    if '.other.' in name:
        return 'R 28 0 ' + hashed(room * NUMBER_BEFORE)
    *kind, frames, numbers = opened(name)
    if tuple(kind) != KIND:
        sys.exit('real_waves.py: %s is of another kind' % name)
    return 'R 0 %d %s' % (frames, hashed(numbers))


def main():
    match sys.argv[1:]:
        case ['report', name]:
            print(*opened(name)[:4])
        case ['numbers', name]:
            sys.stdout.buffer.write(opened(name)[4])
        case ['write', raw, name]:
            write(raw, name)
        case ['commands', *names]:
            sys.stdout.buffer.write(b''.join(map(command, names)))
        case ['lines', *names]:
            print('\n'.join(map(line, names)))
        case _:
            sys.exit(__doc__)


main()
