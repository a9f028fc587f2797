#!/usr/bin/env python3
"""The songs of speed/songs.c by python3-mido, a reader that others wrote. Standard input and the line that is printed are the same."""
import io
import struct
import sys
import mido


def round_of(data):
    """How many channel events there are, and the sum of their frames and bytes."""
    song = mido.MidiFile(file=io.BytesIO(data))
    passed, tempo, count, total = 0, 500000, 0, 0
    for message in song.tracks[0]:
        passed += message.time * tempo
        if message.type == 'set_tempo':
            tempo = message.tempo
        elif not message.is_meta and message.type != 'sysex':
            count += 1
            total += passed * 44100 // (song.ticks_per_beat * 1000000) + sum(message.bytes())
    return count, total


def main():
    rounds, length = struct.unpack('<II', sys.stdin.buffer.read(8))
    data = sys.stdin.buffer.read(length)
    count, total = 0, 0
    for _ in range(rounds):
        count, added = round_of(data)
        total += added
    print(0, count, total % 2 ** 32)


main()
