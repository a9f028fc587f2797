#!/usr/bin/env python3
"""real_merge.py SECOND FOLDER LIST: merges each of the files of FOLDER that LIST names by the program SECOND, and holds
the result to what python3-mido (1.2) makes of the same file: its merge_tracks gives all tracks in one, and here ticks
are only summed. Merging the result again may change no byte, and M-101's reader has to find as many events in it. A
line for each file that is not plainly the same, then the counts; the status is 1 where a file differs.

What mido does in other ways (tools/real_songs.py): it is laxer (running status behind a meta event, quantities of any
length, events past the track), so that it reads files that are refused with 9; it is stricter (chunks other than MTrk,
odd key signatures, bytes of F7 events), so that it raises where a file is merged. Both are listed, to be looked at. It
reads on behind an end of track, which is cut off here, and forgets the delta time of a meta event of a type that it
does not know, which is put back here. A gap that has to be bridged would differ too; no real song has had one.
"""
import collections
import io
import re
import struct
import subprocess
import sys
from mido.midifiles import midifiles
from mido.midifiles.tracks import merge_tracks

LIMIT = 65536  # the longest file that M-101's reader takes
build_meta_message = midifiles.build_meta_message


def with_delta(kind, data, delta=0):
    """mido's meta event, with the delta time that it forgets where it does not know the type."""
    message = build_meta_message(kind, data, delta)
    message.time = delta
    return message


midifiles.build_meta_message = with_delta


def ended(track):
    """The events of a track up to its end."""
    for place, message in enumerate(track):
        if message.type == 'end_of_track':
            return track[:place + 1]
    raise EOFError('no end of track')


def events(data):
    """Each channel event and tempo of a file with its tick, in mido's one sequence, and the tick of the end."""
    tick, found = 0, []
    song = midifiles.MidiFile(file=io.BytesIO(data))
    for message in merge_tracks([ended(track) for track in song.tracks]):
        tick += message.time
        if message.type == 'set_tempo':
            found.append((tick, 'tempo', message.tempo))
        elif not message.is_meta and message.type != 'sysex':
            found.append((tick, bytes(message.bytes())))
    return found, tick


def by_mido(data):
    """What mido has of a file, or nothing and what it raised."""
    try:
        return events(data), 'mido reads it'
    except Exception as error:  # mido raises whatever its parts raise
        return None, 'mido raises %s: %s' % (type(error).__name__, error)


def merged(second, data):
    """The merged file, or nothing and the number and place of the refusal."""
    done = subprocess.run([second, 'merge'], input=data, capture_output=True)
    if done.returncode == 0:
        return done.stdout, None
    said = done.stderr.decode().strip()
    refusal = re.fullmatch(r'merge: refused with (\d+) at place (\d+): .*', said)
    if not refusal:
        sys.exit('real_merge: ' + said)
    return None, refusal.groups()


def read_alike(second, data, found):
    """Whether M-101's reader finds as many channel events in a merged file, and merging it again changes no byte."""
    if merged(second, data)[0] != data:
        return False
    if len(data) > LIMIT:
        return True
    lines = subprocess.run([second, 'songs'], input=struct.pack('<I', len(data)) + data, capture_output=True).stdout
    count = sum(1 for event in found if event[1] != 'tempo')
    return lines.decode().splitlines()[-1] == '0 %d' % count


def judged(second, data):
    """What became of a file: a word to be counted, and more to be said where there is something to look at."""
    output, refusal = merged(second, data)
    found, said = by_mido(data)
    if refusal:
        return 'refused ' + refusal[0], 'at %s; %s' % (refusal[1], said), 0
    if not found:
        return 'merged, not read by mido', said, len(output)
    if events(output) != found or not read_alike(second, output, found[0]):
        return 'differs', said, len(output)
    return 'same', None, len(output)


def main():
    if len(sys.argv) != 4:
        sys.exit('real_merge.py SECOND FOLDER LIST')
    second, folder, names = sys.argv[1:]
    counts, formats, short, total = collections.Counter(), collections.Counter(), [0, 0], 0
    with open(names) as listed:
        for name in listed.read().splitlines():
            with open(name, 'rb') as file:
                data = file.read()
            word, more, length = judged(second, data)
            counts[word] += 1
            total += 1
            if length:
                formats['format %d' % data[9]] += 1
                short[0] += len(data) <= LIMIT
                short[1] += length <= LIMIT
            if more:
                print('%s: %s, %s' % (name[len(folder) + 1:], word, more))
    for word, count in sorted(counts.items()):
        print('%s: %d' % (word, count))
    kinds = ', '.join('%d of %s' % (count, form) for form, count in sorted(formats.items()))
    print('%d files, %d merged (%s); of at most %d bytes: %d before and %d after; %d differ'
          % (total, sum(formats.values()), kinds, LIMIT, *short, counts['differs']))
    sys.exit(1 if counts['differs'] else 0)


main()
