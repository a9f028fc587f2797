#!/usr/bin/env python3
"""real_songs.py LIST REMARKS: the lines of the program `songs` for the files that LIST names, as python3-mido (1.2) reads
them. mido reads chunks, delta times, running status and messages; here ticks are only summed times the tempo. For each
file a line of REMARKS says what mido found: format, tracks and division, or what it raised.

Where mido is laxer than M-101 (running status behind a meta event, quantities of any length, events past the track) or
stricter (chunks other than MTrk, odd key signatures, bytes of F7 events), or forgets a delta time (of a meta event of a
type that it does not know), the lines differ. Then look at the file."""
import io
import sys
from mido.midifiles import midifiles

LIMIT = 65536
places = []  # of the events that mido began to read


def noting(read):
    """The reader of one kind of event, which notes its place first: one byte behind the delta time is read by then."""
    def reader(infile, *rest):
        places.append(infile.tell() - 1)
        return read(infile, *rest)
    return reader


for kind in ('read_message', 'read_meta_message', 'read_sysex'):
    setattr(midifiles, kind, noting(getattr(midifiles, kind)))


def lines_of(track, division, end):
    """The lines of a track that mido has read to its end."""
    ticks_tempo, tempo, lines = 0, 500000, []
    for place, message in zip(places, track):
        ticks_tempo += message.time * tempo
        if ticks_tempo > 3600000000 * division:
            return ['11 %d' % place]
        if message.type == 'end_of_track':
            return lines + ['0 %d' % len(lines)]
        if message.type == 'set_tempo':
            tempo = message.tempo
        elif not message.is_meta and message.type != 'sysex':
            if message.bytes()[0] > 0xef:  # F1 to F6, F8 to FE
                return ['9 %d' % place]
            frame = ticks_tempo * 44100 // (division * 1000000)
            lines.append(' '.join([str(frame)] + ['%02x' % byte for byte in message.bytes()]))
    return ['9 %d' % end]


def judged(data):
    """The lines of a file, and what mido found in it."""
    infile = io.BytesIO(data)
    try:
        form, tracks, division = midifiles.read_file_header(infile)
    except (OSError, EOFError) as error:
        return ['9 0'], 'no head: %s' % error
    found = 'format %d, tracks %d, division %d' % (form, tracks, division)
    raised = None
    infile.seek(0)
    places.clear()
    try:
        song = midifiles.MidiFile(file=infile)
    except Exception as error:  # mido raises whatever its parts raise
        raised = '%s: %s' % (type(error).__name__, error)
        found += ', raises ' + raised
    if form != 0:
        return ['10 8'], found
    if tracks != 1:
        return ['9 10'], found
    if division <= 0:
        return ['9 12' if division == 0 else '10 12'], found
    if raised:
        return ['9 %d' % places[-1] if places else '9 ?'], found
    return lines_of(song.tracks[0], division, infile.tell()), found


def main():
    if len(sys.argv) != 3:
        sys.exit('real_songs.py LIST REMARKS')
    with open(sys.argv[1]) as names, open(sys.argv[2], 'w') as remarks:
        for name in names.read().splitlines():
            with open(name, 'rb') as file:
                data = file.read()
            lines, found = judged(data)
            if len(data) > LIMIT:
                lines, found = ['9 %d' % LIMIT], '%d bytes, %s' % (len(data), found)
            print('\n'.join(lines))
            print(found, file=remarks)


main()
