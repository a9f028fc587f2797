/* What a number says, in words. This file alone of the library is written in C, and it is not proved. */
#include "thularek.h"

const char *thularek_message(uint32_t number) {
    switch (number) {
    case THULAREK_DONE: return "done";
    case THULAREK_BANK_NOT_ADMITTED: return "the bank is not admitted";
    case THULAREK_PAST_RANGE: return "a channel, key, control, value or slot is past its range";
    case THULAREK_NO_SUCH_PRESET: return "the bank has no such preset";
    case THULAREK_TOO_MANY_LAYERS: return "the key has 33 layers or more";
    case THULAREK_CLOCK_TOO_FAR: return "the clock value is 2^31 frames away or more, or lies behind";
    case THULAREK_TOO_MANY_FRAMES: return "more than 4,096 frames in one render";
    case THULAREK_OUTPUT_TOO_SHORT: return "the output is shorter than two numbers a frame";
    case THULAREK_WINDOW_PAST_MEMORY: return "a sample ends past the memory that was lent";
    case THULAREK_SONG_MALFORMED: return "the song is not well formed, or longer than there is room for";
    case THULAREK_SONG_FORMAT: return "the song's format or its division in SMPTE frames is not played";
    case THULAREK_SONG_TOO_LATE: return "the song has an event later than an hour";
    case THULAREK_EVENTS_FULL: return "64 events wait already";
    case THULAREK_WAVE_NUMBERS: return "an odd count of numbers, or one that no render writes";
    case THULAREK_WAVE_TOO_LONG: return "more than 1,073,741,814 frames for a WAVE file";
    case THULAREK_WAVE_NO_ROOM: return "the output is too short for the WAVE file or its numbers";
    case THULAREK_BOOK_MALFORMED: return "the book of pieces is malformed";
    case THULAREK_BOOK_PAST_RANGE: return "the day, hour or minute is past its range";
    case THULAREK_THIN_NO_SUCH_PAIR: return "the bank lacks a pair of bank and program";
    case THULAREK_THIN_NO_ROOM: return "the output is shorter than the thinned bank";
    case THULAREK_BOOK_NO_ROOM: return "the output is shorter than the book of pieces";
    case THULAREK_BANK_TOO_LONG: return "the bank is longer than 65,536 bytes";
    case THULAREK_BANK_CHUNK: return "a chunk of the bank has another name, order or length";
    case THULAREK_BANK_RECORDS: return "a chunk of the bank has too few records, or not whole ones";
    case THULAREK_BANK_INDEX: return "an index of the bank falls or ends wrong";
    case THULAREK_BANK_NUMBER: return "an instrument or sample number of the bank is too high";
    case THULAREK_BANK_RATE: return "a sample rate of the bank is not 400 to 50,000";
    case THULAREK_BANK_WINDOW: return "a sample's window or loop in the bank is not possible";
    case THULAREK_WAVE_OTHER_FILE: return "this is no WAVE file of the kind that is written here";
    case THULAREK_FONT_NO_FORM: return "this is no SoundFont file";
    case THULAREK_FONT_CUT: return "the SoundFont file is cut off, or one of its chunks is not whole";
    case THULAREK_FONT_MISSING: return "the SoundFont file has no bank or no samples";
    case THULAREK_MERGE_NO_ROOM: return "the merged song is longer than its room";
    case THULAREK_MERGE_TOO_MANY_TRACKS: return "the song has more than 256 tracks";
    default: return "no such number";
    }
}
