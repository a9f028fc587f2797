//! thularek.h for Rust, std alone: each call over slices, which make its pointers and lengths. What the header asks of a
//! caller holds by Rust's own rules, but for the stack: 128 KB have to be free. Link libthularek.
#![allow(dead_code)]

/// The state, as in thularek.h.
#[repr(C)]
#[derive(Clone)]
pub struct Thularek {
    block: [u64; 1024],
}

extern "C" {
    fn thularek_message(number: u32) -> *const std::ffi::c_char;
    fn thularek_init(state: *mut Thularek) -> u32;
    fn thularek_note_on(
        state: *mut Thularek,
        bank: *const u8,
        bank_length: usize,
        ram: *const i16,
        ram_length: usize,
        rom: *const i16,
        rom_length: usize,
        channel: u8,
        key: u8,
        velocity: u8,
    ) -> u32;
    fn thularek_note_off(state: *mut Thularek, channel: u8, key: u8) -> u32;
    fn thularek_control_change(state: *mut Thularek, channel: u8, control: u8, value: u8) -> u32;
    fn thularek_program_change(state: *mut Thularek, channel: u8, program: u8) -> u32;
    fn thularek_pitch_bend(state: *mut Thularek, channel: u8, bend: u16) -> u32;
    fn thularek_render(
        state: *mut Thularek,
        ram: *const i16,
        ram_length: usize,
        rom: *const i16,
        rom_length: usize,
        out: *mut f32,
        out_length: usize,
        to: u32,
    ) -> u32;
    fn thularek_sums(
        state: *mut Thularek,
        ram: *const i16,
        ram_length: usize,
        rom: *const i16,
        rom_length: usize,
        out: *mut i32,
        out_length: usize,
        to: u32,
    ) -> u32;
    fn thularek_song_start(state: *mut Thularek, song: *const u8, song_length: usize) -> u32;
    fn thularek_song_stop(state: *mut Thularek) -> u32;
    fn thularek_song_render(
        state: *mut Thularek,
        song: *const u8,
        song_length: usize,
        bank: *const u8,
        bank_length: usize,
        ram: *const i16,
        ram_length: usize,
        rom: *const i16,
        rom_length: usize,
        out: *mut f32,
        out_length: usize,
        to: u32,
    ) -> u32;
    fn thularek_song_step(
        state: *mut Thularek,
        song: *const u8,
        song_length: usize,
        bank: *const u8,
        bank_length: usize,
        ram: *const i16,
        ram_length: usize,
        rom: *const i16,
        rom_length: usize,
    ) -> u32;
    fn thularek_count(state: *const Thularek) -> u32;
    fn thularek_refused(state: *const Thularek) -> u32;
    fn thularek_place(state: *const Thularek) -> u32;
    fn thularek_clock(state: *const Thularek) -> u32;
    fn thularek_song_is_over(state: *const Thularek) -> u32;
    fn thularek_song_gap(state: *const Thularek, most: u32) -> u32;
    fn thularek_song_next(state: *const Thularek) -> u32;
    fn thularek_song_frame(state: *const Thularek) -> u32;
    fn thularek_channel_program(state: *const Thularek, channel: u8) -> u32;
    fn thularek_channel_bank(state: *const Thularek, channel: u8) -> u32;
    fn thularek_is_silent(state: *const Thularek) -> u32;
    fn thularek_voice_count(state: *const Thularek) -> u32;
    fn thularek_held_count(state: *const Thularek) -> u32;
    fn thularek_panel_stage(state: *const Thularek, slot: u8) -> u32;
    fn thularek_panel_level(state: *const Thularek, slot: u8) -> f32;
    fn thularek_font(
        file: *const u8,
        file_length: usize,
        bank: *mut usize,
        bank_size: *mut usize,
        samples: *mut usize,
        samples_size: *mut usize,
        place: *mut usize,
    ) -> u32;
    fn thularek_admit(bank: *const u8, bank_length: usize) -> u32;
    fn thularek_bank_fault(bank: *const u8, bank_length: usize, place: *mut usize) -> u32;
    fn thularek_list(
        bytes: *const u8,
        bytes_length: usize,
        place: u32,
        program: *mut u16,
        bank: *mut u16,
        next: *mut usize,
    ) -> u32;
    fn thularek_preset(
        bytes: *const u8,
        bytes_length: usize,
        place: u32,
        name: *mut usize,
        zones: *mut u32,
        low: *mut u8,
        high: *mut u8,
    ) -> u32;
    fn thularek_past_memory(
        bank: *const u8,
        bank_length: usize,
        ram_count: usize,
        rom_count: usize,
        place: *mut usize,
    ) -> u32;
    fn thularek_song_test(song: *const u8, song_length: usize, place: *mut u32) -> u32;
    fn thularek_merge(
        file: *const u8,
        file_length: usize,
        out: *mut u8,
        out_length: usize,
        size: *mut usize,
        place: *mut u32,
    ) -> u32;
    fn thularek_wave_heading(frames: u64, out: *mut u8, out_length: usize) -> u32;
    fn thularek_wave_pour(numbers: *const f32, numbers_length: usize, out: *mut u8, out_length: usize) -> u32;
    fn thularek_wave_sums(
        sums: *const i32,
        sums_length: usize,
        attenuation: u16,
        out: *mut u8,
        out_length: usize,
        held: *mut u32,
        loudest: *mut u32,
    ) -> u32;
    fn thularek_attenuation_for(loudest: u32) -> u32;
    fn thularek_wave_read(
        file: *const u8,
        file_length: usize,
        out: *mut i16,
        out_length: usize,
        frames: *mut u32,
    ) -> u32;
}

impl Thularek {
    /// A fresh engine, and no song.
    pub fn new() -> Thularek {
        let mut state = Thularek { block: [0; 1024] };
        unsafe { thularek_init(&mut state) };
        state
    }

    pub fn note_on(&mut self, bank: &[u8], ram: &[i16], rom: &[i16], channel: u8, key: u8, velocity: u8) -> u32 {
        let (r, o) = (ram.as_ptr(), rom.as_ptr());
        unsafe { thularek_note_on(self, bank.as_ptr(), bank.len(), r, ram.len(), o, rom.len(), channel, key, velocity) }
    }

    pub fn note_off(&mut self, channel: u8, key: u8) -> u32 {
        unsafe { thularek_note_off(self, channel, key) }
    }

    pub fn control_change(&mut self, channel: u8, control: u8, value: u8) -> u32 {
        unsafe { thularek_control_change(self, channel, control, value) }
    }

    pub fn program_change(&mut self, channel: u8, program: u8) -> u32 {
        unsafe { thularek_program_change(self, channel, program) }
    }

    pub fn pitch_bend(&mut self, channel: u8, bend: u16) -> u32 {
        unsafe { thularek_pitch_bend(self, channel, bend) }
    }

    pub fn render(&mut self, ram: &[i16], rom: &[i16], out: &mut [f32], to: u32) -> u32 {
        let (r, o) = (ram.as_ptr(), rom.as_ptr());
        unsafe { thularek_render(self, r, ram.len(), o, rom.len(), out.as_mut_ptr(), out.len(), to) }
    }

    pub fn sums(&mut self, ram: &[i16], rom: &[i16], out: &mut [i32], to: u32) -> u32 {
        let (r, o) = (ram.as_ptr(), rom.as_ptr());
        unsafe { thularek_sums(self, r, ram.len(), o, rom.len(), out.as_mut_ptr(), out.len(), to) }
    }

    pub fn song_start(&mut self, song: &[u8]) -> u32 {
        unsafe { thularek_song_start(self, song.as_ptr(), song.len()) }
    }

    pub fn song_stop(&mut self) -> u32 {
        unsafe { thularek_song_stop(self) }
    }

    pub fn song_render(&mut self, song: &[u8], bank: &[u8], ram: &[i16], rom: &[i16], out: &mut [f32], to: u32) -> u32 {
        let (s, b, r, o) = (song.as_ptr(), bank.as_ptr(), ram.as_ptr(), rom.as_ptr());
        let out_length = out.len();
        unsafe {
            thularek_song_render(
                self,
                s,
                song.len(),
                b,
                bank.len(),
                r,
                ram.len(),
                o,
                rom.len(),
                out.as_mut_ptr(),
                out_length,
                to,
            )
        }
    }

    /// The event that comes next acts now: its number.
    pub fn song_step(&mut self, song: &[u8], bank: &[u8], ram: &[i16], rom: &[i16]) -> u32 {
        let (s, b, r, o) = (song.as_ptr(), bank.as_ptr(), ram.as_ptr(), rom.as_ptr());
        unsafe { thularek_song_step(self, s, song.len(), b, bank.len(), r, ram.len(), o, rom.len()) }
    }

    pub fn count(&self) -> u32 {
        unsafe { thularek_count(self) }
    }

    pub fn refused(&self) -> u32 {
        unsafe { thularek_refused(self) }
    }

    pub fn place(&self) -> u32 {
        unsafe { thularek_place(self) }
    }

    pub fn clock(&self) -> u32 {
        unsafe { thularek_clock(self) }
    }

    pub fn song_is_over(&self) -> bool {
        unsafe { thularek_song_is_over(self) != 0 }
    }

    pub fn song_gap(&self, most: u32) -> u32 {
        unsafe { thularek_song_gap(self, most) }
    }

    pub fn song_next(&self) -> u32 {
        unsafe { thularek_song_next(self) }
    }

    pub fn song_frame(&self) -> u32 {
        unsafe { thularek_song_frame(self) }
    }

    pub fn channel_program(&self, channel: u8) -> u32 {
        unsafe { thularek_channel_program(self, channel) }
    }

    pub fn channel_bank(&self, channel: u8) -> u32 {
        unsafe { thularek_channel_bank(self, channel) }
    }

    pub fn is_silent(&self) -> bool {
        unsafe { thularek_is_silent(self) != 0 }
    }

    pub fn voice_count(&self) -> u32 {
        unsafe { thularek_voice_count(self) }
    }

    pub fn held_count(&self) -> u32 {
        unsafe { thularek_held_count(self) }
    }

    pub fn panel_stage(&self, slot: u8) -> u32 {
        unsafe { thularek_panel_stage(self, slot) }
    }

    pub fn panel_level(&self, slot: u8) -> f32 {
        unsafe { thularek_panel_level(self, slot) }
    }

    /// The bytes of the state.
    pub fn bytes(&mut self) -> &mut [u8; 8192] {
        unsafe { &mut *self.block.as_mut_ptr().cast() }
    }
}

/// What a number says, in words.
pub fn message(number: u32) -> &'static str {
    unsafe { std::ffi::CStr::from_ptr(thularek_message(number)) }.to_str().unwrap_or_default()
}

/// Where the bank and the samples of a SoundFont file lie, or the number and place of its fault.
pub fn font(file: &[u8]) -> Result<(std::ops::Range<usize>, std::ops::Range<usize>), (u32, usize)> {
    let [mut bank, mut bank_size, mut samples, mut samples_size, mut place] = [0; 5];
    let length = file.len();
    match unsafe {
        thularek_font(file.as_ptr(), length, &mut bank, &mut bank_size, &mut samples, &mut samples_size, &mut place)
    } {
        0 => Ok((bank..bank + bank_size, samples..samples + samples_size)),
        number => Err((number, place)),
    }
}

pub fn admit(bank: &[u8]) -> u32 {
    unsafe { thularek_admit(bank.as_ptr(), bank.len()) }
}

/// The kind of a bank's first fault, 0 for none, and its place.
pub fn bank_fault(bank: &[u8]) -> (u32, usize) {
    let mut place = 0;
    let kind = unsafe { thularek_bank_fault(bank.as_ptr(), bank.len(), &mut place) };
    (kind, place)
}

/// 0 and a preset's program, bank and the next place; 1 where the bank is not admitted, 2 at the end.
pub fn list(bytes: &[u8], place: u32) -> (u32, u16, u16, usize) {
    let (mut program, mut bank, mut next) = (0, 0, 0);
    let kind = unsafe { thularek_list(bytes.as_ptr(), bytes.len(), place, &mut program, &mut bank, &mut next) };
    (kind, program, bank, next)
}

/// 0 and where a preset's name begins, its zones, its lowest and its highest key; 1 where the bank is not admitted, 2
/// at the end.
pub fn preset(bytes: &[u8], place: u32) -> (u32, usize, u32, u8, u8) {
    let (mut name, mut zones, mut low, mut high) = (0, 0, 0, 0);
    let kind =
        unsafe { thularek_preset(bytes.as_ptr(), bytes.len(), place, &mut name, &mut zones, &mut low, &mut high) };
    (kind, name, zones, low, high)
}

/// 8 and the place of the first window that ends past a memory of so many samples, or 0.
pub fn past_memory(bank: &[u8], ram: usize, rom: usize) -> (u32, usize) {
    let mut place = 0;
    let number = unsafe { thularek_past_memory(bank.as_ptr(), bank.len(), ram, rom, &mut place) };
    (number, place)
}

/// A song's number, and the place of its first fault.
pub fn song_test(song: &[u8]) -> (u32, u32) {
    let mut place = 0;
    let number = unsafe { thularek_song_test(song.as_ptr(), song.len(), &mut place) };
    (number, place)
}

/// A song of several tracks as one: its number, how many bytes were written, and the place of its first fault.
pub fn merge(file: &[u8], out: &mut [u8]) -> (u32, usize, u32) {
    let (mut size, mut place) = (0, 0);
    let number =
        unsafe { thularek_merge(file.as_ptr(), file.len(), out.as_mut_ptr(), out.len(), &mut size, &mut place) };
    (number, size, place)
}

pub fn wave_heading(frames: u64, out: &mut [u8]) -> u32 {
    unsafe { thularek_wave_heading(frames, out.as_mut_ptr(), out.len()) }
}

pub fn wave_pour(numbers: &[f32], out: &mut [u8]) -> u32 {
    unsafe { thularek_wave_pour(numbers.as_ptr(), numbers.len(), out.as_mut_ptr(), out.len()) }
}

/// The number, how many frames were held, and the largest size of a sum before it was lowered.
pub fn wave_sums(sums: &[i32], attenuation: u16, out: &mut [u8]) -> (u32, u32, u32) {
    let (mut held, mut loudest) = (0, 0);
    let (s, o, room) = (sums.as_ptr(), out.as_mut_ptr(), out.len());
    let number = unsafe { thularek_wave_sums(s, sums.len(), attenuation, o, room, &mut held, &mut loudest) };
    (number, held, loudest)
}

/// The least attenuation in cB with which no sum of at most this size is held.
pub fn attenuation_for(loudest: u32) -> u32 {
    unsafe { thularek_attenuation_for(loudest) }
}

/// A file's number and frames.
pub fn wave_read(file: &[u8], out: &mut [i16]) -> (u32, u32) {
    let mut frames = 0;
    let number = unsafe { thularek_wave_read(file.as_ptr(), file.len(), out.as_mut_ptr(), out.len(), &mut frames) };
    (number, frames)
}
