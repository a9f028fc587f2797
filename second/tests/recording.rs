//! Recordings: which numbers of a case its file has, and what is said of a case that has none.

mod common;

use common::Rig;
use second::make::bank_builder::{one_zone, quick, sample, BankPlan};
use second::make::record_cases;
use second::make::script::{noise, Script};
use second::record::{file, MEMORY_ROOM};
use second::wave_file;

fn recorded(case: &[u8]) -> Vec<u8> {
    file(case).expect("a case that is not damaged")
}

/// The 16-bit numbers of a case's file.
fn levels(case: &[u8]) -> Vec<i16> {
    wave_file::read(&recorded(case), usize::MAX).expect("a file that can be read")
}

fn complaint(case: &[u8]) -> String {
    file(case).expect_err("a damaged case").to_string()
}

fn bell() -> (BankPlan, Vec<i16>) {
    (one_zone(&quick(&[(36, -3_000), (37, 500), (54, 1)]), sample(0, 90)), noise(90, 44))
}

fn begun() -> Script {
    let (plan, ram) = bell();
    let mut s = Script::default();
    s.begin_plan("bell", &plan, &ram);
    s
}

#[test]
fn a_case_without_renders_is_a_heading() {
    assert_eq!(recorded(&[]), wave_file::heading(0));
    let mut s = begun();
    s.on(0, 60, 100);
    s.go(0);
    assert_eq!(recorded(&s.bytes), wave_file::heading(0));
}

/// The file has what the engine renders, and of an output that is longer only its frames.
#[test]
fn the_numbers_are_those_of_the_renders() {
    let (plan, ram) = bell();
    let mut rig = Rig::new(&plan, &ram);
    rig.on(0, 60, 100).expect("a stroke");
    let numbers = [rig.render(700), rig.render(41)].concat();
    let mut s = begun();
    s.on(0, 60, 100);
    s.go_into(700, 8_448);
    s.go(41);
    assert_eq!(Ok(recorded(&s.bytes)), wave_file::write(&numbers, usize::MAX));
    assert!(levels(&s.bytes).iter().any(|level| *level > 1_000), "the bell is heard");
}

/// 3,000 frames in one render, in single frames, in two parts at each of some places.
#[test]
fn the_file_is_the_same_however_the_renders_are_cut() {
    let cut = |parts: &[u32]| {
        let mut s = begun();
        s.on(0, 60, 100);
        parts.iter().for_each(|n| s.go(*n));
        recorded(&s.bytes)
    };
    let whole = cut(&[3_000]);
    assert!(whole == cut(&[1; 3_000]));
    for place in [0, 1, 2, 63, 64, 1_499, 2_999, 3_000] {
        assert!(whole == cut(&[place, 3_000 - place]), "cut at {place}");
    }
}

#[test]
fn refusals_and_asks_leave_no_trace_in_the_file() {
    let case = |between: &dyn Fn(&mut Script)| {
        let mut s = begun();
        s.on(0, 60, 100);
        s.go(300);
        between(&mut s);
        s.go(300);
        recorded(&s.bytes)
    };
    let plain = case(&|_| {});
    assert!(
        plain == case(&|s| [(4_097, 8_448), (1 << 31, 8_448), (5, 9)].iter().for_each(|(n, room)| s.ask(*n, *room)))
    );
    assert!(plain == case(&|s| s.on(0, 60, 200)));
    let asks: [fn(&mut Script); 9] = [
        |s| s.admission(),
        |s| s.opening(),
        |s| s.defect(),
        |s| s.row(0),
        |s| s.list(0),
        |s| s.panel(0),
        |s| s.in_use(),
        |s| s.hammer(0, 0, 60, 100),
        |s| s.title("another name"),
    ];
    assert!(plain == case(&|s| asks.iter().for_each(|ask| ask(s))));
}

#[test]
fn what_is_said_of_damaged_cases() {
    let before = begun().bytes;
    let at = before.len();
    let said = |bytes: &[u8]| complaint(&[before.as_slice(), bytes].concat());
    assert_eq!(said(b"q"), format!("the command 'q' at byte {at} is unknown"));
    assert_eq!(said(b"s\x20\xff"), format!("the command '\\xff' at byte {} is unknown", at + 2));
    assert_eq!(said(b"n\0<"), format!("the command 'n' at byte {at} is cut off"));
    assert_eq!(said(b"aar\0\0\0\0"), format!("the command 'r' at byte {} is cut off", at + 2));
    assert_eq!(
        said(b"r\0\0\0\0\x01\x21\0\0"),
        format!("the command 'r' at byte {at} names more than there is room for")
    );
    assert_eq!(said(b"h\0\0\x3c\0"), format!("the command 'h' at byte {at} names a stroke that no hammer makes"));
}

/// The bell stands at the very end of the longest memory.
#[test]
fn the_room_of_a_memory_and_one_sample_more() {
    let longest = MEMORY_ROOM as usize;
    let mut ram = vec![0; longest];
    ram[longest - 9..].copy_from_slice(&noise(9, 45));
    let plan = one_zone(&quick(&[(54, 1)]), sample(MEMORY_ROOM - 9, MEMORY_ROOM));
    let mut s = Script::default();
    s.begin("long", &plan.bytes(), &ram, &ram);
    s.on(0, 60, 127);
    s.go(20);
    assert!(levels(&s.bytes).iter().any(|level| *level != 0));
    let lends: [fn(&mut Script, &[i16]); 2] = [Script::ram, Script::rom];
    for lend in lends {
        let mut s = Script::default();
        lend(&mut s, &vec![0; longest + 1]);
        assert!(complaint(&s.bytes).ends_with("at byte 0 names more than there is room for"));
    }
}

#[test]
fn the_stored_recording_reaches_what_it_must() {
    let case = record_cases::case();
    assert!(case == record_cases::case());
    let (found, most) = (levels(&case), 300_000);
    assert!(case.len() < most && 44 + 2 * found.len() < most);
    for level in [32_767, 1, 0, -1, -2, -32_768] {
        assert!(found.contains(&level), "{level} is never reached");
    }
}

/// The carillon's figures: how many frames, the peak of 0.751 (0.743 before M-100), and silence from 91.850 s on.
#[test]
fn the_carillon_as_it_was_measured() {
    let found = levels(&second::bells::case());
    let peak = found.iter().map(|level| i32::from(*level).abs()).max();
    let last = found.iter().rposition(|level| *level != 0).map(|place| place / 2);
    assert_eq!((found.len() / 2, peak), (4_159_071, Some(24_598)));
    assert!(last.is_some_and(|frame| (4_050_000..4_050_586).contains(&frame)), "{last:?}");
}
