//! The form of case files and traces: lines to the letter, damaged files, what there is room for, the maker's bytes.

use second::case::play;
use second::make::bank_builder::{one_zone, quick, sample, zone_to};
use second::make::script::Script;

fn trace(case: &[u8]) -> String {
    let mut output = Vec::new();
    play(case, &mut output).expect("memory can be written");
    String::from_utf8(output).expect("a trace of text")
}

/// Two layers: in attack of 43 frames, and in a delay of 43 frames.
fn two_layers() -> Script {
    let attack = quick(&[(34, -12_000), (54, 1)]);
    let mut plan = one_zone(&attack, sample(0, 2));
    plan.instruments[0].push(zone_to(&[(54, 1)], 53, 0));
    let mut s = Script::default();
    s.begin_plan("name", &plan, &[1, 1]);
    s
}

#[test]
fn lines_of_each_call() {
    let mut s = two_layers();
    s.admission();
    s.list(0);
    s.list(1);
    s.on(0, 60, 127);
    s.go(1);
    s.panel(0);
    s.panel(1);
    s.panel(2);
    s.panel(32);
    s.off(0, 60);
    s.control(0, 120, 0);
    s.program(16, 0);
    s.bend(0, 16_384);
    s.ask(4_097, 0);
    s.bank(&[]);
    s.admission();
    s.list(0);
    s.on(0, 60, 127);
    // After one of 43 frames of attack the level is floor(2^24/43) = 390,167; the least a whose gain is at most that is
    // 327, with a gain of 388,794; in a delay it is 1,000, with a gain of 167. Each as binary32 over 2^24.
    let expected = "t name
a 0 0 | 00000000 00000000
l 0 0 0 1 | 00000000 00000000
l 0 end | 00000000 00000000
n 0 2 | 00000000 00000003 0d 1d
r 0 a8c7f832281a39c5 | 00000001 00000003 0a:3cbe82e0 1d
s 0 a:3cbe82e0 | 00000001 00000003 0a:3cbe82e0 1d
s 0 d | 00000001 00000003 0a:3cbe82e0 1d
s 0 f | 00000001 00000003 0a:3cbe82e0 1d
s 2 | 00000001 00000003 0a:3cbe82e0 1d
o 0 2 | 00000001 00000003 0r:3cbdd740 1r:37270000
c 0 0 | 00000001 00000000
p 2 0 | 00000001 00000000
b 2 0 | 00000001 00000000
r 6 cbf29ce484222325 | 00000001 00000000
a 1 0 | 00000001 00000000
l 1 | 00000001 00000000
n 1 0 | 00000001 00000000
";
    assert_eq!(trace(&s.bytes), expected);
}

/// The letters of our own with a line like those of the calls: the reader's i and j, the fault d, the count u.
#[test]
fn lines_of_our_own_letters() {
    let mut s = two_layers();
    s.opening();
    s.defect();
    s.row(0);
    s.row(1);
    s.in_use();
    s.on(0, 60, 127);
    s.in_use();
    s.silence(0);
    s.in_use();
    s.bank(b"phdr");
    s.opening();
    s.defect();
    s.row(0);
    s.bank(&vec![0; 65_537]);
    s.defect();
    let expected = "t name
i 0 0 | 00000000 00000000
d 0 0 | 00000000 00000000
j 0 0 0 1 | 00000000 00000000
j 0 end | 00000000 00000000
u 0 0 | 00000000 00000000
n 0 2 | 00000000 00000003 0d 1d
u 0 2 | 00000000 00000003 0d 1d
c 0 0 | 00000000 00000000
u 0 0 | 00000000 00000000
i 1 0 | 00000000 00000000
d 22 0 | 00000000 00000000
j 1 | 00000000 00000000
d 21 65536 | 00000000 00000000
";
    assert_eq!(trace(&s.bytes), expected);
}

/// FNV-1a over the bytes, the low byte of each number first, worked out here from its definition by itself.
#[test]
fn the_hash_is_over_all_of_the_output() {
    let mut s = Script::default();
    s.go_into(1, 3);
    let mut hash: u128 = 0xcbf2_9ce4_8422_2325;
    for byte in [0, 0, 0, 0, 0, 0, 0, 0, 0x78, 0x56, 0x34, 0x12] {
        hash = ((hash ^ byte) * 0x100_0000_01b3) % (1 << 64);
    }
    assert_eq!(trace(&s.bytes), format!("r 0 {hash:016x} | 00000001 00000000\n"));
}

#[test]
fn damaged_cases_end_with_bad() {
    let mut s = two_layers();
    s.on(0, 60, 127);
    s.ask(0, 0);
    s.title("last");
    let whole = trace(&s.bytes);
    assert!(!whole.contains("bad"));
    // Each file cut off: it ends with `bad` unless the cut falls between two commands, and what stands before is kept.
    let mut between = 0;
    for length in 0..s.bytes.len() {
        let cut = trace(&s.bytes[..length]);
        let kept = cut.strip_suffix("bad\n").unwrap_or_else(|| {
            between += 1;
            &cut
        });
        assert!(whole.starts_with(kept));
    }
    assert_eq!(between, 8, "in front of each of t B M O F n r t");
}

/// Behind each letter stand zeros, which no letter is: a call writes its line first, any other letter none. The hammer
/// strikes with no velocity of 0.
#[test]
fn unknown_letters_end_with_bad() {
    for letter in 0..=255u8 {
        let lines = trace(&[letter, 0, 0, 0, 0, 0, 0, 0, 0, 0]);
        let (line, end) = lines.split_at(lines.len() - 4);
        assert_eq!(end, "bad\n");
        let writes = b"alnocpbrstijduGHVE".contains(&letter);
        assert_eq!(line.is_empty(), !writes, "letter {letter}");
    }
    assert_eq!(trace(b"?aaa"), "bad\n");
}

#[test]
fn what_there_is_room_for() {
    let mut s = Script::default();
    s.bank(&vec![0; 66_000]);
    s.ram(&vec![1; 65_536]);
    s.rom(&vec![1; 65_536]);
    s.go_into(4_096, 8_448);
    assert!(!trace(&s.bytes).contains("bad"));
    let commands: [&dyn Fn(&mut Script); 4] =
        [&|s| s.bank(&vec![0; 66_001]), &|s| s.ram(&vec![1; 65_537]), &|s| s.rom(&vec![1; 65_537]), &|s| {
            s.go_into(1, 8_449)
        }];
    for command in commands {
        let mut s = Script::default();
        s.admission();
        command(&mut s);
        s.admission();
        assert_eq!(trace(&s.bytes), "a 1 0 | 00000000 00000000\nbad\n");
    }
}

/// The hammer: 44,100·2^(-10) = 43 frames for the default times, 119 cB for velocity 64, a semitone up.
#[test]
fn lines_of_the_hammer() {
    let mut plan = one_zone(&[(17, -20), (54, 2), (57, -1)], sample(2, 9));
    let gens = quick(&[(37, 400), (38, 0), (54, 7), (48, 30)]);
    plan.instruments[0].push(zone_to(&gens, 53, 0));
    plan.strike_plan(1, &[], vec![zone_to(&[], 53, 0); 33]);
    let mut s = Script::default();
    s.title("strikes");
    s.hammer(0, 0, 61, 64);
    s.bank(&plan.bytes());
    for program in 0..3 {
        s.hammer(program, 0, 61, 64);
    }
    s.hammer(0, 0, 128, 64);
    s.admission();
    let expected = "t strikes
h none
h 2
v 43 43 43 43 43 0 -20 -1 119 100 44100 0 0 2 9 0 0
v 0 0 0 0 44100 400 0 0 149 100 44100 3 0 2 9 0 7
h 33
h none
bad
";
    assert_eq!(trace(&s.bytes), expected);
}

#[test]
fn the_maker_writes_the_same_bytes_each_time() {
    let cases = second::make::all_cases();
    assert!(cases.bytes == second::make::all_cases().bytes);
    let lines = trace(&cases.bytes);
    assert!(!lines.contains("\nbad\n"));
    for number in 0..=8 {
        let note_or_render = if number >= 5 { 'r' } else { 'n' };
        let given = format!("\n{note_or_render} {number} ");
        assert!(lines.contains(&given), "number {number} is never given");
    }
    for kind in 21..=27 {
        assert!(lines.contains(&format!("\nd {kind} ")), "kind {kind} is never given");
    }
    for count in 0..=32 {
        assert!(lines.contains(&format!("\nu 0 {count} ")), "{count} voices are never counted");
    }
}
