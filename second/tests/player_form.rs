//! The form of the player's letters: lines to the letter, damaged files, what there is room for; what the stored cases
//! reach; renders by the player in a recording.

use second::case::play;
use second::make::bad_cases;
use second::make::player_cases::{begin, ended, in_frames};
use second::make::script::Script;
use second::record;
use std::collections::BTreeSet;

fn trace(case: &[u8]) -> String {
    let mut output = Vec::new();
    play(case, &mut output).expect("memory can be written");
    String::from_utf8(output).expect("a trace of text")
}

/// A strike on the first frame, one that has no preset and the release on the second.
fn tune() -> Vec<u8> {
    ended(in_frames().then(0, &[0x90, 60, 100]).then(1, &[0xc1, 9]).then(0, &[0x91, 60, 100]).then(0, &[0x80, 60, 0]))
}

#[test]
fn lines_of_each_letter() {
    let mut s = Script::default();
    begin(&mut s, "name", &tune());
    s.over();
    s.start();
    s.over();
    s.play(0);
    s.play(1);
    s.over();
    s.ask_player(4_097, 0);
    s.play_into(1, 2);
    s.over();
    s.song(&tune()[..20]);
    s.start();
    s.song(&[]);
    s.start();
    s.stop();
    let hash = |number: usize| trace(&s.bytes).lines().nth(number).map(|line| line[8..24].to_string()).expect("a line");
    let [first, second] = [hash(5), hash(8)];
    let expected = format!(
        "t name
E 0 1 0 | 00000000 00000000
G 0 0 | 00000000 00000000
E 0 0 0 | 00000000 00000000
V 0 0 0 cbf29ce484222325 | 00000000 00000000
V 0 1 0 {first} | 00000001 00000001 0u:3f800000
E 0 0 1 | 00000001 00000001 0u:3f800000
V 6 0 0 cbf29ce484222325 | 00000001 00000001 0u:3f800000
V 0 3 1 {second} | 00000002 00000001 0r:3f747a64
E 0 1 1 | 00000002 00000001 0r:3f747a64
G 9 18 | 00000002 00000001 0r:3f747a64
G 9 0 | 00000002 00000001 0r:3f747a64
H 0 0 | 00000002 00000001 0r:3f747a64
"
    );
    assert_eq!(trace(&s.bytes), expected);
}

/// The same frames by the player and by direct calls with the engine's own renders: the hashes are the same.
#[test]
fn the_hash_is_that_of_the_engines_render() {
    let hashes = |s: Script, letter: char| -> Vec<String> {
        let lines = trace(&s.bytes);
        let calls = lines.lines().filter(|line| line.starts_with(letter)).filter_map(|line| line.split(" |").next());
        calls.filter_map(|call| call.split(' ').last()).map(String::from).collect()
    };
    let mut by_player = Script::default();
    begin(&mut by_player, "", &tune());
    by_player.start();
    let mut by_hand = Script::default();
    begin(&mut by_hand, "", &[]);
    by_hand.on(0, 60, 100);
    for n in [1, 3, 40] {
        by_player.play_into(n, 2 * n + 1);
        by_hand.go_into(n, 2 * n + 1);
        if n == 1 {
            by_hand.off(0, 60);
        }
    }
    assert_eq!(hashes(by_player, 'V'), hashes(by_hand, 'r'));
}

#[test]
fn what_there_is_room_for() {
    let mut s = Script::default();
    s.song(&vec![0; 66_000]);
    s.start();
    s.play_into(4_096, 8_448);
    assert!(trace(&s.bytes).starts_with("G 9 65536 | "));
    assert!(!trace(&s.bytes).contains("bad"));
    let commands: [fn(&mut Script); 2] = [|s| s.song(&vec![0; 66_001]), |s| s.play_into(1, 8_449)];
    for command in commands {
        let mut s = Script::default();
        s.over();
        command(&mut s);
        s.over();
        assert_eq!(trace(&s.bytes), "E 0 1 0 | 00000000 00000000\nbad\n");
    }
}

/// F makes a player without a song; what is lent stays lent.
#[test]
fn a_fresh_player_keeps_what_is_lent() {
    let mut s = Script::default();
    begin(&mut s, "", &tune());
    s.start();
    s.fresh(9);
    s.over();
    s.start();
    s.over();
    let lines = trace(&s.bytes);
    let expected = ["E 0 1 0 | 00000009 00000000", "G 0 0 | 00000009 00000000", "E 0 0 0 | 00000009 00000000"];
    assert_eq!(lines.lines().skip(2).collect::<Vec<_>>(), expected);
}

#[test]
fn damaged_cases_end_with_bad() {
    let files = bad_cases::of_player();
    for (name, case) in &files {
        assert!(trace(case).ends_with("\nbad\n"), "{name}");
        assert!(record::file(case.as_slice()).is_err(), "{name}");
    }
    let names: BTreeSet<&String> = files.iter().map(|(name, _)| name).collect();
    let others = bad_cases::all(second::case::MEMORY_ROOM);
    assert!(names.len() == files.len() && others.iter().all(|(name, _)| !names.contains(name)), "names of their own");
}

/// What the player renders is in the file of a recording as what the engine renders.
#[test]
fn a_recording_has_the_players_renders() {
    let mut by_player = Script::default();
    begin(&mut by_player, "", &tune());
    by_player.start();
    by_player.ask_player(2, 3);
    by_player.play_into(1, 60);
    by_player.over();
    by_player.play(40);
    by_player.stop();
    let mut by_hand = Script::default();
    begin(&mut by_hand, "", &[]);
    by_hand.on(0, 60, 100);
    by_hand.go(1);
    by_hand.off(0, 60);
    by_hand.go(40);
    let [one, other] = [by_player, by_hand].map(|s| record::file(s.bytes.as_slice()).expect("a recording"));
    assert!(one == other && one.len() == 44 + 41 * 4);
}

/// Every number of a start and of a render, both answers about the end, and counts of every size.
#[test]
fn the_stored_cases_reach_every_answer() {
    let lines = trace(&second::make::all_cases().bytes);
    let given = |letter: char, words: usize| -> BTreeSet<Vec<u32>> {
        let of_letter = lines.lines().filter(|line| line.starts_with(letter) && !line.starts_with('t'));
        of_letter
            .map(|line| line.split(' ').skip(1).take(words).filter_map(|word| word.parse().ok()).collect())
            .collect()
    };
    let (starts, renders, ends) = (given('G', 2), given('V', 3), given('E', 3));
    for start in [[0, 0], [9, 0], [9, 10], [9, 12], [9, 18], [9, 65_536], [10, 8], [10, 12]] {
        assert!(starts.contains(&start.to_vec()), "{start:?}");
    }
    assert!(starts.iter().any(|start| start[0] == 11));
    for number in [5, 6, 7, 8] {
        assert!(renders.contains(&vec![number, 0, 0]), "{number}");
    }
    assert!(renders.iter().all(|render| render[0] == 0 || render[1..] == [0, 0]));
    for (events, refused) in [(0, 0), (1, 0), (1, 1), (3, 1), (4, 0), (601, 0), (2_001, 0)] {
        assert!(renders.contains(&vec![0, events, refused]), "{events} events, {refused} refused");
    }
    for (over, voices) in [(0, 0), (0, 1), (1, 0), (1, 1), (1, 32)] {
        assert!(ends.contains(&vec![0, over, voices]), "over {over} with {voices} voices");
    }
}

/// A stored case begins with all it needs: cut out of the file and played alone it gives the same lines.
#[test]
fn the_players_cases_can_be_cut_out() {
    let bytes = second::make::all_cases().bytes;
    let begin = |name: &[u8]| -> Vec<usize> {
        let found = bytes.windows(name.len()).enumerate().filter(|(_, window)| *window == name);
        found.map(|(place, _)| place - 2).collect()
    };
    let places = begin(b"player: ");
    assert!(places.len() >= 120, "{} cases", places.len());
    let whole = trace(&bytes);
    let alone: String = places
        .iter()
        .zip(places.iter().skip(1).chain([&bytes.len()]))
        .map(|(from, to)| trace(&bytes[*from..*to]))
        .collect();
    assert!(whole.ends_with(&alone));
}
