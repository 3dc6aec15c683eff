//! "Checked examples" 1 to 12 of document 01 on the proved build.

use drive::script::{driven, line, Script};
use drive::Making;
use twin::text::{first_byte, first_memory};
use twin::PARTS;

/// What a script leaves: memory and answers.
struct Left {
    memory: Vec<u8>,
    answers: Vec<u8>,
}

/// Runs a script on a part made with pins 0, to its end; nothing of it is refused.
fn play(part: u32, bits: u32, script: &Script) -> Left {
    let memory = first_memory(PARTS[part as usize].size);
    play_on(part, bits, script, memory)
}

fn play_on(part: u32, bits: u32, script: &Script, mut memory: Vec<u8>) -> Left {
    let making = Making {
        part,
        pins: 0,
        bits,
    };
    let mut answers = vec![0xff; script.events()];
    let ran = drive::run(
        making,
        u64::MAX,
        script.trace(),
        &mut memory,
        Some(&mut answers),
    );
    assert_eq!((ran.number, ran.count), (0, script.events() as u64));
    assert_eq!(ran.offset, script.trace().len() as u64);
    Left { memory, answers }
}

#[test]
fn example_1() {
    let mut script = Script::spi();
    script.command(&[6]);
    let status = script.ask_status();
    let left = play(0, 0, &script);
    assert_eq!(driven(&left.answers, &status), Some(0x02));
}

#[test]
fn example_2() {
    let mut script = Script::spi();
    script.command(&[6]);
    script.command(&[1, 0xff]);
    let taken = script.ask_status();
    script.others = 16;
    script.command(&[6]);
    script.command(&[1, 0]);
    let same = script.ask_status();
    script.others = 24;
    script.command(&[6]);
    script.command(&[1, 0]);
    let cleared = script.ask_status();
    let left = play(0, 0, &script);
    let shown = [taken, same, cleared].map(|places| driven(&left.answers, &places));
    assert_eq!(shown, [Some(0x8c), Some(0x8c), Some(0)]);
}

#[test]
fn example_3() {
    let mut script = Script::spi();
    script.command(&[6]);
    script.command(&[1, 0x04]);
    script.command(&[6]);
    script.command(&[2, 0x0b, 0xff, 0xaa, 0xbb]);
    let left = play(0, 0, &script);
    assert_eq!(left.memory[0xbff..=0xc00], [0xaa, first_byte(0xc00)]);
}

#[test]
fn example_4() {
    let mut script = Script::spi();
    script.command(&[6]);
    script.command(&[2, 0x0f, 0xff, 0x11, 0x22]);
    let bytes = script.ask(&[3, 0x0f, 0xff], 2);
    let left = play(0, 0, &script);
    assert_eq!((left.memory[0xfff], left.memory[0]), (0x11, 0x22));
    assert_eq!(driven(&left.answers, &bytes[0]), Some(0x11));
    assert_eq!(driven(&left.answers, &bytes[1]), Some(0x22));
}

#[test]
fn example_5() {
    let mut script = Script::spi();
    script.command(&[2, 0, 5, 1, 2]);
    let left = play(0, 0, &script);
    assert_eq!(left.memory, first_memory(4096));
    script.command(&[6]);
    script.command(&[2, 0, 5, 1]);
    script.command(&[2, 0, 6, 2]);
    let left = play(0, 0, &script);
    assert_eq!(left.memory[5..=6], [1, first_byte(6)]);
}

#[test]
fn example_6() {
    let mut script = Script::spi();
    script.select();
    for bit in [false, false, false, false, false, true, true] {
        script.bit(bit);
    }
    script.deselect();
    let unset = script.ask_status();
    script.command(&[6]);
    script.command_and_ones(&[2, 0, 0], 7);
    let stays = script.ask_status();
    let left = play(0, 0, &script);
    assert_eq!(driven(&left.answers, &unset), Some(0));
    assert_eq!(driven(&left.answers, &stays), Some(0x02));
    assert_eq!(left.memory, first_memory(4096));
}

#[test]
fn example_7() {
    let mut script = Script::spi();
    script.command(&[6]);
    script.select();
    script.bytes(&[2, 0, 0, 0x77]);
    for _ in 0..5 {
        script.bit(true);
    }
    script.power_off();
    let left = play(0, 0, &script);
    assert_eq!(left.memory[..2], [0x77, first_byte(1)]);
}

#[test]
fn example_8() {
    let mut script = Script::spi();
    script.command(&[6]);
    script.command(&[2, 0, 0xff, 0xff, 0x55, 0x66]);
    let left = play(1, 2, &script);
    assert_eq!(left.memory[0xffff..=0x10000], [0x55, first_byte(0x10000)]);
}

#[test]
fn example_9() {
    let mut script = Script::spi();
    script.ask(&[0x9f], 4);
    let left = play(0, 0, &script);
    assert!(left.answers.iter().all(|&answer| answer == 2));
}

#[test]
fn example_10() {
    for (word, shown) in [(0xa1, 0x5a), (0xa3, 0xc3)] {
        let mut memory = first_memory(131_072);
        memory[0x10000] = 0x5a;
        memory[0] = 0xc3;
        let mut script = Script::i2c(0);
        script.start();
        let mut acknowledges = script.give_all(&[0xa0, 0xff, 0xff, 0x99]);
        script.stop();
        script.start();
        acknowledges.push(script.give(word));
        let byte = script.take(false);
        script.stop();
        let left = play_on(4, 0, &script, memory);
        assert!(acknowledges.iter().all(|&place| left.answers[place] == 0));
        assert_eq!(left.memory[0xffff], 0x99);
        assert_eq!(line(&left.answers, &byte), shown);
    }
}

#[test]
fn example_11() {
    let mut script = Script::i2c(0);
    script.start();
    let own = script.give(0xa1);
    script.take(false);
    script.start();
    let other = script.give(0xa3);
    script.stop();
    let left = play(3, 0, &script);
    assert_eq!((left.answers[own], left.answers[other]), (0, 2));
}

#[test]
fn example_12() {
    let mut script = Script::spi();
    let places = script.ask(&[0x9f], 4);
    let left = play(2, 0, &script);
    let shown: Vec<Option<u8>> = places
        .iter()
        .map(|byte| driven(&left.answers, byte))
        .collect();
    assert_eq!(shown, [Some(0xae), Some(0x83), Some(0x1a), None]);
}
