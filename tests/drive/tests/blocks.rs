//! Block protection of the proved build, by the fractions of the makers' sheets: after a WRITE to
//! every address the protected block still has its first bytes, and every other address has the byte
//! that was sent to it.

use drive::script::Script;
use drive::Making;
use twin::text::first_memory;
use twin::PARTS;

/// BP1 BP0, and how many quarters of the memory they leave open: none, the upper quarter, the upper
/// half or all of it is protected.
const OPEN_QUARTERS: [(u8, usize); 4] = [(0b00, 4), (0b01, 3), (0b10, 2), (0b11, 0)];

/// WREN and WRSR.
fn written(script: &mut Script, status: u8) {
    script.command(&[0x06]);
    script.command(&[0x01, status]);
}

/// A making and a trace that leave a part with the block bits and the enable: by WRSR, with SRWD 0
/// and 1, and on a part that keeps its bits by the making alone.
fn set_up(part: u32, bp: u8) -> Vec<(Making, Script)> {
    let made = |bits| (Making::new(part, 0, bits), Script::spi());
    let mut all = vec![made(0), made(0)];
    for ((_, script), srwd) in all.iter_mut().zip([0x00, 0x80]) {
        written(script, srwd | bp << 2);
    }
    if PARTS[part as usize].keeps_bits {
        all.push(made(bp.into()));
    }
    for (_, script) in &mut all {
        script.command(&[0x06]);
    }
    all
}

/// Writes every address of each SPI part with each of the block bits. What carries the WRITE out takes
/// the making, the trace before it, its bytes and the memory.
fn sweep(carry_out: impl Fn(Making, Script, &[u8], &mut [u8])) {
    for part in 0..3 {
        let table = &PARTS[part as usize];
        let first = first_memory(table.size);
        let sent: Vec<u8> = first.iter().map(|byte| !byte).collect();
        let write = [table.addressed(0x02, 0), sent.clone()].concat();
        for (bp, quarters) in OPEN_QUARTERS {
            let open = table.size / 4 * quarters;
            for (making, script) in set_up(part, bp) {
                let mut memory = first.clone();
                carry_out(making, script, &write, &mut memory);
                let about = format!("{making}, BP {bp:02b}");
                assert!(memory[..open] == sent[..open], "{about}: not stored");
                assert!(memory[open..] == first[open..], "{about}: not kept");
            }
        }
    }
}

#[test]
fn by_samples() {
    sweep(|making, mut script, write, memory| {
        script.command(write);
        let ran = drive::run(making, u64::MAX, script.trace(), memory, None);
        assert_eq!((ran.number, ran.count), (0, script.events() as u64));
    });
}

#[test]
fn by_bytes() {
    sweep(|making, script, write, memory| {
        let mut output = vec![0; write.len()];
        let selected = drive::select(making, script.trace(), 1, write, &mut output, memory);
        assert_eq!(selected.number, 0);
    });
}
