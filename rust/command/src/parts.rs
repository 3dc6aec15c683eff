//! `sildrokk parts`: the five parts as a person reads them.

use indicatif::HumanCount;
use sildrokk::Part;

/// A row for each part.
pub fn table() -> String {
    let head = [
        "part",
        "name",
        "bus",
        "bytes",
        "address",
        "pins",
        "saved bits",
        "commands",
    ];
    let mut text = row(head.map(String::from));
    for part in Part::ALL {
        text.push_str(&row([
            part.number().to_string(),
            part.to_string(),
            part.bus().to_string(),
            HumanCount(part.size() as u64).to_string(),
            address(part).to_string(),
            up_to(part.max_pins()),
            up_to(part.max_bits()),
            commands(part).to_string(),
        ]));
    }
    text.push_str("\nPins are A2 A1 A0 of MR44V064B and A2 A1 of MS85RC1MTY as a number, saved bits SRWD BP1 BP0.\n");
    text
}

fn row(cells: [String; 8]) -> String {
    let [part, name, bus, bytes, address, pins, bits, commands] = cells;
    let line = format!(
        "{part:<6}{name:<12}{bus:<5}{bytes:>7}  {address:<22}{pins:<8}{bits:<12}{commands}"
    );
    format!("{}\n", line.trim_end())
}

fn up_to(most: u32) -> String {
    match most {
        0 => "0".into(),
        most => format!("0 to {most}"),
    }
}

/// How an address goes over the bus.
fn address(part: Part) -> &'static str {
    match part {
        Part::Mr45v032a | Part::Mr44v064b => "2 bytes",
        Part::Mr45v100a | Part::Mr45v200b => "3 bytes",
        Part::Ms85rc1mty => "A16 in word, 2 bytes",
    }
}

fn commands(part: Part) -> &'static str {
    match part {
        Part::Mr45v032a => "WREN WRDI RDSR WRSR READ WRITE",
        Part::Mr45v100a => "WREN WRDI RDSR WRSR READ WRITE FSTRD RDID SLEEP",
        Part::Mr45v200b => "WREN WRDI RDSR WRSR READ WRITE RDID",
        Part::Mr44v064b | Part::Ms85rc1mty => "",
    }
}
