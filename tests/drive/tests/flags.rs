//! Moves of WP, made by hand, on the proved build: which event is the first with the flag is written
//! beside each, and the runs around it are stopped by quotas.

use drive::call::Call;
use drive::flags::{self, Shown};
use drive::script::Script;
use drive::Making;
use twin::part::spi_pin;

fn check(shown: Shown) {
    let Shown { what, part, .. } = shown;
    let call = Call::whole(Making::new(part, 0, 0), shown.trace);
    let compared = call.compare().and_then(|agreed| {
        let beyond = agreed.ran.count + 1;
        call.compare_stopped(&agreed, beyond).map(|_| agreed)
    });
    let agreed = compared.unwrap_or_else(|difference| panic!("{what}: {difference}: {call}"));
    let told = (agreed.ran.number, agreed.flagged);
    assert_eq!(told, (shown.number, shown.flagged), "{what}: {call}");
}

/// An offset that takes more than two of its eight bytes, and the same for no flag at all.
#[test]
fn far_in() {
    let mut script = Script::spi();
    for _ in 0..40_000 {
        script.sample(spi_pin::CS);
    }
    script.select();
    let shown = |what: &str, script: &Script, flagged| Shown {
        what: String::from(what),
        part: 0,
        trace: script.trace().to_vec(),
        number: 0,
        flagged,
    };
    check(shown("no move", &script, None));
    script.others ^= spi_pin::WP;
    let place = script.sample(0) as u64;
    script.sample(0);
    check(shown("a move", &script, Some(place)));
}

#[test]
fn spi() {
    flags::spi().into_iter().for_each(check);
}

#[test]
fn i2c() {
    flags::i2c().into_iter().for_each(check);
}
