//! Every vector line, by the model alone and over the library.

use drive::{answer, library::LIBRARY, Calls, MODEL};

const COMMANDS: &str = include_str!("../../vectors/base.commands");
const ANSWERS: &str = include_str!("../../vectors/base.answers");

fn all_agree(calls: &Calls) {
    assert_eq!(COMMANDS.lines().count(), ANSWERS.lines().count());
    for (k, (command, expected)) in COMMANDS.lines().zip(ANSWERS.lines()).enumerate() {
        let told = answer(calls, command).expect("each line is a call");
        assert_eq!(told, expected, "line {}", k + 1);
    }
}

#[test]
fn the_model_gives_every_answer() {
    all_agree(&MODEL);
}

#[test]
fn the_library_gives_every_answer() {
    all_agree(&LIBRARY);
}
