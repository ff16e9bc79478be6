//! The sentences and the usage are the same wherever they stand.

use std::path::Path;
use tmb::help::PAGES;
use tmb::refusals::SENTENCES;

fn manual() -> String {
    let path = Path::new(env!("CARGO_MANIFEST_DIR")).join("../docs/tmb.1");
    std::fs::read_to_string(path).unwrap()
}

#[test]
fn the_sentences_are_the_second_programs() {
    let numbers: Vec<u32> = SENTENCES.iter().map(|(number, _)| *number).collect();
    let known = |number: &u32| second::reason(*number) != "no such number";
    assert_eq!(numbers, (0..100).filter(known).collect::<Vec<u32>>());
    for (number, sentence) in SENTENCES {
        assert_eq!(sentence, second::reason(number));
    }
}

#[test]
fn the_manual_has_every_sentence() {
    let manual = manual().replace("\\(pc", "·");
    for (number, sentence) in &SENTENCES[1..] {
        let heading = format!("\n.TP\n.B {number}\n");
        let entry = manual.split_once(&heading).unwrap().1;
        let lines = entry.lines().take_while(|line| !line.starts_with('.'));
        assert_eq!(lines.collect::<Vec<_>>().join(" "), *sentence);
    }
}

#[test]
fn the_manual_has_every_command() {
    let manual = manual();
    let words = |text: &str| {
        let plain = text
            .replace("\\fI", "")
            .replace("\\fP", "")
            .replace("\\fR", "")
            .replace("\\-", "-");
        plain.replace(".B ", "")
    };
    let synopsis = manual.split_once(".SH SYNOPSIS\n").unwrap().1;
    let synopsis = words(synopsis.split_once(".SH ").unwrap().0);
    let lines: Vec<&str> = synopsis
        .lines()
        .filter(|line| line.starts_with("tmb "))
        .collect();
    let usage = PAGES.iter().map(|page| page.usage).chain(["tmb --version"]);
    assert_eq!(lines, usage.collect::<Vec<_>>());
    assert!(
        manual.starts_with(".TH TMB 1 ")
            && manual.contains(concat!("tmb ", env!("CARGO_PKG_VERSION")))
    );
}
