//! Random scripts to shorten.

use crate::random::Random;

/// Lines of another form.
const OTHERS: [&str; 8] = [
    "",
    "K",
    "X 1",
    "B 1 ",
    " B 1",
    "W 1 256 1",
    "Q 7",
    "B 18446744073709551616",
];

/// A number, some with superfluous zeros.
fn word(random: &mut Random, number: u64) -> String {
    let zeros = match random.percent(10) {
        true => 1 + random.below(9),
        false => 0,
    };
    format!("{}{number}", "0".repeat(zeros as usize))
}

/// A line of any kind, about few numbers and two records.
fn line(random: &mut Random, numbers: u64) -> String {
    let clock = match random.below(5) {
        0 => u64::MAX - random.below(2),
        _ => random.below(9),
    };
    let number = 1 + random.below(numbers);
    let record = 7 + random.below(2);
    let form = random.below(100);
    let (clock, number) = (word(random, clock), word(random, number));
    match form {
        0 => OTHERS[random.below(8) as usize].into(),
        1..=34 => format!("B {clock}"),
        35..=69 => format!("W {number} {} {}", word(random, record), random.below(256)),
        70..=87 => format!("C {number} {clock}"),
        88..=91 => format!("Q {record} {}", random.below(3)),
        _ => "X".into(),
    }
}

/// Lines that end in a strip that is held, or in a commit that finds no time; else none.
fn planted(random: &mut Random, numbers: u64) -> Vec<String> {
    let mut script: Vec<String> = (0..numbers).map(|clock| format!("B {clock}")).collect();
    let first = 1 + random.below(numbers);
    let second = 1 + (first + random.below(numbers - 1)) % numbers;
    let last_time = format!("C {first} {}", u64::MAX);
    let lines = match random.below(4) {
        0 => vec![format!("W {first} 7 1"), format!("W {second} 7 2")],
        1 => vec![
            format!("W {first} 7 1"),
            format!("W {second} 8 2"),
            last_time,
            format!("C {second} 5"),
        ],
        // Either write of the first number will do, and goes with another one of the second.
        2 => vec![
            format!("W {first} 8 1"),
            format!("W {first} 7 1"),
            format!("W {second} 8 2"),
            last_time,
            format!("W {second} 7 2"),
            format!("C {second} 5"),
        ],
        _ => return Vec::new(),
    };
    script.extend(lines);
    script
}

/// A script of at most 13 lines, most of which end in a refusal.
pub fn random(seed: u64) -> Vec<u8> {
    let mut random = Random::new(seed);
    let numbers = 2 + random.below(3);
    let mut script = planted(&mut random, numbers);
    for _ in script.len()..random.below(14) as usize {
        // The last line stays where it is.
        let at = random.below(script.len().max(1) as u64) as usize;
        script.insert(at, line(&mut random, numbers));
    }
    let mut text = script.join("\n");
    if random.percent(80) {
        text.push('\n');
    }
    text.into_bytes()
}
