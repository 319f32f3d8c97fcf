//! The table's words.

use face::values::FlatVersions;

pub const RESULTS: [&str; 3] = ["continue", "success", "failure"];

pub fn hex(bytes: &[u8]) -> String {
    bytes.iter().map(|byte| format!(" {byte:02X}")).collect()
}

pub fn byte(word: &str) -> u8 {
    u8::from_str_radix(word, 16).expect("a byte")
}

pub fn bytes(words: &[&str]) -> Vec<u8> {
    words.iter().map(|word| byte(word)).collect()
}

pub fn eight(words: &[&str]) -> [u8; 8] {
    bytes(words).try_into().expect("eight bytes")
}

pub fn hexadecimal<const COUNT: usize>(words: &[&str]) -> [u32; COUNT] {
    numbers(words, 16)
}

pub fn decimal<const COUNT: usize>(words: &[&str]) -> [u32; COUNT] {
    numbers(words, 10)
}

fn numbers<const COUNT: usize>(words: &[&str], radix: u32) -> [u32; COUNT] {
    let number = |word: &&str| u32::from_str_radix(word, radix).expect("a number");
    let numbers: Vec<u32> = words.iter().map(number).collect();
    numbers.try_into().expect("so many numbers")
}

/// Major, minor and temporary number; a number of four bytes is no version.
pub fn version(number: u32) -> String {
    match number.to_be_bytes() {
        [0, major, minor, temporary] => format!("{major}.{minor}.{temporary}"),
        _ => format!("{number:X}"),
    }
}

pub fn version_of(word: &str) -> u32 {
    let parts = word.split('.').map(|part| part.parse().expect("a number"));
    parts.fold(0, |number, part: u32| number << 8 | part)
}

pub fn versions(list: FlatVersions) -> String {
    let (standing, rest) = list.numbers.split_at(list.count as usize);
    assert!(rest.iter().all(|&number| number == 0), "0 after the list");
    let told = standing
        .iter()
        .map(|&number| format!(" {}", version(number)));
    told.collect()
}

/// What was asked for, or the refusal, with which nothing else is answered.
pub fn told<T: Default + PartialEq>(
    refusal: u8,
    value: T,
    tell: impl FnOnce(T) -> String,
) -> String {
    match refusal {
        0 => tell(value),
        number if value == T::default() => format!(" refused {number}"),
        number => format!(" refused {number} with a value"),
    }
}
