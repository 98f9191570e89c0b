//! Damage to lines: each way in which one can miss the form of a call, or nearly so.

use crate::random::Random;

type Way = fn(&mut Vec<u8>, &mut Random);

/// All ways but the one that makes a line very long.
const WAYS: [Way; 17] = [
    change_byte,
    change_byte,
    drop_byte,
    double_byte,
    insert_byte,
    double_space,
    space_at_an_end,
    other_space,
    upper_case,
    sign,
    hexadecimal,
    too_large,
    zeros,
    drop_field,
    further_field,
    other_letter,
    cut,
];

/// The bytes that a line is most likely to be misread at; others come up more rarely.
const TELLING: &[u8] =
    b" \t\r\n\0\x0b\x0c\x1f\x21\x2f\x3a0123456789+-._,xXnafrNAF\x7f\x80\xa0\xb0\xff";

/// The longest that a very long line gets, about.
const VERY_LONG: u64 = 200_000;

/// Makes another line of a line. It may still be readable, and it may have become two.
pub fn damage(line: &mut Vec<u8>, random: &mut Random) {
    let whole = line.clone();
    let ways = random.pick(&[1, 1, 1, 1, 2]);
    for _ in 0..ways {
        random.pick(&WAYS)(line, random);
    }
    if random.once_in(1000) {
        lengthen(line, random);
    }
    while *line == whole {
        insert_byte(line, random);
    }
}

fn change_byte(line: &mut Vec<u8>, random: &mut Random) {
    if !line.is_empty() {
        let place = random.below(line.len() as u64) as usize;
        line.splice(place..=place, [any_byte(random)]);
    }
}

fn drop_byte(line: &mut Vec<u8>, random: &mut Random) {
    if !line.is_empty() {
        line.remove(random.below(line.len() as u64) as usize);
    }
}

fn double_byte(line: &mut Vec<u8>, random: &mut Random) {
    if !line.is_empty() {
        let place = random.below(line.len() as u64) as usize;
        line.insert(place, line[place]);
    }
}

fn insert_byte(line: &mut Vec<u8>, random: &mut Random) {
    let place = random.below(line.len() as u64 + 1) as usize;
    line.insert(place, any_byte(random));
}

fn double_space(line: &mut Vec<u8>, random: &mut Random) {
    let place = field_start(line, random);
    line.insert(place, b' ');
}

fn space_at_an_end(line: &mut Vec<u8>, random: &mut Random) {
    let place = random.pick(&[0, line.len()]);
    line.insert(place, random.pick(b" \t\r\0"));
}

/// A space that is another sort of space, or none at all.
fn other_space(line: &mut Vec<u8>, random: &mut Random) {
    let place = field_start(line, random);
    if let Some(space) = place.checked_sub(1) {
        line.splice(space..place, [random.pick(b"\t\r\0\x0b\x0c\xa0_,;")]);
    }
}

fn upper_case(line: &mut Vec<u8>, _: &mut Random) {
    *line = line.to_ascii_uppercase();
}

fn sign(line: &mut Vec<u8>, random: &mut Random) {
    let place = field_start(line, random);
    line.insert(place, random.pick(b"+-"));
}

fn hexadecimal(line: &mut Vec<u8>, random: &mut Random) {
    let digits = format!("{:x}", random.up_to_bits(64));
    let prefix = random.pick(&["0x", "0X", "", "#"]);
    replace_field(line, &[prefix, &digits].concat(), random);
}

/// A number at the end of a u64, on one side of it or the other.
fn too_large(line: &mut Vec<u8>, random: &mut Random) {
    let beside = (u128::from(u64::MAX) - 1 + u128::from(random.below(4))).to_string();
    let above =
        ((1 << 64) * u128::from(1 + random.below(20)) + u128::from(random.below(4096))).to_string();
    let digits = random.pick(&[20, 21, 39, 100]);
    let power = format!("1{}", "0".repeat(digits - 1));
    let nines = "9".repeat(digits);
    replace_field(
        line,
        random.pick(&[&beside, &beside, &above, &power, &nines]),
        random,
    );
}

/// Zeros before a number, now and then thousands of them, and now and then before a letter.
fn zeros(line: &mut Vec<u8>, random: &mut Random) {
    let place = field_start(line, random);
    insert_many(line, place, b'0', random.up_to_bits(12));
}

fn drop_field(line: &mut Vec<u8>, random: &mut Random) {
    let start = field_start(line, random);
    let end = field_end(line, start);
    line.drain(start.saturating_sub(1)..end);
}

fn further_field(line: &mut Vec<u8>, random: &mut Random) {
    let place = field_start(line, random);
    line.splice(
        place..place,
        random.pick(&["0 ", "1 ", "64 ", "a ", "n 5 "]).bytes(),
    );
}

fn other_letter(line: &mut Vec<u8>, random: &mut Random) {
    let end = field_end(line, 0);
    line.splice(
        ..end,
        random
            .pick(&["r", "n", "a", "f", "", "nn", "new", "free", "?"])
            .bytes(),
    );
}

/// A line that ends early, or is empty.
fn cut(line: &mut Vec<u8>, random: &mut Random) {
    let kept = random.below(line.len() as u64 + 1) as usize;
    line.truncate(random.pick(&[kept, kept, 0]));
}

/// Very many bytes of one sort: zeros can leave the line readable, others seldom do.
fn lengthen(line: &mut Vec<u8>, random: &mut Random) {
    let start = field_start(line, random);
    let any = random.below(line.len() as u64 + 1) as usize;
    let place = random.pick(&[start, any, line.len()]);
    insert_many(
        line,
        place,
        random.pick(b"000 9xa\0"),
        random.below(VERY_LONG),
    );
}

fn insert_many(line: &mut Vec<u8>, place: usize, byte: u8, count: u64) {
    line.splice(place..place, std::iter::repeat(byte).take(count as usize));
}

fn replace_field(line: &mut Vec<u8>, text: &str, random: &mut Random) {
    let start = field_start(line, random);
    let end = field_end(line, start);
    line.splice(start..end, text.bytes());
}

/// Where one of the fields begins.
fn field_start(line: &[u8], random: &mut Random) -> usize {
    let from = random.below(line.len() as u64 + 1) as usize;
    let before = line[..from].iter().rposition(|&byte| byte == b' ');
    before.map_or(0, |space| space + 1)
}

fn field_end(line: &[u8], start: usize) -> usize {
    let length = line[start..].iter().position(|&byte| byte == b' ');
    length.map_or(line.len(), |length| start + length)
}

fn any_byte(random: &mut Random) -> u8 {
    let (any, telling) = (random.below(256) as u8, random.pick(TELLING));
    random.pick(&[any, telling])
}
