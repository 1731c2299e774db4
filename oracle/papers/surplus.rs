//! Request N3: which number with a surplus zero whole-text reading meets first, if any. Once by a plain
//! walk over the text, once by the crate alone; a run holds the two against each other.

use crate::ask;

/// By a walk over the bytes before `end`, where the crate's reading ended or was refused. How types
/// nest need not be known for it: numbers stand right behind `[` and `b` and behind a bitfield's type.
pub fn by_walk(text: &[u8], end: usize) -> Option<usize> {
    let mut at = 0;
    while at < end {
        let byte = text[at];
        at += 1;
        match byte {
            b'[' | b'b' => {
                if is_surplus(text, at) {
                    return Some(at);
                }
                at += digits(text, at);
                // Behind one that the crate refused, by 10 or 11, none is met.
                if byte == b'b' && at < end && has_second_number(&text[at..]) {
                    if is_surplus(text, at + 1) {
                        return Some(at + 1);
                    }
                    at += 1 + digits(text, at + 1);
                }
            }
            b'{' => at += until(&text[at..], b"=}"),
            b'(' => at += until(&text[at..], b"=)"),
            b'@' if text.get(at) == Some(&b'"') => at += 2 + until(&text[at + 1..], b"\""),
            _ => {}
        }
    }
    None
}

/// An integral type, and a digit behind it.
fn has_second_number(text: &[u8]) -> bool {
    text.len() > 1 && b"csilqCSILQB".contains(&text[0]) && text[1].is_ascii_digit()
}

fn is_surplus(text: &[u8], at: usize) -> bool {
    digits(text, at) > 1 && text[at] == b'0'
}

fn digits(text: &[u8], at: usize) -> usize {
    text[at..].iter().take_while(|byte| byte.is_ascii_digit()).count()
}

/// How many bytes stand before the first of `ends`.
fn until(text: &[u8], ends: &[u8]) -> usize {
    text.iter().take_while(|byte| !ends.contains(byte)).count()
}

/// By the crate: a number is met at a place exactly if one that is too large, put there, is refused by
/// 11 right behind it.
pub fn by_crate(text: &str) -> Option<usize> {
    const TOO_LARGE: &str = "99999999999999999999";
    let bytes = text.as_bytes();
    let begins = |at: usize| is_surplus(bytes, at) && (at == 0 || !bytes[at - 1].is_ascii_digit());
    (0..text.len()).filter(|&at| begins(at)).find(|&at| {
        let answer = ask::read(&format!("{}{TOO_LARGE}", &text[..at]));
        answer.is_err_and(|refusal| refusal.number == 11 && refusal.place as usize == at + TOO_LARGE.len())
    })
}
