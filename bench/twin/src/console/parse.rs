//! The words of a command: numbers, bytes in hexadecimal, lists of wishes.

/// A line that is answered `what`.
#[derive(Clone, Copy, Debug, PartialEq, Eq)]
pub struct Malformed;

const MOST_DIGITS: usize = 9;
const MOST_WISHES: usize = 64;
const HIGHEST_LINE: usize = 63;

/// 1 to 9 decimal digits.
pub fn number(word: &[u8]) -> Result<usize, Malformed> {
    let fits = (1..=MOST_DIGITS).contains(&word.len());
    if !fits || !word.iter().all(u8::is_ascii_digit) {
        return Err(Malformed);
    }
    let append = |number, &digit: &u8| 10 * number + usize::from(digit - b'0');
    Ok(word.iter().fold(0, append))
}

/// A number that is at most `most`.
pub fn number_to(word: &[u8], most: usize) -> Result<usize, Malformed> {
    number(word).and_then(|number| {
        if number <= most {
            Ok(number)
        } else {
            Err(Malformed)
        }
    })
}

/// Two digits a byte, and `-` for no bytes.
pub fn hex_bytes(word: &[u8]) -> Result<Vec<u8>, Malformed> {
    if word == b"-" {
        return Ok(Vec::new());
    }
    let (pairs, rest) = word.as_chunks::<2>();
    if !rest.is_empty() {
        return Err(Malformed);
    }
    pairs
        .iter()
        .map(|&[high, low]| Ok(hex_digit(high)? << 4 | hex_digit(low)?))
        .collect()
}

fn hex_digit(digit: u8) -> Result<u8, Malformed> {
    match digit {
        b'0'..=b'9' => Ok(digit - b'0'),
        b'a'..=b'f' => Ok(digit - b'a' + 10),
        _ => Err(Malformed),
    }
}

/// 1 to 64 lines, parted by commas.
pub fn wishes(word: &[u8]) -> Result<Vec<u8>, Malformed> {
    let wish = |word| number_to(word, HIGHEST_LINE).map(|line| line as u8);
    let lines: Vec<u8> = word
        .split(|&byte| byte == b',')
        .map(wish)
        .collect::<Result<_, _>>()?;
    if lines.len() > MOST_WISHES {
        return Err(Malformed);
    }
    Ok(lines)
}
