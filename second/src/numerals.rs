//! Numbers as text.
//!
//! | Text | Number |
//! |---|---|
//! | `0x` and up to eight hexadecimal digits, as `0x1F` | hexadecimal |
//! | exactly eight hexadecimal digits, as `FFFFFFFF` | hexadecimal, as on the page |
//! | any other count of digits, as `1000` | decimal |
//! | `-` and decimal digits, down to `-2147483648` | its two's complement: `-1` is `0xFFFFFFFF` |
//!
//! Eight digits without a letter, as `00000010`, could be meant as decimal: they are doubtful.

/// The least number that is printed in hexadecimal.
const LARGE: u32 = 10_000_000;
/// How many digits without `0x` are hexadecimal.
const HEXADECIMAL: usize = 8;

/// A number as text: decimal up to seven digits, else `0x` and eight hexadecimal digits.
pub fn print(number: u32) -> String {
    if number < LARGE {
        number.to_string()
    } else {
        hexadecimal(number)
    }
}

/// `0x` and eight hexadecimal digits.
pub fn hexadecimal(number: u32) -> String {
    format!("0x{number:08X}")
}

/// The number of a text.
pub fn parse(text: &str) -> Result<u32, String> {
    let all = |digits: &str, kind: fn(&u8) -> bool| digits.bytes().all(|byte| kind(&byte));
    let decimal = |digits: &str| all(digits, u8::is_ascii_digit).then(|| digits.parse::<u32>());
    let hexadecimal = |digits: &str| {
        let allowed = digits.len() <= HEXADECIMAL && all(digits, u8::is_ascii_hexdigit);
        allowed.then(|| u32::from_str_radix(digits, 16))
    };
    let found = if let Some(digits) = text.strip_prefix("0x") {
        hexadecimal(digits)
    } else if let Some(digits) = text.strip_prefix('-') {
        return negative(decimal(digits).and_then(Result::ok), text);
    } else if text.len() == HEXADECIMAL {
        hexadecimal(text)
    } else {
        decimal(text)
    };
    found.and_then(Result::ok).ok_or_else(|| expected(text))
}

/// The two's complement of a number at most 2^31.
fn negative(magnitude: Option<u32>, text: &str) -> Result<u32, String> {
    let allowed = magnitude.filter(|number| *number <= 1 << 31);
    allowed.map(u32::wrapping_neg).ok_or_else(|| expected(text))
}

fn expected(text: &str) -> String {
    format!(
        "expected a number from -2147483648 to 4294967295, or 0x and up to eight hexadecimal digits, \
         found '{text}'"
    )
}

/// Whether a text is read as hexadecimal and could be meant as decimal.
pub fn is_doubtful(text: &str) -> bool {
    text.len() == HEXADECIMAL && text.bytes().all(|byte| byte.is_ascii_digit())
}
