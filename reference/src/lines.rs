//! Many day files in one text: each line is a name and the bytes of a file in hexadecimal digits.

use std::error::Error;
use std::io::Write;

use crate::hex;
use crate::running::running_day;

/// Prints, for each line, its name and then what running-day prints for its bytes.
pub fn lines(text: &[u8], out: &mut impl Write) -> Result<(), Box<dyn Error>> {
    for (number, line) in (1..).zip(text.split(|&byte| byte == b'\n')) {
        if line.is_empty() {
            continue;
        }
        let wrong = || format!("line {number} is not a name, a space and pairs of hexadecimal digits");
        let space = line.iter().position(|&byte| byte == b' ').ok_or_else(wrong)?;
        let (name, word) = (&line[..space], &line[space + 1..]);
        let file = hex::decode(word).ok_or_else(wrong)?;
        out.write_all(name)?;
        out.write_all(b"\n")?;
        out.write_all(running_day(&file).as_bytes())?;
    }
    Ok(())
}
