//! Numbers in groups of seven bits, low group first; a byte's top bit is set
//! when another group follows. Only the shortest writing is read or written.

const FOLLOWED: u8 = 0x80;

/// Five groups in shortest writing are at least 2^28, far above every sign;
/// reading no more than four keeps the value inside 32 bits.
const MOST_GROUPS: usize = 4;

/// Reads the number that `bytes` begins with and tells how many bytes it has.
/// `None` if it is cut off, not in its shortest writing, or far too large.
pub fn read(bytes: &[u8]) -> Option<(u32, usize)> {
    let last = bytes.iter().position(|byte| byte & FOLLOWED == 0)?;
    let groups = &bytes[..=last];
    let shortest = last == 0 || groups[last] != 0;
    if !shortest || groups.len() > MOST_GROUPS {
        return None;
    }
    let number = groups
        .iter()
        .rev()
        .fold(0, |high, &byte| high << 7 | u32::from(byte & !FOLLOWED));
    Some((number, groups.len()))
}

/// Appends the shortest writing of `number`.
pub fn write(number: u32, bytes: &mut Vec<u8>) {
    let low = (number & 0x7f) as u8;
    if number == u32::from(low) {
        bytes.push(low);
    } else {
        bytes.push(low | FOLLOWED);
        write(number >> 7, bytes);
    }
}

#[cfg(test)]
mod tests {
    use super::*;

    #[test]
    fn every_number_is_read_as_it_was_written() {
        for number in 0..70_000 {
            let mut bytes = Vec::new();
            write(number, &mut bytes);
            let length = bytes.len();
            bytes.push(0x05);
            assert_eq!(read(&bytes), Some((number, length)));
            assert_eq!(read(&bytes[..length - 1]), None, "{number} cut off");
        }
    }

    #[test]
    fn only_the_shortest_writing_is_read() {
        assert_eq!(read(&[0x00]), Some((0, 1)));
        assert_eq!(read(&[0x80, 0x00]), None);
        assert_eq!(read(&[0xff, 0x00]), None);
        assert_eq!(read(&[0x80, 0x80, 0x00]), None);
        assert_eq!(read(&[0x80, 0x80, 0x01]), Some((1 << 14, 3)));
        assert_eq!(read(&[0xff, 0xff, 0xff, 0x7f]), Some(((1 << 28) - 1, 4)));
        assert_eq!(read(&[0xff, 0xff, 0xff, 0xff, 0x01]), None);
        assert_eq!(read(&[]), None);
    }
}
