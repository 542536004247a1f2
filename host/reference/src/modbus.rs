//! Modbus RTU: the CRC; and what both lines of Modbus share: registers and the four functions, 03H,
//! 06H and 08H as document 01 has them, 10H as document 02 does.

use crate::items;

/// CRC-16 bit by bit: start FFFFH, A001H, low bit first. As sent: low byte first.
pub fn crc(bytes: &[u8]) -> [u8; 2] {
    let mut register: u16 = 0xFFFF;
    for byte in bytes {
        register ^= u16::from(*byte);
        for _ in 0..8 {
            let carry = register & 1;
            register >>= 1;
            if carry == 1 {
                register ^= 0xA001;
            }
        }
    }
    let high = (register / 256) as u8;
    let low = (register % 256) as u8;
    [low, high]
}

/// Bytes with their CRC behind them.
pub fn with_crc(mut bytes: Vec<u8>) -> Vec<u8> {
    let check = crc(&bytes);
    bytes.extend(check);
    bytes
}

/// Registers hold 16-bit two's complement: below zero, 65536 is added.
pub fn register_of(value: i32) -> u16 {
    let whole = if value < 0 { value + 65_536 } else { value };
    u16::try_from(whole).expect("every item's low and high fit 16 bits")
}

/// The value that a register's two bytes stand for: from 8000H up, 65536 is taken off.
pub fn value_of(register: u16) -> i32 {
    let whole = i32::from(register);
    if whole >= 0x8000 {
        whole - 65_536
    } else {
        whole
    }
}

/// Two bytes, the high one first.
fn word(high: u8, low: u8) -> u16 {
    u16::from(high) * 256 + u16::from(low)
}

/// One frame: the number given back and the reply.
pub fn answer(table: &mut [i32], address: u8, frame: &[u8]) -> (u32, Vec<u8>) {
    // 21: length under 4 or over 256.
    if frame.len() < 4 || frame.len() > 256 {
        return (21, vec![]);
    }
    // 22: CRC.
    let (body, check) = frame.split_at(frame.len() - 2);
    if check != crc(body) {
        return (22, vec![]);
    }
    let (number, reply) = message(table, address, body);
    (number, reply.map_or(vec![], with_crc))
}

/// One message, a frame or a line without what each adds to it: the number given back and the
/// reply, none where there is silence. It is the same for both lines.
pub fn message(table: &mut [i32], address: u8, body: &[u8]) -> (u32, Option<Vec<u8>>) {
    // 23: other address. Address 0 is somebody else's too.
    if body[0] != address {
        return (23, None);
    }
    match function(table, body) {
        Ok(reply) => (0, Some(reply)),
        Err(code) => {
            // Address, function with top bit set, code. A function of 80H and above keeps its
            // value.
            let exception = vec![address, body[1] | 0x80, code];
            (30 + u32::from(code), Some(exception))
        }
    }
}

/// Does what a message asks. A refusal is the exception code.
fn function(table: &mut [i32], body: &[u8]) -> Result<Vec<u8>, u8> {
    match body[1] {
        0x03 => read(table, body),
        0x06 => write(table, body),
        0x08 => loopback(body),
        0x10 => write_several(table, body),
        _ => Err(1),
    }
}

/// 03H, 06H and 08H have frames of 8 bytes with the CRC, so a body of 6.
fn check_length(body: &[u8]) -> Result<(), u8> {
    if body.len() == 6 {
        Ok(())
    } else {
        Err(3)
    }
}

/// 03H: quantity 1 to 125, then start plus quantity at most 20. Unlisted registers read 0.
fn read(table: &[i32], body: &[u8]) -> Result<Vec<u8>, u8> {
    check_length(body)?;
    let start = word(body[2], body[3]);
    let quantity = word(body[4], body[5]);
    if !(1..=125).contains(&quantity) {
        return Err(3);
    }
    if u32::from(start) + u32::from(quantity) > 20 {
        return Err(2);
    }
    let mut reply = vec![body[0], body[1], (2 * quantity) as u8];
    for register in start..start + quantity {
        let value = match items::with_register(register) {
            Some(item) => table[item - 1],
            None => 0,
        };
        reply.extend(register_of(value).to_be_bytes());
    }
    Ok(reply)
}

/// 06H: the register must be a writable item, then the value in range; reply equals request.
fn write(table: &mut [i32], body: &[u8]) -> Result<Vec<u8>, u8> {
    check_length(body)?;
    let item = writable(word(body[2], body[3]))?;
    let value = in_range(item, word(body[4], body[5]))?;
    items::store(table, item, value);
    Ok(body.to_vec())
}

/// The number of the writable item with this register. All others, unlisted or read-only, inside
/// the map or past it, refuse a write.
fn writable(register: u16) -> Result<usize, u8> {
    match items::with_register(register) {
        Some(item) if items::item(item).writable => Ok(item),
        _ => Err(2),
    }
}

/// The value that a register brings to an item, which must be in the item's range.
fn in_range(item: usize, register: u16) -> Result<i32, u8> {
    let value = value_of(register);
    if items::in_range(item, value) {
        Ok(value)
    } else {
        Err(3)
    }
}

/// 10H: any register not writable refuses the request, then any value out of range. So all
/// registers are written or none. The reply repeats address, function, start and quantity.
fn write_several(table: &mut [i32], body: &[u8]) -> Result<Vec<u8>, u8> {
    let quantity = quantity_of_several(body)?;
    let start = word(body[2], body[3]);
    let mut items = vec![];
    for place in 0..quantity {
        // Sums do not go round: there is no register past FFFFH.
        let register = start.checked_add(place).ok_or(2)?;
        items.push(writable(register)?);
    }
    let mut values = vec![];
    for (item, data) in items.iter().zip(body[7..].chunks(2)) {
        values.push(in_range(*item, word(data[0], data[1]))?);
    }
    for (item, value) in items.into_iter().zip(values) {
        items::store(table, item, value);
    }
    Ok(body[..6].to_vec())
}

/// The quantity of a 10H, 1 to 123. The byte count is twice the quantity; the frame has nine bytes
/// more than it counts, so the body seven. A body too short to hold both is refused like these.
fn quantity_of_several(body: &[u8]) -> Result<u16, u8> {
    if body.len() < 7 {
        return Err(3);
    }
    let quantity = word(body[4], body[5]);
    let count = usize::from(body[6]);
    if !(1..=123).contains(&quantity) {
        return Err(3);
    }
    if count != 2 * usize::from(quantity) || body.len() != 7 + count {
        return Err(3);
    }
    Ok(quantity)
}

/// 08H: test code 0; reply equals request.
fn loopback(body: &[u8]) -> Result<Vec<u8>, u8> {
    check_length(body)?;
    if word(body[2], body[3]) != 0 {
        return Err(3);
    }
    Ok(body.to_vec())
}

#[cfg(test)]
mod tests {
    use super::*;

    #[test]
    fn a_register_above_7fff_is_a_value_below_zero() {
        assert_eq!(value_of(0x7FFF), 32_767);
        assert_eq!(value_of(0x8000), -32_768);
        assert_eq!(value_of(0xFF6A), -150);
        assert_eq!(value_of(0xFFFF), -1);
        for value in -32_768..=32_767 {
            assert_eq!(value_of(register_of(value)), value);
        }
    }

    #[test]
    fn the_crc_of_nothing_is_its_start() {
        assert_eq!(crc(&[]), [0xFF, 0xFF]);
    }
}
