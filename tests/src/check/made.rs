//! Columns made by hand: a header, and a payload of numbers of one width.

/// A column of a header (codec, length, parameter) and a payload.
pub fn column(header: [i32; 3], payload: &[u8]) -> Vec<u8> {
    let mut column: Vec<u8> = header.iter().flat_map(|n| n.to_be_bytes()).collect();
    column.extend(payload);
    column
}

/// A column whose payload is 32-bit numbers, as those of runs.
pub fn wide(header: [i32; 3], numbers: &[i32]) -> Vec<u8> {
    let payload: Vec<u8> = numbers.iter().flat_map(|n| n.to_be_bytes()).collect();
    column(header, &payload)
}

/// A column whose payload is 16-bit numbers.
pub fn narrow(header: [i32; 3], numbers: &[i16]) -> Vec<u8> {
    let payload: Vec<u8> = numbers.iter().flat_map(|n| n.to_be_bytes()).collect();
    column(header, &payload)
}

/// A column whose payload is 8-bit numbers.
pub fn small(header: [i32; 3], numbers: &[i8]) -> Vec<u8> {
    let payload: Vec<u8> = numbers.iter().map(|&n| n as u8).collect();
    column(header, &payload)
}
