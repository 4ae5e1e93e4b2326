//! A question on the wire (01, Records on the wire): 82 bytes, little-endian, with the length first and then the kind.

pub type Vector = [f64; 3];

pub const QUESTION_SIZE: usize = 82;
pub const QUESTION_LENGTH: u32 = 78;
pub const QUESTION_KIND: u16 = 1;

/// The offset of each field. The eight floats follow each other from `FLOATS` on.
pub const LENGTH: usize = 0;
pub const KIND: usize = 4;
pub const JOB: usize = 6;
pub const REVISION: usize = 10;
pub const REVOLUTIONS: usize = 14;
pub const WAY: usize = 16;
pub const SPARE: usize = 17;
pub const FLOATS: usize = 18;

/// The indices of mu and the time among the eight floats. The two positions come before them.
pub const MU: usize = 6;
pub const TIME: usize = 7;

/// The fields of a question in the order of the wire. They may have any values.
#[derive(Clone, Copy, Debug)]
pub struct Question {
    pub length: u32,
    pub kind: u16,
    pub job: u32,
    pub revision: u32,
    pub revolutions: u16,
    pub way: u8,
    pub spare: u8,
    pub position1: Vector,
    pub position2: Vector,
    pub mu: f64,
    pub time: f64,
}

impl Question {
    /// Reads the fields of `bytes`. Returns None if the size isn't 82.
    pub fn read(bytes: &[u8]) -> Option<Question> {
        if bytes.len() != QUESTION_SIZE {
            return None;
        }
        Some(Question {
            length: u32::from_le_bytes(part(bytes, LENGTH)),
            kind: u16::from_le_bytes(part(bytes, KIND)),
            job: u32::from_le_bytes(part(bytes, JOB)),
            revision: u32::from_le_bytes(part(bytes, REVISION)),
            revolutions: u16::from_le_bytes(part(bytes, REVOLUTIONS)),
            way: bytes[WAY],
            spare: bytes[SPARE],
            position1: [float(bytes, 0), float(bytes, 1), float(bytes, 2)],
            position2: [float(bytes, 3), float(bytes, 4), float(bytes, 5)],
            mu: float(bytes, MU),
            time: float(bytes, TIME),
        })
    }

    /// Returns the 82 bytes of the fields.
    pub fn write(&self) -> [u8; QUESTION_SIZE] {
        let mut bytes = [0; QUESTION_SIZE];
        put(&mut bytes, LENGTH, &self.length.to_le_bytes());
        put(&mut bytes, KIND, &self.kind.to_le_bytes());
        put(&mut bytes, JOB, &self.job.to_le_bytes());
        put(&mut bytes, REVISION, &self.revision.to_le_bytes());
        put(&mut bytes, REVOLUTIONS, &self.revolutions.to_le_bytes());
        put(&mut bytes, WAY, &[self.way]);
        put(&mut bytes, SPARE, &[self.spare]);
        for i in 0..3 {
            put_float(&mut bytes, i, self.position1[i].to_bits());
            put_float(&mut bytes, 3 + i, self.position2[i].to_bits());
        }
        put_float(&mut bytes, MU, self.mu.to_bits());
        put_float(&mut bytes, TIME, self.time.to_bits());
        bytes
    }
}

/// Returns the `N` bytes from `at` on.
pub fn part<const N: usize>(bytes: &[u8], at: usize) -> [u8; N] {
    std::array::from_fn(|i| bytes[at + i])
}

/// Returns float number `i` of the eight.
fn float(bytes: &[u8], i: usize) -> f64 {
    f64::from_le_bytes(part(bytes, FLOATS + 8 * i))
}

/// Writes `field` over the bytes from `at` on.
pub fn put(bytes: &mut [u8], at: usize, field: &[u8]) {
    bytes[at..at + field.len()].copy_from_slice(field);
}

/// Returns the bytes with `field` written over those from `at` on.
pub fn with(bytes: &[u8], at: usize, field: &[u8]) -> Vec<u8> {
    let mut other = bytes.to_vec();
    put(&mut other, at, field);
    other
}

/// Writes `bits` over float number `i` of the eight.
pub fn put_float(bytes: &mut [u8], i: usize, bits: u64) {
    put(bytes, FLOATS + 8 * i, &bits.to_le_bytes());
}

#[cfg(test)]
mod tests {
    use super::*;

    #[test]
    fn what_is_written_is_read_and_written_again() {
        let bytes: Vec<u8> = (0..82).map(|i| 3 * i + 1).collect();
        assert_eq!(Question::read(&bytes).unwrap().write()[..], bytes);
        assert!(Question::read(&bytes[..81]).is_none());
    }

    #[test]
    fn fields_are_little_endian_and_in_order() {
        let bytes: Vec<u8> = (0..82).collect();
        let q = Question::read(&bytes).unwrap();
        assert_eq!((q.length, q.kind, q.job), (0x0302_0100, 0x0504, 0x0908_0706));
        assert_eq!((q.revision, q.revolutions, q.way, q.spare), (0x0D0C_0B0A, 0x0F0E, 16, 17));
        assert_eq!(q.position1[0].to_bits(), 0x1918_1716_1514_1312);
        assert_eq!(q.position2[0].to_bits(), 0x3130_2F2E_2D2C_2B2A);
        assert_eq!(q.mu.to_bits(), 0x4948_4746_4544_4342);
        assert_eq!(q.time.to_bits(), 0x5150_4F4E_4D4C_4B4A);
    }
}
