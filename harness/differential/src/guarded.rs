//! Bytes lent to the library with other bytes on both sides, which it must leave alone.

const GUARD: usize = 64;
const FILLING: u8 = 0xC3;

pub struct Guarded {
    bytes: Vec<u8>,
}

impl Guarded {
    pub fn new(inner: &[u8]) -> Guarded {
        let guard = [FILLING; GUARD];
        Guarded {
            bytes: [&guard, inner, &guard].concat(),
        }
    }

    pub fn inner(&self) -> &[u8] {
        &self.bytes[GUARD..self.bytes.len() - GUARD]
    }

    pub fn inner_mut(&mut self) -> &mut [u8] {
        let end = self.bytes.len() - GUARD;
        &mut self.bytes[GUARD..end]
    }

    /// An error if a byte outside was written.
    pub fn check(&self) -> Result<(), String> {
        let (before, rest) = self.bytes.split_at(GUARD);
        let (_, after) = rest.split_at(rest.len() - GUARD);
        match before == [FILLING; GUARD] && after == [FILLING; GUARD] {
            true => Ok(()),
            false => Err("bytes outside of the slice were written".to_string()),
        }
    }
}

#[cfg(test)]
mod tests {
    use super::*;

    #[test]
    fn bytes_outside_are_asked() {
        for offset in [0, 63, 64, 73, 74, 137] {
            let mut guarded = Guarded::new(&[1; 10]);
            assert_eq!(guarded.inner(), [1; 10]);
            assert!(guarded.check().is_ok());
            guarded.bytes[offset] ^= 1;
            let is_inner = (64..74).contains(&offset);
            assert_eq!(guarded.check().is_ok(), is_inner, "byte {offset}");
        }
    }
}
