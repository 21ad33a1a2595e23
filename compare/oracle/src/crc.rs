// SPDX-License-Identifier: Apache-2.0 AND BSD-3-Clause
//! CRC-32 as in zlib: polynomial 0xEDB88320, lowest bit first.

const TABLE: [u32; 256] = table();

const fn table() -> [u32; 256] {
    let mut table = [0; 256];
    let mut byte = 0;
    while byte < 256 {
        let mut rest = byte as u32;
        let mut bit = 0;
        while bit < 8 {
            rest = if rest & 1 == 1 { rest >> 1 ^ 0xEDB8_8320 } else { rest >> 1 };
            bit += 1;
        }
        table[byte] = rest;
        byte += 1;
    }
    table
}

/// The sum of bytes that come in parts.
pub struct Crc(u32);

impl Crc {
    /// Of no bytes.
    #[allow(clippy::new_without_default)]
    pub fn new() -> Self {
        Crc(u32::MAX)
    }

    /// And of these.
    pub fn add(&mut self, bytes: &[u8]) {
        for byte in bytes {
            self.0 = self.0 >> 8 ^ TABLE[(self.0 as u8 ^ byte) as usize];
        }
    }

    /// The sum.
    pub fn sum(&self) -> u32 {
        !self.0
    }
}

#[cfg(test)]
mod tests {
    use super::*;

    #[test]
    fn known_sums() {
        let mut crc = Crc::new();
        assert_eq!(crc.sum(), 0);
        crc.add(b"1234");
        crc.add(b"56789");
        assert_eq!(crc.sum(), 0xCBF4_3926);
    }
}
