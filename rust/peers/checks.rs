//! The two checks as others would write them: bit by bit, by a table of 256 entries, and by slices of 8 and 16 octets.
#![allow(dead_code)]

pub const HEADER: (u32, u32) = (0b110_1111, 6);
pub const PAYLOAD: (u32, u32) = (0b110_0011_0011, 10);

/// Long division, a bit at a time: what the clause says, and nothing clever.
pub fn by_bits((generator, degree): (u32, u32), octets: &[u8]) -> u32 {
    let mut rest = 0;
    let mut bring_down = |bit: u32| {
        rest = rest << 1 | bit;
        if rest >> degree == 1 {
            rest ^= generator;
        }
    };
    for octet in octets {
        for place in (0..8).rev() {
            bring_down(u32::from(octet >> place & 1));
        }
    }
    for _ in 0..degree {
        bring_down(0);
    }
    rest
}

/// Tables for the payload's generator: entry `j` has the check of an octet that `j` zero octets follow.
pub struct Tables([[u16; 256]; 16]);

impl Tables {
    pub fn new() -> Tables {
        let mut tables = [[0; 256]; 16];
        let mut row = [0; 16];
        for octet in 0..=255u8 {
            row[0] = octet;
            for (zeros, table) in tables.iter_mut().enumerate() {
                table[octet as usize] = by_bits(PAYLOAD, &row[..=zeros]) as u16;
            }
        }
        Tables(tables)
    }

    /// One table, an octet at a time.
    pub fn by_octets(&self, octets: &[u8]) -> u16 {
        self.go_on(0, octets)
    }

    fn go_on(&self, mut check: u16, octets: &[u8]) -> u16 {
        for octet in octets {
            check = self.0[0][usize::from((check >> 2) as u8 ^ octet)] ^ (check & 3) << 8;
        }
        check
    }

    /// `N` tables, `N` octets at a time.
    pub fn by_slices<const N: usize>(&self, octets: &[u8]) -> u16 {
        let mut check = 0u16;
        let mut slices = octets.chunks_exact(N);
        for slice in &mut slices {
            let slice: &[u8; N] = slice.try_into().expect("chunks of N octets");
            let mut next =
                self.0[N - 1][usize::from(slice[0] ^ (check >> 2) as u8)] ^ self.0[N - 2][usize::from(slice[1] ^ (check << 6) as u8)];
            for place in 2..N {
                next ^= self.0[N - 1 - place][usize::from(slice[place])];
            }
            check = next;
        }
        self.go_on(check, slices.remainder())
    }
}

/// A table for the header's generator, an octet at a time.
pub struct HeaderTable([u8; 256]);

impl HeaderTable {
    pub fn new() -> HeaderTable {
        let mut table = [0; 256];
        for octet in 0..=255u8 {
            table[octet as usize] = by_bits(HEADER, &[octet]) as u8;
        }
        HeaderTable(table)
    }

    pub fn by_octets(&self, octets: &[u8]) -> u8 {
        let mut check = 0;
        for octet in octets {
            check = self.0[usize::from(check << 2 ^ octet)];
        }
        check
    }
}

/// Octets without a pattern, the same in every run.
pub struct Noise(pub u64);

impl Noise {
    pub fn next(&mut self) -> u64 {
        self.0 ^= self.0 << 13;
        self.0 ^= self.0 >> 7;
        self.0 ^= self.0 << 17;
        self.0
    }

    pub fn octets(&mut self, length: usize) -> Vec<u8> {
        (0..length).map(|_| (self.next() >> 32) as u8).collect()
    }
}
