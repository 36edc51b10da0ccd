//! A table in crc32fast's place: the same checksum a byte at a time, by 256 entries.

const fn table() -> [u32; 256] {
    let mut table = [0u32; 256];
    let mut i = 0;
    while i < 256 {
        let mut register = i as u32;
        let mut step = 0;
        while step < 8 {
            register = if register & 1 == 1 { register >> 1 ^ 0xEDB8_8320 } else { register >> 1 };
            step += 1;
        }
        table[i] = register;
        i += 1;
    }
    table
}

static TABLE: [u32; 256] = table();

pub struct Hasher(u32);

impl Hasher {
    #[allow(clippy::new_without_default)]
    pub fn new() -> Self {
        Hasher(!0)
    }

    pub fn update(&mut self, bytes: &[u8]) {
        for &byte in bytes {
            self.0 = self.0 >> 8 ^ TABLE[(self.0 as u8 ^ byte) as usize];
        }
    }

    pub fn finalize(self) -> u32 {
        !self.0
    }
}

pub fn hash(bytes: &[u8]) -> u32 {
    let mut hasher = Hasher::new();
    hasher.update(bytes);
    hasher.finalize()
}
