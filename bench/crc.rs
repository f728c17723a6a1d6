//! CRC-32 in Rust, for the comparison: bytewise by a table of 256 words, and sixteen bytes at a time by sixteen of them.

const fn tables() -> [[u32; 256]; 16] {
    let mut tables = [[0; 256]; 16];
    let mut x = 0;
    while x < 256 {
        let mut c = x as u32;
        let mut bit = 0;
        while bit < 8 {
            c = if c & 1 == 1 { (c >> 1) ^ 0xedb8_8320 } else { c >> 1 };
            bit += 1;
        }
        tables[0][x] = c;
        x += 1;
    }
    let mut k = 1;
    while k < 16 {
        let mut x = 0;
        while x < 256 {
            let c: u32 = tables[k - 1][x];
            tables[k][x] = tables[0][(c & 255) as usize] ^ (c >> 8);
            x += 1;
        }
        k += 1;
    }
    tables
}

static TABLES: [[u32; 256]; 16] = tables();

fn by_bytes(bytes: &[u8], start: u32) -> u32 {
    bytes
        .iter()
        .fold(start, |c, b| TABLES[0][((c ^ u32::from(*b)) & 255) as usize] ^ (c >> 8))
}

/// The routine that W12 names: a byte at a time.
#[no_mangle]
#[inline(never)]
pub fn rust_bytewise(bytes: &[u8]) -> u32 {
    by_bytes(bytes, u32::MAX)
}

/// Sixteen bytes at a time, as it is usually written: what hangs on the register comes first.
#[no_mangle]
#[inline(never)]
pub fn rust_by_sixteen(bytes: &[u8]) -> u32 {
    let mut blocks = bytes.chunks_exact(16);
    let mut c = u32::MAX;
    for block in &mut blocks {
        let w = u32::from_le_bytes([block[0], block[1], block[2], block[3]]) ^ c;
        c = TABLES[15][(w & 255) as usize]
            ^ TABLES[14][((w >> 8) & 255) as usize]
            ^ TABLES[13][((w >> 16) & 255) as usize]
            ^ TABLES[12][(w >> 24) as usize];
        for k in 4..16 {
            c ^= TABLES[15 - k][block[k] as usize];
        }
    }
    by_bytes(blocks.remainder(), c)
}

/// The same in the order of the proved code: what hangs on the register comes last.
#[no_mangle]
#[inline(never)]
pub fn rust_by_sixteen_last(bytes: &[u8]) -> u32 {
    let mut blocks = bytes.chunks_exact(16);
    let mut c = u32::MAX;
    for block in &mut blocks {
        let w = u32::from_le_bytes([block[0], block[1], block[2], block[3]]) ^ c;
        let mut free = 0;
        for k in (4..16).rev() {
            free ^= TABLES[15 - k][block[k] as usize];
        }
        c = TABLES[15][(w & 255) as usize]
            ^ (TABLES[14][((w >> 8) & 255) as usize]
                ^ (TABLES[13][((w >> 16) & 255) as usize] ^ (TABLES[12][(w >> 24) as usize] ^ free)));
    }
    by_bytes(blocks.remainder(), c)
}
