//! Reads each layout that it is given as a word, once, with the proved reader: `bench/digits` counts the instructions of that.
//! Usage: digits TEXT..

extern "C" {
    fn rt_layout(text: *const u8, length: usize, store: *mut u32, room: usize) -> u64;
}

fn main() {
    let mut store = [0u32; 512];
    for text in std::env::args().skip(1) {
        let pages =
            unsafe { rt_layout(text.as_ptr(), text.len(), store.as_mut_ptr(), store.len()) };
        println!("{pages}");
    }
}
