// Plain Rust that does what `exchange apply` does where nothing is wrong: it copies the blocks of a
// batch within an image, with a copy of those that are read and written. It tests nothing, plans
// nothing and moves no word over a wire.
//
//     plain_apply BLOCKS WORDS BATCH IMAGE
use std::io::Write;

fn main() {
    let words: Vec<String> = std::env::args().collect();
    let (blocks, size) =
        (words[1].parse::<usize>().unwrap(), 4 * words[2].parse::<usize>().unwrap());
    let batch = std::fs::read_to_string(&words[3]).unwrap();
    let old = std::fs::read(&words[4]).unwrap();
    let mut image = old.clone();
    for line in batch.lines().skip(1) {
        let mut parts = line.split(' ');
        let is_push = parts.next() == Some("push");
        let mut place = || {
            parts.next().unwrap().parse::<usize>().unwrap() * blocks
                + parts.next().unwrap().parse::<usize>().unwrap()
        };
        let (own, far) = (place(), place());
        let (from, to) = if is_push { (own, far) } else { (far, own) };
        image[to * size..][..size].copy_from_slice(&old[from * size..][..size]);
    }
    std::io::stdout().write_all(&image).unwrap();
}
