// Compares the proved tree in memory with std's BTreeMap: the same rows of puts and gets, and the same answers.
// Build and run: see TREE.md.
use std::collections::BTreeMap;
use std::time::Instant;

const PAGE_WORDS: usize = 512;
const MISSING: u64 = u64::MAX;
const REFUSED: u64 = 2;

#[repr(C)]
struct Root {
    page: u64,
    height: u64,
}

#[link(name = "treebench", kind = "static")]
unsafe extern "C" {
    fn tree_set_up(marks: *mut u64, marks_len: usize, words: *mut u64, words_len: usize, root: *mut Root);
    fn tree_get(marks: *mut u64, marks_len: usize, words: *mut u64, words_len: usize, root: *const Root, k: u64) -> u64;
    fn tree_put(marks: *mut u64, marks_len: usize, words: *mut u64, words_len: usize, root: *mut Root, k: u64, x: u64) -> u64;
    fn tree_drop(marks: *mut u64, marks_len: usize, words: *mut u64, words_len: usize, root: *mut Root, k: u64) -> u64;
}

struct Tree {
    marks: Vec<u64>,
    words: Vec<u64>,
    root: Root,
}

impl Tree {
    fn new(pages: usize) -> Tree {
        assert!(pages <= 1 << 32);
        let mut t = Tree { marks: vec![0; pages + 1], words: vec![0; pages * PAGE_WORDS], root: Root { page: 0, height: 0 } };
        unsafe { tree_set_up(t.marks.as_mut_ptr(), t.marks.len(), t.words.as_mut_ptr(), t.words.len(), &mut t.root) };
        t
    }

    fn get(&mut self, k: u64) -> Option<u64> {
        let x = unsafe { tree_get(self.marks.as_mut_ptr(), self.marks.len(), self.words.as_mut_ptr(), self.words.len(), &self.root, k) };
        if x == MISSING { None } else { Some(x) }
    }

    // Whether the key is new.
    fn put(&mut self, k: u64, x: u64) -> bool {
        let r = unsafe { tree_put(self.marks.as_mut_ptr(), self.marks.len(), self.words.as_mut_ptr(), self.words.len(), &mut self.root, k, x) };
        assert!(r != REFUSED, "no free pages");
        r == 1
    }

    fn drop_key(&mut self, k: u64) -> bool {
        unsafe { tree_drop(self.marks.as_mut_ptr(), self.marks.len(), self.words.as_mut_ptr(), self.words.len(), &mut self.root, k) == 1 }
    }
}

fn scattered(i: u64) -> u64 {
    let mut z = i.wrapping_mul(0x9e3779b97f4a7c15);
    z = (z ^ (z >> 30)).wrapping_mul(0xbf58476d1ce4e5b9);
    z ^ (z >> 27)
}

// Nanoseconds for each of n calls.
fn each(n: u64, mut f: impl FnMut(u64) -> u64) -> (f64, u64) {
    let start = Instant::now();
    let mut sum = 0u64;
    for i in 0..n {
        sum = sum.wrapping_mul(31).wrapping_add(f(i));
    }
    (start.elapsed().as_nanos() as f64 / n as f64, sum)
}

fn compare(what: &str, ours: (f64, u64), theirs: (f64, u64)) {
    assert_eq!(ours.1, theirs.1, "{what}: the answers differ");
    println!("{what:<24} tree {:6.0} ns   BTreeMap {:6.0} ns   ratio {:.2}", ours.0, theirs.0, ours.0 / theirs.0);
}

fn row(name: &str, n: u64, key: impl Fn(u64) -> u64 + Copy) {
    let mut t = Tree::new((n / 84 + 64) as usize);
    let mut m = BTreeMap::new();
    compare(&format!("put, {name}"), each(n, |i| t.put(key(i), i) as u64), each(n, |i| m.insert(key(i), i).is_none() as u64));
    let at = |i: u64| key(scattered(i) % n);
    compare(&format!("get, {name}"), each(n, |i| t.get(at(i)).unwrap_or(7)), each(n, |i| m.get(&at(i)).copied().unwrap_or(7)));
    compare(&format!("drop, {name}"), each(n, |i| t.drop_key(at(i)) as u64), each(n, |i| m.remove(&at(i)).is_some() as u64));
    compare(&format!("get afterwards, {name}"), each(n, |i| t.get(key(i)).unwrap_or(7)), each(n, |i| m.get(&key(i)).copied().unwrap_or(7)));
}

fn main() {
    let n = std::env::args().nth(1).and_then(|s| s.parse().ok()).unwrap_or(1_000_000);
    println!("{n} keys");
    row("rising", n, |i| i);
    row("scattered", n, scattered);
}
