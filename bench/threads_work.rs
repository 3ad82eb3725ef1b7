// Equal pieces of work, taken by scoped threads from one counter. The words: how many threads, pieces, and rounds a piece.
use std::hint::black_box;
use std::sync::atomic::{AtomicI64, AtomicUsize, Ordering};

fn piece(rounds: usize) -> i64 {
    let mut x: i64 = 1;
    for _ in 0..rounds {
        x = black_box((x * 1103515245 + 12345) % 2147483648);
    }
    x
}

fn main() {
    let words: Vec<usize> = std::env::args().skip(1).map(|word| word.parse().unwrap()).collect();
    let &[threads, pieces, rounds] = words.as_slice() else { std::process::exit(4) };
    let next = AtomicUsize::new(0);
    let sum = AtomicI64::new(0);
    std::thread::scope(|scope| {
        for _ in 0..threads {
            scope.spawn(|| {
                while next.fetch_add(1, Ordering::Relaxed) < pieces {
                    sum.fetch_add(piece(rounds), Ordering::Relaxed);
                }
            });
        }
    });
    println!("{}", sum.into_inner());
}
