// The loops of `cb_memory_cases` over a plain `Vec<u64>`: a call, how many arrays of how many words, how far on with each turn, and turns.
use std::hint::black_box;

fn further(place: u32, step: u32, count: u32) -> u32 {
    let left = count - place;
    if step < left { place + step } else { step - left }
}

fn place(count: u32, size: u32) -> (Vec<u64>, Vec<usize>) {
    let mut words = Vec::with_capacity(count as usize * size as usize);
    let mut starts = Vec::with_capacity(count as usize);
    for _ in 0..count {
        starts.push(words.len());
        for _ in 0..size {
            words.push(0);
        }
    }
    (words, starts)
}

#[inline(never)]
fn get(words: &[u64], starts: &[usize], size: u32, steps: (u32, u32), turns: u32) -> u64 {
    let (mut object, mut word, mut sum) = (0, 0, 0u64);
    for _ in 0..turns {
        sum = sum.wrapping_add(words[starts[object as usize] + word as usize]);
        object = further(object, steps.0, starts.len() as u32);
        word = further(word, steps.1, size);
    }
    sum
}

#[inline(never)]
fn put(words: &mut [u64], starts: &[usize], size: u32, steps: (u32, u32), turns: u32) {
    let (mut object, mut word) = (0, 0);
    for turn in 0..turns {
        words[starts[object as usize] + word as usize] = turn.into();
        object = further(object, steps.0, starts.len() as u32);
        word = further(word, steps.1, size);
    }
}

fn main() {
    let given: Vec<String> = std::env::args().skip(1).collect();
    let n: Vec<u32> = given[1..].iter().map(|word| word.parse().unwrap()).collect();
    let (count, size, steps, turns) = (n[0], n[1], (n[2], n[3]), n[4]);
    let sum = match given[0].as_str() {
        "place" => (0..turns).map(|_| black_box(place(count, size)).1.len() as u64).sum(),
        "move" => {
            let (mut words, _) = place(1, size);
            for _ in 0..turns {
                black_box(&mut words).copy_within(steps.1 as usize.., 0);
            }
            words.len() as u64
        }
        "put" => {
            let (mut words, starts) = place(count, size);
            put(&mut words, &starts, size, steps, turns);
            get(&words, &starts, size, steps, count)
        }
        _ => {
            let (words, starts) = place(count, size);
            get(&words, &starts, size, steps, turns)
        }
    };
    println!("{sum}");
}
