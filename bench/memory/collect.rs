// Marking and sliding of `cb_trace` and `cb_slide` over a plain `Vec<u64>`, in the same form: three words of a header, places that tell their part, shapes by kind,
// a set of parts, a stack with room for all, and four passes. A form, how many objects, whether each has one behind it that goes, and what is done.
use std::hint::black_box;

const HALF: u64 = 1 << 32;
const SITES: u64 = 1 << 14;
const SPAN: u64 = 1 << 29;
const WIDE: u32 = 1000;

enum Shape {
    Fields(Vec<bool>),
    Elements(bool),
}

// Words of parts one behind the other: where each begins, and how many words it has.
struct Heap {
    words: Vec<u64>,
    shapes: Vec<Shape>,
    begins: Vec<usize>,
    used: Vec<u64>,
    grey: Vec<u64>,
    next: u64,
}

impl Heap {
    fn word(&self, at: u64, i: u64) -> u64 {
        self.words[(at % SPAN - 1 + i) as usize]
    }

    fn set_word(&mut self, at: u64, i: u64, word: u64) {
        self.words[(at % SPAN - 1 + i) as usize] = word;
    }

    fn mark(&self, at: u64) -> u64 {
        self.word(at, 2) / SITES
    }

    fn set_mark(&mut self, at: u64, mark: u64) {
        let site = self.word(at, 2) % SITES;
        self.set_word(at, 2, site + mark * SITES);
    }

    fn size(&self, at: u64) -> u64 {
        3 + self.word(at, 0) / HALF
    }

    fn place_at(&self, part: usize, start: u64) -> u64 {
        part as u64 * SPAN + self.begins[part] as u64 + start + 1
    }

    fn place(&mut self, kind: u64, size: u64) -> u64 {
        let at = self.words.len() as u64 + 1;
        self.words.extend([kind + size * HALF, self.next, 0]);
        self.words.extend((0..size).map(|_| 0));
        self.used[0] += 3 + size;
        self.next += 1;
        at
    }
}

fn holds(shape: &Shape, i: usize) -> bool {
    match shape {
        Shape::Fields(marks) => marks[i],
        Shape::Elements(mark) => *mark,
    }
}

fn may_hold(shape: &Shape) -> bool {
    !matches!(shape, Shape::Elements(false))
}

fn mark_reference(heap: &mut Heap, set: &[bool], to: u64) {
    if to == 0 || !set[(to / SPAN) as usize] || heap.mark(to) != 0 {
        return;
    }
    heap.set_mark(to, 1);
    heap.grey.push(to);
}

#[inline(never)]
fn mark(heap: &mut Heap, roots: &[u64], set: &[bool]) {
    for root in roots {
        mark_reference(heap, set, *root);
    }
    while let Some(at) = heap.grey.pop() {
        let kind = (heap.word(at, 0) % HALF) as usize;
        if !may_hold(&heap.shapes[kind]) {
            continue;
        }
        for i in 0..heap.size(at) - 3 {
            if holds(&heap.shapes[kind], i as usize) {
                let to = heap.word(at, 3 + i);
                mark_reference(heap, set, to);
            }
        }
    }
}

fn forward(heap: &mut Heap, part: usize) {
    let (mut free, mut scan) = (0, 0);
    while scan < heap.used[part] {
        let at = heap.place_at(part, scan);
        let size = heap.size(at);
        if heap.mark(at) != 0 {
            let to = heap.place_at(part, free);
            heap.set_mark(at, to);
            free += size;
        }
        scan += size;
    }
}

fn new_place(heap: &Heap, set: &[bool], at: u64) -> u64 {
    if at == 0 || !set[(at / SPAN) as usize] { at } else { heap.mark(at) }
}

fn rewrite(heap: &mut Heap, set: &[bool], part: usize) {
    let mut scan = 0;
    while scan < heap.used[part] {
        let at = heap.place_at(part, scan);
        let size = heap.size(at);
        if heap.mark(at) != 0 {
            let kind = (heap.word(at, 0) % HALF) as usize;
            if may_hold(&heap.shapes[kind]) {
                for i in 0..size - 3 {
                    if holds(&heap.shapes[kind], i as usize) {
                        let to = new_place(heap, set, heap.word(at, 3 + i));
                        heap.set_word(at, 3 + i, to);
                    }
                }
            }
        }
        scan += size;
    }
}

fn move_run(heap: &mut Heap, part: usize, from: u64, to: u64, count: u64) {
    if to != from {
        let begin = heap.begins[part];
        let from = begin + from as usize;
        heap.words.copy_within(from..from + count as usize, begin + to as usize);
    }
}

fn compact(heap: &mut Heap, part: usize) {
    let (mut free, mut first, mut scan) = (0, 0, 0);
    while scan < heap.used[part] {
        let at = heap.place_at(part, scan);
        let size = heap.size(at);
        if heap.mark(at) != 0 {
            heap.set_mark(at, 0);
        } else {
            move_run(heap, part, first, free, scan - first);
            free += scan - first;
            first = scan + size;
        }
        scan += size;
    }
    move_run(heap, part, first, free, scan - first);
    heap.used[part] = free + scan - first;
}

#[inline(never)]
fn slide(heap: &mut Heap, roots: &mut [u64], set: &[bool]) {
    for part in (0..set.len()).filter(|part| set[*part]) {
        forward(heap, part);
    }
    for root in roots.iter_mut() {
        *root = new_place(heap, set, *root);
    }
    for part in (0..set.len()).filter(|part| set[*part]) {
        rewrite(heap, set, part);
    }
    for part in (0..set.len()).filter(|part| set[*part]) {
        compact(heap, part);
    }
}

fn plant(heap: &mut Heap, form: &str, count: u32, gaps: bool) -> u64 {
    let mut places = vec![0];
    let mut add = |heap: &mut Heap, kind, size, gaps| {
        places.push(heap.place(kind, size));
        if gaps {
            heap.place(kind, size);
        }
        (places.len() - 1, places[places.len() - 1])
    };
    if form == "arrays" {
        let (_, top) = add(heap, 2, (count / WIDE).into(), false);
        for word in 0..count / WIDE {
            let (_, array) = add(heap, 2, WIDE.into(), false);
            heap.set_word(top, 3 + u64::from(word), array);
            for i in 0..WIDE {
                let (_, at) = add(heap, 1, 2, gaps);
                heap.set_word(array, 3 + u64::from(i), at);
            }
        }
    } else {
        for _ in 0..count {
            add(heap, if form == "tree" { 3 } else { 0 }, 2, gaps);
        }
        for number in 2..=count as usize {
            let (parent, word) = if form == "tree" { (number / 2, number % 2) } else { (number - 1, 0) };
            heap.set_word(places[parent], 3 + word as u64, places[number]);
        }
    }
    places[1]
}

fn main() {
    let given: Vec<String> = std::env::args().skip(1).collect();
    let count: u32 = given[1].parse().unwrap();
    let room = count as usize * 12 + 100_000;
    let mut heap = Heap {
        words: Vec::with_capacity(room),
        shapes: vec![Shape::Fields(vec![true, false]), Shape::Elements(false), Shape::Elements(true), Shape::Fields(vec![true, true])],
        begins: vec![0],
        used: vec![0],
        grey: Vec::with_capacity(room / 3),
        next: 1,
    };
    let mut roots = vec![0; 1000];
    roots[0] = plant(&mut heap, &given[0], count, given[2] == "1");
    let set = black_box(vec![true]);
    if given[3] != "plant" {
        mark(&mut heap, &roots, &set);
    }
    if given[3] == "slide" {
        slide(&mut heap, &mut roots, &set);
    }
    println!("{}", black_box(heap).used[0]);
}
