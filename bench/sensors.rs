// The choice among twelve candidates, on plants of 32 states and 200 arrows: random ones, and such as make sets slow to judge and many of them worth trying.
// Built and run by `bench/sensors`; prints the sum and the least time of three calls.
use std::time::Instant;

// ---- the proved library, as it is linked; a slice passes as a pointer and a length
unsafe extern "C" {
    fn timed_choose(
        states: u64, arrows: *const u16, arrow_len: usize, events: *const u16, event_len: usize, candidates: *const u16, candidate_len: usize,
        prices: *const u64, price_len: usize, marks: *mut u8, mark_len: usize,
    ) -> u64;
}

fn choose(arrows: &[u16], events: &[u16], candidates: &[u16], prices: &[u64]) -> u64 {
    let mut marks = vec![0u8; candidates.len()];
    // SAFETY: pointers and lengths are those of live slices, and nothing else writes to them meanwhile.
    unsafe {
        timed_choose(
            32, arrows.as_ptr(), arrows.len(), events.as_ptr(), events.len(), candidates.as_ptr(), candidates.len(),
            prices.as_ptr(), prices.len(), marks.as_mut_ptr(), marks.len(),
        )
    }
}

struct Random(u64);

impl Random {
    fn below(&mut self, n: u64) -> u16 {
        self.0 ^= self.0 << 13;
        self.0 ^= self.0 >> 7;
        self.0 ^= self.0 << 17;
        ((self.0 >> 16) % n) as u16
    }
}

// Events 0 to 11 are the candidates, 12 is a fault that shows nothing, 13 shows 1, 14 is a fault that shows 1, the others show something else.
fn events() -> Vec<u16> {
    (0..64u16).flat_map(|e| [if e < 13 { 0 } else if e < 15 { 1 } else { e - 13 }, (e == 12 || e == 14) as u16]).collect()
}

// A fault leads to a part that is never left. There and before, the events that show something are others, so that only candidates hide it.
fn random(seed: u64) -> Vec<u16> {
    let mut r = Random(seed);
    let mut arrows = vec![0, 12, 16];
    while arrows.len() < 600 {
        let bad = arrows.len() % 2 == 1;
        let part = 16 * bad as u16;
        let event = match r.below(4) {
            0 => r.below(12),
            _ => 15 + r.below(24) + if r.below(6) == 0 { 0 } else { 24 * bad as u16 },
        };
        arrows.extend([part + r.below(16), event, part + r.below(16)]);
    }
    arrows
}

// An odometer of m states, in which two runs stay alike for about m * m events, and behind state m a fault and ways round that the candidates are on.
fn slow(m: u16, ways: &[[u16; 3]]) -> Vec<u16> {
    let mut arrows = vec![m - 1, 14, 0, 0, 15, m, m, 13, m, m, 12, m + 1];
    for i in 0..m - 1 {
        arrows.extend([i, 12, i + 1, i, 13, i + 1]);
    }
    for [from, event, to] in ways {
        arrows.extend([m + 1 + from, *event, m + 1 + to]);
    }
    // The rest repeats arrows.
    let once = arrows.len();
    while arrows.len() < 600 {
        arrows.push(arrows[arrows.len() - once]);
    }
    arrows
}

fn measure(name: &str, arrows: &[u16]) {
    let candidates: Vec<u16> = (0..12).collect();
    let rows: [(&str, Vec<u64>); 3] = [
        ("1 each", vec![1; 12]),
        ("1, 2, 4, ..", (0..12).map(|i| 1 << i).collect()),
        ("near 1,000", (0..12).map(|i| 1000 + i * i).collect()),
    ];
    for (prices, row) in rows {
        let mut sum = 0;
        let least = (0..3)
            .map(|_| {
                let start = Instant::now();
                sum = choose(arrows, &events(), &candidates, &row);
                start.elapsed().as_secs_f64() * 1e3
            })
            .fold(f64::INFINITY, f64::min);
        let chosen = if sum == u64::MAX { "none does".to_string() } else { format!("for {sum}") };
        println!("{name:<36} {prices:<12} {chosen:<12} {least:>8.1} ms");
    }
}

fn main() {
    for seed in [3, 5, 8] {
        measure("random", &random(seed));
    }
    let all: Vec<[u16; 3]> = (0..12).map(|g| [0, g, 0]).collect();
    measure("slow, all candidates needed", &slow(30, &all));
    let pairs: Vec<[u16; 3]> = (0..6).flat_map(|g| [[0, g, 1 + g], [1 + g, g + 6, 0]]).collect();
    measure("slow, one of each of six pairs", &slow(24, &pairs));
    let two: Vec<[u16; 3]> = (0..6).flat_map(|g| [[g, g, (g + 1) % 6], [g, g + 6, (g + 1) % 6]]).collect();
    measure("slow, both of one of six pairs", &slow(25, &two));
    let three: Vec<[u16; 3]> = (0..4).flat_map(|g| (0..3).map(move |k| [g, g + 4 * k, (g + 1) % 4])).collect();
    measure("slow, all of one of four threes", &slow(27, &three));
}
