//! Times every call at 0, 100 and 500 regions in three shapes, and prints ratios: what part of a call is the test of its image, and how
//! the call stands to a sorted array that is scanned; joins also to a Stack-Tree-Desc merge join; and a batch to its items as single calls.
//!
//! What is compared is timed in turn, in one run, and the median of many turns is taken. The test alone is timed by a call that is
//! refused right behind it (an account above 15).

#[path = "../tests/plain/chance.rs"]
#[allow(dead_code)]
mod chance;
mod sorted;

use chance::{nest, Chance, Shape};
use sasnuvarth::{Choice, Desk, Item, Kind, Region, BUFFER_WORDS};
use sorted::{Out, Sorted};
use std::hint::black_box;
use std::time::Instant;

const TURNS: usize = 201;
const SHARES: [u32; 16] = [500, 0, 0, 0, 0, 0, 0, 0, 0, 0, 0, 0, 0, 0, 0, 0];

/// Nanoseconds of one of n calls that `work` makes.
fn time(n: usize, work: impl FnOnce()) -> f64 {
    let start = Instant::now();
    work();
    start.elapsed().as_nanos() as f64 / n as f64
}

fn median(mut times: Vec<f64>) -> f64 {
    times.sort_by(f64::total_cmp);
    times[times.len() / 2]
}

/// The medians of several times that are taken in turn.
fn medians<const N: usize>(mut turn: impl FnMut() -> [f64; N]) -> [f64; N] {
    let turns: Vec<[f64; N]> = (0..TURNS + 3).map(|_| turn()).skip(3).collect();
    std::array::from_fn(|i| median(turns.iter().map(|t| t[i]).collect()))
}

/// A set both ways.
struct Both {
    image: Box<[u32]>,
    sorted: Sorted,
}

fn both(regions: &[Region]) -> Both {
    let mut image = sasnuvarth::blank_image();
    sasnuvarth::open_set(&mut image, &SHARES).unwrap();
    let mut sorted = Sorted { share: 500, regions: Vec::with_capacity(500) };
    for r in regions {
        sasnuvarth::save(&mut image, 0, *r).unwrap();
        assert_eq!(sorted.save(0, *r), 0);
    }
    Both { image, sorted }
}

fn refused_behind_the_test(image: &[u32]) {
    assert!(black_box(sasnuvarth::ancestors(image, 16, 0, Choice::Strict, &mut [])).is_err());
}

struct Case {
    shape: Shape,
    n: usize,
    /// n regions, by chance's order
    regions: Vec<Region>,
    /// some regions that are not held, to save and delete
    spare: Vec<Region>,
}

const SPARE: usize = 8;

fn case(shape: Shape, n: usize) -> Case {
    let chance = &mut Chance::new(n as u64);
    let mut regions = nest(chance, shape, 65_536, 60, (n.max(100) + SPARE) as u32);
    chance.shuffle(&mut regions);
    let spare = regions.split_off(n.max(100));
    regions.truncate(n);
    Case { shape, n, regions, spare }
}

fn shape_name(shape: Shape) -> &'static str {
    match shape {
        Shape::Flat => "side by side",
        Shape::Mixed => "mixed",
        Shape::Deep => "nested",
    }
}

fn times_of(ratio: f64) -> String {
    if ratio >= 10.0 {
        format!("{ratio:.0}")
    } else {
        format!("{ratio:.1}")
    }
}

/// A line: the call's time, the test's share of it, the call against a plain one, and what it does beside the test against that.
fn line(call: &str, shape: Shape, n: usize, [ours, test, plain]: [f64; 3]) {
    println!(
        "| {call} | {} | {n} | {:.1} | {:.0} % | {} | {} |",
        shape_name(shape),
        ours / 1000.0,
        100.0 * test / ours,
        times_of(ours / plain),
        times_of((ours - test).max(0.0) / plain)
    );
}

/// Saves and deletes the spare ones, so that the set grows to n and shrinks again.
fn bench_changes(case: &Case, n: usize) {
    let mut set = both(&case.regions);
    let spare = &case.spare;
    let [save, delete, test, plain_save, plain_delete] = medians(|| {
        let Both { image, sorted } = &mut set;
        [
            time(SPARE, || spare.iter().for_each(|r| sasnuvarth::save(image, 0, *r).unwrap())),
            time(SPARE, || spare.iter().for_each(|r| sasnuvarth::delete(image, 0, r.start).unwrap())),
            time(SPARE, || spare.iter().for_each(|_| refused_behind_the_test(image))),
            time(SPARE, || spare.iter().for_each(|r| assert_eq!(sorted.save(0, black_box(*r)), 0))),
            time(SPARE, || spare.iter().for_each(|r| assert_eq!(sorted.delete(0, black_box(r.start)), 0))),
        ]
    });
    line("save", case.shape, n, [save, test, plain_save]);
    line("delete", case.shape, n, [delete, test, plain_delete]);
}

/// A search, ours and the plain one, asked around each spare region.
fn bench_search(
    call: &str,
    case: &Case,
    set: &Both,
    ours: impl Fn(&[u32], &Region, &mut [u32]),
    plain: impl Fn(&Sorted, &Region, &mut [u32]),
) {
    let (mut out, mut other) = (vec![0; 4 * 500], vec![0; 4 * 500]);
    let asked = &case.spare;
    for r in asked {
        ours(&set.image, r, &mut out);
        plain(&set.sorted, r, &mut other);
        assert_eq!(out, other);
    }
    let told = medians(|| {
        [
            time(SPARE, || asked.iter().for_each(|r| ours(&set.image, black_box(r), &mut out))),
            time(SPARE, || asked.iter().for_each(|_| refused_behind_the_test(&set.image))),
            time(SPARE, || asked.iter().for_each(|r| plain(&set.sorted, black_box(r), &mut out))),
        ]
    });
    line(call, case.shape, case.n, told);
}

fn bench_searches(case: &Case) {
    let set = &both(&case.regions);
    bench_search(
        "ancestors",
        case,
        set,
        |image, r, out| _ = black_box(sasnuvarth::ancestors(image, 0, r.start, Choice::Strict, out)),
        |sorted, r, out| sorted.ancestors(r.start, black_box(&mut Out::new(out))),
    );
    bench_search(
        "parent",
        case,
        set,
        |image, r, _| _ = black_box(sasnuvarth::parent(image, 0, r.start, r.level)),
        |sorted, r, _| _ = black_box(sorted.parent(r.start, r.level)),
    );
    bench_search(
        "descendants",
        case,
        set,
        |image, r, out| _ = black_box(sasnuvarth::descendants(image, 0, r.start, r.end, 0, out)),
        |sorted, r, out| sorted.descendants(r.start, r.end, 0, black_box(&mut Out::new(out))),
    );
    bench_search(
        "children",
        case,
        set,
        |image, r, out| _ = black_box(sasnuvarth::children(image, 0, r.start, r.end, r.level, 0, out)),
        |sorted, r, out| sorted.children(r.start, r.end, r.level, 0, black_box(&mut Out::new(out))),
    );
}

/// A join answers alike all three ways, by every kind.
fn check_join(outer: &Both, inner: &Both) {
    for kind in [Kind::Ancestor, Kind::Parent, Kind::AncestorOrSelf] {
        let [mut ours, mut scan, mut merge] = [(); 3].map(|_| vec![0; 4 * 2000]);
        let total = sasnuvarth::join(&outer.image, &inner.image, 0, kind, &mut ours).unwrap();
        let (mut by_scan, mut by_merge) = (Out::new(&mut scan), Out::new(&mut merge));
        outer.sorted.join(&inner.sorted, kind, &mut by_scan);
        outer.sorted.merge_join(&inner.sorted, kind, &mut by_merge);
        assert_eq!([by_scan.total, by_merge.total], [total; 2]);
        assert!(ours == scan && ours == merge);
    }
}

/// A join three ways, and the test of its two images; prints the call's time, the test's share, the call against the scan and against
/// the merge, and against the merge what the call does beside the test.
fn bench_join(what: &str, outer: &Both, inner: &Both) {
    check_join(outer, inner);
    check_join(outer, outer);
    let mut out = vec![0; 4 * 2000];
    let mut totals = [0; 3];
    let [ours, test, scan, merge] = medians(|| {
        [
            time(1, || totals[0] = sasnuvarth::join(&outer.image, &inner.image, 0, Kind::Ancestor, &mut out).unwrap()),
            time(1, || assert!(sasnuvarth::join(&outer.image, &inner.image, 16, Kind::Ancestor, &mut out).is_err())),
            time(1, || {
                let mut into = Out::new(&mut out);
                outer.sorted.join(&inner.sorted, black_box(Kind::Ancestor), &mut into);
                totals[1] = into.total;
            }),
            time(1, || {
                let mut into = Out::new(&mut out);
                outer.sorted.merge_join(&inner.sorted, black_box(Kind::Ancestor), &mut into);
                totals[2] = into.total;
            }),
        ]
    });
    assert!(totals[0] == totals[1] && totals[0] == totals[2]);
    println!(
        "| {what} | {} | {:.1} | {:.0} % | {} | {} | {} |",
        totals[0],
        ours / 1000.0,
        100.0 * test / ours,
        times_of(ours / scan),
        times_of(ours / merge),
        times_of((ours - test).max(0.0) / merge)
    );
}

/// Another set of the same shape over the same positions.
fn other(shape: Shape, n: usize) -> Vec<Region> {
    let mut regions = nest(&mut Chance::new(9000 + n as u64), shape, 65_536, 60, n.max(100) as u32);
    Chance::new(1).shuffle(&mut regions);
    regions.truncate(n);
    regions
}

/// 500 regions side by side, and 500 of which so many per cent lie in one of them; the others stand in runs of ten between them.
fn held_in_part(percent: u32) -> (Vec<Region>, Vec<Region>) {
    let region = |start, end, level| Region { start, end, level, reference: start };
    let base = 65_536;
    let outer = (0..500).map(|i| region(base + 100 * i, base + 100 * i + 49, 1)).collect();
    let held = 5 * percent;
    let free = 500 - held;
    let mut inner: Vec<Region> = (0..held).map(|i| region(base + 100 * (i * 500 / held) + 10, base + 100 * (i * 500 / held) + 12, 2)).collect();
    let runs = free.div_ceil(10);
    for i in 0..free {
        let at = base + 100 * (i / 10 * 500 / runs) + 50 + 4 * (i % 10);
        inner.push(region(at, at + 2, 2));
    }
    (outer, inner)
}

/// A round of eight seats, all half way through their lists, against a scan that looks for their next pairs.
fn bench_round(shape: Shape, n: usize) {
    let (outer, inner) = (both(&case(shape, n).regions), both(&other(shape, n)));
    let mut desk = Desk::open();
    (0..8).for_each(|i| desk.open_seat(i, 0, Kind::Ancestor, 32).unwrap());
    let mut out = vec![0; BUFFER_WORDS];
    let mut all = Out::new(&mut []);
    outer.sorted.join(&inner.sorted, Kind::Ancestor, &mut all);
    for _ in 0..all.total / 64 {
        desk.round(&outer.image, &inner.image, &mut out).unwrap();
    }
    let mark = if all.total < 64 { (0, 0) } else { (out[4 * 31 + 2], out[4 * 31]) };
    let mut other = out.clone();
    let told = medians(|| {
        let mut served = desk;
        [
            time(1, || _ = served.round(&outer.image, &inner.image, &mut out).unwrap()),
            time(1, || assert!(sasnuvarth::join(&outer.image, &inner.image, 16, Kind::Ancestor, &mut []).is_err())),
            time(1, || {
                for part in other.chunks_exact_mut(128) {
                    outer.sorted.join_past(&inner.sorted, Kind::Ancestor, black_box(mark), &mut Out::new(part));
                }
            }),
        ]
    });
    assert_eq!(out, other);
    line("round", shape, n, told);
}

const BATCH: usize = 500;

fn item_singly(image: &mut [u32], item: &Item) {
    match *item {
        Item::Save { account, region } => sasnuvarth::save(image, account, region),
        Item::Delete { account, start } => sasnuvarth::delete(image, account, start),
    }
    .unwrap();
}

/// Changes of a set as single calls and as one batch. The tests alone are timed on the sets that the single calls meet, so that the table
/// shows whether a batch takes one of them, of the set before it, and what the single calls take beside theirs.
fn bench_batch(what: &str, shape: Shape, from: &[u32], full: &[u32], items: &[Item]) {
    let words: Vec<u32> = items.iter().flat_map(|i| i.words()).collect();
    let mut places = vec![1; items.len()];
    let [single, tests, batch, one_test, full_test] = medians(|| {
        let mut image = [from.to_vec(), from.to_vec(), from.to_vec()];
        places.fill(1);
        let mut tests = 0.0;
        for item in items {
            tests += time(1, || refused_behind_the_test(&image[0]));
            item_singly(&mut image[0], item);
        }
        let told = [
            time(1, || items.iter().for_each(|item| item_singly(&mut image[1], black_box(item)))),
            tests,
            time(1, || sasnuvarth::batch(&mut image[2], black_box(&words), &mut places).unwrap()),
            time(16, || (0..16).for_each(|_| refused_behind_the_test(from))),
            time(16, || (0..16).for_each(|_| refused_behind_the_test(full))),
        ];
        assert!(places.iter().all(|&n| n == 0));
        told
    });
    println!(
        "| {} {what} | {} | {:.0} | {:.0} | {:.0} | {:.1} | {:.1} | {:.3} |",
        items.len(),
        shape_name(shape),
        single / 1000.0,
        (single - tests) / 1000.0,
        batch / 1000.0,
        one_test / 1000.0,
        full_test / 1000.0,
        batch / single
    );
}

/// A set grown from nothing to 500 regions, and emptied again in another order.
fn bench_batches(shape: Shape) {
    let Case { mut regions, .. } = case(shape, BATCH);
    let (none, full) = (both(&[]).image, both(&regions).image);
    let saves: Vec<Item> = regions.iter().map(|r| Item::Save { account: 0, region: *r }).collect();
    bench_batch("saves", shape, &none, &full, &saves);
    Chance::new(2).shuffle(&mut regions);
    let deletes: Vec<Item> = regions.iter().map(|r| Item::Delete { account: 0, start: r.start }).collect();
    bench_batch("deletes", shape, &full, &full, &deletes);
}

fn bench_opening() {
    let mut image = sasnuvarth::blank_image();
    let [ours, plain] = medians(|| {
        [
            time(16, || (0..16).for_each(|_| sasnuvarth::open_set(&mut image, black_box(&SHARES)).unwrap())),
            time(16, || (0..16).for_each(|_| black_box(&mut image).fill(black_box(0)))),
        ]
    });
    println!("Opening a set takes {:.1} µs, {} times as long as to fill its words with 0.\n", ours / 1000.0, times_of(ours / plain));
}

const SIZES: [usize; 3] = [0, 100, 500];

fn main() {
    let shapes = [Shape::Flat, Shape::Mixed, Shape::Deep];
    bench_opening();
    println!("| call | shape | regions | µs | of it the test | times a plain one | without the test, times a plain one |");
    println!("|---|---|---|---|---|---|---|");
    for shape in shapes {
        for n in SIZES {
            bench_changes(&case(shape, n.saturating_sub(SPARE)), n);
            bench_searches(&case(shape, n));
            bench_round(shape, n);
        }
    }
    println!("\n| items | shape | single calls, µs | without their tests, µs | a batch, µs | a test of the set before, µs | of the full set, µs | batch / single calls |");
    println!("|---|---|---|---|---|---|---|---|");
    shapes.into_iter().for_each(bench_batches);
    println!("\n| join | pairs | µs | of it the tests | times a scan | times a merge | without the tests, times a merge |");
    println!("|---|---|---|---|---|---|---|");
    for shape in shapes {
        for n in SIZES {
            let outer = both(&case(shape, n).regions);
            bench_join(&format!("{}, {n} and {n}", shape_name(shape)), &outer, &both(&other(shape, n)));
        }
    }
    for percent in [90, 50, 10, 1] {
        let (outer, inner) = held_in_part(percent);
        bench_join(&format!("500 and 500, {percent} % held"), &both(&outer), &both(&inner));
    }
}
