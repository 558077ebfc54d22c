//! Times of the library and of the reference on the same files, in one run.

use std::hint::black_box;
use std::time::{Duration, Instant};

use reference::fold::fold;
use reference::generate::case::Case;
use reference::measure::measure;
use reference::steady::{fold_until_steady, runs};

use crate::call::{self, MOST_ROOM};
use crate::inputs::{Class, groups, measured, repeated};

/// A sample takes at least so long, and the least time of so many samples counts.
const SAMPLE: Duration = Duration::from_millis(20);
const SAMPLES: usize = 5;
const MEAN: &str = "geometric mean of the ratios";

pub fn bench_all() {
    println!("microseconds for a file, the least of {SAMPLES} samples; library / reference");
    println!("{:<44} {:>6} {:>11} {:>11} {:>8}", "", "files", "reference", "library", "ratio");
    for (what, classes) in groups() {
        println!("{what}");
        let ratios: Vec<f64> = classes.iter().map(bench_class).collect();
        println!("  {MEAN:<42} {:>39.3}", mean(&ratios));
    }
    bench_repeats();
    bench_measures();
}

fn bench_repeats() {
    println!(
        "until steady, beside the reference's repeat and beside a call of wsf_fold for each run"
    );
    println!("{:<85} {:>4} {:>11} {:>8}", "", "runs", "single runs", "ratio");
    let ratios: Vec<[f64; 2]> = repeated().iter().map(bench_repeat).collect();
    let [beside_reference, beside_runs] = means(&ratios);
    println!("  {MEAN:<42} {beside_reference:>39.3} {beside_runs:>25.3}");
}

fn bench_measures() {
    println!("measured, beside the reference, which folds, and beside wsf_fold");
    println!("{:<85} {:>11} {:>8}", "", "wsf_fold", "ratio");
    let ratios: Vec<[f64; 2]> = measured().iter().map(bench_measure).collect();
    let [beside_reference, beside_fold] = means(&ratios);
    println!("  {MEAN:<42} {beside_reference:>39.3} {beside_fold:>20.3}");
}

fn means(ratios: &[[f64; 2]]) -> [f64; 2] {
    [0, 1].map(|at| {
        let ratios: Vec<f64> = ratios.iter().map(|ratios| ratios[at]).collect();
        mean(&ratios)
    })
}

fn mean(ratios: &[f64]) -> f64 {
    let logarithms: f64 = ratios.iter().map(|ratio| ratio.ln()).sum();
    (logarithms / ratios.len() as f64).exp()
}

/// Prints the times of a class. The ratio.
fn bench_class(class: &Class) -> f64 {
    let cases = &class.cases;
    let mut output = vec![0; MOST_ROOM];
    let [reference, library] =
        least([&mut || each(cases, |case| fold(&case.file, case.room)), &mut || {
            each(cases, |case| call::fold(&case.file, &mut output[..case.room]))
        }]);
    println!("{}", times_of(class, reference, library));
    library / reference
}

/// Prints the times of a class. The ratio to the reference's repeat, and to the single runs.
fn bench_repeat(class: &Class) -> [f64; 2] {
    let cases = &class.cases;
    let given: Vec<Case> = cases.iter().flat_map(given_to_runs).collect();
    let (mut output, mut of_run) = (vec![0; MOST_ROOM], vec![0; MOST_ROOM]);
    let [reference, library, single] = least([
        &mut || each(cases, |case| fold_until_steady(&case.file, case.room)),
        &mut || each(cases, |case| call::fold_until_steady(&case.file, &mut output[..case.room])),
        &mut || each(&given, |case| call::fold(&case.file, &mut of_run[..case.room])),
    ]);
    let runs = given.len() as f64 / cases.len() as f64;
    let (a_file, ratio) = (a_file(class, single), library / single);
    let times = times_of(class, reference, library);
    println!("{times} {runs:>4.1} {a_file:>11.2} {ratio:>8.3}");
    [library / reference, ratio]
}

/// Prints the times of a class. The ratio to the reference's measuring, and to the fold in the most
/// room.
fn bench_measure(class: &Class) -> [f64; 2] {
    let cases = &class.cases;
    let mut output = vec![0; MOST_ROOM];
    let [reference, library, fold] = least([
        &mut || each(cases, |case| measure(&case.file)),
        &mut || each(cases, |case| call::measure(&case.file)),
        &mut || each(cases, |case| call::fold(&case.file, &mut output)),
    ]);
    let (a_file, ratio) = (a_file(class, fold), library / fold);
    println!("{} {a_file:>11.2} {ratio:>8.3}", times_of(class, reference, library));
    [library / reference, ratio]
}

/// The files that the runs of the repeat are given, in the case's room.
fn given_to_runs(case: &Case) -> Vec<Case> {
    let results = runs(&case.file, case.room).map(|answer| answer.result);
    let mut given: Vec<Vec<u8>> = std::iter::once(case.file.clone()).chain(results).collect();
    given.pop().expect("the last run gives what it was given");
    given.into_iter().map(|file| Case::new("a run", file).in_room(case.room)).collect()
}

fn times_of(class: &Class, reference: f64, library: f64) -> String {
    format!(
        "  {:<42} {:>6} {:>11.2} {:>11.2} {:>8.3}",
        class.what,
        class.cases.len(),
        a_file(class, reference),
        a_file(class, library),
        library / reference
    )
}

/// The microseconds for a file, by the seconds for all.
fn a_file(class: &Class, seconds: f64) -> f64 {
    seconds * 1e6 / class.cases.len() as f64
}

fn each<T>(cases: &[Case], mut of: impl FnMut(&Case) -> T) {
    for case in cases {
        black_box(of(black_box(case)));
    }
}

/// The seconds that each of them takes, sampled in turn.
fn least<const N: usize>(mut all: [&mut dyn FnMut(); N]) -> [f64; N] {
    let often = all.each_mut().map(|run| times(*run));
    let mut least = [f64::MAX; N];
    for _ in 0..SAMPLES {
        for (at, run) in all.iter_mut().enumerate() {
            least[at] = least[at].min(sample(*run, often[at]));
        }
    }
    least
}

/// How often it has to run for a sample.
fn times(run: &mut dyn FnMut()) -> u32 {
    let mut times = 1;
    loop {
        let start = Instant::now();
        (0..times).for_each(|_| run());
        if start.elapsed() >= SAMPLE {
            return times;
        }
        times *= 2;
    }
}

/// The seconds of one run. As many runs that aren't timed go before, so that it makes no difference
/// what was sampled last: branches that have just run are predicted better.
fn sample(run: &mut dyn FnMut(), times: u32) -> f64 {
    (0..times).for_each(|_| run());
    let start = Instant::now();
    (0..times).for_each(|_| run());
    start.elapsed().as_secs_f64() / f64::from(times)
}
