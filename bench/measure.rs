// Times several ways to do one job, in one run.
use std::time::Instant;

pub struct Way<'a> {
    name: &'a str,
    call: Box<dyn FnMut() + 'a>,
}

impl<'a> Way<'a> {
    pub fn new(name: &'a str, call: impl FnMut() + 'a) -> Way<'a> {
        Way { name, call: Box::new(call) }
    }
}

fn nanoseconds(calls: u32, call: &mut dyn FnMut()) -> f64 {
    let start = Instant::now();
    for _ in 0..calls {
        call();
    }
    start.elapsed().as_nanos() as f64 / calls as f64
}

fn median(mut times: Vec<f64>) -> f64 {
    times.sort_by(f64::total_cmp);
    times[times.len() / 2]
}

// Nanoseconds for each way: the median of 41 rounds, each of which times the ways in turn.
pub fn medians(calls: u32, ways: &mut [Way]) -> Vec<f64> {
    let mut times = vec![Vec::new(); ways.len()];
    for _ in 0..41 {
        for (times, way) in times.iter_mut().zip(ways.iter_mut()) {
            times.push(nanoseconds(calls, &mut way.call));
        }
    }
    times.into_iter().map(median).collect()
}

// The medians, compared with that of the last way, which is the library.
pub fn compare(job: &str, calls: u32, mut ways: Vec<Way>) {
    let medians = medians(calls, &mut ways);
    println!("{job:44}{:>9}   library's speed", "ns");
    for (way, time) in ways.iter().zip(&medians) {
        println!("{:44}{time:>9.0}   {:.2} times", way.name, time / medians[ways.len() - 1]);
    }
}
