//! The benchmark: two implementations on the training table and the tables near the limits.

use crate::answer::{Answer, Calls, Verdict};
use crate::clock::processor_time;
use crate::tables::{by_name, Model, NEAR};
use std::time::Duration;

/// Both run in turn until this time has passed, and each at least five times.
const ENOUGH: Duration = Duration::from_millis(500);
const LEAST_RUNS: usize = 5;

/// The figures as a Markdown page. Fails where the two give different answers.
pub fn benchmark(one: Calls, two: Calls) -> Result<String, String> {
    let mut text = format!(
        "# Benchmark: {one} against {two}

Processor time in milliseconds: the best of several runs, at least five, of both in turn in one
process, both built for release. The memory is not cleared before: it holds what the call before
left there, and each call clears its own W bytes, 9,600 for the training table and 2,360,320 for the
others. The budget is the largest number there is. The checked claim is the written one, of exactly
the table's facts; where the verdict is possible, the answer is 11.

Machine: {}.

| table | facts | verdict | check: {one} | {two} | ratio | claim check: {one} | {two} | ratio |
|---|--:|---|--:|--:|--:|--:|--:|--:|
",
        machine(),
        one = one.name,
        two = two.name,
    );
    let mut list = String::new();
    let near = NEAR.iter().enumerate();
    let near = near.map(|(i, about)| (format!("near{}", i + 1), *about));
    for (name, about) in [("training".to_string(), "the built-in table")]
        .into_iter()
        .chain(near)
    {
        let model = by_name(&name).ok_or("a table is missing")?;
        let row = row(one, two, &model).ok_or(format!("they differ on {name}"))?;
        text.push_str(&format!("| {name} | {row} |\n"));
        list.push_str(&format!("- {name}: {about}\n"));
    }
    Ok(text + "\n" + &list)
}

/// The columns of one table, or `None` where the two differ.
fn row(one: Calls, two: Calls, model: &Model) -> Option<String> {
    let file = model.bytes();
    let total = model.total();
    let checks = best([one, two], total, |calls, memory| {
        (calls.check)(&file, memory, usize::MAX)
    })?;
    let mut space = vec![0; 4 * total];
    let written = (two.write_claim)(&file, &mut vec![0; total], usize::MAX, &mut space).written?;
    let judged = best([one, two], total, |calls, memory| {
        (calls.check_claim)(&file, &space[..written], memory)
    })?;
    let verdict = match checks.answer.verdict.as_ref()? {
        Verdict::Safe => "safe",
        Verdict::Possible(_) => "possible",
    };
    let (count, checks, judged) = (checks.answer.value, checks.columns(), judged.columns());
    Some(format!("{count} | {verdict} | {checks} | {judged}"))
}

/// What both answered, and the shortest time of each.
struct Best {
    answer: Answer,
    times: [Duration; 2],
}

impl Best {
    /// Both times and their ratio.
    fn columns(&self) -> String {
        let [one, two] = self.times.map(|time| time.as_secs_f64() * 1000.0);
        format!("{one:.3} | {two:.3} | {:.2}", one / two)
    }
}

/// Runs both in turn, each with a memory of its own, or gives `None` where they differ.
fn best(both: [Calls; 2], total: usize, run: impl Fn(Calls, &mut [u8]) -> Answer) -> Option<Best> {
    let mut memories = [vec![0xFF; total], vec![0xFF; total]];
    let mut times = [Duration::MAX; 2];
    let mut spent = Duration::ZERO;
    let mut runs = 0;
    loop {
        let mut answers = Vec::new();
        for which in 0..2 {
            let start = processor_time();
            answers.push(run(both[which], &mut memories[which]));
            let took = processor_time() - start;
            times[which] = times[which].min(took);
            spent += took;
        }
        if answers[0] != answers[1] || memories[0] != memories[1] {
            return None;
        }
        runs += 1;
        if runs >= LEAST_RUNS && spent >= ENOUGH {
            let answer = answers.swap_remove(0);
            return Some(Best { answer, times });
        }
    }
}

/// The machine's kind and how busy it is, as Linux tells them.
fn machine() -> String {
    let about = std::fs::read_to_string("/proc/cpuinfo").unwrap_or_default();
    let kind = about
        .lines()
        .find_map(|line| line.strip_prefix("model name")?.split_once(": "))
        .map_or("unknown", |(_, kind)| kind);
    let processors = std::thread::available_parallelism().map_or(1, usize::from);
    let load = std::fs::read_to_string("/proc/loadavg").unwrap_or_default();
    let load = load.split(' ').next().unwrap_or_default();
    format!("{kind}, {processors} processors, load {load} at the start")
}
