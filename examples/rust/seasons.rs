//! A season's mark from the marks of its days: each day is fed in a thread of its own, the days of each week are joined
//! in a thread, and the weeks are joined to the season. Joined by halves instead, and fed whole, the season has the
//! same mark, which is printed once; so for plain marks too. The exit status is 0 only where all three are the same and
//! every line was written. All is under the house key, which everybody knows: the mark and the plain mark of one file
//! together give a drawn key away. Site level.
#[path = "../../bindings/rust/gfp.rs"]
mod gfp;
use gfp::{HOUSE_KEY, Mark, PlainMark, Refusal, begin, begin_plain};
use std::error::Error;
use std::io::Write;
use std::thread;

type Answer<T> = Result<T, Box<dyn Error>>;

fn refused(number: Refusal) -> String {
    format!("refused {number}")
}

/// A call on each item, in a thread of its own: the answers in the order of the items. There are as many threads as
/// items: cut a long list into slices.
fn in_threads<T: Sync, M: Send>(items: &[T], call: impl Fn(&T) -> Result<M, Refusal> + Sync) -> Answer<Vec<M>> {
    let call = &call;
    thread::scope(|scope| {
        let mut threads = Vec::new();
        for item in items {
            threads.push(thread::Builder::new().spawn_scoped(scope, move || call(item))?);
        }
        let mut answers = Vec::new();
        for thread in threads {
            let answer = thread.join().map_err(|_| "a thread panicked")?;
            answers.push(answer.map_err(refused)?);
        }
        Ok(answers)
    })
}

/// The marks joined by halves, and those of each half by halves again.
fn by_halves<M: Copy>(empty: M, marks: &[M], join: &impl Fn(M, M) -> Result<M, Refusal>) -> Result<M, Refusal> {
    match marks {
        [] => Ok(empty),
        [mark] => Ok(*mark),
        _ => {
            let (front, back) = marks.split_at(marks.len() / 2);
            join(by_halves(empty, front, join)?, by_halves(empty, back, join)?)
        }
    }
}

/// The season's mark by weeks, by halves, and fed whole.
fn season<M: Copy + Send + Sync>(
    days: &[String],
    empty: M,
    feed: impl Fn(M, &str) -> Result<M, Refusal> + Sync,
    join: impl Fn(M, M) -> Result<M, Refusal> + Sync,
) -> Answer<[M; 3]> {
    // one behind the other: the empty mark in front changes nothing
    let in_turn = |marks: &[M]| marks.iter().try_fold(empty, |front, &back| join(front, back));
    let marks = in_threads(days, |day| feed(empty, day))?;
    let weeks: Vec<&[M]> = marks.chunks(7).collect();
    let weeks = in_threads(&weeks, |week| in_turn(week))?;
    let by_weeks = in_turn(&weeks).map_err(refused)?;
    let halves = by_halves(empty, &marks, &join).map_err(refused)?;
    Ok([by_weeks, halves, feed(empty, &days.concat()).map_err(refused)?])
}

fn marks(days: &[String]) -> Answer<[Mark; 3]> {
    let empty = begin(HOUSE_KEY).map_err(refused)?;
    let feed = |mut mark: Mark, part: &str| mark.feed(HOUSE_KEY, part).map(|()| mark);
    season(days, empty, feed, |mut front, back| front.join_behind(HOUSE_KEY, back).map(|()| front))
}

fn plain_marks(days: &[String]) -> Answer<[PlainMark; 3]> {
    let empty = begin_plain(HOUSE_KEY).map_err(refused)?;
    let feed = |mut mark: PlainMark, part: &str| mark.feed(HOUSE_KEY, part).map(|()| mark);
    season(days, empty, feed, |mut front, back| front.join_behind(HOUSE_KEY, back).map(|()| front))
}

fn main() -> Answer<()> {
    let days: Vec<String> = (1..=91).map(|n| format!("day {n}: tilt 7, offset 0.0125 mrad\n")).collect();
    let [mark, halves, whole] = marks(&days)?;
    let [plain, plain_halves, plain_whole] = plain_marks(&days)?;
    if [halves, whole] != [mark; 2] || [plain_halves, plain_whole] != [plain; 2] {
        return Err("the marks of one season differ".into());
    }
    // println! would panic where standard output cannot be written
    let mut out = std::io::stdout();
    writeln!(out, "a season of {} days, {} bytes: by weeks, by halves and fed whole", days.len(), mark.bits / 8)?;
    writeln!(out, "mark {:x}", mark.fingerprint)?;
    writeln!(out, "plain mark {:x}", plain.fingerprint)?;
    out.flush()?;
    Ok(())
}
