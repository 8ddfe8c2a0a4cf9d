//! Times one call of each rules crate, and then the calls of the send tables, beside the same calls of the Rust.
//! All sides run in turn in one process; a figure is the least of many runs. Without archives there is nothing to time.

#[cfg(archive)]
mod cycles;
#[cfg(archive)]
mod original;
#[cfg(archive)]
mod ours;
#[cfg(archive)]
mod proved;
#[cfg(archive)]
mod tables;
#[cfg(archive)]
mod theirs;

#[cfg(archive)]
fn least(mut turn: impl FnMut()) -> f64 {
    const TURNS: u32 = 2000;
    let mut best = f64::MAX;
    for _ in 0..400 {
        let start = std::time::Instant::now();
        for _ in 0..TURNS {
            turn();
        }
        best = best.min(start.elapsed().as_nanos() as f64 / f64::from(TURNS));
    }
    best
}

#[cfg(archive)]
fn main() {
    use std::hint::black_box as shown;
    println!("| Call, eight live sends | proved, ns | Rust, ns | ratio |\n|---|---:|---:|---:|");
    let row =
        |name: &str, ours: f64, theirs: f64| println!("| {name} | {ours:.1} | {theirs:.1} | {:.2} |", ours / theirs);

    let (mut a, mut b) = (ours::Unicasts::eight(), theirs::Tables::unicasts());
    row(
        "unicasts: poll, miss",
        least(|| {
            shown(a.poll(99));
        }),
        least(|| {
            shown(b.poll(99));
        }),
    );
    row(
        "unicasts: ack, miss",
        least(|| {
            shown(a.ack(7));
        }),
        least(|| {
            shown(b.ack(7));
        }),
    );
    row(
        "unicasts: best queued, none",
        least(|| {
            shown(a.best());
        }),
        least(|| {
            shown(b.dequeue());
        }),
    );
    row(
        "unicasts: idle tick",
        least(|| {
            shown(a.tick());
        }),
        least(|| {
            shown(b.tick());
        }),
    );
    row(
        "unicasts: enqueue and cancel",
        least(|| {
            shown(a.enqueue_cancel());
        }),
        least(|| {
            shown(b.unicast_cancel());
        }),
    );

    let (mut a, mut b) = (ours::Unrouted::eight(), theirs::Tables::unrouted());
    row(
        "unrouted: idle tick",
        least(|| {
            shown(a.tick());
        }),
        least(|| {
            shown(b.tick());
        }),
    );
    row(
        "unrouted: enqueue and cancel",
        least(|| {
            shown(a.enqueue_cancel());
        }),
        least(|| {
            shown(b.unrouted_cancel());
        }),
    );

    let (mut a, mut b) = (ours::Broadcasts::eight(), theirs::Tables::broadcasts());
    row(
        "broadcasts: delivered, miss",
        least(|| {
            shown(a.delivered(99));
        }),
        least(|| {
            shown(b.delivered(99));
        }),
    );
    row(
        "broadcasts: idle tick",
        least(|| {
            shown(a.tick());
        }),
        least(|| {
            shown(b.tick());
        }),
    );
    row(
        "broadcasts: enqueue and cancel",
        least(|| {
            shown(a.enqueue_cancel());
        }),
        least(|| {
            shown(b.broadcast_cancel());
        }),
    );

    println!();
    cycles::table();
}

#[cfg(not(archive))]
fn main() {
    println!("calls: no archives to time (oracle/measure makes them)");
}
