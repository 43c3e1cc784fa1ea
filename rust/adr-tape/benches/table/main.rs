//! The costs of the layer's calls beside a copy of a block, as a table:
//! `cargo bench -p adr-tape --bench table`.

mod calls;
mod measure;
mod whole;

/// Rounds of the calls, and of whole recordings and readings.
const ROUNDS: [u32; 2] = [301, 9];

fn main() {
    // `cargo test --benches` asks only whether it starts.
    let [rounds, whole_rounds] = if std::env::args().any(|argument| argument == "--bench") {
        ROUNDS
    } else {
        [1, 1]
    };
    println!(
        "medians of {rounds} rounds, in the last table of {whole_rounds}; a copy is of 32,768 \
         bytes to the same places\n"
    );
    println!("| call | ns | copy, ns | ratio |");
    println!("|---|---:|---:|---:|");
    for row in calls::with_data(rounds) {
        let (name, time, copy, ratio) = (row.name, row.time, row.copy, row.ratio);
        println!("| {name} | {time:.0} | {copy:.0} | {ratio:.3} |");
    }
    println!("\n| call without data | empty cartridge, ns | full cartridge, ns |");
    println!("|---|---:|---:|");
    for (name, empty, full) in calls::without_data(rounds) {
        println!("| {name} | {empty:.0} | {full:.0} |");
    }
    println!("\n| call with data | empty cartridge, ns | full cartridge, ns |");
    println!("|---|---:|---:|");
    for (name, empty, full) in calls::empty_and_full(rounds) {
        println!("| {name} | {empty:.0} | {full:.0} |");
    }
    println!("\n| in memory | MB/s | times the copy's | times the drive's 2 MB/s |");
    println!("|---|---:|---:|---:|");
    for (name, rate, share) in whole::rates(whole_rounds) {
        println!("| {name} | {rate:.0} | {share:.2} | {:.0} |", rate / 2.0);
    }
}
