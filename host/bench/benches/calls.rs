//! Every call in the proved library and in the model, side by side; a call for a list or for a row also
//! beside as many single calls, and the checksum also beside the one with a single table.

use bench::cases;
use criterion::{criterion_group, criterion_main, Criterion};
use std::time::Duration;

fn calls(criterion: &mut Criterion) {
    for mut case in cases() {
        let mut group = criterion.benchmark_group(format!("{}, {}", case.call, case.input));
        group.bench_function("proved", |bencher| bencher.iter(&mut case.left));
        group.bench_function("model", |bencher| bencher.iter(&mut case.right));
        if let Some(singles) = &mut case.singles {
            group.bench_function("single calls", |bencher| bencher.iter(&mut *singles));
        }
        if let Some(one_table) = &mut case.one_table {
            group.bench_function("one table", |bencher| bencher.iter(&mut *one_table));
        }
        group.finish();
    }
}

criterion_group! {
    name = benches;
    config = Criterion::default()
        .sample_size(20)
        .warm_up_time(Duration::from_millis(300))
        .measurement_time(Duration::from_secs(1));
    targets = calls
}
criterion_main!(benches);
