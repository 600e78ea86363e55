//! Questions to tables that no book gave.

use outside::cases::tables;
use outside::trial::run;

#[test]
fn graphs() {
    run("graphs", 6000, tables::GRAPH, tables::graph);
}

#[test]
fn limits() {
    run("limits", 20_000, tables::LIMIT, tables::limit);
}

#[test]
fn silent_cycles() {
    run("silent_cycles", 400, tables::CYCLE, tables::cycle);
}

#[test]
fn role_bytes() {
    run("role_bytes", 1, tables::ROLES, |trial, random| {
        for heads in 1..=64 {
            tables::roles(trial, random, heads);
        }
    });
}
