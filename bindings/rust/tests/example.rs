//! What the example prints.

use std::process::Command;

const LINES: &str = "\
levels 1 2 1 3
book 16 18 3
0 yes
1 no
2 yes
3 refused 13
4 refused 14
2 at 0: inverse of rule 2
2 at 1: inverse of rule 1
1 name 0 links 1 to 2
1 name 1 links 0 to 1
1 name 2 links 2 to 3
book refused 8 1
refused 8: no regular order; rule 1 ends the shortest front part without one
";

#[test]
fn hall_prints_the_worked_example() {
    let run = Command::new(env!("CARGO"))
        .args(["run", "--quiet", "--example", "hall"])
        .current_dir(env!("CARGO_MANIFEST_DIR"))
        .output()
        .expect("cargo runs");
    assert_eq!(String::from_utf8_lossy(&run.stdout), LINES);
    assert!(run.status.success());
}
