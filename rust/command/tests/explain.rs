//! `puddockle explain` says what docs/FORMAT.md says at the bench.

mod common;

use common::*;

#[test]
fn explains_as_the_table_at_the_bench() {
    let format = std::fs::read_to_string(root().join("docs/FORMAT.md")).unwrap();
    let (_, table) = format.split_once("\n### At the bench\n").unwrap();
    let row = |number: &str| -> Vec<String> {
        let row = table.lines().find(|line| line.starts_with(&format!("| {number} |"))).unwrap();
        let row = row.replace("`./names`", "puddockle names").replace('`', "");
        let row = row.replace("under 'Writing'", "under 'Writing' in docs/FORMAT.md");
        row.trim_matches('|').split('|').map(|cell| cell.trim().into()).collect()
    };
    let mut explained = 0;
    for number in 1..=34 {
        let mut cells = row(&number.to_string());
        // 'As 26': an answer stands alone, so it says what 26 says.
        if let Some((_, other)) = cells[2].to_lowercase().split_once("as ").filter(|(_, other)| other.len() == 2) {
            cells[2] = row(other)[2].clone();
        }
        let ran = run(["explain", &number.to_string()]);
        let lines: Vec<&str> = ran.text().lines().collect();
        assert_eq!((ran.status, lines.len()), (Some(0), 3));
        assert!(lines[0].starts_with(&format!("refusal {number}: ")), "{}", lines[0]);
        assert_eq!(lines[1], format!("at the bench: {}", cells[1]));
        assert_eq!(lines[2], format!("what to do: {}", cells[2]));
        explained += 1;
    }
    assert_eq!(explained, 34);
}
