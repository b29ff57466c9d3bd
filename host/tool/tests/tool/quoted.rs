//! docs/TOOL.md shows commands and what they print. Each is run again here, in
//! order, in one folder, and must print what stands there.

use crate::folder::{Folder, Said, TOOL};
use std::path::Path;

const TEXT: &str = concat!(env!("CARGO_MANIFEST_DIR"), "/../../docs/TOOL.md");

/// Each command, which follows a dollar sign, with the lines up to the next one
/// or to the end of its block.
fn commands(text: &str) -> Vec<(String, String)> {
    let mut found: Vec<(String, String)> = Vec::new();
    let mut open = false;
    for line in text.lines() {
        let quoted = line.strip_prefix("    ");
        match quoted.map(|line| (line, line.strip_prefix("$ "))) {
            Some((_, Some(command))) => {
                found.push((command.to_string(), String::new()));
                open = true;
            }
            Some((line, None)) if open => {
                let printed = &mut found.last_mut().unwrap().1;
                *printed += line;
                printed.push('\n');
            }
            _ if line.is_empty() && open => found.last_mut().unwrap().1.push('\n'),
            _ => open = false,
        }
    }
    // An empty line belongs to what is printed only where more follows.
    for (_, printed) in &mut found {
        *printed = printed.trim_end_matches('\n').to_string();
    }
    found
}

#[test]
fn what_the_page_shows_is_what_is_printed() {
    let folder = Folder::new("page");
    let tools = Path::new(TOOL).parent().unwrap().to_str().unwrap();
    let path = format!("{tools}:{}", std::env::var("PATH").unwrap());
    let commands = commands(&std::fs::read_to_string(TEXT).unwrap());
    assert!(commands.len() >= 4, "{commands:?}");
    for (command, printed) in commands {
        let both = format!("{{ {command}; }} 2>&1");
        let mut shell = folder.command("sh");
        let said = shell
            .env("PATH", &path)
            .args(["-c", &both])
            .output()
            .unwrap();
        let said = Said::new(said).out;
        assert_eq!(said.trim_end_matches('\n'), printed, "{command}");
    }
}
