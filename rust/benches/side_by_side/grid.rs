//! Text for the terminal and markdown for a document: sections of words and a
//! table, whose first line is its head.

/// A way to write a section.
pub type Format = fn(title: &str, words: &str, lines: &[Vec<String>]) -> String;

/// Columns that stand under each other: the first from the left, the others
/// from the right.
pub fn text(title: &str, words: &str, lines: &[Vec<String>]) -> String {
    let columns = 0..lines[0].len();
    let width = |column: usize| lines.iter().map(|line| line[column].len()).max();
    let widths: Vec<usize> = columns.filter_map(width).collect();
    let mut text = format!("{}\n\n{}\n", title.to_uppercase(), wrapped(words, 100));
    for line in lines {
        let mut padded = format!("  {:<1$}", line[0], widths[0]);
        for (cell, width) in line.iter().zip(&widths).skip(1) {
            padded += &format!("  {cell:>width$}");
        }
        text += padded.trim_end();
        text.push('\n');
    }
    text
}

/// A section of a document.
pub fn markdown(title: &str, words: &str, lines: &[Vec<String>]) -> String {
    let mut text = format!("### {title}\n\n{}\n", wrapped(words, 150));
    for (place, line) in lines.iter().enumerate() {
        text += &format!("| {} |\n", line.join(" | "));
        if place == 0 {
            text += &format!("|---{}|\n", "|---:".repeat(line.len() - 1));
        }
    }
    text
}

/// The words in lines of at most so many bytes.
fn wrapped(words: &str, width: usize) -> String {
    let mut text = String::new();
    let mut line = 0;
    for word in words.split(' ') {
        if line + 1 + word.len() > width {
            text.push('\n');
            line = 0;
        } else if line > 0 {
            text.push(' ');
            line += 1;
        }
        text += word;
        line += word.len();
    }
    text.push('\n');
    text
}
