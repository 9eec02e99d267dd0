//! How much memory a run may take.

use std::fs;

/// A size as 500M or 2G.
pub fn parse(text: &str) -> Result<usize, String> {
    let digits = text.trim_end_matches(|c: char| c.is_ascii_alphabetic());
    let unit = match text[digits.len()..].to_ascii_uppercase().as_str() {
        "" | "B" => 1,
        "K" | "KB" => 1_000,
        "M" | "MB" => 1_000_000,
        "G" | "GB" => 1_000_000_000,
        _ => return Err("write it as 500M or 2G".into()),
    };
    let number: usize = digits.parse().map_err(|_| "write it as 500M or 2G".to_string())?;
    number.checked_mul(unit).ok_or_else(|| "that is more than can be counted".into())
}

/// Half of what is free.
pub fn half_of_free() -> usize {
    available().unwrap_or(2_000_000_000) / 2
}

fn available() -> Option<usize> {
    let text = fs::read_to_string("/proc/meminfo").ok()?;
    let line = text.lines().find(|line| line.starts_with("MemAvailable:"))?;
    let kilobytes: usize = line.split_whitespace().nth(1)?.parse().ok()?;
    Some(kilobytes * 1024)
}

#[cfg(test)]
mod tests {
    use super::parse;

    #[test]
    fn sizes() {
        assert_eq!(parse("500M"), Ok(500_000_000));
        assert_eq!(parse("2g"), Ok(2_000_000_000));
        assert_eq!(parse("4096"), Ok(4096));
        assert!(parse("two").is_err() && parse("2T").is_err() && parse("").is_err());
    }
}
