//! Pages written line by line with Rust's own formatting, and read back as words between blanks.

/// 'Rows divided by 59, rounded up, and at least 1.'
pub fn page_count(rows: u64) -> u64 {
    rows.div_ceil(59).max(1)
}

/// One line: the numbers in 8 columns each, blanks up to column 80, a line feed.
fn line(numbers: &[u64]) -> String {
    let text: String = numbers.iter().map(|number| format!("{number:>8}")).collect();
    format!("{text:<80}\n")
}

/// The page count and the page, or the refusal. Products are taken in 128 bits.
pub fn page(list: &[u32], [n, rows, page]: [u64; 3], room: usize) -> Result<(u64, Vec<u8>), u32> {
    let counted = list.len().min(1 << 30) as u128;
    let words = u128::from(n) * u128::from(rows);
    if !(2..=8).contains(&n) || rows > 536_870_912 || counted < words {
        return Err(33);
    }
    if list[..words as usize].iter().any(|&word| word > 65_535) {
        return Err(33);
    }
    let pages = page_count(rows);
    if !(1..=pages).contains(&page) {
        return Err(34);
    }
    if room < 4_860 {
        return Err(35);
    }
    let mut text = line(&[page, pages]);
    for row in (page - 1) * 59..page * 59 {
        let numbers: Vec<u64> = match row < rows {
            true => list[(n * row) as usize..][..n as usize].iter().map(|&word| word.into()).collect(),
            false => Vec::new(),
        };
        text += &line(&numbers);
    }
    Ok((pages, text.into_bytes()))
}

/// The numbers of each line of a text.
pub fn read(text: &[u8]) -> Vec<Vec<u64>> {
    let text = std::str::from_utf8(text).unwrap();
    text.lines()
        .map(|line| line.split(' ').filter(|word| !word.is_empty()).map(|word| word.parse().unwrap()).collect())
        .collect()
}
