//! Pages against those of an independent writer: on random lists, with damaged numbers, and read back.
use judge::calls;
use judge::graph::Graph;
use judge::query::Query;
use judge::random::{each, Random};
use judge::sheet;
use judge::worked::{diamond, g, triangle};
use rizhavaan::{page_into, Buffers, Cache, Refusal, Store, MAX_WORDS, PAGE_BYTES};

/// Compares a page in so many bytes; answers the refusal.
fn compare(r: &Random, list: &[u32], numbers: [u64; 3], room: usize) -> u32 {
    let got = calls::page(r, list, numbers, room);
    match sheet::page(list, numbers, room) {
        Ok((pages, page)) => assert_eq!(got, (0, pages, page), "{numbers:?}"),
        Err(refusal) => {
            assert_eq!(got, (refusal, 0, Vec::new()), "{numbers:?}, a list of {} words, {room} bytes", list.len())
        }
    }
    got.0
}

/// Words of one to five digits.
fn row_words(r: &Random, count: usize) -> Vec<u32> {
    (0..count).map(|_| r.next() as u32 % [10, 100, 1_000, 10_000, 65_536][r.below(5)]).collect()
}

/// The whole pages at both ends of the last page, of every width.
#[test]
fn pages_that_are_full_or_not() {
    each(0..1, |r| {
        for rows in [0, 1, 58, 59, 60, 117, 118, 119, 177] {
            for n in 2..9 {
                let list = row_words(r, (n * rows) as usize);
                for page in 0..sheet::page_count(rows) + 2 {
                    let refusal = compare(r, &list, [n, rows, page], PAGE_BYTES);
                    assert_eq!(refusal, if page == 0 || page > sheet::page_count(rows) { 34 } else { 0 });
                }
            }
        }
    });
}

/// One page, byte by byte.
#[test]
fn a_page_in_full() {
    let blank = " ".repeat(80);
    let want = [
        format!("       1       1{}", " ".repeat(64)),
        format!("       0   65535       7{}", " ".repeat(56)),
        format!("   10000      10   12345{}", " ".repeat(56)),
    ];
    let want: String = want.iter().chain(std::iter::repeat(&blank).take(57)).map(|line| format!("{line}\n")).collect();
    let mut bytes = [b'?'; PAGE_BYTES];
    assert_eq!(page_into(&[0, 65_535, 7, 10_000, 10, 12_345], 3, 2, 1, &mut bytes), Ok(1));
    assert_eq!(std::str::from_utf8(&bytes).unwrap(), want);
}

/// Lists with words past the rows, which are not read, in bytes from too few to more than enough.
#[test]
fn random_lists() {
    let mut seen = [0; 36];
    each(0..20_000, |r| {
        let n = 2 + r.below(7) as u64;
        let rows = r.below(200) as u64;
        let mut list = row_words(r, (n * rows) as usize);
        if r.chance(1, 6) && !list.is_empty() {
            let at = r.below(list.len());
            list[at] = [65_535, 65_536, 65_537, u32::MAX][r.below(4)];
        }
        let extra = r.below(20);
        list.extend(r.words(extra));
        let pages = sheet::page_count(rows) as usize;
        let page = if r.chance(1, 5) { r.below(2) * (pages + 1) } else { 1 + r.below(pages) } as u64;
        let room = [0, 81, 4_859, 4_860, 4_860, 4_861, 5_000][r.below(7)];
        seen[compare(r, &list, [n, rows, page], room) as usize] += 1;
    });
    assert!(seen[0] > 5_000 && seen[33] > 1_000 && seen[34] > 1_000 && seen[35] > 1_000, "{seen:?}");
}

/// Numbers at and past every limit, and such that products of them wrap in 64 bits.
#[test]
fn damaged_numbers() {
    let ns = [0, 1, 2, 3, 8, 9, 1 << 32, 1 << 61, 1 << 63, u64::MAX];
    let counts =
        [0, 1, 59, 60, 536_870_911, 536_870_912, 536_870_913, 1 << 31, 1 << 32, 1 << 61, 1 << 62, 1 << 63, u64::MAX];
    // 59 times this is 1 in 64 bits.
    let inverse = 14_694_863_923_124_558_067;
    let pages = [0, 1, 2, 3, inverse, inverse + 1, 1 << 63, u64::MAX];
    let mut seen = [0; 36];
    each(0..1, |r| {
        for n in ns {
            for rows in counts {
                for page in pages {
                    for words in [0, 1, 118, 119, 480] {
                        for room in [0, 4_859, 4_860, 4_861] {
                            let list = row_words(r, words);
                            seen[compare(r, &list, [n, rows, page], room) as usize] += 1;
                        }
                    }
                }
            }
        }
    });
    assert!(seen[0] > 50 && seen[33] > 1_000 && seen[34] > 100 && seen[35] > 50, "{seen:?}");
}

/// 65,535 is printed; 65,536 is refused on every page, before a wrong page and too few bytes are.
#[test]
fn a_large_word_on_another_page() {
    each(0..1, |r| {
        let (n, rows) = (4, 130);
        for at in [0, 235, 236, 471, 472, 519] {
            let mut list = row_words(r, 520);
            for (word, refusal) in [(65_535, 0), (65_536, 33)] {
                list[at] = word;
                for page in 1..4 {
                    assert_eq!(compare(r, &list, [n, rows, page], PAGE_BYTES), refusal);
                }
            }
            assert_eq!(compare(r, &list, [n, rows, 0], 0), 33);
            assert_eq!(compare(r, &list[..519], [n, rows, 1], PAGE_BYTES), 33);
        }
        let list = [row_words(r, 520), vec![65_536]].concat();
        assert_eq!(compare(r, &list, [n, rows, 4], 0), 34);
        assert_eq!(compare(r, &list, [n, rows, 3], 0), 35);
    });
}

/// The pages of a list, read back: each says its number and the count, and the rows stand on them once, in order.
#[test]
fn pages_read_back() {
    each(0..200, |r| {
        let n = 2 + r.below(7);
        let rows = r.below(300);
        let list = row_words(r, n * rows);
        let mut read = Vec::new();
        let mut bytes = [0; PAGE_BYTES];
        let pages = page_into(&list, n, rows, 1, &mut bytes).unwrap();
        for page in 1..=pages {
            assert_eq!(page_into(&list, n, rows, page, &mut bytes), Ok(pages));
            let lines = sheet::read(&bytes);
            assert_eq!((lines.len(), &lines[0]), (60, &vec![page as u64, pages as u64]));
            for (k, line) in lines[1..].iter().enumerate().filter(|(_, line)| !line.is_empty()) {
                assert_eq!((page - 1) * 59 + k, read.len(), "row i is line i mod 59 + 2 of page i div 59 + 1");
                read.push(line.clone());
            }
        }
        let want: Vec<Vec<u64>> = list.chunks(n).map(|row| row.iter().map(|&word| word.into()).collect()).collect();
        assert_eq!(read, want);
    });
}

/// What the gate's program must write is what this writer writes: the pages of seven lists, each over the one before, with the answer before
/// them and the bytes past them, and the refusals.
#[test]
fn the_pages_of_the_gate() {
    let words = |at: usize, word: u32| {
        let mut list: Vec<u32> = (0..952).map(|i| i * 331 % 65_536).collect();
        list[0] = 65_535;
        list[at] = word;
        list
    };
    let mut bytes = [b'?'; 4_864];
    let mut text = Vec::new();
    let mut show = |list: &[u32], numbers: [u64; 3], room: usize| match sheet::page(list, numbers, room) {
        Ok((pages, page)) => {
            bytes[..PAGE_BYTES].copy_from_slice(&page);
            text.extend([format!("0 {pages}\n").as_bytes(), &bytes[..room], b"\n"].concat());
        }
        Err(refusal) => text.extend(format!("{refusal} 0\n").into_bytes()),
    };
    let list = words(0, 65_535);
    for (rows, n) in [(0, 2), (1, 8), (58, 2), (59, 8), (60, 2), (118, 8), (119, 2)] {
        for page in [1].into_iter().chain((2..=sheet::page_count(rows)).rev()) {
            show(&list, [n, rows, page], 4_864);
        }
    }
    for numbers in [[1, 119, 1], [9, 100, 1], [8, 1 << 61, 1], [8, 120, 1], [8, 119, 0], [8, 119, 4]] {
        show(&list, numbers, 4_864);
    }
    show(&list, [8, 119, 3], 4_859);
    let large = words(236, 65_536);
    show(&large, [2, 119, 1], 4_864);
    show(&large, [2, 119, 0], 0);
    show(&large, [2, 118, 2], 4_864);
    assert!(text == include_bytes!("../crates/judge_sheet/stdout"), "the stored pages are others");
}

/// As many rows as there may be, in a list that is longer than what counts. Takes 4 GB: run with `--ignored`.
#[test]
#[ignore]
fn the_longest_list() {
    let list = vec![0; MAX_WORDS + 8];
    let mut bytes = vec![0; PAGE_BYTES];
    let pages = 9_099_507;
    assert_eq!(page_into(&list, 2, MAX_WORDS / 2, pages, &mut bytes), Ok(pages));
    let lines = sheet::read(&bytes);
    assert_eq!(lines[0], [pages as u64; 2]);
    assert!(lines[1..59].iter().all(|line| *line == [0, 0]) && lines[59].is_empty());
    assert_eq!(page_into(&list, 2, MAX_WORDS / 2, pages + 1, &mut bytes), Err(Refusal::SheetPage));
    assert_eq!(page_into(&list, 2, MAX_WORDS / 2 + 1, 1, &mut bytes), Err(Refusal::SheetRows));
    // 3 × 357,913,942 words are there, but two of them do not count.
    assert_eq!(page_into(&list, 3, 357_913_942, 1, &mut bytes), Err(Refusal::SheetRows));
    assert_eq!(page_into(&list, 3, 357_913_941, 0, &mut bytes), Err(Refusal::SheetPage));
}

/// The wrapper's pages are those of the run's list.
#[test]
fn pages_of_matches() {
    let mut buffers = Buffers::new();
    for (graph, query) in
        [(g(), triangle()), (g(), diamond()), (Graph::random(&Random::new(5), 60), Query::any(3, &[(0, 1), (1, 2)]))]
    {
        let store = Store::load(&graph.file()).unwrap();
        let matches = store.run_drawn(&query.file(), Cache::On, &mut buffers).unwrap();
        let pages = matches.pages();
        let numbers = [matches.width() as u64, matches.len() as u64];
        assert_eq!(pages.len() as u64, sheet::page_count(numbers[1]));
        for (i, page) in pages.enumerate() {
            let want = sheet::page(matches.words(), [numbers[0], numbers[1], i as u64 + 1], PAGE_BYTES).unwrap();
            assert_eq!(page.to_vec(), want.1);
        }
    }
}
