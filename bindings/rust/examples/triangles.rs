//! Lists the triangles of a wheel: a hub with an edge to every rim vertex, and the rim's edges in a ring.
//!
//!     cargo run --release --example triangles -- 1000
use rizhavaan::{Buffers, Cache, Store};

/// Numbers as bit-packed fields, most significant bit first.
#[derive(Default)]
struct Packer {
    bytes: Vec<u8>,
    bits: usize,
}

impl Packer {
    fn put(&mut self, number: usize, width: usize) {
        for i in (0..width).rev() {
            if self.bits % 8 == 0 {
                self.bytes.push(0);
            }
            *self.bytes.last_mut().unwrap() |= ((number >> i & 1) as u8) << (7 - self.bits % 8);
            self.bits += 1;
        }
    }
}

/// The file of a wheel: vertex 0 is the hub; an edge is (source, label, target), and edges ascend.
fn wheel(rim: usize) -> Vec<u8> {
    let mut edges: Vec<[usize; 3]> = (1..=rim).flat_map(|v| [[0, 1, v], [v, 1, v % rim + 1]]).collect();
    edges.sort();
    let mut file = Packer::default();
    file.put(rim + 1, 16);
    file.put(edges.len(), 20);
    for _ in 0..=rim {
        // Label and inspection day: none.
        file.put(0, 16);
        file.put(0, 16);
    }
    for [source, label, target] in edges {
        file.put(source, 16);
        file.put(label, 8);
        file.put(target, 16);
    }
    file.bytes
}

fn main() -> Result<(), Box<dyn std::error::Error>> {
    let rim = std::env::args().nth(1).map_or(Ok(1000), |word| word.parse())?;
    let store = Store::load(&wheel(rim))?;

    // 0→1, 0→2, 1→2, all of label 1, of items of any label and day, without pairs; scan edge 0, extend by vertex 2.
    let query = [
        0x31, 0x80, 0x00, 0x00, 0x00, 0x7f, 0xff, 0x80, 0x00, 0x00, 0x00, 0x7f, 0xff, 0x80, 0x00, 0x00, 0x00, 0x7f,
        0xff, 0x82, 0x02, 0x10, 0x09, 0x40, 0x20,
    ];
    let plan = [0x10, 0x05, 0x00];
    println!("the plan has {} operators", rizhavaan::check_plan(&query, &plan)?);

    let mut buffers = Buffers::new();
    let matches = store.run_growing(&query, &plan, Cache::On, &mut buffers)?;
    println!(
        "{} vertices, {} edges: {} triangles, cost {}",
        store.vertices(),
        store.edges(),
        matches.len(),
        matches.cost
    );
    for row in matches.rows().take(3) {
        println!("{row:?}");
    }

    // A plan cut short is refused, with a reason.
    println!("{}", rizhavaan::check_plan(&query, &plan[..1]).unwrap_err());
    Ok(())
}
