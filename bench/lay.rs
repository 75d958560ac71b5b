// Writes the shapes as files: lay FOLDER. Of shape k, counted from 00, `k.file` has the file, `k.queries` four numbers a query as u32,
// and `k.name` its name.
#![allow(dead_code)]
mod definitions;
mod sailing;
mod shapes;

use std::fs::write;

fn main() {
    let folder = std::env::args().nth(1).expect("a folder");
    for (k, s) in shapes::all().iter().enumerate() {
        let numbers = s.queries.iter().flat_map(|q| [q.source, q.target, q.minute, q.code]);
        let queries: Vec<u8> = numbers.flat_map(u32::to_le_bytes).collect();
        for (ending, bytes) in [("file", s.file.as_slice()), ("queries", &queries), ("name", s.name.as_bytes())] {
            write(format!("{folder}/{k:02}.{ending}"), bytes).expect("a file that can be written");
        }
    }
}
