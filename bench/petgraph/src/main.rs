//! petgraph: its search from each source, which offers costs only. It talks as protocol.h says.

use std::collections::HashMap;
use std::error::Error;
use std::io::{BufRead, Write};
use std::path::Path;

use petgraph::algo::dijkstra;
use petgraph::graph::{DiGraph, NodeIndex};

const HEADER: usize = 10;
const RECORD: usize = 12;

type Graph = DiGraph<(), u64>;
type Row = HashMap<NodeIndex, u64>;

fn main() -> Result<(), Box<dyn Error>> {
    println!("petgraph {} (costs only)\nsearch", version());
    let mut graph = Graph::new();
    for line in std::io::stdin().lock().lines() {
        let line = line?;
        match line.split(' ').collect::<Vec<_>>()[..] {
            ["load", plan] => {
                graph = read_plan(&std::fs::read(plan)?);
                println!("loaded");
            }
            ["run", "search", calls] => println!("{}", least_time(&graph, calls.parse()?)),
            ["dump", "search", table] => {
                write_costs(Path::new(table), &work_table(&graph))?;
                println!("dumped");
            }
            _ => return Err(format!("not understood: {line}").into()),
        }
    }
    Ok(())
}

/// The version of petgraph that this was built with.
fn version() -> &'static str {
    let after_name = include_str!("../Cargo.lock").split("name = \"petgraph\"\nversion = \"").nth(1);
    after_name.and_then(|text| text.split('"').next()).unwrap_or("of unknown version")
}

fn big_endian(bytes: &[u8]) -> u64 {
    bytes.iter().fold(0, |number, byte| number << 8 | u64::from(*byte))
}

/// The plan as a graph, in which links that leave one station stand side by side.
fn read_plan(file: &[u8]) -> Graph {
    let mut links: Vec<(u32, u32, u64)> = file[HEADER..]
        .chunks_exact(RECORD)
        .map(|record| (big_endian(&record[..2]) as u32, big_endian(&record[2..4]) as u32, big_endian(&record[4..])))
        .collect();
    links.sort_by_key(|link| link.0);
    let mut graph = Graph::new();
    for _ in 0..big_endian(&file[6..8]) {
        graph.add_node(());
    }
    graph.extend_with_edges(links);
    graph
}

fn work_table(graph: &Graph) -> Vec<Row> {
    graph.node_indices().map(|source| dijkstra(graph, source, None, |link| *link.weight())).collect()
}

fn least_time(graph: &Graph, calls: u32) -> u64 {
    let time = |_| {
        let start = processor_time();
        let table = work_table(graph);
        let taken = processor_time() - start;
        drop(table);
        taken
    };
    (0..calls).map(time).min().unwrap_or(u64::MAX)
}

fn write_costs(path: &Path, table: &[Row]) -> std::io::Result<()> {
    let mut out = std::io::BufWriter::new(std::fs::File::create(path)?);
    for row in table {
        for station in 0..table.len() {
            let cost = row.get(&NodeIndex::new(station)).copied().unwrap_or(u64::MAX);
            out.write_all(&cost.to_ne_bytes())?;
        }
    }
    out.flush()
}

/// A time as the operating system's calls for C tell it, on machines with words of 64 bits.
#[repr(C)]
struct Timespec {
    seconds: i64,
    nanoseconds: i64,
}

extern "C" {
    fn clock_gettime(clock: i32, time: *mut Timespec) -> i32;
}

/// Nanoseconds of processor time of this process.
fn processor_time() -> u64 {
    const CLOCK_PROCESS_CPUTIME_ID: i32 = 2;
    let mut now = Timespec { seconds: 0, nanoseconds: 0 };
    // Sound: the call writes nothing but the time that it is lent.
    unsafe { clock_gettime(CLOCK_PROCESS_CPUTIME_ID, &mut now) };
    now.seconds as u64 * 1_000_000_000 + now.nanoseconds as u64
}
