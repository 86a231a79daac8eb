//! Builds a prism as the duoprism of a dyad and a triangle, tests it, and walks its flags.
//!
//!   cargo run --release --example prism

use flumedrac::{duoprism, Listing, Orientation};

fn main() -> Result<(), Box<dyn std::error::Error>> {
    let prism = duoprism(&Listing::dyad(), &Listing::polygon(3)?)?;
    let counts = prism.slices().counts;
    println!("a prism: {} vertices, {} edges, {} faces", counts[1], counts[2], counts[3]);
    for face in 0..prism.facet_count() {
        println!("  face {face} has the edges {:?}", prism.subs(3, face).collect::<Vec<_>>());
    }

    prism.closed()?;
    println!(
        "it is closed: every edge lies in exactly two faces, and every vertex of a face on exactly two of its edges"
    );

    let first = prism.first_flag().ok_or("a closed cell has flags")?;
    let search = prism.search(&first, prism.all_changes(), 1000)?;
    let even = search.flags().filter(|(_, orientation)| *orientation == Orientation::Even).count();
    println!("it has {} flags, {even} of them even; orientable: {}", search.len(), search.is_orientable());

    // The same prism with its last face left out passes the old test and not the closed one.
    let subs = |rank: usize, count: usize| (0..count).map(|i| prism.subs(rank, i).collect()).collect::<Vec<Vec<u16>>>();
    let open = Listing::from_subs(&[subs(0, 1), subs(1, 6), subs(2, 9), subs(3, 4), vec![vec![0, 1, 2, 3]]])?;
    println!("without its last face: is_valid says {:?}", open.is_valid());
    match open.closed() {
        Ok(()) => Err("an open prism was taken for closed".into()),
        Err(refusal) => {
            println!("closed says: {refusal}");
            Ok(())
        }
    }
}
