//! The dual of a box, and back; and the dual of a grid of cells, as many coasts are gridded: a vertex for each cell, and
//! an edge for each face that two cells share.
//!
//!   cargo run --release --example dual

use flumedrac::{duocomb, duoprism, duopyramid, Listing};

/// The numbers of a list.
fn list(list: impl Iterator<Item = u16>) -> String {
    list.map(|index| index.to_string()).collect::<Vec<_>>().join(" ")
}

fn main() -> Result<(), Box<dyn std::error::Error>> {
    let cube = duoprism(&Listing::polygon(4)?, &Listing::dyad())?;
    let dual = cube.dual()?;
    for (name, cell) in [("a box", &cube), ("its dual", &dual)] {
        println!("{name}: {} vertices, {} edges, {} faces", cell.el_count(1), cell.el_count(2), cell.el_count(3));
    }
    println!("  face 0 of the box has the edges {}", list(cube.subs(3, 0)));
    println!("  vertex 0 of the dual lies on the edges {}", list(dual.sups(1, 0)));
    println!("the dual is closed: {}", dual.closed().is_ok());
    println!("the dual of the dual is the box itself: {}", dual.dual()? == cube);

    // Six wedges round a mast, and two pyramids that close them off: a closed grid, whose elements of rank 4 are cells.
    let grid = duopyramid(&Listing::dyad(), &Listing::polygon(6)?)?;
    let mesh = grid.dual()?;
    println!("a grid of {} cells and {} faces", grid.el_count(4), grid.el_count(3));
    println!("its dual mesh: {} vertices and {} edges", mesh.el_count(1), mesh.el_count(2));
    println!("  face 0 lies between the cells {}", list(grid.sups(3, 0)));
    println!("  edge 0 of the mesh leads from vertex to vertex: {}", list(mesh.subs(2, 0)));

    // What is not closed has no dual: four vertices under one top. The refusal says where.
    if let Err(refusal) = duocomb(&Listing::dyad(), &Listing::dyad())?.dual() {
        println!("four vertices under one top have no dual: {refusal}");
    }
    Ok(())
}
