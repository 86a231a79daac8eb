//! Walks round a mast, from face to face and from cell to cell. The mast is an edge with six wedges round it, which are
//! tetrahedra; two pyramids over the hexagon, one from each end of the mast, close them off.
//!
//!   cargo run --release --example round

use flumedrac::{duopyramid, Flag, Listing};

fn main() -> Result<(), Box<dyn std::error::Error>> {
    let grid = duopyramid(&Listing::dyad(), &Listing::polygon(6)?)?;
    grid.closed()?;
    println!("a closed grid: {} cells, {} faces, {} edges", grid.el_count(4), grid.el_count(3), grid.el_count(2));

    // The first flag: the edge that has six faces, its first vertex, its first face, and that face's first cell.
    let mast = (0..grid.el_count(2)).find(|&edge| grid.sups(2, edge).len() == 6).ok_or("no edge has six faces")?;
    let vertex = grid.subs(2, mast).next().ok_or("an edge has vertices")?;
    let face = grid.sups(2, mast).next().ok_or("an edge has faces")?;
    let cell = grid.sups(3, face.into()).next().ok_or("a face has cells")?;
    let first = Flag::from([0, vertex, mast as u16, face, cell, 0]);
    println!("round edge {mast}, from face {face} of cell {cell}:");

    let (mut flag, mut faces, mut cells) = (first.clone(), 0, 0);
    while faces == 0 || flag != first {
        // The other face of this cell at the mast, and then the cell across it.
        let turned = grid.change(&flag, 3)?;
        println!("  in cell {} from face {} to face {}", flag[4], turned.taken, turned.put);
        faces += 1;
        let crossed = grid.change(&turned.flag, 4)?;
        println!("  across face {} from cell {} to cell {}", turned.put, crossed.taken, crossed.put);
        cells += 1;
        flag = crossed.flag;
    }
    println!("back again after {faces} faces and {cells} cells");
    Ok(())
}
