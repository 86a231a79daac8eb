//! The volume of a hexagonal prism, which is the duoprism of a dyad and a hexagon.
//!
//!   cargo run --release --example volume

use flumedrac::{duoprism, Listing};

fn main() -> Result<(), Box<dyn std::error::Error>> {
    let prism = duoprism(&Listing::dyad(), &Listing::polygon(6)?)?;
    let counts = prism.slices().counts;
    println!("a hexagonal prism: {} vertices, {} edges, {} faces", counts[1], counts[2], counts[3]);

    // Its vertices, in whole metres: the floor, at the dyad's first vertex, and then the roof, 30 metres higher.
    let hexagon = [[20, 0], [10, 17], [-10, 17], [-20, 0], [-10, -17], [10, -17]];
    let corners = [0, 30].iter().flat_map(|&z| hexagon.map(|[x, y]| [x, y, z].map(f64::from)));
    let mut vertices: Vec<[f64; 3]> = corners.collect();

    let first = prism.first_flag().ok_or("a closed cell has flags")?;
    let six = prism.six_volume(&first, &vertices)?;
    println!("six_volume says {six}: the volume is {} cubic metres", six.abs() / 6.0);

    // The sign is that of the first flag: a change turns it round.
    let other = prism.change(&first, 1)?.flag;
    println!("from the other end of the first edge it says {}", prism.six_volume(&other, &vertices)?);

    // Coordinates are whole metres, so that the answer is exact.
    vertices[6][2] = 30.5;
    match prism.six_volume(&first, &vertices) {
        Ok(_) => Err("half a metre was taken for whole".into()),
        Err(refusal) => {
            println!("with a corner half a metre higher: {refusal}");
            Ok(())
        }
    }
}
