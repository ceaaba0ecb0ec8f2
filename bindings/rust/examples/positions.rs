//! Two batches of positions under one id, then the newer one retired: the store answers the
//! newest live position each time.
//!
//!     (cd crates/rvf_c && rt lib)
//!     cargo run --offline --manifest-path bindings/rust/Cargo.toml --example positions

use rvf::{Body, Component, Dtype, Encoding, Refusal, Vectors};

/// A batch with one position for the vector id 7.
fn position(place: [f32; 3]) -> Result<Vec<u8>, Refusal> {
    let columns: Vec<u8> = place.iter().flat_map(|value| value.to_le_bytes()).collect();
    let encoding = Encoding::Delta { interval: 0 };
    let payload = rvf::vectors(&Vectors { ids: &[7], columns: &columns, dim: 3, dtype: Dtype::F32, tier: 0, encoding })?;
    Ok(rvf::batch(&[Body { kind: rvf::VEC, flags: 0, bytes: &payload }]))
}

fn show(file: &[u8]) -> Result<(), Refusal> {
    let components: Vec<Component> = rvf::vector(file, 7)?.components().collect();
    let words: Vec<String> = components.iter().map(Component::to_string).collect();
    println!("{} bytes, vector 7: {}", file.len(), words.join(" "));
    Ok(())
}

fn main() -> Result<(), Refusal> {
    let mut buffer = vec![0; 1 << 16];
    let mut length = 0;
    for (place, time) in [([1.5, -2.0, 700.25], 1), ([1.75, -2.5, 701.0], 2)] {
        length = rvf::append(&mut buffer, length, &position(place)?, &[], time)?.end as usize;
        show(&buffer[..length])?;
    }
    let newest = rvf::entries(&buffer[..length])?.last().map_or(0, |entry| entry.id);
    length = rvf::append(&mut buffer, length, &rvf::batch(&[]), &[newest], 3)?.end as usize;
    show(&buffer[..length])?;
    if let Err(refusal) = rvf::vector(&buffer[..length], 8) {
        println!("vector 8: {refusal}");
    }
    Ok(())
}
