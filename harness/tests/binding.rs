//! Compares the Rust binding's own functions with the reference: names instead of
//! numbers, parts of the file instead of places, vectors that own their bytes.

use rvf::{Body, Component, Dtype, Encoding, Refusal, Vectors};
use rvf_harness::calls::{Calls, Reference, VecInput};
use rvf_harness::gen::batches::{segment_ids, vector_file, vector_ids};
use rvf_harness::gen::{files, maps, payloads, Rng};
use rvf_harness::reference::refusal::NO_ENTRY;
use rvf_harness::reference::{idmap, varint, vecseg};

/// What the reference answered, in the binding's shape.
fn answer<T>(number: u32, value: impl FnOnce() -> T) -> Result<T, Refusal> {
    match Refusal::from_number(number) {
        None => Ok(value()),
        Some(refusal) => Err(refusal),
    }
}

fn same_directory(file: &[u8]) {
    let mut out = [0; 5];
    let number = Reference.open(file, &mut out);
    let opened = rvf::open(file);
    assert_eq!(opened.map(|m| [m.offset, m.end, m.id, m.count, m.tried]).map_err(Refusal::from), answer(number, || out));
    assert_eq!(opened.err().and_then(|refused| refused.tried), (number == 2).then_some(out[4]));

    let entries = rvf::entries(file);
    assert_eq!(entries.clone().map(|list| list.len() as u64), answer(number, || out[3]));
    for (index, entry) in entries.into_iter().flatten().enumerate() {
        let mut out = [0; 8];
        assert_eq!(Reference.entry(file, index as u64, &mut out), 0);
        let half = |at: usize| u64::from_le_bytes(entry.hash[at..at + 8].try_into().unwrap());
        let rest = [u64::from(entry.kind), u64::from(entry.retired), u64::from(entry.flags)];
        assert_eq!([entry.offset, entry.id, entry.length, half(0), half(8), rest[0], rest[1], rest[2]], out);
    }
    let mut out = [0; 8];
    let number = Reference.entry(file, u64::MAX, &mut out);
    assert_eq!(rvf::entry(file, u64::MAX), if number == NO_ENTRY { Ok(None) } else { answer(number, || None) });
}

fn same_reading(rng: &mut Rng, file: &[u8]) {
    for id in segment_ids(rng, file, 2) {
        let mut out = [0; 2];
        let number = Reference.payload(file, id, &mut out);
        // The part is the file's own: the same place in memory, not equal bytes elsewhere.
        let place = rvf::payload(file, id).map(|part| [part.as_ptr() as usize - file.as_ptr() as usize, part.len()]);
        assert_eq!(place, answer(number, || out.map(|value| value as usize)));
    }
    for id in vector_ids(rng, 2) {
        let (mut buffer, mut out) = ([0; rvf::VECTOR_LIMIT], [0; 3]);
        let number = Reference.vector(file, id, &mut buffer, &mut out);
        let vector = rvf::vector(file, id);
        assert_eq!(vector.clone().map(|v| v.bytes), answer(number, || buffer[..out[2] as usize].to_vec()));
        // Every component, both as the vector has it and asked for alone.
        let components: Vec<Component> = vector.iter().flat_map(|v| v.components()).collect();
        assert_eq!(components.len() as u64, if number == 0 { out[0] } else { 0 });
        for (index, &held) in components.iter().enumerate() {
            let mut out = [0; 2];
            assert_eq!(Reference.component(file, id, index as u64, &mut out), 0);
            let asked = rvf::component(file, id, index as u64).expect("the vector has this component");
            assert_eq!([bits(held), bits(asked)], [(out[0], out[1]); 2]);
        }
        let mut none = [0; 2];
        let number = Reference.component(file, id, components.len() as u64, &mut none);
        assert_eq!(rvf::component(file, id, components.len() as u64).map(bits), answer(number, || (none[0], none[1])));
    }
}

/// A component's dtype and bytes, so that a NaN is compared too.
fn bits(component: Component) -> (u64, u64) {
    match component {
        Component::F32(value) => (0, u64::from(value.to_bits())),
        Component::I8(value) => (3, u64::from(value as u8)),
        Component::U8(value) => (4, u64::from(value)),
    }
}

/// A payload written and a batch appended by both; the number that the append answered.
fn same_writing(rng: &mut Rng, file: &[u8]) -> u32 {
    let dtype = rng.pick(&[Dtype::F32, Dtype::I8, Dtype::U8]);
    let (count, dim) = (rng.range(0, 6), rng.range(0, 5));
    let start = rng.below(9) as u64;
    let ids = rng.rising(count, start, 4);
    let columns = rng.bytes(count * dim * dtype.width());
    let (encoding, numbers) = rng.pick(&[(Encoding::Raw, (0, 0)), (Encoding::Delta { interval: 2 }, (1, 2))]);
    let payload = rvf::vectors(&Vectors { ids: &ids, columns: &columns, dim: dim as u64, dtype, tier: 1, encoding });
    let (encoding, interval) = numbers;
    let input = VecInput { ids, columns, dim: dim as u64, dtype: dtype.number(), tier: 1, encoding, interval };
    let (mut buffer, mut out) = (vec![0; 4_096], [0]);
    let number = Reference.vec_write(&mut buffer, &input, &mut out);
    assert_eq!(payload, answer(number, || buffer[..out[0] as usize].to_vec()));

    let payload = payload.unwrap_or_default();
    let bodies = [Body { kind: rvf::VEC, flags: files::flags(rng), bytes: &payload }, Body { kind: 7, flags: 0, bytes: b"notes" }];
    let batch = rvf::batch(&bodies[rng.below(3)..]);
    let many = rng.below(2);
    let retire = segment_ids(rng, file, many);
    let mut ours = file.to_vec();
    ours.resize(file.len() + rng.pick(&[0, 20_000]), 0xA5);
    let mut theirs = ours.clone();
    let mut out = [0; 3];
    let number = Reference.append(&mut theirs, file.len() as u64, &batch, &retire, 9, &mut out);
    let appended = rvf::append(&mut ours, file.len(), &batch, &retire, 9);
    assert_eq!(appended.map(|a| [a.end, a.id, a.count]), answer(number, || out));
    assert!(ours == theirs, "the buffers differ after an append that answered {number}");
    number
}

#[test]
fn binding_agrees_with_the_reference() {
    let mut rng = Rng::new(801);
    let mut appends = [0; 15];
    for _ in 0..3_000 {
        let file = vector_file(&mut rng).bytes;
        same_directory(&file);
        same_reading(&mut rng, &file);
        appends[same_writing(&mut rng, &file) as usize] += 1;
    }
    same_directory(&[]);
    same_writing(&mut rng, &[]);
    assert!([0, 2, 5, 9, 11].into_iter().all(|number| appends[number] > 20), "{appends:?}");
}

/// Payloads by themselves: checked, and vectors out of them.
#[test]
fn payloads_agree_with_the_reference() {
    let mut rng = Rng::new(802);
    let mut seen = [0; 9];
    for _ in 0..6_000 {
        let payload = payloads::payload(&mut rng);
        let number = vecseg::check(&payload).err().unwrap_or(0);
        assert_eq!(rvf::check_vectors(&payload), answer(number, || ()));
        for id in vector_ids(&mut rng, 3) {
            let (mut buffer, mut out) = ([0; rvf::VECTOR_LIMIT], [0; 3]);
            let number = Reference.vec_read(&payload, id, &mut buffer, &mut out);
            let vector = rvf::vector_of(&payload, id);
            let wanted = answer(number, || (out[1], buffer[..out[2] as usize].to_vec()));
            assert_eq!(vector.map(|vector| (vector.dtype.number(), vector.bytes)), wanted);
            // Into a buffer that is sometimes too short, and keeps what lies behind.
            let (mut ours, mut theirs) = ([0xA5; 12], [0xA5; 12]);
            let short = Reference.vec_read(&payload, id, &mut theirs, &mut out);
            let shape = rvf::vector_of_into(&payload, id, &mut ours);
            assert_eq!(shape.map(|s| [s.dim as u64, s.dtype.number(), s.length as u64]), answer(short, || out));
            assert_eq!(ours, theirs);
            seen[number as usize] += 1;
        }
    }
    assert!([0, 5, 6, 7, 8].into_iter().all(|number| seen[number] > 50), "{seen:?}");
}

/// Id maps, right and broken, read; ids that rise or do not, written.
#[test]
fn maps_agree_with_the_reference() {
    let mut rng = Rng::new(803);
    for _ in 0..20_000 {
        let case = maps::case(&mut rng);
        let mut ids = vec![0; rvf::IDS_LIMIT];
        let read = idmap::read(&case.data, case.count, &mut ids);
        let wanted = answer(read.err().unwrap_or(0), || (ids[..case.count as usize].to_vec(), read.unwrap_or(0)));
        assert_eq!(rvf::read_ids(&case.data, case.count), wanted);
    }
    for count in [0, 4_097, u64::MAX] {
        assert_eq!(rvf::read_ids(&[0; 40_000], count), Err(Refusal::Layout));
    }
    for length in [0, 1, 2, 63, 64, 65, 300, rvf::IDS_LIMIT, rvf::IDS_LIMIT + 1] {
        for interval in [0, 1, 2, 64, u16::MAX] {
            // Steps so wide that the varints are as long as they get.
            let mut ids = rng.rising(length, 1 << 63, 48);
            same_map(&ids, Encoding::Delta { interval }, (1, interval.into()));
            same_map(&ids, Encoding::Raw, (0, 0));
            ids.reverse();
            same_map(&ids, Encoding::Delta { interval }, (1, interval.into()));
        }
    }
}

fn same_map(ids: &[u64], encoding: Encoding, (number, interval): (u64, u64)) {
    let plan = idmap::plan(ids, number, interval);
    let wanted = answer(plan.as_ref().err().copied().unwrap_or(0), || maps::valid(ids, number, interval));
    assert_eq!(rvf::write_ids(ids, encoding), wanted);
}

#[test]
fn varints_agree_with_the_reference() {
    let mut rng = Rng::new(804);
    for _ in 0..50_000 {
        let value = rng.value();
        let room = rng.below(12);
        let (mut ours, mut theirs) = ([0xA5; 12], [0xA5; 12]);
        let written = varint::write(&mut theirs[..room], value);
        let wanted = answer(written.err().unwrap_or(0), || written.unwrap_or(0));
        assert_eq!(rvf::write_varint(&mut ours[..room], value), wanted);
        assert_eq!(ours, theirs);
        let length = rng.below(12);
        let bytes: Vec<u8> = rng.bytes(length).into_iter().map(|byte| byte | rng.pick(&[0, 0x80])).collect();
        for bytes in [&ours[..], &bytes] {
            let read = varint::read(bytes);
            assert_eq!(rvf::read_varint(bytes), answer(read.err().unwrap_or(0), || read.unwrap_or((0, 0))));
        }
    }
}

/// Each number has its name and each name its number, and all of them say something else.
#[test]
fn refusals_carry_their_numbers() {
    for (index, refusal) in Refusal::ALL.into_iter().enumerate() {
        assert_eq!(refusal.number() as usize, index + 1);
        assert_eq!(Refusal::from_number(refusal.number()), Some(refusal));
        assert_eq!(refusal.to_string(), format!("refused {}: {}", index + 1, refusal.meaning()));
        assert!(Refusal::ALL[..index].iter().all(|other| other.meaning() != refusal.meaning()));
    }
    assert!([0, 16, 255, u32::MAX].into_iter().all(|number| Refusal::from_number(number).is_none()));
}

/// The README's table says of each number what the binding says.
#[test]
fn readme_has_the_meanings() {
    let readme = include_str!("../../README.md");
    for refusal in Refusal::ALL {
        let row = format!("| {} | {} |\n", refusal.number(), refusal.meaning());
        assert!(readme.contains(&row), "README.md lacks {row}");
    }
}
