//! The command-line tool walks through a file in plain Rust, to say why the chain stops and
//! why a manifest is not confirmed. Here its links, manifests and faults are compared with
//! the reference: a fault is found exactly where a reading call or a compaction refuses, but for
//! the payload of an older manifest, or where batches are lost.

use rvf_harness::gen::batches::{vector_file, vector_ids};
use rvf_harness::gen::stores::{store, Wish};
use rvf_harness::gen::{damage, files, Rng};
use rvf_harness::reference::compact::compact;
use rvf_harness::reference::{manifest, segment, store as reading};
use rvf_tool::check::{check, Weight};
use rvf_tool::manifests::doubt;
use rvf_tool::room::{back, Room};
use rvf_tool::walk::{walk, Stop};

/// The links, the place where the chain stops, and which manifests are confirmed.
fn same_walk(file: &[u8]) {
    let ours = walk(file);
    let theirs: Vec<segment::Link> = segment::chain(file).collect();
    assert_eq!(ours.links.len(), theirs.len());
    let offsets: Vec<usize> = theirs.iter().map(|link| link.offset).collect();
    let mut last = None;
    for (index, (link, wanted)) in ours.links.iter().zip(&theirs).enumerate() {
        let fields = (link.offset, link.end, link.id, link.length, link.kind, link.flags);
        assert_eq!(fields, (wanted.offset, wanted.end, wanted.id, wanted.length, wanted.kind, wanted.flags));
        assert_eq!(link.whole(file), wanted.whole(file));
        let confirmed = link.kind == segment::MANIFEST && doubt(file, link, &ours.links[..index]).is_none();
        assert_eq!(confirmed, manifest::confirmed(file, wanted, &offsets[..index]), "link {index}");
        last = if confirmed { Some(link.offset) } else { last };
    }
    assert_eq!(last, manifest::open(file).ok().map(|opened| opened.offset));
    assert_eq!(ours.stopped, theirs.last().map_or(0, |link| link.end));
    assert_eq!(ours.why == Stop::FileEnd, ours.stopped == file.len());
}

/// An id that no segment holds, so that a search for it goes through all of them.
fn searched_in_vain(file: &[u8]) -> Option<u32> {
    let mut buffer = [0; 4_096];
    let each = (0..u64::MAX).map(|step| reading::vector(file, u64::MAX / 2 - step, &mut buffer));
    each.filter_map(Result::err).next()
}

/// The ids of the live segments, older manifests aside, whose payload is refused by 4, by the
/// reference; that of a reserved type never leaves, and a compaction refuses 4 in its place.
fn refused_payloads(file: &[u8]) -> Vec<u64> {
    let Ok(opened) = manifest::open(file) else {
        return Vec::new();
    };
    let entries = manifest::directory(file, &opened).chunks_exact(manifest::ENTRY).map(manifest::Entry::read);
    let segments = entries.filter(|entry| entry.kind != segment::MANIFEST);
    let refused = segments.filter(|entry| match reading::payload(file, entry.id) {
        Err(15) => !segment::hash_equal(&entry.hash, entry.payload(file)),
        answer => answer == Err(4),
    });
    refused.map(|entry| entry.id).collect()
}

/// What the check says, against what the calls do. Returns the number of a search.
fn same_faults(rng: &mut Rng, file: &[u8]) -> u32 {
    let checked = check(file).expect("the file is within the limit");
    let faults = checked.findings.iter().filter(|finding| finding.weight == Weight::Fault);
    // Lost batches are a fault that makes no call of the library refuse.
    let (faults, lost): (Vec<_>, Vec<_>) = faults.partition(|fault| fault.refusal.is_some());
    let opens = manifest::open(file).is_ok();
    assert_eq!(!lost.is_empty(), opens && rvf::lost_behind(file).is_ok_and(|lost| lost.is_some()), "{lost:?}");
    let search = searched_in_vain(file).expect("some id is not held");
    let refused = refused_payloads(file);
    assert_eq!(faults.is_empty(), search == 8 && refused.is_empty(), "a search refuses {search}: {faults:?}");
    // The fault that names the number of the search is that of the newest bad segment.
    let numbers: Vec<u32> = faults.iter().filter_map(|fault| fault.refusal).map(|refusal| refusal.number()).collect();
    assert!(search == 8 || numbers.contains(&search), "{search}: {numbers:?}");
    let hashes = faults.iter().filter(|fault| fault.refusal.map(|refusal| refusal.number()) == Some(4));
    assert_eq!(hashes.filter_map(|fault| fault.segment).collect::<Vec<_>>(), refused);
    // Without a fault no call refuses for damage, whatever it is told to find.
    if faults.is_empty() {
        for id in vector_ids(rng, 3) {
            assert!(matches!(reading::vector(file, id, &mut [0; 4_096]), Ok(_) | Err(8)));
        }
    }
    search
}

#[test]
fn the_walk_and_the_check_agree_with_the_reference() {
    let mut rng = Rng::new(901);
    let mut seen = [0; 9];
    for case in 0..6_000 {
        let mut file = if case % 2 == 0 { files::file(&mut rng) } else { vector_file(&mut rng).bytes };
        if rng.once_in(8) {
            damage(&mut rng, &mut file);
        }
        same_walk(&file);
        seen[same_faults(&mut rng, &file) as usize] += 1;
    }
    assert!([2, 4, 5, 6, 7, 8].into_iter().all(|number| seen[number] > 10), "{seen:?}");
}

/// Every byte of a file changed, one after the other.
#[test]
fn every_changed_byte_is_walked_alike() {
    let mut rng = Rng::new(902);
    let mut file = files::Builder::new(0, 3);
    file.body(7, 8, 1, b"some notes");
    file.body(1, 0, 2, &[0; 64]);
    file.manifest(0, 3, &[]);
    for at in 0..file.bytes.len() {
        let mut bytes = file.bytes.clone();
        bytes[at] ^= rng.pick(&[1, 2, 0x40, 0x80, 0xFF]);
        same_walk(&bytes);
        same_faults(&mut rng, &bytes);
    }
    for end in 0..=file.bytes.len() {
        same_walk(&file.bytes[..end]);
    }
}

/// Every value of the bytes of a header that have a set of allowed ones.
#[test]
fn every_version_type_and_flag() {
    let mut file = files::Builder::new(0, 3);
    file.body(7, 0, 1, b"some notes");
    file.body(9, 0, 1, b"more of them");
    file.manifest(0, 3, &[]);
    for (at, value) in (4..8).flat_map(|at| (0..=255).map(move |value| (at, value))) {
        for segment in [0, 128] {
            let mut bytes = file.bytes.clone();
            bytes[segment + at] = value;
            same_walk(&bytes);
        }
    }
}

/// Long runs of headers that look like manifests: the walk stays quick.
#[test]
fn hostile_files_are_walked_alike() {
    for formed in [false, true] {
        let mut file = files::Builder::new(0, 3);
        file.manifest(0, 3, &[]);
        let mut bytes = file.bytes.clone();
        bytes.extend(files::candidates(bytes.len(), 20_000, 100, formed));
        same_walk(&bytes);
        // The same run as the body of a segment, with a manifest behind it.
        file.body(7, 0, 1, &bytes);
        file.manifest(0, 3, &[]);
        same_walk(&file.bytes);
    }
}

/// More links than a directory holds: the last manifests cannot be confirmed.
#[test]
fn more_links_than_a_directory_holds() {
    let mut file = files::Builder::new(0, 0);
    for links in 1..=1_026 {
        file.body(7, 0, 1, b"");
        if links >= 1_023 {
            let with = file.clone();
            file.manifest(0, 1, &[]);
            same_walk(&file.bytes);
            file = with;
        }
    }
}

/// The room that the tool says a compaction brings back is what one brings back.
#[test]
fn the_room_that_comes_back() {
    let mut rng = Rng::new(0xBAC4);
    let mut compared = 0;
    for _ in 0..1_000 {
        let tail = rng.once_in(2);
        let file = store(&mut rng, Wish { damaged_live: false, tail });
        let (Ok(manifest), Ok((end, _, count))) = (rvf::open(&file), compact(&file, &mut vec![0; file.len()])) else {
            continue;
        };
        let entries = rvf::entries(&file).expect("it opens");
        let wanted = Room { entries: manifest.count - count as u64, bytes: manifest.end - end as u64 };
        assert_eq!(back(&manifest, &entries), wanted);
        compared += 1;
    }
    assert!(compared > 500, "{compared}");
}
