//! `rvf list` and `rvf get` on the sample files, as text and as JSON.

mod common;

use common::{appended, bytes_of, folder, put, rvf, sample, sample_path, small_batch, Ran};
use rvf::{Body, Dtype, Encoding, Vectors};

fn on_sample(name: &str, words: &[&str]) -> Ran {
    let path = sample_path(name);
    let path = path.to_str().expect("the path is text");
    let words: Vec<&str> = words.iter().map(|word| if *word == "FILE" { path } else { word }).collect();
    rvf(&words)
}

#[test]
fn list_lines_up_its_columns() {
    let wanted = "\
id  type        offset  length  state     check
 0  1 VEC            0     128  retired   ok
 1  5 MANIFEST     192    4160  live      ok
 2  1 VEC         4416     128  live      ok
 3  7 META        4608      14  live      ok
 4  5 MANIFEST    4736    4352  live      ok
 5  1 VEC         9152     128  live      ok
 6  5 MANIFEST    9344    4416  manifest  ok
";
    let clean = on_sample("clean.rvf", &["list", "FILE"]);
    assert_eq!(clean.text(), format!("{wanted}manifest 6 at 9344, end 13824, boundaries tried 70\n"));
    let torn = on_sample("torn.rvf", &["list", "FILE"]);
    let behind = "150 bytes lie behind the end; they are no part of the store\n";
    assert_eq!(torn.text(), format!("{wanted}manifest 6 at 9344, end 13824, boundaries tried 72\n{behind}"));
    let damaged = on_sample("damaged.rvf", &["list", "FILE"]);
    assert!(damaged.text().contains(" 5  1 VEC         9152     128  live      bad\n"), "{}", damaged.text());
    assert_eq!([clean.status, torn.status, damaged.status], [0; 3]);
}

#[test]
fn list_as_json() {
    let nested = on_sample("nested.rvf", &["--json", "list", "FILE"]);
    let wanted = "{\"entries\":[{\"id\":0,\"type\":7,\"name\":\"META\",\"flags\":0,\"offset\":0,\"length\":13824,\
                  \"state\":\"live\",\"check\":\"ok\"}],\"manifest\":{\"id\":1,\"offset\":13888,\"end\":18112,\
                  \"entries\":1,\"tried\":66},\"behind\":0}";
    assert_eq!(nested.json(), wanted);
    for name in ["clean.rvf", "torn.rvf", "damaged.rvf"] {
        let listed = on_sample(name, &["list", "FILE", "--json"]);
        assert_eq!(listed.status, 0);
        assert_eq!(listed.json().matches("\"id\":").count(), 7);
    }
}

#[test]
fn a_file_of_the_greatest_size_is_listed_quickly() {
    let path = folder("greatest").join("f.rvf");
    // Sixteen bodies and a manifest a batch: 1,019 entries in some 16 million bytes.
    let body = Body { kind: 7, flags: 0, bytes: &[1; 15_000] };
    let mut file = Vec::new();
    for time in 0..60 {
        file = appended(&file, &rvf::batch(&[body; 16]), &[], time).expect("there is room");
    }
    assert!(file.len() > 15_500_000, "{}", file.len());
    put(&path, &file);
    let start = std::time::Instant::now();
    let listed = rvf(&["list".as_ref(), path.as_os_str()]);
    assert_eq!(listed.status, 0);
    assert_eq!(listed.text().lines().count(), 1_022);
    assert!(start.elapsed().as_secs_f64() < 3.0, "{:?}", start.elapsed());
}

#[test]
fn a_vector_and_a_component() {
    let vector = on_sample("clean.rvf", &["get", "FILE", "21"]);
    assert_eq!(vector.text(), "vector 21, dim 3, dtype f32\n2.25 102.25 202.25\n");
    let vector = on_sample("torn.rvf", &["get", "FILE", "30", "--json"]);
    let wanted = "{\"id\":30,\"dim\":3,\"dtype\":\"f32\",\"values\":[3,103,203],\"bytes\":\"000040400000ce4200004b43\"}";
    assert_eq!(vector.json(), wanted);
    let component = on_sample("clean.rvf", &["get", "FILE", "21", "--component", "2"]);
    assert_eq!(component.text(), "202.25\n");
    let component = on_sample("clean.rvf", &["get", "--component", "0", "FILE", "7", "--json"]);
    assert_eq!(component.json(), "{\"id\":7,\"component\":0,\"dtype\":\"f32\",\"value\":2,\"bytes\":\"00000040\"}");
}

#[test]
fn values_that_are_no_json_numbers_are_strings() {
    let path = folder("nan").join("f.rvf");
    let nan = f32::from_bits(0x7FC1_2345);
    let columns: Vec<u8> = [nan, f32::NEG_INFINITY, -0.0].iter().flat_map(|value| value.to_le_bytes()).collect();
    let encoding = Encoding::Raw;
    let floats = rvf::vectors(&Vectors { ids: &[1], columns: &columns, dim: 3, dtype: Dtype::F32, tier: 0, encoding });
    let bytes = rvf::vectors(&Vectors { ids: &[2], columns: &[0x80, 0x7F], dim: 2, dtype: Dtype::I8, tier: 0, encoding });
    let (floats, bytes) = (floats.expect("written"), bytes.expect("written"));
    let bodies = [&floats, &bytes].map(|bytes| Body { kind: rvf::VEC, flags: 0, bytes });
    put(&path, &appended(&[], &rvf::batch(&bodies), &[], 1).expect("accepted"));
    let get = |words: &[&str]| rvf(&[&["get", path.to_str().expect("text")], words].concat());
    let wanted = "{\"id\":1,\"dim\":3,\"dtype\":\"f32\",\"values\":[\"NaN\",\"-inf\",-0],\"bytes\":\"4523c17f000080ff00000080\"}";
    assert_eq!(get(&["1", "--json"]).json(), wanted);
    assert_eq!(get(&["1"]).text(), "vector 1, dim 3, dtype f32\nNaN -inf -0\n");
    let component = get(&["1", "--component", "0", "--json"]);
    assert_eq!(component.json(), "{\"id\":1,\"component\":0,\"dtype\":\"f32\",\"value\":\"NaN\",\"bytes\":\"4523c17f\"}");
    assert_eq!(get(&["2", "--json"]).json(), "{\"id\":2,\"dim\":2,\"dtype\":\"i8\",\"values\":[-128,127],\"bytes\":\"807f\"}");
}

#[test]
fn a_payload_goes_out_as_it_is() {
    let raw = on_sample("nested.rvf", &["get", "FILE", "--segment", "0"]);
    assert!(raw.stdout == sample("clean.rvf") && raw.status == 0);
    let hex = on_sample("clean.rvf", &["get", "FILE", "--segment", "3", "--json"]);
    assert_eq!(hex.json(), "{\"segment\":3,\"length\":14,\"bytes\":\"7365636f6e6420636f6e74616374\"}");
    let to = folder("payload").join("note");
    let to = to.to_str().expect("text");
    let words = ["get", "FILE", "--segment", "3", "--to", to];
    let written = on_sample("clean.rvf", &words);
    assert_eq!((written.status, written.text()), (0, format!("segment 3: 14 bytes written to {to}\n").as_str()));
    assert_eq!(bytes_of(to.as_ref()), b"second contact");
    // What is there is not overwritten.
    put(to.as_ref(), b"mine");
    let again = on_sample("clean.rvf", &words);
    assert_eq!((again.status, again.stderr), (74, format!("rvf: {to}: exists already; name another path\n")));
    assert_eq!(bytes_of(to.as_ref()), b"mine");
    std::fs::remove_file(to).expect("it is there");
    let told = on_sample("clean.rvf", &[&words[..], &["--json"]].concat());
    assert_eq!(told.json(), format!("{{\"segment\":3,\"length\":14,\"to\":\"{to}\"}}"));
}

#[test]
fn refusals_give_their_number() {
    let cases: [(&str, &[&str], i32, &str); 7] = [
        ("clean.rvf", &["get", "FILE", "8"], 8, "there is no such vector"),
        ("clean.rvf", &["get", "FILE", "7", "--component", "3"], 8, "the vector has no such component"),
        ("clean.rvf", &["get", "FILE", "--segment", "0"], 3, "no live segment"),
        ("clean.rvf", &["get", "FILE", "--segment", "6"], 3, "no live segment"),
        ("damaged.rvf", &["get", "FILE", "7"], 4, "a segment's content hash differs"),
        ("damaged.rvf", &["get", "FILE", "--segment", "5"], 4, "a segment's content hash differs"),
        ("worked.map", &["list", "FILE"], 2, "the file has no confirmed manifest"),
    ];
    for (name, words, number, meaning) in cases {
        let ran = on_sample(name, words);
        let path = sample_path(name);
        assert_eq!((ran.status, ran.text()), (number, ""), "{words:?}");
        assert!(ran.stderr.starts_with(&format!("rvf: {}: refused {number}: {meaning}", path.display())), "{}", ran.stderr);
        let ran = on_sample(name, &[words, &["--json"]].concat());
        assert_eq!(ran.status, number);
        assert!(ran.json().starts_with(&format!("{{\"refused\":{number},\"meaning\":\"{meaning}")), "{}", ran.json());
        assert!(ran.stderr.contains(&format!("refused {number}: ")));
    }
}

#[test]
fn small_batches_are_read_back() {
    let path = folder("read-back").join("f.rvf");
    put(&path, &appended(&sample("clean.rvf"), &small_batch(), &[], 4).expect("accepted"));
    let got = rvf(&["get".as_ref(), path.as_os_str(), "31".as_ref()]);
    assert_eq!(got.text(), "vector 31, dim 2, dtype u8\n42 45\n");
}
