//! Notes: skippable records of many texts, some of which would read as walls if a reader lost its place.
use crate::random::Random;
use crate::records::{Record, check_of};

/// Puts some notes into a file, anywhere before the end record.
pub fn put_notes(records: &mut Vec<Record>, random: &mut Random) {
    for _ in 0..random.pick(&[0, 0, 0, 1, 1, 2, 5]) {
        let place = random.place(records.len());
        let text = text_before(records, place, random);
        let kind = random.from_to(128, 255) as u8;
        records.insert(place, Record::new(kind, text));
    }
}

fn text_before(records: &[Record], place: usize, random: &mut Random) -> Vec<u8> {
    let following = &records[place];
    match random.from_to(0, 6) {
        0 => Vec::new(),
        1 => b"the wire was moved on Tuesday\n".to_vec(),
        2 => wall_record(following.payload.len()),
        3 => walls(following.payload.len()),
        4 => walls_and_header(following),
        5 => {
            let length = random.place(3000);
            random.bytes(length)
        }
        _ => {
            let length = random.place(40);
            random.bytes(length)
        }
    }
}

/// A text that is nothing but map bytes of obstacle 1.
pub fn walls(cells: usize) -> Vec<u8> {
    vec![1; cells]
}

/// A text that is itself a map record, all walls.
pub fn wall_record(cells: usize) -> Vec<u8> {
    Record::new(4, walls(cells)).bytes()
}

/// A text that ends with the header of a map record, which the file behind it fits.
pub fn walls_and_header(following: &Record) -> Vec<u8> {
    let behind = following.bytes();
    let mut header = Record::new(4, Vec::new());
    header.length = following.length;
    header.check = check_of(&behind[..following.payload.len()]);
    [walls(16), header.bytes()].concat()
}
