//! Request 11: the planner's list, over the records of an image that request 1 accepts.

use crate::{
    back::{self, Record, Refused},
    hex,
};

/// Offset of the object, 0 undecided or 1 mass or 2 depth, the field's name span.
pub type Row = [usize; 4];

fn row(records: &[Record], object: &Record) -> Option<Row> {
    // Fields marked plus, with the text of their names.
    let children = object.children.iter().map(|&child| &records[child]);
    let raised: Vec<&Record> =
        children.filter(|child| child.tag == 31 && child.bytes[1] == 1).collect();
    let is_computed = |field: &Record| field.bytes[0] == 1;
    if raised.iter().any(|field| is_computed(field)) {
        return Some([object.offset, 0, 0, 0]);
    }
    let first = |name: &[u8]| {
        let named = |field: &&&Record| records[field.children[0]].text == name;
        raised.iter().find(named).map(|field| field.spans[0])
    };
    match (first(b"mass"), first(b"depth")) {
        (Some((start, end)), None) => Some([object.offset, 1, start.into(), end.into()]),
        (None, Some((start, end))) => Some([object.offset, 2, start.into(), end.into()]),
        _ => None,
    }
}

/// All rows, in the order of the image.
pub fn rows(image: &[u8]) -> Result<Vec<Row>, Refused> {
    let records = back::read(image)?;
    let objects = records.iter().filter(|record| matches!(record.tag, 9 | 10));
    Ok(objects.filter_map(|object| row(&records, object)).collect())
}

/// `NUMBER OFFSET COUNT LIST`.
pub fn answer(room: u64, image: &[u8]) -> String {
    match rows(image) {
        Err(Refused { number, offset }) => format!("{number} {offset} 0 -"),
        Ok(rows) if rows.len() as u64 > room / 4 => format!("21 0 {} -", rows.len()),
        Ok(rows) if rows.is_empty() => "0 0 0 -".to_owned(),
        Ok(rows) => {
            let numbers: Vec<String> = rows.iter().flatten().map(usize::to_string).collect();
            format!("0 0 {} {}", rows.len(), numbers.join(","))
        }
    }
}

/// A line `mass LISTLEN HEXIMAGE`.
pub fn line(line: &str) -> Result<String, String> {
    let ["mass", room, image] = line.split(' ').collect::<Vec<_>>()[..] else {
        return Err(format!("not `mass LISTLEN HEXIMAGE`: {line}"));
    };
    let room = room.parse().map_err(|e| format!("list length {room}: {e}"))?;
    Ok(answer(room, &hex::decode(image)?))
}
