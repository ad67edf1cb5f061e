//! Images for the planner's list: objects that raise `mass`, `depth`, both, neither or who knows
//! what, inside and beside each other.

use super::{Lines, images, rng::Rng};
use crate::{hex, mass, reader};

fn line(room: usize, image: &[u8]) -> String {
    format!("mass {room} {}", hex::encode(image))
}

/// Every length of the list about what is needed.
pub fn fixed(lines: &mut Lines) {
    for source in [
        "1", "{}", "{mass+:1}", "{depth+:1}", "{mass+:1,depth+:1}", "{mass+:1,mass+:2}",
        "{mass:1,mass+:2}", "{mass():1}", "{mass:1}", "{[mass]+:1}", "{[mass]:1,mass+:1}",
        "{['mass']+:1}", "{'mass'+:1}", "{\"\\u006dass\"+::1}", "{mass+:1,depth+:1,[a]+:1}",
        "{local mass=1,assert a}", "{mass+:{depth+:1}}", "{a:{mass+:1},depth+:1}",
        "{mass+:1 for a in b}", "{local b=1,depth+:1 for a in b}", "{[a]+:1 for a in b}",
        "a{mass+:1}", "a{mass+:1}{depth+:1}", "[{mass+:1},{depth+:1},{[a]+:1},{massx+:1}]",
    ] {
        let image = reader::answer(7, u64::MAX, source.as_bytes()).image;
        let rows = mass::rows(&image).expect("an image is accepted").len();
        for room in [0, 3, 4, 5, 7, 8, 4 * rows, 4 * rows + 1, 64] {
            lines.push(line(room, &image));
        }
    }
    lines.push(line(4, b"\xff"));
    lines.push(line(0, b""));
}

pub fn random(rng: &mut Rng) -> String {
    let source = expression(rng, 3);
    let mut image = reader::answer(7, u64::MAX, source.as_bytes()).image;
    if rng.once_in(4) {
        image = images::damaged(rng, &image);
    }
    let rows = mass::rows(&image).map_or(0, |rows| rows.len());
    let room = match rng.below(6) {
        0 => rng.below(4 * rows + 1),
        1 => (4 * rows).saturating_sub(1),
        2 => 4 * rows + rng.below(8),
        _ => 4 * rows,
    };
    line(room, &image)
}

fn expression(rng: &mut Rng, depth: usize) -> String {
    if depth == 0 {
        return rng.pick(&["1", "mass", "'depth'", "{}"]).to_owned();
    }
    match rng.below(6) {
        0 => format!("[{},{}]", expression(rng, depth - 1), expression(rng, depth - 1)),
        1 => format!("{}{}", rng.pick(&["a", "{}"]), object(rng, depth)),
        2 => format!("{}+{}", expression(rng, depth - 1), object(rng, depth)),
        _ => object(rng, depth),
    }
}

fn object(rng: &mut Rng, depth: usize) -> String {
    if rng.once_in(5) {
        let name = rng.pick(&["mass+", "depth+", "[a]+", "[a]", "mass", "'mass'+", "['depth']+"]);
        let local = rng.pick(&["", "local mass=1,"]);
        return format!("{{{local}{name}:{} for a in b}}", expression(rng, depth - 1));
    }
    let members: Vec<String> = (0..rng.below(5)).map(|_| member(rng, depth)).collect();
    format!("{{{}}}", members.join(","))
}

fn member(rng: &mut Rng, depth: usize) -> String {
    let name = rng.pick(&[
        "mass+", "mass+", "mass+", "depth+", "depth+", "depth+", "'mass'+", "\"\\u0064epth\"+",
        "mass", "depth", "a", "a+", "mass()", "depth(x)", "[a]", "[a]", "[a]+", "['mass']+", "mas+",
        "massx+", "local", "assert",
    ]);
    let value = expression(rng, depth - 1);
    match name {
        "local" => format!("local mass={value}"),
        "assert" => format!("assert {value}"),
        _ => format!("{name}{}{value}", rng.pick(&[":", ":", "::", ":::"])),
    }
}
