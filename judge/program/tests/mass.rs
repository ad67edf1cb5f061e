//! The planner's list: what document 02's notes write down about it.

use judge::{generate, mass, reader};

/// The rows without their offsets, of the image of a source.
fn rows(source: &str) -> Vec<[usize; 3]> {
    let answer = reader::answer(7, u64::MAX, source.as_bytes());
    assert_eq!(answer.number, 0, "{source}: {answer}");
    let rows = mass::rows(&answer.image).expect("an image is accepted");
    rows.into_iter().map(|[_, what, start, end]| [what, start, end]).collect()
}

#[test]
fn written_down() {
    let image = "0500046d6173730200001f000a000100050001000000000900020001";
    let line = |question: String| mass::line(&question).expect("a question");
    assert_eq!(line(format!("mass 10 {image}")), "0 0 1 23,1,1,5");
    assert_eq!(line(format!("mass 4 {image}")), "0 0 1 23,1,1,5");
    assert_eq!(line(format!("mass 3 {image}")), "21 0 1 -");
    assert_eq!(line("mass 0 0900020000".to_owned()), "0 0 0 -");
    assert_eq!(line("mass 4 ff".to_owned()), "13 0 0 -");
    assert_eq!(line("mass 4 -".to_owned()), "15 0 0 -");
}

/// Section E, a case or more for each reading.
#[test]
fn readings() {
    for (source, want) in [
        ("{mass+:1}", &[[1, 1, 5]][..]),
        ("{depth+:1}", &[[2, 1, 6]]),
        ("{mass+:1,depth+:1}", &[]),
        ("{mass:1,depth+:1}", &[[2, 8, 13]]),
        // Inner objects first, each by its own fields.
        ("{mass+:{depth+:1}}", &[[2, 8, 13], [1, 1, 5]]),
        ("{a:{mass+:1},depth+:1}", &[[1, 4, 8], [2, 13, 18]]),
        // However it is spelt; computed is undecided.
        ("{'mass'+:1}", &[[1, 1, 7]]),
        ("{\"\\u006dass\"+:1}", &[[1, 1, 12]]),
        ("{['mass']+:1}", &[[0, 0, 0]]),
        ("{mass+:1,depth+:1,[a]+:1}", &[[0, 0, 0]]),
        ("{mass+:1,[a]:1}", &[[1, 1, 5]]),
        // The first such field, which is marked plus.
        ("{mass+:1,mass+:2}", &[[1, 1, 5]]),
        ("{mass:1,mass+:2}", &[[1, 8, 12]]),
        ("{mass():1,local mass=1,assert mass}", &[]),
        // Comprehensions, and objects under an extension.
        ("{mass+:1 for a in b}", &[[1, 1, 5]]),
        ("{[a]+:1 for a in b}", &[[0, 0, 0]]),
        ("a{mass+:1}", &[[1, 2, 6]]),
        ("a?.b{mass+:1}", &[[1, 5, 9]]),
    ] {
        assert_eq!(rows(source), want, "{source}");
    }
}

/// The offset is that of the 9 or 10.
#[test]
fn offsets() {
    for source in ["a{mass+:1}", "a{mass+:1 for b in c}"] {
        let image = reader::answer(7, u64::MAX, source.as_bytes()).image;
        let rows = mass::rows(&image).expect("an image is accepted");
        assert!(matches!(image[rows[0][0]], 9 | 10), "{source}");
    }
}

#[test]
fn every_answer() {
    let mut of = [0; 22];
    for line in generate::lines("mass", 6, 5_000).expect("images can be generated") {
        let answer = mass::line(&line).expect("a generated line is well formed");
        let number: usize = answer.split(' ').next().expect("a number").parse().expect("a number");
        of[number] += 1;
    }
    assert!([0, 13, 14, 15, 16, 21].into_iter().all(|number| of[number] > 12), "{of:?}");
}
