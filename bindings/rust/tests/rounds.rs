//! Round files written, read and followed in the sample yards. Run by `make bindings` at the repository's root.
use bofrashem::{Cell, Refusal, Round, VersionedRound};

fn read(name: &str) -> Cell {
    let file = format!(
        "{}/../../samples/{name}.section",
        env!("CARGO_MANIFEST_DIR")
    );
    Cell::read(&std::fs::read(file).expect("a sample yard"), &[]).expect("a sample yard is read")
}

#[test]
fn a_round_is_its_file() {
    let round = Round {
        start: 258,
        choices: vec![5, 6],
    };
    let file = round.to_bytes().unwrap();
    assert_eq!(file, [82, 78, 68, 1, 0, 2, 1, 2, 0, 5, 6]);
    assert_eq!(Round::from_bytes(&file), Ok(round));
    let empty = Round::default();
    assert_eq!(Round::from_bytes(&empty.to_bytes().unwrap()), Ok(empty));
}

#[test]
fn a_file_that_is_no_round_is_refused() {
    let refused = |file: &[u8]| Round::from_bytes(file).unwrap_err();
    for file in [
        &b""[..],
        b"RND",
        b"RND\x01",
        b"RND\x02\0",
        b"RNd\x01\0\0\0\0\0",
    ] {
        assert_eq!(refused(file), Refusal::NoRoundFile, "{file:?}");
    }
    for file in [
        &b"RND\x01\0"[..],
        b"RND\x01\0\0\0\0",
        b"RND\x01\0\0\0\0\0\0",
        b"RND\x01\0\0\0\x02\0\x07",
    ] {
        assert_eq!(refused(file), Refusal::BadRoundLength, "{file:?}");
    }
    let words = "refused 15 0: a round file's first five bytes aren't the mark and a version that the reader takes";
    assert_eq!(refused(b"RND").to_string(), words);
}

#[test]
fn as_many_choices_as_a_file_holds() {
    let most = Round {
        start: 65_535,
        choices: vec![7; 65_535],
    };
    let file = most.to_bytes().unwrap();
    assert_eq!((file.len(), Round::from_bytes(&file)), (65_544, Ok(most)));
    let over = Round {
        start: 0,
        choices: vec![7; 65_536],
    };
    assert_eq!(over.to_bytes(), Err(Refusal::BadRoundLength));
}

#[test]
fn a_round_goes_the_walk_of_its_node() {
    let hall = read("hall");
    for (p, node) in hall.nodes().iter().enumerate() {
        let round = Round {
            start: node.node_id,
            choices: vec![0, 1, 0, 1, 2],
        };
        assert_eq!(hall.follow(&round), hall.walk(p, &round.choices));
    }
    let beyond = Round {
        start: 60_000,
        choices: vec![],
    };
    assert_eq!(hall.follow(&beyond), Err(Refusal::NoSuchPlace));
    assert_eq!(
        Cell::new().follow(&Round::default()),
        Err(Refusal::NoSuchPlace)
    );
}

/// The file of a node's number before a renumbering starts elsewhere afterwards; the new number goes the same way.
#[test]
fn a_round_is_written_again_after_renumbering() {
    let mut yard = read("yard");
    let number = yard.nodes()[0].node_id;
    let old = Round {
        start: number,
        choices: vec![0, 1, 0],
    };
    let before = yard.follow(&old).unwrap();
    let places = yard.renumber().unwrap();
    let new = Round {
        start: places[0] as u16,
        ..old.clone()
    };
    let after = yard.follow(&new).unwrap();
    assert_eq!(before.end, after.end);
    assert_eq!(
        before
            .visited
            .iter()
            .map(|&p| places[p])
            .collect::<Vec<_>>(),
        after.visited
    );
    assert_ne!(places[0] as u16, number);
    assert_ne!(yard.follow(&old).unwrap().visited[0], after.visited[0]);
}

#[test]
fn a_round_with_an_area_is_its_file() {
    let round = Round {
        start: 258,
        choices: vec![5, 6],
    };
    let two = VersionedRound {
        area: Some(1027),
        round: round.clone(),
    };
    let file = two.to_bytes().unwrap();
    assert_eq!(file, [82, 78, 68, 2, 0, 3, 4, 2, 1, 2, 0, 5, 6]);
    assert_eq!(VersionedRound::from_bytes(&file), Ok(two));
    assert_eq!(Round::from_bytes(&file), Err(Refusal::NoRoundFile));
    let one = VersionedRound {
        area: None,
        round: round.clone(),
    };
    assert_eq!(one.to_bytes(), round.to_bytes());
    assert_eq!(
        VersionedRound::from_bytes(&one.to_bytes().unwrap()),
        Ok(one)
    );
}

#[test]
fn a_file_of_neither_version_is_refused() {
    let refused = |file: &[u8]| VersionedRound::from_bytes(file).unwrap_err();
    for file in [
        &b""[..],
        b"RND\x02",
        b"RND\0\0\0\0\0\0",
        b"RND\x03\0\0\0\0\0\0\0",
        b"RND\x02\x01\0\0\0\0\0\0",
    ] {
        assert_eq!(refused(file), Refusal::NoRoundFile, "{file:?}");
    }
    // nine bytes are a whole file of version 1, and none of version 2
    for file in [
        &b"RND\x02\0\0\0\0\0"[..],
        b"RND\x02\0\0\0\0\0\x01\0",
        b"RND\x01\0\0\0\0\0\0\0",
    ] {
        assert_eq!(refused(file), Refusal::BadRoundLength, "{file:?}");
    }
}

#[test]
fn a_round_with_an_area_goes_in_its_cell_alone() {
    let hall = read("hall");
    let area = hall.nodes()[0].area_id;
    let round = Round {
        start: hall.nodes()[3].node_id,
        choices: vec![0, 1, 0],
    };
    let of = |area| VersionedRound {
        area,
        round: round.clone(),
    };
    assert_eq!(hall.follow_versioned(&of(Some(area))), hall.follow(&round));
    assert_eq!(hall.follow_versioned(&of(None)), hall.follow(&round));
    for other in [area ^ 1024, area ^ 1] {
        assert_eq!(
            hall.follow_versioned(&of(Some(other))),
            Err(Refusal::OtherArea)
        );
    }
    let beyond = |area| VersionedRound {
        area: Some(area),
        round: Round {
            start: 60_000,
            choices: vec![],
        },
    };
    assert_eq!(
        hall.follow_versioned(&beyond(area)),
        Err(Refusal::NoSuchPlace)
    );
    assert_eq!(
        hall.follow_versioned(&beyond(area ^ 1)),
        Err(Refusal::OtherArea)
    );
    assert_eq!(
        Cell::new().follow_versioned(&beyond(0)),
        Err(Refusal::NoSuchPlace)
    );
    assert_eq!(
        Cell::new().follow_versioned(&beyond(1)),
        Err(Refusal::OtherArea)
    );
}
