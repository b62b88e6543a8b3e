//! The examples of document 01, answered by the peer.

use peer::{Answer, Profile};

const LIMBS: usize = 10;

/// The room that the listing call asks for.
const LISTING_ROOM: usize = 262_144;

fn done(count: usize) -> Answer {
    Answer {
        number: 0,
        place: 0,
        count,
    }
}

fn refused(number: u8, place: usize) -> Answer {
    Answer {
        number,
        place,
        count: 0,
    }
}

fn table(p: Profile) -> Vec<u64> {
    let mut rows = vec![0; LIMBS * (p.m + 1)];
    assert_eq!(peer::build(p, &mut rows), done(rows.len()));
    rows
}

fn number(value: u64) -> [u64; LIMBS] {
    let mut limbs = [0; LIMBS];
    limbs[0] = value;
    limbs
}

fn cells(text: &str) -> Vec<u8> {
    text.bytes().map(|digit| digit - b'0').collect()
}

/// Writes messages of at most 64 bits, each of s bits, and reads them back.
fn assert_written(p: Profile, s: usize, messages: &[u64], stream: &str) {
    let bits = s * messages.len();
    let packed = messages
        .iter()
        .fold(0, |packed, message| packed << s | message)
        << (64 - bits);
    let bytes = &packed.to_be_bytes()[..bits.div_ceil(8)];
    let mut out = vec![0; stream.len()];
    assert_eq!(
        peer::write(p, &table(p), bytes, bits, &mut out),
        done(stream.len())
    );
    assert_eq!(out, cells(stream));
    let mut read = vec![u8::MAX; bytes.len()];
    assert_eq!(peer::read(p, &table(p), &out, &mut read), done(bits));
    assert_eq!(read, bytes);
}

#[test]
fn counts() {
    for (m, x, count) in [(6, 1, 3409), (6, 2, 3031), (9, 1, 191_518)] {
        let rows = table(Profile::new(4, m, x));
        assert_eq!(rows[LIMBS * m..], number(count));
    }
    assert_eq!(table(Profile::new(2, 3, 1))[LIMBS * 3..], number(7));
}

#[test]
fn indices() {
    let examples = [
        (2, "011302", 334),
        (2, "203320", 1850),
        (1, "01233", 108),
        (1, "13001", 416),
    ];
    for (x, word, index) in examples {
        let p = Profile::new(4, word.len(), x);
        assert_eq!(
            peer::index(p, &table(p), &cells(word)),
            (done(0), number(index))
        );
        let mut out = vec![0; p.m];
        assert_eq!(
            peer::word(p, &table(p), &number(index), &mut out),
            done(p.m)
        );
        assert_eq!(out, cells(word));
    }
}

#[test]
fn streams() {
    assert_written(Profile::new(4, 5, 1), 9, &[107, 415], "01233013001");
    assert_written(Profile::new(2, 3, 1), 2, &[0, 3], "0011100");
    assert_written(Profile::new(4, 1, 1), 1, &[1, 0], "201");
}

#[test]
fn refusals() {
    for (word, x, refusal) in [("323", 1, 11), ("3223", 1, 0), ("3223", 2, 11)] {
        let p = Profile::new(4, word.len(), x);
        assert_eq!(
            peer::index(p, &table(p), &cells(word)).0,
            refused(refusal, 0)
        );
        assert_eq!(peer::find(p.q, x, &cells(word)), refused(refusal, 0));
    }
    let p = Profile::new(3, 1, 1);
    assert_eq!(peer::read(p, &table(p), &[], &mut []), refused(4, 0));
    let (reach_one, reach_two) = (Profile::new(4, 4, 1), Profile::new(4, 4, 2));
    assert_eq!(peer::rate(reach_two, &table(reach_one), 1).0, refused(6, 4));
}

#[test]
fn published_profiles_agree_with_the_recursion() {
    for row in 0..40 {
        let (answer, [q, x, m, s]) = peer::published(row);
        let p = Profile::new(q, m, x);
        assert_eq!(answer, done(0));
        assert_eq!(peer::rate(p, &table(p), 1), (done(0), s, m + x));
    }
    assert_eq!(peer::published(40), (refused(12, 0), [0; 4]));
}

#[test]
fn listing() {
    let listed =
        "2 3 1 7 2\n0 0,0,0 -\n1 0,0,1 0\n2 0,1,0 1\n3 0,1,1 2\n4 1,0,0 3\n5 1,1,0 -\n6 1,1,1 -\n";
    let texts = [
        ("2 3 1\n", listed),
        ("02 3 1\n", "refused line\n"),
        ("4 0 9\n", "refused 2\n"),
        ("4 7 1\n", "too many\n"),
    ];
    let mut out = vec![0; LISTING_ROOM];
    for (line, text) in texts {
        assert_eq!(peer::list(line.as_bytes(), &mut out), done(text.len()));
        assert_eq!(&out[..text.len()], text.as_bytes());
    }
    assert_eq!(peer::list(b"2 3 1\n", &mut out[1..]), refused(9, 0));
}
