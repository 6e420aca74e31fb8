//! K1 to K11 of document 01.

use reference::strips::STATE_LEN;
use reference::vectors::{from_hex, K1};
use reference::{decode, initial, listing, press};

fn text(card: &[u8]) -> String {
    String::from_utf8(listing(card)).unwrap()
}

/// The lines of the section of one space.
fn space(card: &[u8], number: usize) -> Vec<String> {
    let (text, own) = (text(card), format!("S {number} "));
    let from = text.lines().skip_while(|line| !line.starts_with(&own));
    from.take_while(|line| line.starts_with(&own) || !"SFCR".contains(&line[..1])).map(String::from).collect()
}

#[test]
fn k1_prints_its_listing() {
    let expected = "\
S 0 P : 0 1 : 0 1
T : 1 0
T : 0 1
D 0
D 1
X 0 1
S 1 P : 2 : 0 1
T : 1
M 2 1
D 0
S 2 A : 3 : 2 3
S 3 S : 4 : 2 3
F 2 2
C 2 2
C 3 2
R 0 0 : 0 1
R 1 0 : 0 1
R 1 1 : 2 3
R 1 2 : 2 3
";
    assert_eq!(text(&K1), expected);
}

#[test]
fn k2_refuses_presses() {
    let mut state = vec![0; STATE_LEN];
    assert_eq!(initial(&K1, &mut state), Ok(6));
    let before = state.clone();
    assert_eq!(press(&K1, &mut state, 6, 1, &[0, 2, 3]), Err(19));
    assert_eq!(press(&K1, &mut state, 6, 1, &[0, 2, 2]), Err(18));
    assert_eq!(state, before);
}

#[test]
fn k3_presses_twice() {
    let mut state = vec![0; STATE_LEN];
    assert_eq!(initial(&K1, &mut state), Ok(6));
    assert_eq!(press(&K1, &mut state, 6, 0, &[0]), Ok(6));
    assert_eq!(press(&K1, &mut state, 6, 1, &[0, 2, 3]), Ok(6));
    let expected = from_hex("0000ffff 0001ffff 020003ff 020102ff 0302ffff 0303ffff");
    assert_eq!(state[..24], expected);
    assert!(state[24..].iter().all(|&byte| byte == 0));
}

#[test]
fn k4_lists_an_absorbed_add() {
    let card = from_hex("02 01 01 01 01 0E 01 00 00 01 00 00 01 01 00 00 02 00 00 01 00");
    assert_eq!(space(&card, 0), ["S 0 P : 0 1 : 0", "T : 1 1", "T : 0 2", "T : 0 1", "D 2", "E 2 0", "E 2 1"]);
}

#[test]
fn k5_is_mixed_and_rescued() {
    let card = from_hex("03 01 01 01 01 02 0E 01 01 00 01 01 00 02 00 00 02 00 0E 01 00 00 01 00 00 02 01 00 02 00 00 01 01 00");
    assert_eq!(space(&card, 0), ["S 0 M : 0 1 2 : 0", "S 0 H : 0 1 : 0", "T : 0 1", "T : 1 0", "D 0", "D 1", "X 0 1"]);
}

/// p/2, q/2; the rule takes p(X,Y) and adds q(X,Y); p(0,1) to p(0,last).
fn travelling(last: u8) -> Vec<u8> {
    let mut card = from_hex("02 02 02");
    card.push(last + 1);
    card.extend(from_hex("01 0F 02 01 00 00 01 01 00 00 01 01 01 00 01 00"));
    card.push(last);
    card.extend((1..=last).flat_map(|object| [0, 0, object]));
    card
}

#[test]
fn k6_lists_56_bags() {
    let lines = space(&travelling(10), 0);
    assert!(lines[0].starts_with("S 0 P : 0 2 : 0"));
    let number = |letter: char| lines.iter().filter(|line| line.starts_with(letter)).count();
    assert_eq!(number('T'), 56);
    // The bags beside the opening one have a of p and b of q, where b > 0 and a + b <= 10, and (a + 1) * b - 1 of them are within (a, b).
    let within: usize = (0..10).flat_map(|a| (1..=10 - a).map(move |b| (a + 1) * b - 1)).sum();
    assert_eq!((within, number('E')), (660, 660));
}

#[test]
fn k7_is_wide() {
    assert_eq!(space(&travelling(11), 0), ["S 0 W : 0 2 : 0"]);
}

#[test]
fn k8_to_k11_refuse_cards() {
    assert_eq!(text(&[]), "refused 1\n");
    assert_eq!(text(&[&K1[..], &[0]].concat()), "refused 14\n");

    let mut objects = K1;
    objects[5] = 65;
    assert_eq!(text(&objects), "refused 3\n");
    objects[5] = 64;
    assert!(decode(&objects).is_ok());

    let mut parameters = K1;
    for count in [1, 7] {
        parameters[18] = count;
        assert_eq!(text(&parameters), "refused 5\n");
    }
}
