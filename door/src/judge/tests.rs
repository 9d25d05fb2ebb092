use super::*;

fn listing(cycles: usize) -> String {
    let mut text = format!("{HEADING}\n");
    for k in 0..cycles {
        text += &format!("{k} 0F 00 32 2E FF\n");
    }
    text
}

#[test]
fn whole_listings() {
    for cycles in [0, 1, 2, 12_288] {
        let judged = replayed(listing(cycles).as_bytes(), 5 * cycles as u64);
        assert_eq!(
            judged,
            Ok(Replayed::Listing(vec![[0, 0x32, 0x2E, 0xFF]; cycles]))
        );
    }
}

#[test]
fn listings_that_are_not_whole() {
    let good = listing(3);
    let all = good.as_bytes();
    for end in 0..all.len() {
        assert!(replayed(&all[..end], 15).is_err(), "the first {end} bytes");
    }
    for size in [0, 10, 14, 16, 19, 20] {
        assert!(replayed(all, size).is_err(), "of {size} bytes");
    }
    for (old, new) in [
        ("cycle ack", "cycle  ack"),
        ("1 0F", "2 0F"),
        ("1 0F", "01 0F"),
        ("1 0F", "1 1F"),
        ("1 0F", "1 0f"),
        ("1 0F 00", "1 0F 0"),
        ("1 0F 00", "1 0F 00 00"),
        ("1 0F 00 ", "1 0F "),
        ("FF\n1", "FF \n1"),
        ("FF\n1", "FF\r\n1"),
        ("FF\n1", "FF\n\n1"),
        ("FF\n1", "FF\0\n1"),
    ] {
        let bad = good.replacen(old, new, 1);
        assert_ne!(bad, good);
        assert!(replayed(bad.as_bytes(), 15).is_err(), "{new}");
    }
    assert!(replayed((good.clone() + "refused 1\n").as_bytes(), 15).is_err());
    assert!(replayed(&[all, b"\xff\n"].concat(), 15).is_err());
}

#[test]
fn refusals() {
    for (text, number, at) in [
        ("refused 1\n", 1, None),
        ("refused 4\n", 4, None),
        ("refused 3 at 0\n", 3, Some(0)),
        ("refused 3 at 2\n", 3, Some(2)),
    ] {
        let refused = Refusal { number, at };
        assert_eq!(
            replayed(text.as_bytes(), 15),
            Ok(Replayed::Refused(refused))
        );
        assert_eq!(
            read_back(text.as_bytes(), 15),
            Ok(ReadBack::Refused(refused))
        );
    }
    for bad in [
        "",
        "\n",
        "refused\n",
        "refused \n",
        "refused 0\n",
        "refused x\n",
        "refused 1",
        "refused 01\n",
        "refused 1 \n",
        "refused 1\n\n",
        "refused 1\nrefused 1\n",
        "refused 1 at 2\n",
        "refused 2\n",
        "refused 77\n",
        "refused 3\n",
        "refused 3 at\n",
        "refused 3 at 3\n",
        "refused 3 at 02\n",
        "refused 3 at 2 at 2\n",
        "Refused 1\n",
        "engines differ at 7\n",
    ] {
        assert!(replayed(bad.as_bytes(), 15).is_err(), "{bad}");
        assert!(read_back(bad.as_bytes(), 15).is_err(), "{bad}");
    }
}

#[test]
fn only_a_read_back_is_refused_with_25() {
    assert!(matches!(
        read_back(b"refused 25\n", 0),
        Ok(ReadBack::Refused(_))
    ));
    assert!(replayed(b"refused 25\n", 0).is_err());
}

#[test]
fn four_lines() {
    let same = "0 same\n1 same\n2 same\n3 same\n";
    assert_eq!(
        read_back(same.as_bytes(), 5),
        Ok(ReadBack::Heads(vec![Compared::Same; 4]))
    );
    let differ = "0 same\n1 1 322E35\n2 0 2E\n3 255 00FF\n";
    let heads = vec![
        Compared::Same,
        Compared::At(1),
        Compared::At(0),
        Compared::At(255),
    ];
    assert_eq!(read_back(differ.as_bytes(), 5), Ok(ReadBack::Heads(heads)));
    for end in 0..differ.len() {
        assert!(read_back(&differ.as_bytes()[..end], 5).is_err());
    }
    for (old, new) in [
        ("1 1 322E35", "1 1"),
        ("1 1 322E35", "1 322E35"),
        ("1 1 322E35", "1 1 "),
        ("1 1 322E35", "1 1 322e35"),
        ("1 1 322E35", "1 1 322E3"),
        ("1 1 322E35", "1 1 32 2E 35"),
        ("1 1 322E35", "1 01 322E35"),
        ("1 1 322E35", "1 -1 322E35"),
        ("1 1 322E35", "1 +1 322E35"),
        ("1 1 322E35", "1 1 322E35 "),
        ("1 1 322E35", "2 1 322E35"),
        ("0 same", "0 Same"),
        ("0 same", "0  same"),
        ("0 same", " 0 same"),
        ("0 same", "0 same\n0 same"),
        ("0 same", "0 same 1 322E35"),
    ] {
        let bad = differ.replacen(old, new, 1);
        assert!(read_back(bad.as_bytes(), 5).is_err(), "{new}");
    }
    assert!(read_back(format!("{same}4 same\n").as_bytes(), 5).is_err());
}

#[test]
fn what_may_be_said() {
    assert_eq!(said(b""), Ok(Said::default()));
    assert_eq!(said(b"engines differ at 7\n").unwrap().differ, Some(7));
    let way = said(b"on its way to head 0\non its way to head 3\n").unwrap();
    assert_eq!(way.on_its_way, [0, 3]);
    for bad in [
        "\n",
        "engines differ at 7",
        "engines differ at x\n",
        "engines differ at 7\non its way to head 1\n",
        "engines differ at 7\nengines differ at 7\n",
        "on its way to head 4\n",
        "on its way to head 1\non its way to head 1\n",
        "on its way to head 2\non its way to head 1\n",
        "on its way to head\n",
        "cannot write the listing\n",
    ] {
        assert!(said(bad.as_bytes()).is_err(), "{bad}");
    }
}

#[test]
fn orders_that_are_not_taken() {
    assert_eq!(not_taken(b"refused 22 at 3\n"), Some((3, Some(22))));
    assert_eq!(not_taken(b"cut short at 0\n"), Some((0, None)));
    for bad in [
        "",
        "refused 22\n",
        "refused 22 at 3",
        "refused 22 at 3\n\n",
        "cannot read the orders\n",
    ] {
        assert_eq!(not_taken(bad.as_bytes()), None);
    }
}

#[test]
fn answers_are_counted() {
    assert!(answered(0, b"", 0) && answered(3, b"malformed", 3) && answered(3, b"cut short", 3));
    assert!(answered(2, b"too long", 3));
    assert!(!answered(2, b"malformed", 3) && !answered(4, b"too long", 3));
}
