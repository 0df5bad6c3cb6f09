//! TCP options: every refusal, every known size, and the answers behind an end and a refusal.

use oracle::{option, OptionAnswer};

fn is(kind: u8, offset: usize, size: usize) -> OptionAnswer {
    OptionAnswer::Is { kind, offset, size }
}

fn refused(number: u8, offset: usize) -> OptionAnswer {
    OptionAnswer::Refused { number, offset }
}

#[test]
fn nothing_and_the_end() {
    for k in [0, 1, usize::MAX] {
        assert_eq!(option(&[], k), OptionAnswer::NoMore);
        assert_eq!(option(&[0], k), OptionAnswer::NoMore);
        // what follows kind 0 is not read
        assert_eq!(option(&[0, 2, 4, 1, 1], k), OptionAnswer::NoMore);
    }
}

#[test]
fn a_syn_with_the_usual_options() {
    let mut options = vec![2, 4, 5, 0xB4, 4, 2, 8, 10];
    options.extend([0; 8]);
    options.extend([1, 3, 3, 7]);
    let want = [
        is(2, 0, 4),
        is(4, 4, 2),
        is(8, 6, 10),
        is(1, 16, 1),
        is(3, 17, 3),
    ];
    for (k, one) in want.iter().enumerate() {
        assert_eq!(option(&options, k), *one);
    }
    assert_eq!(option(&options, want.len()), OptionAnswer::NoMore);
    assert_eq!(option(&options, usize::MAX), OptionAnswer::NoMore);
}

#[test]
fn every_kind_and_length() {
    for kind in 2..=255_u8 {
        assert_eq!(option(&[kind], 0), refused(8, 0));
        for length in 0..=255_u8 {
            let size = usize::from(length);
            let right = match kind {
                2 => size == 4,
                3 => size == 3,
                4 => size == 2,
                5 => [10, 18, 26, 34].contains(&size),
                8 => size == 10,
                _ => true,
            };
            for there in [size.max(3) - 1, size.max(2), size.max(2) + 1] {
                let mut options = vec![1; there + 1];
                options[1] = kind;
                options[2] = length;
                let want = if size < 2 || size > there {
                    refused(9, 1)
                } else if !right {
                    refused(10, 1)
                } else {
                    is(kind, 1, size)
                };
                assert_eq!(option(&options, 0), is(1, 0, 1));
                assert_eq!(option(&options, 1), want);
            }
        }
    }
}

#[test]
fn the_order_of_the_refusals() {
    assert_eq!(option(&[8], 0), refused(8, 0));
    assert_eq!(option(&[2, 6, 0, 0], 0), refused(9, 0));
    assert_eq!(option(&[2, 3, 0], 0), refused(10, 0));
    assert_eq!(option(&[5, 0], 0), refused(9, 0));
    assert_eq!(option(&[5, 1], 0), refused(9, 0));
}

#[test]
fn what_stands_before_a_refusal_is_listed() {
    let options = [1, 4, 2, 99, 3, 0, 3, 4, 0, 0];
    assert_eq!(option(&options, 0), is(1, 0, 1));
    assert_eq!(option(&options, 1), is(4, 1, 2));
    assert_eq!(option(&options, 2), is(99, 3, 3));
    for k in [3, 4, 100, usize::MAX] {
        assert_eq!(option(&options, k), refused(10, 6));
    }
}

#[test]
fn any_length_is_taken() {
    let options = vec![1; 100_000];
    assert_eq!(option(&options, 99_999), is(1, 99_999, 1));
    assert_eq!(option(&options, 100_000), OptionAnswer::NoMore);
}
