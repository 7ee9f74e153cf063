//! Coins.

use reference::protocol::{Coin, Crossed, Refusal, Seeded, Strip};

#[test]
fn strip() {
    assert_eq!(Strip::new(vec![]), Err(Refusal::Short));
    assert_eq!(Strip::new(vec![0; 1025]), Err(Refusal::Short));
    assert!(Strip::new(vec![0; 1024]).is_ok());
    let coin = Strip::new(vec![0x0001, 0x8000, 0xFFFF]).unwrap();
    for node in 0..3 {
        assert!(coin.toss(node, 1, 0));
        assert!(!coin.toss(node, 1, 15));
        assert!(coin.toss(node, 2, 15));
        assert!(coin.toss(node, 3, 7));
        assert!(coin.toss(node, 4, 0) && !coin.toss(node, 4, 1));
        assert!(!coin.toss(node, 0, 0));
        assert!(!coin.toss(node, 3, 16));
    }
}

#[test]
fn seeded() {
    // Round 1, item 0: 17 times the constant.
    let q = 0x9E37_79B9_7F4A_7C15_u64.wrapping_mul(17);
    for place in 0..64 {
        assert_eq!(Seeded(1 << place).toss(3, 1, 0), q >> place & 1 == 1);
    }
    assert_eq!(Seeded(u64::MAX).toss(0, 1, 0), q.count_ones() % 2 == 1);
    assert!(!Seeded(u64::MAX).toss(0, 0, 3));
    assert!((16..300).all(|item| !Seeded(u64::MAX).toss(0, 1, item)));
}

#[test]
fn crossed() {
    let coin = Crossed(Strip::new(vec![0x0001]).unwrap());
    assert!(coin.toss(0, 1, 0) && !coin.toss(1, 1, 0));
    assert!(!coin.toss(0, 1, 1) && coin.toss(1, 1, 1));
    assert!(!coin.toss(1, 0, 0) && !coin.toss(1, 1, 16));
    let twice = Crossed(coin);
    assert!(twice.toss(1, 1, 0) && !twice.toss(1, 1, 1) && !twice.toss(1, 0, 0));
}
