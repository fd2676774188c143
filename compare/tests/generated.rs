//! Sessions from a seed: the same each time, and run to their end.

use compare::coverage::Coverage;
use compare::generate::{Script, garbled, script};
use compare::session::{Cause, Reply, Session, Watch, run, table};
use compare::{EveryWord, LengthOnly, SheetTest};

#[test]
fn the_same_for_the_same_seed() {
    for seed in 1..40 {
        for inquiry in [false, true] {
            assert!(script(seed, inquiry).frames == script(seed, inquiry).frames);
            assert!(garbled(seed, inquiry).frames == garbled(seed, inquiry).frames);
        }
        assert!(script(seed, false).frames != script(seed + 1, false).frames);
    }
}

/// The default seeds of `compare` reach all that they must.
#[test]
fn they_reach_everything() {
    let mut coverage = Coverage::default();
    for seed in 1..=5_000 {
        let inquiry = seed % 5 == 0;
        let script = script(seed, inquiry);
        coverage.next_session();
        let most = if inquiry { 16 } else { 8 };
        let session = run(&script.frames[..], Vec::new(), most, &mut coverage).unwrap();
        if inquiry {
            table(&session, &script.quarters, Vec::new(), &mut coverage).unwrap();
        }
    }
    let missing = coverage.missing(true);
    assert!(missing.is_empty(), "{missing:?}");
}

/// A session lays no word that a test would refuse.
#[test]
fn the_same_lines_without_the_test_of_words() {
    fn lines(frames: &[u8], test: impl SheetTest) -> Vec<u8> {
        let mut lines = Vec::new();
        Session::with_test(8, test).answer_all(frames, &mut lines, &mut ()).unwrap();
        lines
    }
    let written = (1..=300).map(|seed| script(seed, false));
    let changed = (1..=30).map(|seed| garbled(seed, false));
    for Script { frames, shape, .. } in written.chain(changed) {
        assert!(lines(&frames, EveryWord) == lines(&frames, LengthOnly), "{shape}");
    }
}

/// The generator knows of each written session whether it stops and where.
#[test]
fn most_frames_are_answered() {
    #[derive(Default)]
    struct Count(u64, u64, Option<Cause>);
    impl Watch for Count {
        fn answered(&mut self, _: u8, _: &[u8], reply: &Reply<'_>) {
            self.0 += 1;
            self.1 += u64::from(!matches!(reply, Reply::Refused(_)));
        }
        fn stopped(&mut self, cause: Cause, _: Option<u8>) {
            self.2 = Some(cause);
        }
    }
    let mut count = Count::default();
    for seed in 1..=200 {
        run(&script(seed, false).frames[..], Vec::new(), 8, &mut count).unwrap();
    }
    assert!(count.0 > 20_000 && count.1 * 10 > count.0 * 7 && count.2.is_some());
    let mut count = Count::default();
    for seed in 1..=30 {
        run(&garbled(seed, false).frames[..], Vec::new(), 8, &mut count).unwrap();
    }
    assert!(count.0 > 10_000 && count.1 * 10 < count.0 * 5);
}
