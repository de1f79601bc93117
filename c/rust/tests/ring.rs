//! The ring: a queue's calls, as many passes as it was made for, and as many values in its life as its laps say.
use lockfree::{MakeError, PopError, PushError, Ring, RingPass};
use std::sync::atomic::{AtomicU64, Ordering};
use std::sync::Arc;

#[test]
fn one_thread() {
    let ring = Ring::new(2).unwrap();
    let mut pass = ring.pass().unwrap();
    assert_eq!((pass.pop(), ring.capacity(), pass.capacity()), (Err(PopError::Empty), 2, 2));
    assert!(pass.is_empty());
    assert_eq!((pass.len(), pass.push("a".to_string()), pass.len()), (0, Ok(0), 1));
    assert_eq!((pass.push("b".to_string()), pass.len()), (Ok(1), 2));
    assert_eq!((pass.push("c".to_string()), pass.len()), (Err(PushError::Full("c".to_string())), 2));
    assert!(!pass.is_empty());
    assert_eq!(pass.pop_numbered(), Ok(("a".to_string(), 0)));
    assert!(!pass.is_closed() && !ring.is_closed());
    assert!(pass.close() && !pass.close() && ring.is_closed() && ring.pass().unwrap().is_closed());
    assert_eq!(pass.push("d".to_string()), Err(PushError::Closed("d".to_string())));
    assert_eq!(pass.pop(), Ok("b".to_string()));
    assert_eq!(pass.pop(), Err(PopError::Closed));
    assert!(pass.shut() && !pass.shut());
    assert_eq!(pass.pop(), Err(PopError::Shut));
}

#[test]
fn a_thousand_threads_in_turn_use_two_passes() {
    let ring = Ring::with_passes(4, 2).unwrap();
    let mut taker = ring.pass().unwrap();
    for number in 0..1000 {
        std::thread::scope(|scope| {
            scope.spawn(|| ring.pass().unwrap().push(number.to_string()).unwrap());
        });
        if number < 997 {
            assert_eq!(taker.pop(), Ok(number.to_string()));
        }
    }
    drop(taker);
    assert_eq!(ring.into_iter().collect::<Vec<_>>(), ["997", "998", "999"]);
}

#[test]
fn one_pass_more_than_it_was_made_for_is_refused() {
    for passes in [1, 3, 200] {
        let ring = Ring::<[u64; 3]>::with_passes(4, passes).unwrap();
        let mut out: Vec<_> = (0..passes).map(|_| ring.pass().unwrap()).collect();
        assert_eq!(ring.pass().err(), Some(MakeError::NoPass));
        assert!(out.last_mut().unwrap().push([1; 3]).is_ok());
        for _ in 0..10 {
            out.pop();
            out.push(ring.pass().unwrap());
            assert_eq!(ring.pass().err(), Some(MakeError::NoPass));
        }
        assert_eq!(out[0].pop(), Ok([1; 3]));
    }
    let usual = Ring::<u8>::new(4).unwrap();
    let all: Vec<_> = (0..256).map(|_| usual.pass().unwrap()).collect();
    assert_eq!((usual.pass().err(), all.len()), (Some(MakeError::NoPass), 256));
}

#[test]
fn limits() {
    let error = |capacity, passes, laps| Ring::<u64>::with_lap_limit(capacity, passes, laps).err();
    let laps = (1 << 41) - 1;
    assert_eq!((error(4, 0, 3), error(4, 65_535, 3)), (Some(MakeError::BadLimit), Some(MakeError::BadLimit)));
    assert_eq!((error(4, 2, 0), error(4, 2, laps + 1)), (Some(MakeError::BadLimit), Some(MakeError::BadLimit)));
    assert_eq!((error(0, 2, 3), error(1_048_573, 2, 3)), (Some(MakeError::BadCapacity), Some(MakeError::BadCapacity)));
    assert_eq!((error(4, 2, laps), error(1_048_573, 1, 3), error(2, 65_534, 3)), (None, None, None));
    assert_eq!(Ring::<u64>::new(1_048_319).err(), Some(MakeError::BadCapacity));
    assert!(Ring::<u64>::new(1_048_318).is_ok());
}

#[test]
fn it_wears_by_laps() {
    let ring = Ring::with_lap_limit(4, 2, 500).unwrap();
    let mut pass = ring.pass().unwrap();
    for i in 0..2000u32 {
        assert_eq!((pass.wear(), ring.wear()), (f64::from(i) / 2000.0, f64::from(i) / 2000.0));
        assert_eq!((pass.push(i), pass.pop()), (Ok(u64::from(i)), Ok(i)));
    }
    assert_eq!(pass.push(2000), Err(PushError::Spent(2000)));
    assert_eq!((pass.wear(), ring.wear()), (1.0, 1.0));
}

#[test]
fn it_holds_no_more_than_its_capacity_beside_others() {
    let ring = Ring::with_passes(3, 2).unwrap();
    let (mut moves, mut counts) = (ring.pass().unwrap(), ring.pass().unwrap());
    std::thread::scope(|scope| {
        let moving = scope.spawn(move || {
            for i in 0..50_000u32 {
                assert_eq!((moves.push(i), moves.pop()), (Ok(u64::from(i)), Ok(i)));
            }
        });
        while !moving.is_finished() {
            assert!(counts.len() <= 3);
        }
        moving.join().unwrap();
        assert_eq!(counts.len(), 0);
    });
}

#[test]
fn what_it_holds_is_dropped_once() {
    let value = Arc::new(());
    for laps in [1, 1000] {
        let ring = Ring::with_lap_limit(4, 2, laps).unwrap();
        let mut pass = ring.pass().unwrap();
        for _ in 0..4 {
            assert!(pass.push((value.clone(), 0u64)).is_ok());
        }
        assert!(pass.push((value.clone(), 0)).is_err());
        assert_eq!(Arc::strong_count(&value), 5);
        drop(ring);
        assert_eq!(Arc::strong_count(&value), 1);
        assert_eq!(pass.push((value.clone(), 0)).is_ok(), laps > 1);
        drop(pass);
        assert_eq!(Arc::strong_count(&value), 1);
    }
}

fn side(mut pass: RingPass<Box<u64>>, first: u64, each: u64) {
    for i in first..first + each {
        assert!(pass.push_wait(Box::new(i), None).is_ok());
    }
}

#[test]
fn each_value_once() {
    const EACH: u64 = 20_000;
    let (sum, count) = (&AtomicU64::new(0), &AtomicU64::new(0));
    let ring = Ring::with_passes(64, 8).unwrap();
    std::thread::scope(|scope| {
        let putting: Vec<_> = (0..4)
            .map(|k| (k, ring.pass().unwrap()))
            .map(|(k, pass)| scope.spawn(move || side(pass, k * EACH, EACH)))
            .collect();
        for _ in 0..4 {
            let mut pass = ring.pass().unwrap();
            scope.spawn(move || {
                while let Ok(value) = pass.pop_wait(None) {
                    sum.fetch_add(*value, Ordering::Relaxed);
                    count.fetch_add(1, Ordering::Relaxed);
                }
            });
        }
        putting.into_iter().for_each(|thread| thread.join().unwrap());
        assert!(ring.pass().unwrap().close());
    });
    let all = 4 * EACH;
    assert_eq!((count.load(Ordering::Relaxed), sum.load(Ordering::Relaxed)), (all, all * (all - 1) / 2));
}
