//! The wrapper on logs of its own: no reference is needed.

use mrecordlog_port::{
    checksum, from_planes, records, to_planes, Bound, Corruption, Counts, Held, Mark, MultiRecordLog, Reading, Record, Refused, Report, Sizes, Type, BLOCK,
    ENTRY,
};

fn small() -> Sizes {
    Sizes { records: 8, queues: 2, names: 16, payloads: 64, scratch: 128 }
}

/// A log with a queue of three records.
fn written() -> MultiRecordLog {
    let mut log = MultiRecordLog::new(BLOCK, small());
    assert_eq!(log.create(b"a"), Ok(Counts { frame: 19, padding: 0 }));
    assert_eq!(log.append(b"a", None, &[b"one", b""]).unwrap().0, Some(1));
    assert_eq!(log.append(b"a", Some(7), &[b"seven"]).unwrap().0, Some(7));
    log
}

#[test]
fn a_day() {
    let mut log = written();
    let mut lower = Bound::None;
    let mut held = vec![];
    while let Some(Held { position, payload }) = log.range(b"a", lower, Bound::None).unwrap() {
        held.push((position, payload.to_vec()));
        lower = Bound::Without(position);
    }
    assert_eq!(held, [(0, b"one".to_vec()), (1, vec![]), (7, b"seven".to_vec())]);
    assert_eq!(log.positions(b"a"), Ok((0, 8)));
    assert_eq!(log.largest(b"a"), Ok(Some((5, 7))));
    assert_eq!(log.first_block(), Ok(Some(0)));
    assert_eq!(log.truncate(b"a", 6).unwrap().0, 2);
    assert_eq!(log.positions(b"a"), Ok((7, 8)));
    log.delete(b"a").unwrap();
    assert_eq!(log.largest(b"a"), Err(Refused::Number(8)));
    assert_eq!(log.first_block(), Ok(None));
}

#[test]
fn opened_again() {
    let log = written();
    let (again, replayed) = MultiRecordLog::open(log.log().to_vec(), small()).unwrap();
    assert_eq!((replayed.lost, replayed.lost_bytes), (0, 0));
    assert_eq!(again.write_position, log.write_position);
    assert_eq!(again.range(b"a", Bound::With(2), Bound::None).unwrap().unwrap().payload, b"seven");
}

#[test]
fn refusals_change_nothing() {
    let mut log = written();
    let before = log.clone();
    assert_eq!(log.create(b"a"), Err(Refused::Number(7)));
    assert_eq!(log.append(b"b", None, &[b"x"]), Err(Refused::Number(8)));
    assert_eq!(log.append(b"a", Some(3), &[b"x"]), Err(Refused::Number(9)));
    assert_eq!(log.append_run(b"a", None, b"xy", &[1]), Err(Refused::Number(5)));
    assert_eq!(log.create(&[0xff]), Err(Refused::Number(3)));
    assert_eq!(log.append(b"a", None, &[&[0; 105]]), Err(Refused::Number(11)));
    assert_eq!(log.append(b"a", None, &[&[0; 65]]), Err(Refused::Number(12)));
    assert_eq!(log, before);
    assert_eq!(Refused::Number(13).to_string(), "refused 13: the log is full");
}

#[test]
fn a_damaged_log() {
    let log = written();
    let mut bytes = log.log().to_vec();
    let whole: Vec<_> = records(&bytes, 128).map(Result::unwrap).collect();
    assert_eq!(whole.len(), 3);
    assert_eq!(whole[0], Reading::Record(Record { kind: Type::Touch, position: 0, name: b"a".to_vec(), items: vec![] }));
    bytes[19 + 7] ^= 1;
    let read: Vec<_> = records(&bytes, 128).map(Result::unwrap).collect();
    assert_eq!(read, [whole[0].clone(), Reading::Corrupt(Corruption::Checksum), whole[2].clone()]);
    let (opened, replayed) = MultiRecordLog::open(bytes, small()).unwrap();
    assert_eq!(replayed.lost, 1);
    assert_eq!(opened.positions(b"a"), Ok((7, 8)));
    assert_eq!(records(&log.log()[..100], 128).collect::<Vec<_>>(), [Err(Refused::Number(1))]);
}

#[test]
fn a_mark() {
    let mut log = written();
    assert_eq!(log.mark(u64::MAX, 0x0102), Ok(Counts { frame: 26, padding: 0 }));
    assert_eq!(log.positions(b"a"), Ok((0, 8)));
    let last = records(log.log(), 128).last().unwrap();
    assert_eq!(last, Ok(Reading::Mark(Mark { shift: u64::MAX, body: [2, 1, 0, 0, 0, 0, 0, 0] })));
    let (opened, replayed) = MultiRecordLog::open(log.log().to_vec(), small()).unwrap();
    assert_eq!((replayed.lost, opened.write_position), (0, log.write_position));
}

#[test]
fn cut_down() {
    let mut log = written();
    log.truncate(b"a", 1).unwrap();
    let fresh = log.copy(BLOCK).unwrap();
    assert!(fresh.write_position < log.write_position);
    let (opened, _) = MultiRecordLog::open(fresh.log().to_vec(), small()).unwrap();
    assert_eq!(opened.positions(b"a"), Ok((2, 8)));
    assert_eq!(opened.range(b"a", Bound::None, Bound::None).unwrap().unwrap().position, 7);
}

/// The blocks of the first records held.
fn blocks<const N: usize>(log: &MultiRecordLog) -> [u64; N] {
    std::array::from_fn(|i| u64::from_le_bytes(log.memory.entries[ENTRY * i + 24..][..8].try_into().unwrap()))
}

#[test]
fn blocks_still_needed() {
    let mut log = MultiRecordLog::new(2 * BLOCK, Sizes { scratch: BLOCK, payloads: BLOCK, ..small() });
    assert_eq!(log.first_block(), Ok(None));
    log.create(b"a").unwrap();
    // With 6 bytes left in block 0 the next header stands in block 1.
    log.append(b"a", None, &[&vec![1; BLOCK - 19 - 31 - 6]]).unwrap();
    log.append(b"a", None, &[b"one", b"two"]).unwrap();
    assert_eq!((blocks(&log), log.first_block()), ([0, 1, 1], Ok(Some(0))));
    log.truncate(b"a", 0).unwrap();
    assert_eq!((blocks(&log), log.first_block()), ([1, 1], Ok(Some(1))));
    let mut fresh = log.copy(BLOCK).unwrap();
    assert_eq!(fresh.first_block(), Ok(Some(1)));
    fresh.replay().unwrap();
    assert_eq!((blocks(&fresh), fresh.first_block()), ([0, 0], Ok(Some(0))));
    // Any number may stand as a block; a refusal writes 0 to both places.
    log.memory.entries[24] = 9;
    assert_eq!(log.first_block(), Ok(Some(1)));
    log.memory.table[0] = 65;
    assert_eq!(log.first_block(), Err(Refused::Number(6)));
}

#[test]
fn checksum_planes_report() {
    assert_eq!(checksum(b'1', b"23456789"), 0xCBF4_3926);
    assert_eq!(to_planes(&[1, 2, 3, 4, 5, 6], 2), Ok(vec![1, 3, 5, 2, 4, 6]));
    assert_eq!(from_planes(&[1, 3, 5, 2, 4, 6], 2), Ok(vec![1, 2, 3, 4, 5, 6]));
    assert_eq!(to_planes(&[1, 2, 3], 2), Err(Refused::Number(18)));
    let mut report = Report::default();
    assert_eq!(report.mean(), Ok(None));
    report.feed(written().log()).unwrap();
    assert_eq!(report.numbers()[..2], [1, 3]);
    assert_eq!(report.mean().unwrap().unwrap().count, 3);
    assert_eq!(report.feed(&[0; 100]), Err(Refused::Number(1)));
}
