//! Every call by its answers, and every stored log of the repository.
use std::fmt::Write as _;
use std::{fs, path::Path};

use heidrunok::{
    words, words_for, Catalogue, Field, Handle, Name, Operation, Partition, Place, Refusal, Refused, Root,
};

fn n(p: u32, s: u32) -> Name {
    Name::new(p, s)
}

fn chain() -> [Operation; 6] {
    [
        Operation::New(n(0, 0), 10),
        Operation::New(n(1, 0), 20),
        Operation::New(n(0, 1), 30),
        Operation::Set(n(0, 0), Field(0), Some(n(1, 0))),
        Operation::Set(n(1, 0), Field(0), Some(n(0, 1))),
        Operation::Root(Root(0), Some(n(0, 0))),
    ]
}

fn at(refused: Refused) -> (u32, Place) {
    (refused.refusal.number(), refused.place)
}

#[test]
fn records_are_the_bytes_of_the_log() -> Result<(), Refused> {
    let (mut image, mut log) = (vec![0; words(2, 4)], vec![b'.'; 400]);
    let mut c = Catalogue::format(&mut image, &mut log, 2, 4)?;
    let mut disk = c.log().to_vec();
    disk.extend_from_slice(c.commit(&chain())?);
    disk.extend_from_slice(c.commit(&[Operation::New(n(1, 1), 40), Operation::Val(n(0, 1), 31)])?);
    disk.extend_from_slice(c.commit(&[Operation::Set(n(0, 0), Field(3), None), Operation::Root(Root(15), None)])?);
    disk.extend_from_slice(c.open()?);
    for p in [1, 0, 1, 0] {
        disk.extend_from_slice(c.trace(Partition(p))?);
    }
    disk.extend_from_slice(c.hold(Handle(31), n(0, 1))?);
    disk.extend_from_slice(c.drop(Handle(31))?);
    let closed = c.close()?;
    disk.extend_from_slice(closed.record);
    assert_eq!((closed.traces, closed.freed), (4, 1));
    assert_eq!(disk, c.log());
    let text = "heap\t4\t2\t4\nnew\t0\t0\t10\nnew\t1\t0\t20\nnew\t0\t1\t30\nset\t0\t0\t0\t1\t0\nset\t1\t0\t0\t0\t1\n\
        root\t0\t0\t0\nend\t6\nnew\t1\t1\t40\nval\t0\t1\t31\nend\t2\nclr\t0\t0\t3\nunroot\t15\nend\t2\nopen\n\
        trace\t1\ntrace\t0\ntrace\t1\ntrace\t0\nhold\t31\t0\t1\ndrop\t31\nclose\n";
    assert_eq!(String::from_utf8_lossy(&disk), text);
    Ok(())
}

#[test]
fn every_cut_recovers_and_goes_on() -> Result<(), Refused> {
    let (mut image, mut log) = (vec![0; words(2, 4)], vec![b'.'; 400]);
    let mut c = Catalogue::format(&mut image, &mut log, 2, 4)?;
    c.commit(&chain())?;
    let bytes = c.log().to_vec();
    for cut in 11..=bytes.len() {
        let (mut image, mut log) = (vec![7; words(2, 4)], vec![b'.'; 400]);
        log[..cut].copy_from_slice(&bytes[..cut]);
        let mut c = Catalogue::recover(&mut image, &mut log, cut)?;
        let kept = if cut < bytes.len() { 11 } else { bytes.len() };
        assert_eq!(c.log(), &bytes[..kept]);
        assert_eq!(c.commit(&[Operation::New(n(1, 3), 1)])?.len(), 16);
    }
    Ok(())
}

#[test]
fn questions() -> Result<(), Refused> {
    let (mut image, mut log) = (vec![0; words(2, 4)], vec![b'.'; 400]);
    let mut c = Catalogue::format(&mut image, &mut log, 2, 4)?;
    c.commit(&chain())?;
    c.commit(&[Operation::New(n(1, 3), u32::MAX), Operation::Set(n(1, 3), Field(2), Some(n(1, 3)))])?;
    let object = c.read(n(1, 3))?;
    assert_eq!((object.payload, object.fields), (u32::MAX, [None, None, Some(n(1, 3)), None]));
    assert_eq!((c.ask(n(0, 1)), c.ask(n(1, 3))), (Ok(true), Ok(false)));
    assert_eq!(at(c.read(n(2, 0)).unwrap_err()), (7, Place::Call));
    assert_eq!(at(c.ask(n(1, 1)).unwrap_err()), (9, Place::Call));
    let names: Vec<Name> = c.objects().map(|(name, _)| name).collect();
    assert_eq!(names, [n(0, 0), n(0, 1), n(1, 0), n(1, 3)]);
    assert_eq!((c.partitions(), c.slots(), c.phase_is_open()), (2, 4, false));
    Ok(())
}

#[test]
fn refusals_change_nothing_and_say_where() -> Result<(), Refused> {
    let (mut image, mut log) = (vec![0; words(2, 4)], vec![b'.'; 90]);
    let mut c = Catalogue::format(&mut image, &mut log, 2, 4)?;
    assert_eq!(at(c.open().unwrap_err()), (12, Place::Call));
    c.commit(&chain())?;
    let before = (c.image().to_vec(), c.log().to_vec());
    let fresh = Operation::New(n(1, 1), 1);
    let late = [fresh, Operation::Val(n(1, 2), 1)];
    let cases: [(&[Operation], (u32, Place)); 9] = [
        (&[], (6, Place::Call)),
        (&[fresh; 33], (6, Place::Call)),
        (&[fresh; 40], (6, Place::Call)),
        (&[fresh; 32], (8, Place::Operation(2))),
        (&[Operation::Root(Root(16), None)], (7, Place::Operation(1))),
        (&[Operation::Set(n(0, 0), Field(4), None)], (7, Place::Operation(1))),
        (&[Operation::Set(n(0, 0), Field(0), Some(n(0, 4)))], (7, Place::Operation(1))),
        (&late, (9, Place::Operation(2))),
        (&[fresh], (17, Place::Call)),
    ];
    for (operations, refused) in cases {
        assert_eq!(at(c.commit(operations).unwrap_err()), refused);
    }
    assert_eq!(at(c.trace(Partition(0)).unwrap_err()), (10, Place::Call));
    assert_eq!(at(c.close().unwrap_err()), (10, Place::Call));
    assert_eq!((c.image(), c.log()), (&before.0[..], &before.1[..]));
    Ok(())
}

#[test]
fn refusals_of_a_phase() -> Result<(), Refused> {
    let (mut image, mut log) = (vec![0; words(16, 128)], vec![b'.'; 4000]);
    let mut c = Catalogue::format(&mut image, &mut log, 16, 128)?;
    c.commit(&[Operation::New(n(15, 127), 1), Operation::Root(Root(15), Some(n(15, 127)))])?;
    c.open()?;
    assert_eq!(at(c.open().unwrap_err()), (11, Place::Call));
    assert_eq!(at(c.trace(Partition(16)).unwrap_err()), (7, Place::Call));
    for p in 0..16 {
        assert_eq!(at(c.close().unwrap_err()), (14, Place::Partition(Partition(p))));
        c.trace(Partition(p))?;
    }
    let refused = c.trace(Partition(15)).unwrap_err();
    assert_eq!(refused.to_string(), "refused 13: the partition is clean");
    assert_eq!(c.close()?.freed, 0);
    Ok(())
}

/// Every slot of the largest partition, each with four names in others.
#[test]
fn the_largest_outlist() -> Result<(), Refused> {
    let (mut image, mut log) = (vec![0; words(5, 128)], vec![b'.'; 40000]);
    let mut c = Catalogue::format(&mut image, &mut log, 5, 128)?;
    let all: Vec<Name> = (0..5).flat_map(|p| (0..128).map(move |s| n(p, s))).collect();
    let (holders, others) = all.split_at(128);
    let made: Vec<Operation> = all.iter().map(|&name| Operation::New(name, 7)).collect();
    let held = |k: usize| Operation::Set(holders[k / 4], Field(k as u32 % 4), Some(others[k]));
    let set: Vec<Operation> = (0..512).rev().map(held).collect();
    for operations in made.chunks(32).chain(set.chunks(32)) {
        c.commit(operations)?;
    }
    assert!(c.outlist(Partition(0))?.names().eq(others.iter().copied()));
    assert_eq!((c.outlist(Partition(0))?.len(), c.outlist(Partition(4))?.len()), (512, 0));
    assert_eq!(c.read(n(0, 127))?.fields, [124, 125, 126, 127].map(|s| Some(n(4, s))));
    Ok(())
}

#[test]
fn one_partition_on_its_own() -> Result<(), Refused> {
    let (mut image, mut log) = (vec![0; words(2, 4)], vec![b'.'; 400]);
    let mut c = Catalogue::format(&mut image, &mut log, 2, 4)?;
    assert_eq!(at(c.local(Partition(0)).unwrap_err()), (12, Place::Call));
    c.commit(&chain())?;
    c.commit(&[
        Operation::New(n(0, 2), 1),
        Operation::New(n(1, 2), 2),
        Operation::New(n(1, 3), 3),
        Operation::Set(n(0, 2), Field(3), Some(n(1, 2))),
        Operation::Set(n(1, 3), Field(0), Some(n(1, 3))),
    ])?;
    assert_eq!(c.outlist(Partition(0))?.names().collect::<Vec<_>>(), [n(1, 0), n(1, 2)]);
    assert_eq!((c.outlist(Partition(1))?.len(), at(c.outlist(Partition(2)).unwrap_err())), (1, (7, Place::Call)));
    let freed = c.local(Partition(1))?;
    assert_eq!((freed.record, freed.freed), (&b"local\t1\n"[..], 1));
    assert_eq!((c.read(n(1, 3)).is_err(), c.read(n(1, 2))?.payload), (true, 2));
    assert_eq!((c.local(Partition(0))?.freed, c.local(Partition(1))?.freed), (1, 1));
    assert_eq!(at(c.local(Partition(2)).unwrap_err()), (7, Place::Call));
    assert!(c.outlist(Partition(0))?.names().eq([n(1, 0)]) && !c.outlist(Partition(1))?.is_empty());
    Ok(())
}

#[test]
fn a_session_keeps_what_it_holds() -> Result<(), Refused> {
    let (mut image, mut log) = (vec![0; words(2, 4)], vec![b'.'; 400]);
    let mut c = Catalogue::format(&mut image, &mut log, 2, 4)?;
    assert_eq!(at(c.hold(Handle(0), n(0, 0)).unwrap_err()), (9, Place::Call));
    c.commit(&chain())?;
    assert_eq!(c.hold(Handle(3), n(1, 0))?, b"hold\t3\t1\t0\n");
    assert_eq!(at(c.hold(Handle(Handle::LIMIT), n(1, 0)).unwrap_err()), (7, Place::Call));
    assert_eq!(at(c.hold(Handle(0), n(1, 4)).unwrap_err()), (7, Place::Call));
    assert_eq!(at(c.drop(Handle(Handle::LIMIT)).unwrap_err()), (7, Place::Call));
    c.commit(&[Operation::Root(Root(0), None)])?;
    // A handle alone opens and frees nothing.
    assert_eq!((at(c.open().unwrap_err()).0, at(c.local(Partition(0)).unwrap_err()).0), (12, 12));
    assert_eq!((c.ask(n(0, 0)), c.ask(n(0, 1))), (Ok(false), Ok(true)));
    c.commit(&[Operation::New(n(1, 3), 1), Operation::Root(Root(1), Some(n(1, 3)))])?;
    assert_eq!((c.local(Partition(0))?.freed, c.local(Partition(1))?.freed), (1, 0));
    c.open()?;
    for p in [1, 0] {
        c.trace(Partition(p))?;
    }
    assert_eq!(c.close()?.freed, 0);
    assert_eq!(c.drop(Handle(3))?, b"drop\t3\n");
    assert_eq!(c.drop(Handle(3))?.len(), 7);
    assert_eq!((c.ask(n(0, 1))?, c.local(Partition(1))?.freed, c.local(Partition(0))?.freed), (false, 1, 1));
    let (bytes, before) = (c.log().to_vec(), c.image().to_vec());
    let (mut image, mut log) = (vec![7; words_for(&bytes)], bytes.clone());
    assert_eq!(Catalogue::recover(&mut image, &mut log, bytes.len())?.image(), before);
    Ok(())
}

#[test]
fn wrong_sizes() {
    let (mut image, mut log) = (vec![0; 124], vec![b'.'; 400]);
    assert_eq!(Catalogue::format(&mut image, &mut log, 2, 4).unwrap_err().refusal, Refusal::Size);
    assert_eq!(Catalogue::format(&mut [], &mut [], 0, 0).unwrap_err().refusal, Refusal::Size);
    assert_eq!(Catalogue::recover(&mut image, &mut log, 401).unwrap_err().refusal, Refusal::Room);
    assert_eq!(at(Catalogue::recover(&mut image, &mut [], 0).unwrap_err()), (3, Place::Line { line: 1, byte: 0 }));
    let mut bad = *b"heap\t1\t2\t4\nnew\t0\t0\t1\nroot\t0\t0\t1\nend\t2\n";
    let (mut right, written) = (vec![9; words_for(&bad)], bad.len());
    let refused = Catalogue::recover(&mut right, &mut bad, written).unwrap_err();
    assert_eq!(refused.to_string(), "refused 9, line 3: the object is not in use");
    assert_eq!(right, [0; 125]);
}

/// Where in the line: 3 asks for a heading, 4 for any line, or for any other than a heading where the line is the last and has no end.
#[test]
fn a_refused_recovery_says_the_byte() {
    for (log, number, line, byte) in [
        (&b""[..], 3, 1, 0),
        (b"heap\t3\t2\t4", 3, 1, 10),
        (b"heap\t5\t2\t4\n", 3, 1, 5),
        (b"heap\t3\t4294967295\t123\n", 3, 1, 20),
        (b"heap\t4\t4294967295\t1234\n", 3, 1, 21),
        (b"heap\t3\t2\t4\r\n", 3, 1, 10),
        (b"heap\t3\t2\t4\nset\t0\t0\t0\t4294967295\t0\n", 4, 2, 18),
        (b"heap\t3\t2\t4\nnew\t15\t127\t4294967295\n", 4, 2, 20),
        (b"heap\t4\t2\t4\nnew\t15\t1270\t4294967295\n", 4, 2, 21),
        (b"heap\t3\t2\t4\nend\t01\n", 4, 2, 5),
        (b"heap\t3\t2\t4\nval\t0\t0\t\xff\n", 4, 2, 8),
        (b"heap\t3\t2\t4\nhe\n", 4, 2, 2),
        (b"heap\t3\t2\t4\nhe", 4, 2, 1),
        (b"heap\t3\t2\t4\nend\t1\nxyz", 5, 2, 0),
        (b"heap\t3\t0\t4\nxyz\n", 2, 1, 0),
        (b"heap\t3\t1\t65\nxyz\n", 2, 1, 0),
    ] {
        let (mut image, mut bytes) = (vec![9; words_for(log)], log.to_vec());
        let refused = Catalogue::recover(&mut image, &mut bytes, log.len()).unwrap_err();
        assert_eq!(at(refused), (number, Place::Line { line, byte }), "{}", log.escape_ascii());
        let place = if number == 3 || number == 4 { format!(", byte {byte}") } else { String::new() };
        assert_eq!(refused.to_string(), format!("refused {number}, line {line}{place}: {}", refused.refusal));
    }
}

#[test]
fn words_of_headings() {
    for (log, lent) in [
        (&b"heap\t1\t2\t4\nnew\t0"[..], 125),
        (b"heap\t3\t16\t64\n", 7237),
        (b"heap\t4\t16\t128\n", 14405),
        (b"heap\t2\t17\t64\n", 76),
        (b"heap\t4\t16\t129\n", 76),
        (b"heap\t1\t2\n", 76),
        (b"heap\t1\t2\t\xff\n", 76),
        (b"", 76),
    ] {
        assert_eq!(words_for(log), lent);
    }
}

#[test]
fn refusals_have_the_numbers_and_words_of_the_header() {
    let header = include_str!("../../c/heidrunok.h");
    let words: Vec<&str> = header
        .lines()
        .skip_while(|l| !l.contains("\"accepted\""))
        .skip(1)
        .map_while(|l| l.trim().strip_prefix('"')?.strip_suffix("\","))
        .collect();
    assert_eq!(words.len(), Refusal::ALL.len());
    for (i, (r, w)) in Refusal::ALL.into_iter().zip(words).enumerate() {
        assert_eq!((r.number() as usize, r.to_string().as_str()), (i + 1, w));
    }
}

/// The report's text, from this crate alone.
fn report(log: &[u8]) -> String {
    if log.len() > 32768 {
        return "toolong\n".into();
    }
    let (mut image, mut log, written) = (vec![0; words_for(log)], log.to_vec(), log.len());
    match Catalogue::recover(&mut image, &mut log, written) {
        Err(Refused { refusal, place: Place::Line { line, byte } }) => {
            format!("answer {}\nline {line}\nbyte {byte}\n", refusal.number())
        }
        Err(other) => panic!("{other}"),
        Ok(c) => {
            let phase = u32::from(c.phase_is_open());
            let mut text = format!("answer 0\nkept {}\nphase {phase}\n", c.log().len());
            for (name, o) in c.objects() {
                writeln!(text, "object {} {} {}", name.partition.0, name.slot.0, o.payload).unwrap();
            }
            text
        }
    }
}

#[test]
fn stored_logs() {
    let logs = Path::new(env!("CARGO_MANIFEST_DIR")).join("../../tests/report");
    let mut count = 0;
    for entry in fs::read_dir(logs).unwrap() {
        let path = entry.unwrap().path();
        if path.extension().is_some_and(|e| e == "log") {
            let wanted = fs::read_to_string(path.with_extension("report")).unwrap();
            assert_eq!(report(&fs::read(&path).unwrap()), wanted, "{}", path.display());
            count += 1;
        }
    }
    assert!(count > 100, "{count} logs");
}
