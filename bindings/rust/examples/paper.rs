//! The paper's example from Rust: three objects in a chain, a phase of the collector, a partition freed on its own, a restore session, a
//! crash. Prints bindings/paper.txt.
use heidrunok::{words, Catalogue, Field, Handle, Name, Operation, Partition, Refused, Root};

/// A console stores the record's bytes here, and syncs.
fn logged(what: &str, record: Result<usize, Refused>, end: usize) {
    match record {
        Ok(length) => println!("{what}: {length} bytes, the log has {end}"),
        Err(refused) => println!("{what}: {refused}"),
    }
}

fn commit(what: &str, c: &mut Catalogue<'_>, operations: &[Operation]) {
    let record = c.commit(operations).map(<[u8]>::len);
    logged(what, record, c.log().len());
}

fn trace(what: &str, c: &mut Catalogue<'_>, partition: u32) {
    let record = c.trace(Partition(partition)).map(<[u8]>::len);
    logged(what, record, c.log().len());
}

fn close_phase(c: &mut Catalogue<'_>) {
    let closed = c.close().map(|x| (x.record.len(), x.traces, x.freed));
    logged("close", closed.map(|x| x.0), c.log().len());
    if let Ok((_, traces, freed)) = closed {
        println!("close: {traces} traces, {freed} freed");
    }
}

fn local(what: &str, c: &mut Catalogue<'_>, partition: u32) {
    let freed = c.local(Partition(partition)).map(|x| (x.record.len(), x.freed));
    logged(what, freed.map(|x| x.0), c.log().len());
    if let Ok((_, freed)) = freed {
        println!("{what}: {freed} freed");
    }
}

fn hold(what: &str, c: &mut Catalogue<'_>, handle: Handle, name: Name) {
    let record = c.hold(handle, name).map(<[u8]>::len);
    logged(what, record, c.log().len());
}

fn drop(what: &str, c: &mut Catalogue<'_>, handle: Handle) {
    let record = c.drop(handle).map(<[u8]>::len);
    logged(what, record, c.log().len());
}

fn ask(what: &str, c: &Catalogue<'_>, name: Name) {
    match c.ask(name) {
        Ok(yes) => println!("{what}: {}", if yes { "yes" } else { "no" }),
        Err(refused) => println!("{what}: {refused}"),
    }
}

fn read(what: &str, c: &Catalogue<'_>, name: Name) {
    match c.read(name) {
        Ok(object) => {
            let shown = object.fields.map(|f| f.map_or_else(|| "-".to_string(), |n| n.to_string()));
            println!("{what}: payload {}, fields {}", object.payload, shown.join(" "));
        }
        Err(refused) => println!("{what}: {refused}"),
    }
}

fn outlist(what: &str, c: &Catalogue<'_>, partition: u32) {
    match c.outlist(Partition(partition)) {
        Ok(outlist) => {
            let shown: String = outlist.names().map(|n| format!(" {n}")).collect();
            println!("{what}: {} held{shown}", outlist.len());
        }
        Err(refused) => println!("{what}: {refused}"),
    }
}

fn recover(what: &str, image: &mut [u32], log: &mut [u8], bytes: usize) {
    match Catalogue::recover(image, log, bytes) {
        Ok(c) => println!("{what}: kept {}", c.log().len()),
        Err(refused) => println!("{what}: {refused}"),
    }
}

fn main() -> Result<(), Refused> {
    let (first, second, third, stray) = (Name::new(0, 0), Name::new(1, 0), Name::new(0, 1), Name::new(1, 1));
    let chain = [
        Operation::New(first, 10),
        Operation::New(second, 20),
        Operation::New(third, 30),
        Operation::Set(first, Field(0), Some(second)),
        Operation::Set(second, Field(0), Some(third)),
        Operation::Root(Root(0), Some(first)),
    ];
    let (fourth, fifth) = (Name::new(0, 2), Name::new(0, 3));
    let cycle = [
        Operation::New(fourth, 50),
        Operation::New(fifth, 60),
        Operation::Set(fourth, Field(0), Some(fifth)),
        Operation::Set(fifth, Field(0), Some(fourth)),
    ];
    let alone = [Operation::New(stray, 40)];
    let sixth = Name::new(1, 2);
    let expiry = [Operation::New(sixth, 70), Operation::Root(Root(1), Some(sixth)), Operation::Root(Root(0), None)];

    let (mut image, mut log) = (vec![0; words(2, 4)], vec![0; 400]);
    let mut c = Catalogue::format(&mut image, &mut log, 2, 4)?;
    logged("format", Ok(c.log().len()), c.log().len());
    commit("commit of the chain", &mut c, &chain);
    commit("commit of a stray", &mut c, &alone);
    commit("the same again", &mut c, &alone);
    commit("a root too large", &mut c, &[Operation::Root(Root(16), None)]);
    commit("33 operations", &mut c, &[alone[0]; 33]);
    read("read 0.0", &c, first);
    ask("ask 0.1", &c, third);
    ask("ask 1.1", &c, stray);
    outlist("outlist 1", &c, 1);
    outlist("outlist 2", &c, 2);
    let opened = c.open().map(<[u8]>::len);
    logged("open", opened, c.log().len());
    close_phase(&mut c);
    for partition in [1, 0, 0, 1, 0] {
        trace(&format!("trace {partition}"), &mut c, partition);
    }
    close_phase(&mut c);
    ask("ask 1.1", &c, stray);
    commit("commit of a cycle", &mut c, &cycle);
    for partition in [0, 0, 2] {
        local(&format!("local {partition}"), &mut c, partition);
    }
    hold("hold of 1.0", &mut c, Handle(0), second);
    hold("hold of 1.1", &mut c, Handle(1), stray);
    hold("a handle too large", &mut c, Handle(32), second);
    commit("the root expires", &mut c, &expiry);
    local("local 0", &mut c, 0);
    local("local 1", &mut c, 1);
    ask("ask 0.1", &c, third);
    drop("drop", &mut c, Handle(0));
    local("local 1", &mut c, 1);
    ask("ask 0.1", &c, third);

    let (mut again, mut copy) = (vec![0; words(2, 4)], c.log().to_vec());
    recover("recovery of 5 bytes", &mut again, &mut copy, 5);
    recover("recovery of 100 bytes", &mut again, &mut copy, 100);
    recover("recovery of all", &mut again, &mut copy, c.log().len());
    println!("every word as before: {}", if again == c.image() { "yes" } else { "no" });
    Ok(())
}
