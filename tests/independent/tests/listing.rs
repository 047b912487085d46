//! The listing program against the oracle: its whole output, and that it comes
//! in one write. `MODEURWAN_LIST` holds the command that runs the program.

use independent::draft::{arc, case_a, largest, operation, Draft};
use independent::generate::{self, Random};
use independent::listing::printed;
use std::fs::{self, File};
use std::io::Write;
use std::os::fd::OwnedFd;
use std::os::unix::net::UnixDatagram;
use std::process::{Child, Command, Stdio};
use std::thread;

fn program() -> Command {
    let command = std::env::var("MODEURWAN_LIST").expect("MODEURWAN_LIST, the command of the program");
    let mut words = command.split_whitespace();
    let mut program = Command::new(words.next().expect("a command"));
    program.args(words).stdin(Stdio::piped());
    program
}

/// Gives the program its input. It may end before it has read all of it.
fn feed(child: &mut Child, input: &[u8]) {
    let mut pipe = child.stdin.take().expect("the program's input");
    let _ = pipe.write_all(input);
}

/// What the program writes, a piece for each of its writes: a datagram keeps
/// what one write gave it apart from the next. An empty one marks the end.
fn writes(input: &[u8]) -> Vec<Vec<u8>> {
    let (ours, theirs) = UnixDatagram::pair().expect("a pair of sockets");
    let end = theirs.try_clone().expect("another name for the socket");
    let output = Stdio::from(OwnedFd::from(theirs));
    let mut child = program().stdout(output).spawn().expect("the program starts");
    feed(&mut child, input);
    let waiting = thread::spawn(move || {
        assert!(child.wait().expect("the program ends").success());
        end.send(&[]).expect("the mark of the end");
    });
    let mut pieces = Vec::new();
    loop {
        let mut piece = vec![0; 1 << 16];
        let length = ours.recv(&mut piece).expect("a piece of the output");
        if length == 0 {
            break;
        }
        piece.truncate(length);
        pieces.push(piece);
    }
    waiting.join().expect("the program succeeds");
    pieces
}

/// The program prints what the oracle does, in one write. Gives the text.
fn compare(input: &[u8]) -> String {
    let pieces = writes(input);
    let text = String::from_utf8(pieces.concat()).expect("a text");
    assert_eq!(text, printed(input), "for the input {input:02X?}");
    assert_eq!(pieces.len(), 1, "for the input {input:02X?}");
    text
}

fn first_line(text: &str) -> &str {
    text.lines().next().expect("a line")
}

/// Operations without arcs, each in one class that has a unit for all.
fn independent_operations(count: usize) -> Draft {
    Draft {
        limits: vec![255],
        operations: vec![operation(0); count],
        controls: vec![],
        arcs: vec![],
    }
}

#[test]
fn case_a_is_as_document_01_prints_it() {
    let text = compare(&case_a().bytes());
    assert_eq!(text, "cycles 2 rows 3 states 12\n1 0 0 1\n2 0 1 4\n2 1 1 2\n");
}

#[test]
fn the_largest_file_is_kept_whole() {
    let mut file = largest().bytes();
    assert_eq!(file.len(), 1480);
    assert!(compare(&file).starts_with("cycles 24 "));
    file.push(0);
    assert_eq!(compare(&file), "refused 5 0\n");
    file.extend([0; 100_000]);
    assert_eq!(compare(&file), "refused 5 0\n");
}

#[test]
fn as_many_states_as_slots_and_one_more() {
    let mut draft = independent_operations(12);
    assert_eq!(first_line(&compare(&draft.bytes())), "cycles 1 rows 1 states 4096");
    // one operation more, which waits for all others: one state more
    draft.operations.push(operation(0));
    draft.arcs = (0..12).map(|source| arc(source, 12)).collect();
    assert_eq!(compare(&draft.bytes()), "refused 12 0\n");
    assert_eq!(compare(&independent_operations(24).bytes()), "refused 12 0\n");
}

#[test]
fn a_refusal_at_a_place() {
    let mut draft = case_a();
    draft.operations[2].class = 2;
    assert_eq!(compare(&draft.bytes()), "refused 6 2\n");
}

#[test]
fn a_table_of_many_rows() {
    // four compares, then a chain of operations that waits for all of them
    let mut arcs: Vec<_> = (0..4).map(|source| arc(source, 4)).collect();
    arcs.extend((5..24).map(|target| arc(target - 1, target)));
    let draft = Draft {
        limits: vec![4],
        operations: vec![operation(0); 24],
        controls: vec![0, 1, 2, 3],
        arcs,
    };
    let text = compare(&draft.bytes());
    assert_eq!(first_line(&text), "cycles 21 rows 321 states 401");
    assert_eq!(text.lines().count(), 322);
}

#[test]
fn inputs_that_are_no_graphs() {
    assert_eq!(compare(&[]), "refused 1 0\n");
    assert_eq!(compare(&vec![0; 10_000_000]), "refused 2 0\n");
    assert_eq!(compare(&case_a().bytes()[..20]), "refused 5 0\n");
}

#[test]
fn the_examples() {
    let folder = concat!(env!("CARGO_MANIFEST_DIR"), "/../../examples");
    let files = fs::read_dir(folder).expect("the examples");
    for file in files {
        compare(&fs::read(file.expect("an example").path()).expect("an example"));
    }
}

#[test]
fn graphs_from_seeds() {
    for seed in 0..300 {
        compare(&generate::file(&mut Random::new(seed)));
    }
}

#[test]
fn a_failed_write_is_reported() {
    let full = File::options().write(true).open("/dev/full").expect("a full device");
    let mut command = program();
    command.stdout(full).stderr(Stdio::piped());
    let mut child = command.spawn().expect("the program starts");
    feed(&mut child, &case_a().bytes());
    let output = child.wait_with_output().expect("the program ends");
    assert_eq!(output.stderr, b"list: the listing could not be written\n");
}
