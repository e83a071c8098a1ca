//! The reason that is given for a record that cannot be read stands for the number that the proved program prints.

mod common;

use common::{program, Random};
use rehearsal::event::Operation;
use rehearsal::feed::feed;
use rehearsal::record::{read, Fault, OPERATIONS};
use rehearsal::text::Text;

#[test]
fn each_fault_in_the_order_of_the_questions() {
    let long = [b'1'; 65];
    assert_eq!(read(&long, true), Err(Fault::TooLong { bytes: 65 }));
    assert_eq!(read(b"halt\"", false), Err(Fault::Quote));
    assert_eq!(read(b"halt,1", false), Err(Fault::UnknownOperation { name: b"halt" }));
    assert_eq!(read(b"", true), Err(Fault::UnknownOperation { name: b"" }));
    assert_eq!(read(b"book,1", false), Err(Fault::BeforeStart));
    assert_eq!(read(b"book,x", true), Err(Fault::Fields { count: 2 }));
    assert_eq!(read(b"book,1,1,1,", true), Err(Fault::Fields { count: 5 }));
    assert_eq!(read(b"tick,1,x,", true), Err(Fault::NotANumber { operation: Operation::Tick, field: 3, text: b"x" }));
    assert_eq!(read(b"start,2,3,7", false), Err(Fault::UnusedNot0 { operation: Operation::Start, field: 4, value: 7 }));
    assert_eq!(read(b"tick,0,2,1", true), Err(Fault::UnusedNot0 { operation: Operation::Tick, field: 3, value: 2 }));
}

#[test]
fn numbers_of_ten_digits_are_read() {
    let record = read(b"book,0000000001,9999999999,0", true).unwrap();
    assert_eq!((record.operation, record.numbers), (Operation::Book, [1, 9_999_999_999, 0]));
    let longest = b"tick,0000000000,0000000000,0000000007";
    assert_eq!(read(longest, true).unwrap().numbers, [0, 0, 7]);
}

#[test]
fn the_fault_predicts_the_number() {
    let mut random = Random(3);
    let (mut seen, mut read_well) = ([0; 3], 0);
    for file in 0..20 {
        let text = random_file(&mut random, if file % 2 == 0 { "start,4,9,0" } else { "book,1,1,1" });
        let mut started = false;
        feed(&program(), &text, |event| {
            match read(event.text, started) {
                Err(fault) => {
                    assert_eq!(event.refusal, Some(fault.number()), "{}", event.text.escape_ascii());
                    seen[fault.number() as usize - 12] += 1;
                }
                Ok(record) => {
                    assert!(event.refusal.is_none_or(|number| number < 12), "{}", event.text.escape_ascii());
                    started |= event.refusal.is_none() && matches!(record.operation, Operation::Start | Operation::Pipe);
                    read_well += 1;
                }
            }
        })
        .unwrap();
    }
    assert!(seen.into_iter().all(|count| count > 500) && read_well > 500, "{seen:?} {read_well}");
}

/// Records that come close to what can be read; no quotes around whole fields and no semicolons, which would be repaired.
fn random_file(random: &mut Random, first: &str) -> Text {
    let mut bytes = format!("op,input,output,amount\r\n{first}\r\n").into_bytes();
    let numbers = ["0", "1", "2", "007", "4294967295", "4294967294", "9999999999", "12345678901", "", " 1", "+1", "x", "1\"", "1.0", "\u{a0}"];
    let long = "0".repeat(53);
    for _ in 0..1_000 {
        let operation = if random.below(8) == 0 { random.pick(&["halt", "Book", "book ", "", "bookx", "boo"]) } else { OPERATIONS[random.below(6)].0 };
        bytes.extend(operation.bytes());
        let fields = if random.below(5) == 0 { random.below(6) } else { 3 };
        for _ in 0..fields {
            let number = if random.below(3) == 0 { random.pick(&numbers) } else { random.pick(&["0", "1", "2"]) };
            bytes.push(b',');
            bytes.extend(number.bytes());
        }
        if random.below(20) == 0 {
            bytes.extend(long[random.below(8)..].bytes());
        }
        bytes.extend(b"\r\n");
    }
    bytes.extend(b"tick,0,0,1\r\n");
    let text = Text::read(bytes).unwrap();
    assert_eq!(text.repairs, [""; 0]);
    text
}
