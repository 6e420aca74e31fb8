//! The proved card writer against the reference's, on tables that no card can carry: the program `tables` (crates/tables) is handed random
//! tables in flat form, and for each its answer and every byte of the buffer are compared.
//!
//!     tables [SEED [TABLES]]      or TABLES_SEED, TABLES in the environment; wants crates/tables/out/tables (`rt run </dev/null` there)
//!
//! Ends at the first difference with the table in hex and with status 1. A run of 2,000 tables or more fails too if one of the writer's
//! answers never came up: accepted, 2 to 13, 21.

use reference::card::{encode, Atom, Atoms, Task, OUTPUT_LEN};
use reference::met::{Call, Met};
use reference::random::Random;
use reference::settings::{number, seed};
use reference::vectors::to_hex;
use std::io::{Read, Write};
use std::process::{ChildStdin, Command, ExitCode, Stdio};
use std::thread;

const TABLES: u64 = 2_000;
/// The buffer of the program `tables`, some bytes longer than the writer asks for.
const BUFFER_LEN: usize = OUTPUT_LEN + 64;
const FILLED: u8 = 170;

/// A table, and how much of the buffer is lent.
struct Question {
    table: Task,
    lent: usize,
}

impl Question {
    /// A table that is refused by each number in turn, a sound one or a wild one; now and then a short buffer.
    fn random(random: &mut Random) -> Question {
        let table = match random.below(14) {
            0 => random.noisy_task(),
            1 => random.wild_task(),
            refusal => random.refused_task(refusal as u8),
        };
        let lent = match random.below(6) {
            0 => random.below(OUTPUT_LEN),
            1 => OUTPUT_LEN - 1,
            2 => OUTPUT_LEN,
            _ => random.within(OUTPUT_LEN, BUFFER_LEN),
        };
        Question { table, lent }
    }

    /// The flat form: every place, also those past a count.
    fn flat(&self) -> Vec<u8> {
        let Question { table, lent } = self;
        let mut flat = vec![table.predicate_count];
        flat.extend_from_slice(&table.arity_places);
        flat.extend([table.object_count, table.schema_count]);
        let atom = |atom: &Atom, flat: &mut Vec<u8>| {
            flat.push(atom.predicate);
            flat.extend_from_slice(&atom.arguments);
        };
        let atoms = |atoms: &Atoms, flat: &mut Vec<u8>| {
            flat.push(atoms.count);
            atoms.places.iter().for_each(|one| atom(one, flat));
        };
        for schema in &table.schema_places {
            flat.push(schema.parameters);
            [&schema.preconditions, &schema.deletes, &schema.adds].into_iter().for_each(|list| atoms(list, &mut flat));
        }
        flat.extend_from_slice(&table.fact_count.to_be_bytes());
        table.fact_places.iter().for_each(|fact| atom(fact, &mut flat));
        flat.extend_from_slice(&(*lent as u32).to_be_bytes()[1..]);
        flat
    }

    /// What the reference answers, in the program's form, and the answer itself.
    fn answer(&self) -> (Vec<u8>, Result<usize, u8>) {
        let mut buffer = vec![FILLED; BUFFER_LEN];
        let answer = encode(&self.table, &mut buffer[..self.lent]);
        let mut said = vec![answer.err().unwrap_or(0)];
        said.extend_from_slice(&(answer.unwrap_or(0) as u16).to_be_bytes());
        said.extend(buffer);
        (said, answer)
    }
}

/// The tables of a seed, one after the other.
fn questions(seed: u64, wanted: u64) -> impl Iterator<Item = Question> {
    let mut random = Random::new(seed);
    (0..wanted).map(move |_| Question::random(&mut random))
}

/// The program reads a table and answers it before it reads the next; both pipes are served at once.
fn hand_over(mut stdin: ChildStdin, seed: u64, wanted: u64) {
    for question in questions(seed, wanted) {
        if stdin.write_all(&question.flat()).is_err() {
            return;
        }
    }
}

fn main() -> ExitCode {
    let seed = seed("TABLES_SEED");
    let wanted = number(2, "TABLES", TABLES);
    println!("seed {seed}, {wanted} tables");

    let program = concat!(env!("CARGO_MANIFEST_DIR"), "/../../crates/tables/out/tables");
    let child = Command::new(program).stdin(Stdio::piped()).stdout(Stdio::piped()).spawn();
    let Ok(mut child) = child else {
        println!("no program {program}: `rt run </dev/null` in crates/tables builds it\n0 passed, 1 failed");
        return ExitCode::FAILURE;
    };
    let (Some(stdin), Some(mut stdout)) = (child.stdin.take(), child.stdout.take()) else { return ExitCode::FAILURE };
    let writer = thread::spawn(move || hand_over(stdin, seed, wanted));

    let mut met = Met::default();
    for (passed, question) in questions(seed, wanted).enumerate() {
        let (expected, answer) = question.answer();
        let mut said = vec![0; expected.len()];
        let read = stdout.read_exact(&mut said);
        met.answer(Call::Encode, answer);
        if read.is_err() || said != expected {
            let differs = said.iter().zip(&expected).position(|(one, other)| one != other);
            println!(
                "table {}\nproved {:?}, reference {:?}, first difference {differs:?}",
                to_hex(&question.flat()),
                &said[..3],
                &expected[..3]
            );
            println!("{passed} passed, 1 failed");
            return ExitCode::FAILURE;
        }
    }
    let more = stdout.read_to_end(&mut Vec::new()).unwrap_or(1);
    let ended = writer.join().is_ok() && child.wait().is_ok_and(|status| status.success()) && more == 0;

    println!("{met}");
    let every: Vec<(Call, u8)> = Call::Encode.answers().into_iter().map(|answer| (Call::Encode, answer)).collect();
    let missing = met.missing(&every, &[]);
    missing.iter().for_each(|what| println!("never met: {what}"));
    let failed = if wanted >= TABLES { missing.len() } else { 0 } + !ended as usize;
    println!("{wanted} passed, {failed} failed");
    if failed == 0 {
        ExitCode::SUCCESS
    } else {
        ExitCode::FAILURE
    }
}
