//! Measures the stack of calls, and makes them on a thread with the stack that the header asks for. The last line is
//! 'N passed, M failed'.

use std::process::ExitCode;
use std::thread;

use deck::generate::{Shape, generate};
use deck::random::Random;
use stack::call::{Input, Replies, TAKE, Tables, state};
use stack::decks::decks;

/// Shapes of generated decks that nest, and how many of each.
const SHAPES: [Shape; 5] = [
    Shape::Deep,
    Shape::Wide,
    Shape::Disjunctive,
    Shape::Mixed,
    Shape::AtMost,
];
const GENERATED: usize = 250;
/// Stack of the thread that measures.
const PLENTY: usize = 16 << 20;

struct Measured {
    name: String,
    input: Input,
    replies: Replies,
    bytes: usize,
}

fn main() -> ExitCode {
    let argument = std::env::args().nth(1).and_then(|text| text.parse().ok());
    let Some(stated) = argument else {
        eprintln!("stack BYTES: the stack that a call is given");
        return ExitCode::FAILURE;
    };
    let mut calls = on_stack(PLENTY, move || measure(stated));
    calls.sort_by_key(|call| call.bytes);
    let few = |call: &&Measured| call.bytes <= stated / 4;
    let within = calls.iter().filter(few).count();
    for call in calls.iter().rev().take(8) {
        println!("{} bytes: {}", call.bytes, call.name);
    }
    let count = calls.len();
    let again = on_stack(stated, move || same_replies(&calls));
    println!(
        "{within} of {count} decks take a quarter of {stated} bytes or less; {again} run on just so many"
    );
    let failed = 2 * count - within - again;
    println!("{} passed, {failed} failed", within + again);
    ExitCode::from(u8::from(failed > 0))
}

fn on_stack<T: Send + 'static>(bytes: usize, call: impl FnOnce() -> T + Send + 'static) -> T {
    let thread = thread::Builder::new().stack_size(bytes).spawn(call);
    thread.expect("a thread").join().expect("it ends")
}

fn measure(most: usize) -> Vec<Measured> {
    let mut tables = Tables::default();
    let decks = decks().into_iter().map(|named| (named.name, named.deck));
    let mut rng = Random::new(1);
    let drawn = SHAPES
        .into_iter()
        .flat_map(|shape| [shape; GENERATED])
        .map(|shape| {
            let name = format!("generated, {shape:?}").to_lowercase();
            (name, generate(&mut rng, shape))
        });
    let all = decks.chain(drawn).map(|(name, deck)| {
        let input = Input {
            state: state(deck.individuals, deck.roles),
            deck: deck::write(&deck),
        };
        let (replies, bytes) = tables.measured(&input, most);
        // Where the deck is accepted its axioms are tested.
        assert!(replies[0] > 0 || replies[1] < 2, "{name}: {replies:?}");
        // A session's clauses are the deck's.
        assert_eq!(replies[0], replies[TAKE], "{name}: {replies:?}");
        Measured {
            name,
            input,
            replies,
            bytes,
        }
    });
    all.collect()
}

/// How many of the decks are replied to as before.
fn same_replies(calls: &[Measured]) -> usize {
    let mut tables = Tables::default();
    let same = calls
        .iter()
        .filter(|call| tables.replies(&call.input) == call.replies);
    same.count()
}
