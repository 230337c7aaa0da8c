//! What the changes of order (02 K5) reach in the scripts and in the rows of calls from C: a painting
//! of each kind after each thing that may happen to the words, and each way in which they differ.

use crate::{assert_came, count, show, Counts};
use second::answers::*;
use second::cases::{arrangement, gen_order_row, gen_orders, ORDERS, TURNS};
use second::display::{Display, Painting};
use second::doors::{self, Door, Step, STATE};
use second::floats::Floats;
use second::script::{self, AGAIN, MOST_TIMES, START};
use second::state::{read_state, STATE_LEN};
use second::words::Words;

const PAINTINGS: [&str; 3] = ["a band", "a frame", "a line"];

fn painting_name(painting: Painting) -> &'static str {
    match painting {
        Painting::Band(..) => PAINTINGS[0],
        Painting::Frame => PAINTINGS[1],
        Painting::Line(_) => PAINTINGS[2],
    }
}

/// What has happened since layers were painted last, by names, and the words that were active then.
struct Since {
    events: Vec<String>,
    words: Words,
}

impl Since {
    fn new() -> Since {
        Since { events: Vec::new(), words: Words::fresh() }
    }

    fn started(&mut self, before: &Display, answer: u32) {
        self.events.push(match answer {
            DONE if before.pending().update_enabled() => "a copying start".into(),
            DONE => "a start without the update bit".into(),
            _ => format!("a start refused with {answer}"),
        });
    }

    /// The host has changed the bytes of a state.
    fn stored(&mut self, display: &Display) {
        let is_shared = display.active().check(Floats::With) == SAME_DEPTH;
        self.events.push("words by hand".into());
        self.events.extend(is_shared.then(|| "layers of one depth by hand".into()));
    }

    /// A painting, by names: what it comes after, or only that it is refused.
    fn painted(&mut self, painting: Painting, display: &Display, answer: u32) -> Vec<String> {
        let name = painting_name(painting);
        if answer != DONE {
            return vec![format!("{name} answers {answer}")];
        }
        let active = display.active();
        let mut events = std::mem::take(&mut self.events);
        events.extend(differences(&self.words, active).into_iter().map(String::from));
        let is_pending = arrangement(display.pending()) != arrangement(active);
        events.extend(is_pending.then(|| "other words left pending".into()));
        self.words = active.clone();
        events.into_iter().map(|event| format!("{name} after {event}")).collect()
    }
}

/// How layers and pictures of words differ from those of the words before.
fn differences(old: &Words, new: &Words) -> Vec<&'static str> {
    let (old_order, [old_places, old_floats]) = arrangement(old);
    let (order, [places, floats]) = arrangement(new);
    let has_same_layers =
        old_order.len() == order.len() && order.iter().all(|n| old_order.contains(n));
    let so = [
        old_order != order && has_same_layers,
        old_order.len() < order.len(),
        old_order.len() > order.len(),
        old_places != places,
        old_places.last() != places.last(),
        old_floats != floats,
        old_floats.last() != floats.last(),
        arrangement(old) == arrangement(new),
    ];
    DIFFERENCES.into_iter().zip(so).filter(|(_, is_so)| *is_so).map(|(name, _)| name).collect()
}

const DIFFERENCES: [&str; 8] = [
    "another order of the same layers",
    "more layers",
    "fewer layers",
    "other places of pictures",
    "another total of pictures",
    "other places of floats",
    "another total of floats",
    "no difference",
];

/// Each painting has come after each of these, so often at least.
fn assert_after(counts: &Counts, events: &[String], least: usize) {
    for painting in PAINTINGS {
        assert_came(counts, events.iter().map(|event| format!("{painting} after {event}")), least);
    }
}

/// What both kinds of cases reach.
fn assert_orders(counts: &Counts) {
    assert_after(counts, &DIFFERENCES.map(String::from), 20);
    let starts = ["a copying start", "a start without the update bit", "other words left pending"];
    assert_after(counts, &starts.map(String::from), 20);
    let refused = [7, 8, 9, 10, 11].map(|n| format!("a start refused with {n}"));
    assert_after(counts, &refused, 5);
    for answer in [WRONG_PICTURES, WRONG_FLOATS] {
        assert_came(counts, PAINTINGS.map(|name| format!("{name} answers {answer}")), 10);
    }
}

#[test]
fn scripts_of_orders_reach_everything() {
    let mut counts = Counts::new();
    for seed in 0..ORDERS {
        let (mut stage, mut since) = (script::Stage::new(), Since::new());
        for call in gen_orders(seed, TURNS) {
            let before = stage.display.clone();
            let (answer, _) = stage.play(call);
            match (call.letter, call.painting()) {
                (START, _) => since.started(&before, answer),
                (AGAIN, _) if call.a % MOST_TIMES > 0 => count(&mut counts, ["again".into()]),
                (_, Some(painting)) => count(&mut counts, since.painted(painting, &before, answer)),
                _ => {}
            }
        }
    }
    show("scripts of orders by kind", &counts);
    assert_orders(&counts);
    assert_came(&counts, ["again".into()], 20);
}

#[test]
fn rows_of_orders_reach_everything() {
    let display =
        |stage: &doors::Stage| read_state(&stage.rooms[STATE][..STATE_LEN]).expect("it is whole");
    let mut counts = Counts::new();
    for seed in 0..ORDERS {
        let (mut stage, mut since) = (doors::Stage::new(), Since::new());
        for step in gen_order_row(seed) {
            let before = display(&stage);
            let told = stage.play(&step);
            match (&step, step.painting(), told) {
                (Step::Store { buffer: STATE, .. }, ..) if display(&stage) != before => {
                    since.stored(&display(&stage))
                }
                (Step::Call { door: Door::Start, .. }, _, Some(told)) => {
                    since.started(&before, told.answer)
                }
                (_, Some(painting), Some(told)) => {
                    count(&mut counts, since.painted(painting, &before, told.answer))
                }
                _ => {}
            }
        }
    }
    show("rows of orders by kind", &counts);
    assert_orders(&counts);
    let by_hand = ["words by hand", "layers of one depth by hand"].map(String::from);
    assert_after(&counts, &by_hand, 20);
}
