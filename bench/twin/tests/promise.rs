//! The promise, tried on many scripts: a build is script order, and a kept run is too.

mod common;

use common::{Parts, numbers};
use twin::*;

struct Chance(u64);

impl Chance {
    fn below(&mut self, limit: u64) -> u64 {
        self.0 ^= self.0 << 13;
        self.0 ^= self.0 >> 7;
        self.0 ^= self.0 << 17;
        (self.0 >> 11) % limit
    }
}

const FILES_USED: u64 = 10;

fn random_script(chance: &mut Chance) -> Script {
    let mut text = String::new();
    for file in 0..FILES_USED {
        text += &format!("file {file:02} f{file}\n");
    }
    let contents = ["yes", "no", "0102", "03", "x", "0405060708", "9"];
    for file in 0..FILES_USED {
        if chance.below(8) > 0 {
            let content = contents[chance.below(contents.len() as u64) as usize];
            text += &format!("have f{file} {content}\n");
        }
    }
    for _ in 0..chance.below(6) {
        let kind = Kind::ALL[chance.below(6) as usize];
        text += kind.name();
        for _ in 0..kind.files_used() {
            text += &format!(" f{}", chance.below(FILES_USED));
        }
        text.push('\n');
    }
    Script::read(text.as_bytes()).expect("the script is well formed")
}

fn random_policy(chance: &mut Chance, parts: &Parts, script: &Script) -> Box<dyn Policy> {
    let patience = chance.below(12) as u8;
    match chance.below(4) {
        0 => Box::new(ScriptOrder),
        1 => Box::new(HighestFirst::new(patience)),
        2 => Box::new(LastRun::primed(patience, &parts.book, script)),
        _ => {
            let lines = (0..9).map(|_| chance.below(6) as u8).collect();
            Box::new(ListPolicy::wishing(patience, lines).expect("there are wishes"))
        }
    }
}

fn built(parts: &mut Parts, script: &Script, policy: &mut dyn Policy) -> BuildAnswer {
    build(
        script,
        policy,
        &mut parts.files,
        &mut parts.pool,
        &mut parts.log,
        &mut parts.book,
    )
}

fn bytes_of(files: &impl FileStore, pool: &Pool) -> Vec<Option<Vec<u8>>> {
    let numbers = numbers(files).into_iter();
    numbers
        .map(|number| pool.content(number).map(<[u8]>::to_vec))
        .collect()
}

type ActTold<'p> = (u8, Act, u8, Option<&'p [u8]>);

/// The acts of each line, told by bytes, line after line.
fn acts_of_lines<'p>(entries: &[Entry], pool: &'p Pool) -> Vec<ActTold<'p>> {
    let told = |e: &Entry| (e.line, e.act, e.file, pool.content(e.number));
    let mut acts: Vec<_> = entries.iter().map(told).collect();
    acts.sort_by_key(|&(line, ..)| line);
    acts
}

#[test]
fn a_build_is_script_order() {
    let mut chance = Chance(0x1234_5678_9abc_def1);
    let (mut kept, mut stopped, mut twice, mut skipped) = (0, 0, 0, 0);
    for _ in 0..4_000 {
        let mut parts = Parts::new();
        let mut script = random_script(&mut chance);
        for round in 0..3 {
            if round == 0 || chance.below(2) == 0 {
                assert_eq!(parts.lay(&script), Ok(()));
            }
            let plain = script_order(&script, &parts.files, &parts.pool);
            let before = (numbers(&parts.files), parts.pool.extent());
            let mut policy = random_policy(&mut chance, &parts, &script);
            match built(&mut parts, &script, &mut *policy) {
                Ok(built) => {
                    assert_eq!(plain.stop, None);
                    let found = bytes_of(&parts.files, &parts.pool);
                    assert_eq!(found, bytes_of(&plain.files, &plain.pool));
                    let done = acts_of_lines(parts.log.entries(), &parts.pool);
                    assert_eq!(done, acts_of_lines(&plain.entries, &plain.pool));
                    kept += 1;
                    twice += usize::from(built.first_stop.is_some());
                    skipped += built.counts.skipped;
                }
                Err(BuildRefusal::Stopped { stop, .. }) => {
                    assert_eq!(plain.stop, Some(stop));
                    assert_eq!(parts.log.entries(), plain.entries);
                    assert_eq!(before, (numbers(&parts.files), parts.pool.extent()));
                    stopped += 1;
                }
                Err(refused) => panic!("{refused}"),
            }
            own_records_are_true(&mut parts);
            traces_round_trip(&parts);
            if chance.below(3) == 0 {
                script = random_script(&mut chance);
            }
        }
    }
    assert!(kept > 500 && stopped > 500 && twice > 20 && skipped > 500);
}

fn own_records_are_true(parts: &mut Parts) {
    for place in 0..parts.book.records().len() {
        assert_eq!(parts.audit(place), Ok(Standing::Own));
    }
}

fn traces_round_trip(parts: &Parts) {
    let saved = parts.saved();
    let mut fresh = Parts::new();
    assert_eq!(fresh.load(&saved), Ok(()));
    assert_eq!(fresh.saved(), saved);
}

#[test]
fn no_line_starves() {
    let mut chance = Chance(0x0bad_5eed_0bad_5eed);
    for _ in 0..2_000 {
        let mut parts = Parts::new();
        let script = random_script(&mut chance);
        assert_eq!(parts.lay(&script), Ok(()));
        let mut policy = HighestFirst::new(chance.below(5) as u8);
        let most = 17 * (usize::from(policy.patience()) + 1);
        let ticket = parts.begin(&script);
        let mut fronts = [0; 64];
        loop {
            let front = parts
                .log
                .states()
                .position(|state| state != LineState::Ended);
            if parts.step(&ticket, &mut policy).is_err() {
                break;
            }
            fronts[front.expect("a line is left")] += 1;
        }
        assert!(fronts.iter().all(|&steps| steps <= most));
        let _ = parts.close(ticket, Wish::PutBack);
    }
}
