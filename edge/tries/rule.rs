//! The rule, without PostgreSQL: snapshots, transactions and answers come in the orders that matter. Of each part there
//! is a test that fails where the part is left out.
use super::*;
use crate::base::Base;
use crate::changes::{Delta, Place};
use crate::lsn::Xid;
use edge_common::later::later;
use std::collections::VecDeque;
use std::task::Waker;
use std::thread;
use std::time::Duration;

struct Trial {
    dataflow: Dataflow<'static>,
    shared: &'static Shared,
    queue: &'static Queue,
    /// Those that were sent and not taken.
    sent: VecDeque<Request>,
}

const ONE: &str = "1";
const TWO: &str = "2";
const TABLE: TableId = TableId(1);
const VIEW: &str = "[[view]]\nname = 'v'\ntable = 't'\nkey = ['k']\ncolumns = ['c']\n";

impl Trial {
    fn with(source: &str, rest: &str) -> Trial {
        let text = format!("[source]\naddress = ''\n{source}\n{VIEW}{rest}");
        let base = Base::new("", Duration::from_secs(1));
        let shared = Shared::new(text.parse().unwrap(), base, Vec::new()).unwrap();
        let (shared, queue): (&Shared, &Queue) = (Box::leak(Box::new(shared)), Box::leak(Box::default()));
        Trial { dataflow: Dataflow::new(shared, queue), shared, queue, sent: VecDeque::new() }
    }

    /// One whose slot stands, at place 100, after all transactions below 10.
    fn following() -> Trial {
        let mut trial = Trial::with("", "");
        trial.begin("1:10:");
        trial
    }

    fn begin(&mut self, snapshot: &str) {
        let first = First { snapshot: snapshot.parse().unwrap(), place: Lsn(100), tables: vec![TABLE] };
        self.dataflow.handle(Event::Begun(first));
    }

    fn lose(&mut self) {
        self.dataflow.handle(Event::Lost);
    }

    fn wait(&mut self, key: &str) -> mpsc::Receiver<Told> {
        let (client, told) = later(Waker::noop());
        self.dataflow.handle(Event::Asked { key: key.into(), view: 0, client });
        told
    }

    /// A client's request for a key that isn't held and that nobody asked for.
    fn ask(&mut self, key: &str) -> (Request, mpsc::Receiver<Told>) {
        let told = self.wait(key);
        (self.sent().expect("PostgreSQL is asked"), told)
    }

    fn sent(&mut self) -> Option<Request> {
        self.sent.extend(self.queue.waiting());
        self.sent.pop_front()
    }

    /// An answer of place 200.
    fn answer(&mut self, request: Request, snapshot: &str, rows: &[&str]) {
        self.answer_of(TABLE, request, snapshot, rows);
    }

    fn answer_of(&mut self, table: TableId, request: Request, snapshot: &str, rows: &[&str]) {
        let rows = rows.iter().map(|row| (*row).into()).collect();
        self.answer_with(table, request, snapshot, Content::Whole(rows));
    }

    fn answer_with(&mut self, table: TableId, request: Request, snapshot: &str, content: Content) {
        let seen = Seen { snapshot: snapshot.parse().unwrap(), place: Lsn(200), table };
        let answer = Answer { requests: vec![request], told: Ok((seen, vec![Ok(content)])) };
        self.dataflow.handle(Event::Answer(answer));
    }

    /// The same of rows by their identities, which are their texts' first signs.
    fn answer_identified(&mut self, request: Request, snapshot: &str, rows: &[&str]) {
        let rows = rows.iter().map(|row| (row[..1].into(), (*row).into())).collect();
        self.answer_with(TABLE, request, snapshot, Content::Identified(rows));
    }

    fn fill_identified(&mut self, key: &str, snapshot: &str, rows: &[&str]) -> mpsc::Receiver<Told> {
        let (request, client) = self.ask(key);
        self.answer_identified(request, snapshot, rows);
        client
    }

    fn fill(&mut self, key: &str, snapshot: &str, rows: &[&str]) {
        let (request, _) = self.ask(key);
        self.answer(request, snapshot, rows);
    }

    fn commit(&mut self, xid: u32, end: u64, key: &str, deltas: &[Delta]) {
        let of_keys = [(key.into(), deltas.to_vec())].into();
        self.commit_all(xid, end, Changes { of_keys, ..Changes::default() });
    }

    /// Rows that are of these keys from here on; an empty key is none, and ? one that isn't told.
    fn commit_moves(&mut self, xid: u32, end: u64, moves: &[(&str, &str)]) {
        let mut changes = Changes::default();
        for (row, key) in moves {
            let (id, key): (Key, Key) = (row[..1].into(), (*key).into());
            let place = match &*key {
                "" => Place::Gone,
                "?" => Place::Untold,
                _ => {
                    let row = (!row.ends_with('?')).then(|| (*row).into());
                    changes.of_keys.entry(key.clone()).or_default().push(Delta::Comes { id: id.clone(), row });
                    Place::Of(key)
                }
            };
            changes.rows.insert(id, place);
        }
        self.commit_all(xid, end, changes);
    }

    fn commit_all(&mut self, xid: u32, end: u64, changes: Changes) {
        self.dataflow.handle(Event::Transaction(Transaction { xid: Xid(xid), end: Lsn(end), changes }));
    }

    /// What a session finds without asking anybody.
    fn held(&self, key: &str) -> Option<String> {
        let mut reader = self.shared.cache.reader().unwrap();
        let value = Arc::clone(&*reader.get(key)?);
        Some(text(&value))
    }
}

fn plus(row: &str) -> Delta {
    Delta::Row { is_plus: true, row: row.into() }
}

fn minus(row: &str) -> Delta {
    Delta::Row { is_plus: false, row: row.into() }
}

fn text(value: &Value) -> String {
    value.text.as_deref().unwrap_or("none").into()
}

fn told(told: &mpsc::Receiver<Told>) -> String {
    match told.try_recv() {
        Ok(Told::Value(value)) => text(&value),
        Ok(Told::Again) => "again".into(),
        Ok(Told::Fault(why)) => why.to_string(),
        Err(_) => "nothing".into(),
    }
}

fn is(found: Option<String>, wanted: &str) {
    assert_eq!(found.as_deref(), Some(wanted));
}

#[test]
fn the_log_has_what_the_snapshot_did_not_see() {
    let mut trial = Trial::following();
    let (request, client) = trial.ask("a");
    trial.commit(12, 110, "a", &[plus(TWO)]);
    // A commit that waits for a standby: in the stream, and still running for the snapshot.
    trial.answer(request, "12:14:12", &[ONE]);
    is(trial.held("a"), "[1,2]");
    assert_eq!(told(&client), "[1,2]");
}

#[test]
fn a_transaction_that_the_rows_have_is_skipped() {
    let mut trial = Trial::following();
    trial.fill("a", "13:13:", &[ONE, TWO]);
    trial.commit(12, 110, "a", &[plus(TWO)]);
    is(trial.held("a"), "[1,2]");
    // The snapshot didn't see this one.
    trial.commit(13, 120, "a", &[minus(TWO)]);
    is(trial.held("a"), "[1]");
}

#[test]
fn past_the_snapshot_s_place_each_transaction_counts() {
    let mut trial = Trial::following();
    trial.fill("a", "13:13:", &[ONE]);
    trial.dataflow.handle(Event::Reached(Lsn(200)));
    // A number of long ago, as after the numbers began again.
    trial.commit(12, 210, "a", &[plus(TWO)]);
    is(trial.held("a"), "[1,2]");
}

#[test]
fn changes_of_one_transaction_are_one() {
    let mut trial = Trial::following();
    trial.fill("a", "10:10:", &[ONE]);
    trial.commit(12, 210, "a", &[minus(ONE), plus(TWO), minus(TWO), plus("3"), plus("3")]);
    is(trial.held("a"), "[3,3]");
    trial.commit(13, 220, "a", &[minus("3"), minus("3")]);
    is(trial.held("a"), "none");
}

#[test]
fn what_one_answer_saw_stays_for_those_that_were_asked_before() {
    let mut trial = Trial::following();
    let ((early, _), (other, _)) = (trial.ask("a"), trial.ask("b"));
    trial.commit(12, 110, "a", &[plus(TWO)]);
    trial.answer(other, "13:13:", &[]);
    trial.answer(early, "12:13:12", &[ONE]);
    is(trial.held("a"), "[1,2]");
}

#[test]
fn the_log_ends() {
    let mut trial = Trial::following();
    for xid in 12..12 + LONG_LOG as u32 {
        trial.commit(xid, 100 + u64::from(xid), "a", &[plus(ONE)]);
    }
    let request = trial.sent().expect("PostgreSQL is asked what a snapshot sees");
    assert!(trial.sent().is_none());
    trial.answer(request, "9999:9999:", &[]);
    assert_eq!(trial.dataflow.log.count(), 0);
}

#[test]
fn an_answer_covers_what_the_slot_began_with() {
    let mut trial = Trial::with("", "");
    trial.begin("1:20:");
    let (request, client) = trial.ask("a");
    // 12 committed before the slot's first transaction, so that the stream doesn't bring it.
    trial.answer(request, "12:20:12", &[ONE]);
    assert_eq!(trial.held("a"), None);
    let again = trial.sent().expect("PostgreSQL is asked again");
    trial.answer(again, "20:20:", &[ONE, TWO]);
    assert_eq!(told(&client), "[1,2]");
    is(trial.held("a"), "[1,2]");
}

#[test]
fn a_repeat_counts_once() {
    let mut trial = Trial::following();
    trial.fill("a", "10:10:", &[ONE]);
    for _ in 0..2 {
        trial.commit(12, 110, "a", &[plus(TWO)]);
    }
    is(trial.held("a"), "[1,2]");
}

#[test]
fn nothing_is_held_after_a_loss() {
    let mut trial = Trial::following();
    trial.fill("a", "10:10:", &[ONE]);
    trial.lose();
    assert_eq!((trial.held("a"), trial.shared.progress.reached()), (None, 0));
    trial.begin("1:20:");
    trial.fill("a", "20:20:", &[TWO]);
    assert_eq!(trial.shared.progress.reached(), 100);
    is(trial.held("a"), "[2]");
}

#[test]
fn what_is_held_stays_while_the_stream_is_broken() {
    let mut trial = Trial::following();
    trial.fill("a", "10:10:", &[ONE]);
    trial.dataflow.handle(Event::Broken);
    is(trial.held("a"), "[1]");
    assert!(!trial.shared.is_following());
    let (request, client) = trial.ask("b");
    trial.answer(request, "10:10:", &[ONE]);
    assert_eq!((told(&client), trial.held("b")), ("[1]".into(), None));
    trial.begin("1:20:");
    assert_eq!(trial.held("a"), None);
}

#[test]
fn a_slot_that_goes_on_holds_and_fills_as_before() {
    let mut trial = Trial::following();
    trial.fill("a", "10:10:", &[ONE]);
    trial.commit(12, 210, "a", &[plus(TWO)]);
    let (late, client) = trial.ask("b");
    trial.dataflow.handle(Event::Broken);
    trial.dataflow.handle(Event::Broken);
    assert!(!trial.shared.is_following());
    // It is told and not held, since the slot may be gone.
    trial.answer(late, "13:13:", &[ONE]);
    assert_eq!((told(&client), trial.held("b")), ("[1]".into(), None));
    let (later, _) = trial.ask("b");
    trial.dataflow.handle(Event::Resumed);
    assert!(trial.shared.is_following());
    // What PostgreSQL wasn't told of comes again, and then what is new.
    trial.commit(12, 210, "a", &[plus(TWO)]);
    trial.commit(13, 220, "a", &[plus("3")]);
    is(trial.held("a"), "[1,2,3]");
    trial.answer(later, "14:14:", &[ONE]);
    is(trial.held("b"), "[1]");
    // What the slot began with is to be seen as before.
    let (early, _) = trial.ask("c");
    trial.answer(early, "9:9:", &[]);
    assert_eq!(trial.held("c"), None);
    assert_eq!(trial.sent().map(|request| request.is_again), Some(true));
}

#[test]
fn a_slot_that_was_lost_does_not_go_on() {
    let mut trial = Trial::following();
    trial.dataflow.handle(Event::Broken);
    trial.lose();
    trial.dataflow.handle(Event::Resumed);
    assert!(!trial.shared.is_following());
    trial.fill("a", "10:10:", &[ONE]);
    assert_eq!(trial.held("a"), None);
}

#[test]
fn a_late_answer_fills_nothing() {
    let mut trial = Trial::following();
    let (late, client) = trial.ask("a");
    trial.lose();
    assert_eq!(told(&client), "again");
    trial.begin("1:20:");
    trial.fill("b", "20:20:", &[]);
    let (next, client) = trial.ask("a");
    trial.answer(late, "12:12:", &[ONE]);
    assert_eq!((trial.held("a"), told(&client)), (None, "nothing".into()));
    trial.answer(next, "20:20:", &[TWO]);
    is(trial.held("a"), "[2]");
    assert_eq!(told(&client), "[2]");
}

#[test]
fn an_answer_of_before_a_loss_tells_nothing_of_a_server_that_was_restarted() {
    let mut trial = Trial::following();
    let (late, _) = trial.ask("a");
    trial.lose();
    // The server lost transactions, so it gives the numbers from 8 on anew.
    trial.begin("1:8:");
    trial.fill("b", "8:8:", &[]);
    trial.commit(9, 110, "d", &[plus(TWO)]);
    trial.answer(late, "12:12:", &[]);
    trial.fill("c", "9:10:9", &[]);
    trial.fill("d", "9:10:9", &[ONE]);
    is(trial.held("d"), "[1,2]");
}

#[test]
fn without_a_slot_answers_are_told_and_not_held() {
    let mut trial = Trial::with("", "");
    let (request, client) = trial.ask("a");
    trial.answer(request, "10:10:", &[ONE]);
    assert_eq!((trial.held("a"), told(&client)), (None, "[1]".into()));
    // The next client asks PostgreSQL again.
    let (_, _) = trial.ask("a");
}

#[test]
fn a_token_is_behind_all_that_was_told() {
    let mut trial = Trial::following();
    trial.commit(12, 110, "a", &[plus(TWO)]);
    assert_eq!(trial.shared.told.load(SeqCst), 110);
    trial.fill("a", "13:13:", &[ONE]);
    assert_eq!(trial.shared.told.load(SeqCst), 200);
    trial.lose();
    assert_eq!(trial.shared.told.load(SeqCst), 200);
}

#[test]
fn what_was_told_before_a_loss_is_told_after_it() {
    let mut trial = Trial::following();
    trial.fill("a", "10:10:", &[ONE]);
    trial.commit(12, 110, "a", &[plus(TWO)]);
    is(trial.held("a"), "[1,2]");
    trial.lose();
    let (request, client) = trial.ask("a");
    trial.answer(request, "12:13:12", &[ONE]);
    assert_eq!(told(&client), "[1,2]");
}

#[test]
fn what_is_held_of_another_table_goes() {
    let mut trial = Trial::following();
    trial.fill("a", "10:10:", &[ONE]);
    trial.commit(12, 110, "b", &[plus(ONE)]);
    let (request, client) = trial.ask("b");
    trial.answer_of(TableId(2), request, "12:13:12", &[TWO]);
    assert_eq!(told(&client), "again");
    assert_eq!((trial.held("a"), trial.held("b")), (None, None));
    assert!(trial.shared.has_other_table.load(SeqCst), "the stream begins anew");
    // Until it has, the new table's rows are told without the other's changes.
    let (request, client) = trial.ask("b");
    trial.answer_of(TableId(2), request, "12:13:12", &[TWO]);
    assert_eq!((trial.held("b"), told(&client)), (None, "[2]".into()));
}

#[test]
fn a_fault_is_told_and_the_next_client_asks_again() {
    let mut trial = Trial::following();
    let (request, client) = trial.ask("a");
    let other = trial.wait("a");
    assert!(trial.sent().is_none(), "one request serves both");
    let answer = Answer { requests: vec![request], told: Err(String::from("gone").into()) };
    trial.dataflow.handle(Event::Answer(answer));
    assert_eq!([told(&client), told(&other)], ["gone", "gone"]);
    trial.fill("a", "10:10:", &[ONE]);
    is(trial.held("a"), "[1]");
}

#[test]
fn rows_that_disagree_with_their_changes_go() {
    let mut trial = Trial::following();
    trial.fill("a", "10:10:", &[ONE]);
    trial.commit(12, 210, "a", &[minus(TWO)]);
    assert_eq!(trial.held("a"), None);
    trial.fill("a", "13:13:", &[ONE]);
    is(trial.held("a"), "[1]");
}

#[test]
fn a_row_leaves_the_key_that_has_it() {
    let mut trial = Trial::following();
    trial.fill_identified("a", "10:10:", &["1x", "2x"]);
    trial.fill_identified("b", "10:10:", &["3x"]);
    // Of a row that was its identity alone is told.
    trial.commit_moves(12, 210, &[("1y", "b"), ("2z", "a")]);
    is(trial.held("a"), "[2z]");
    is(trial.held("b"), "[1y,3x]");
    // To a key that isn't held, and away.
    trial.commit_moves(13, 220, &[("1y", "c"), ("3x", "")]);
    is(trial.held("a"), "[2z]");
    is(trial.held("b"), "none");
    trial.commit_moves(14, 230, &[("1w", "a")]);
    is(trial.held("a"), "[1w,2z]");
    assert_eq!(trial.dataflow.residents.rows(), 2);
    trial.commit_moves(15, 240, &[("1?", "a")]);
    assert_eq!((trial.held("a"), trial.dataflow.residents.rows()), (None, 0));
}

#[test]
fn a_row_of_two_keys_leaves_the_one_that_is_behind() {
    let mut trial = Trial::following();
    trial.fill_identified("a", "10:10:", &["1x"]);
    // It saw that 12 has moved the row.
    trial.fill_identified("b", "13:13:", &["1x"]);
    trial.commit_moves(12, 110, &[("1x", "b")]);
    assert_eq!([trial.held("a").as_deref(), trial.held("b").as_deref()], [Some("none"), Some("[1x]")]);
    trial.commit_moves(13, 120, &[("1x", "")]);
    is(trial.held("b"), "none");
}

#[test]
fn a_row_that_moves_twice_is_of_the_last_key() {
    let mut trial = Trial::following();
    let (request, client) = trial.ask("a");
    let (other, _) = trial.ask("b");
    trial.commit_moves(12, 110, &[("1x", "a"), ("2x", "a"), ("2y", "b"), ("3x", "b"), ("3x", "")]);
    trial.commit_moves(13, 120, &[("1y", "b")]);
    trial.answer_identified(request, "12:14:12,13", &["4x"]);
    trial.answer_identified(other, "12:14:12,13", &[]);
    assert_eq!(told(&client), "[4x]");
    is(trial.held("b"), "[1y,2y]");
}

#[test]
fn a_row_that_is_told_in_part_is_asked_for() {
    let mut trial = Trial::following();
    trial.fill_identified("a", "10:10:", &["1x"]);
    trial.fill_identified("b", "10:10:", &["2x"]);
    trial.fill_identified("c", "10:10:", &["3x"]);
    trial.commit_moves(12, 210, &[("1?", "a"), ("2x", "?")]);
    assert_eq!((trial.held("a"), trial.held("b")), (None, None));
    is(trial.held("c"), "[3x]");
    // A snapshot that doesn't see it fills nothing.
    let asked = ["a", "b"].map(|key| trial.ask(key));
    let clients = asked.map(|(request, client)| {
        trial.answer_identified(request, "12:13:12", &["1x", "2x"]);
        assert_eq!(told(&client), "nothing");
        client
    });
    assert_eq!((trial.held("a"), trial.held("b")), (None, None));
    for client in clients {
        let again = trial.sent().expect("PostgreSQL is asked again");
        trial.answer_identified(again, "13:13:", &["1z"]);
        assert_eq!(told(&client), "[1z]");
    }
}

#[test]
fn no_more_is_held_than_the_limits_allow() {
    let mut trial = Trial::with("", "[cache]\nkeys = 3\n");
    trial.begin("1:10:");
    ["a", "b", "c", "d"].iter().for_each(|key| trial.fill(key, "10:10:", &[ONE]));
    assert_eq!((trial.held("a"), trial.shared.cache.len()), (None, 3));
    // One that was read stays.
    trial.shared.cache.reader().unwrap().get("b").unwrap().is_read();
    trial.fill("e", "10:10:", &[ONE]);
    assert_eq!(trial.held("c"), None);
    is(trial.held("b"), "[1]");
}

#[test]
fn a_bound_in_bytes_holds_for_rows_and_values() {
    let mut trial = Trial::with("", "limit_bytes = 10000\n");
    trial.begin("1:10:");
    let row = "x".repeat(1000);
    for number in 0..100 {
        trial.fill(&format!("key {number}"), "10:10:", &[&row]);
        assert!(trial.shared.now.bytes.load(Relaxed) <= 10_000);
    }
    assert_eq!(trial.shared.cache.len(), 3);
    // One that grows has others go, and goes itself where it is too large.
    for number in 0..4 {
        trial.commit(12 + number, 210 + u64::from(number), "key 99", &[plus(&row)]);
    }
    assert!(trial.shared.now.bytes.load(Relaxed) <= 10_000);
    assert_eq!(trial.shared.cache.len(), 0);
    let (request, client) = trial.ask("large");
    trial.answer(request, "10:10:", &[row.as_str(); 5]);
    assert_eq!((told(&client).len(), trial.held("large")), (5 * 1001 + 1, None));
}

#[test]
fn what_is_silent_for_too_long_is_asked_for() {
    let mut trial = Trial::with("max_staleness = 1", "");
    trial.begin("1:10:");
    trial.fill("a", "10:10:", &[ONE]);
    let client = trial.wait("a");
    assert_eq!((told(&client), trial.sent().is_some()), ("[1]".into(), false));
    thread::sleep(Duration::from_millis(1100));
    assert!(trial.shared.is_stale());
    let (request, client) = trial.ask("a");
    trial.answer(request, "10:10:", &[TWO]);
    assert_eq!(told(&client), "[2]");
    trial.dataflow.handle(Event::Reached(Lsn(100)));
    assert!(!trial.shared.is_stale());
    is(trial.held("a"), "[2]");
}
