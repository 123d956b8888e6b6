//! The stream: one thread that reads a slot's changes and sends whole transactions to the dataflow.
use crate::changes::{Changes, Columns};
use crate::configuration::View;
use crate::dataflow::{Event, Transaction};
use crate::fault::End;
use crate::lsn::Lsn;
use crate::pgoutput::{Change, Description, Message};
use crate::pq::Connection;
use crate::shared::Shared;
use crate::slot;
use crate::snapshot::TableId;
use crate::tables::Table;
use edge_common::pause::Pause;
use std::collections::HashMap;
use std::convert::Infallible;
use std::sync::{atomic::Ordering::SeqCst, mpsc::SyncSender, Arc};
use std::{thread, time::Duration, time::Instant};

const SHORTEST_PAUSE: Duration = Duration::from_millis(50);
const LONGEST_PAUSE: Duration = Duration::from_secs(5);
/// How often PostgreSQL is told how far the stream is, and asked whether it is there.
const BEAT: Duration = Duration::from_secs(1);
/// A connection that is silent for so long is broken.
const SILENT: Duration = Duration::from_secs(30);
/// What the database's own trigger writes to the log when a table is changed.
const CHANGED: &str = "edges: changed";

pub struct Stream<'a> {
    pub shared: &'a Shared,
    pub events: SyncSender<Event>,
    /// Where it is, while the slot stands.
    place: Option<Place<'a>>,
    said: String,
    pause: Pause,
}

impl<'a> Stream<'a> {
    pub fn new(shared: &'a Shared, events: SyncSender<Event>) -> Stream<'a> {
        Stream { shared, events, place: None, said: String::new(), pause: Pause::new(SHORTEST_PAUSE, LONGEST_PAUSE) }
    }

    pub fn run(mut self) {
        loop {
            let end = match self.follow() {
                Ok(never) => match never {},
                Err(end) => end,
            };
            self.shared.stream.store(0, SeqCst);
            if self.shared.is_over.load(SeqCst) {
                return;
            }
            if !self.shared.configuration.source.lasting_slot || matches!(end, End::Lost(_)) {
                self.place = None;
            }
            let line = end.to_string();
            let event = match end {
                End::Broken(_) => Event::Broken,
                End::Lost(_) => Event::Lost,
                // Its line is the last one.
                End::Refused(why) => {
                    _ = self.events.send(Event::Refused(why));
                    return;
                }
                End::Over => return,
            };
            self.says(line);
            if self.events.send(event).is_err() {
                return;
            }
            thread::sleep(self.pause.draw());
        }
    }

    /// A line for each change of the stream's state.
    fn says(&mut self, line: String) {
        if line != self.said {
            eprintln!("edge: {line}");
            self.said = line;
        }
    }

    fn follow(&mut self) -> Result<Infallible, End> {
        let mut connection = self.shared.base.for_changes()?;
        self.shared.stream.store(connection.process(), SeqCst);
        // Who ends the edge looked for that process after it had said so.
        if self.shared.is_over.load(SeqCst) {
            return Err(End::Over);
        }
        let slot = if self.place.is_some() { self.go_on(&mut connection)? } else { self.begin(&mut connection)? };
        self.says(format!("follows by the slot {slot}"));
        self.pause.begin_anew();
        self.read(connection)
    }

    fn begin(&mut self, connection: &mut Connection) -> Result<String, End> {
        slot::drop_lasting(self.shared)?;
        let (slot, first, tables) = slot::make(self.shared, connection)?;
        self.replicate(&slot, connection)?;
        self.shared.has_tables(tables);
        self.shared.has_other_table.store(false, SeqCst);
        self.place = Some(Place::new(self.shared, first.place));
        tell(&self.events, Event::Begun(first))?;
        Ok(slot)
    }

    /// By the lasting slot. What comes again is known by its place.
    fn go_on(&mut self, connection: &mut Connection) -> Result<String, End> {
        slot::may_go_on(self.shared, connection)?;
        let slot = self.shared.lasting().map_or(String::new(), |lasting| lasting.name);
        self.replicate(&slot, connection)?;
        slot::is_whole(self.shared)?;
        self.place.iter_mut().for_each(|place| place.open = None);
        tell(&self.events, Event::Resumed)?;
        Ok(slot)
    }

    fn replicate(&self, slot: &str, connection: &mut Connection) -> Result<(), End> {
        let publication = &self.shared.configuration.source.publication;
        let options = format!("proto_version '1', publication_names '{publication}', messages 'true'");
        connection.run(&format!("START_REPLICATION SLOT {slot} LOGICAL 0/0 ({options})"))?;
        Ok(())
    }

    fn read(&mut self, mut connection: Connection) -> Result<Infallible, End> {
        let max_staleness = self.shared.configuration.source.max_staleness();
        let beat = max_staleness.map_or(BEAT, |most| BEAT.min(most / 4));
        let Some(place) = &mut self.place else { return Err(End::Over) };
        let (mut confirmed, mut heard) = (Instant::now(), Instant::now());
        loop {
            if let Some(message) = connection.message_within(beat.saturating_sub(confirmed.elapsed()))? {
                heard = Instant::now();
                let event = place.after(&message).ok_or_else(|| End::Lost(place.lacks.into()))?;
                event.map_or(Ok(()), |event| tell(&self.events, event))?;
            }
            if self.shared.has_other_table.swap(false, SeqCst) {
                return Err(End::Lost("another table has the name of a view's".into()));
            }
            if heard.elapsed() > SILENT {
                return Err(End::Broken("the stream is silent".into()));
            }
            if confirmed.elapsed() >= beat {
                self.shared.has_reached(place.reached);
                connection.send(&place.confirmation())?;
                confirmed = Instant::now();
            }
        }
    }
}

fn tell(events: &SyncSender<Event>, event: Event) -> Result<(), End> {
    events.send(event).map_err(|_| End::Over)
}

/// Where the stream is.
struct Place<'a> {
    shared: &'a Shared,
    /// Those of the views.
    tables: Arc<[Table]>,
    known: HashMap<TableId, Known>,
    reached: Lsn,
    open: Option<Transaction>,
    /// Why it can't go on, where it can't.
    lacks: &'static str,
}

/// A table as the stream has told it, with the views that are of it.
struct Known {
    description: Vec<u8>,
    /// Which columns are told of a row that was.
    identity: Vec<bool>,
    views: Vec<(usize, Columns)>,
}

impl Place<'_> {
    fn new(shared: &Shared, reached: Lsn) -> Place<'_> {
        let lacks = "a message of PostgreSQL's isn't understood";
        Place { shared, tables: shared.tables(), known: HashMap::new(), reached, open: None, lacks }
    }

    /// What a message brings. None where changes are missing from here on.
    fn after(&mut self, message: &[u8]) -> Option<Option<Event>> {
        match message.split_first()? {
            (b'w', rest) => self.changed(rest.get(24..)?),
            (b'k', rest) => {
                let end = Lsn(u64::from_be_bytes(*rest.first_chunk()?));
                if self.open.is_none() {
                    self.reached = self.reached.max(end);
                }
                Some(Some(Event::Reached(self.reached)))
            }
            _ => Some(None),
        }
    }

    fn changed(&mut self, message: &[u8]) -> Option<Option<Event>> {
        match Message::of(message)? {
            Message::Begin(xid) => self.open = Some(Transaction { xid, end: Lsn(0), changes: Changes::default() }),
            Message::Change(table, change) if self.is_of_views(table) => self.change(table, change)?,
            Message::Table(description) if self.is_of_views(description.table) => self.know(description)?,
            Message::Commit(end) => {
                self.reached = self.reached.max(end);
                return Some(Some(Event::Transaction(Transaction { end, ..self.open.take()? })));
            }
            Message::Truncate(tables) if tables.iter().any(|table| self.is_of_views(*table)) => {
                self.lacks = "a table was emptied by TRUNCATE";
                return None;
            }
            Message::Note(CHANGED) => {
                self.lacks = "a table of the database was changed by its owner";
                return None;
            }
            _ => {}
        }
        Some(None)
    }

    fn is_of_views(&self, table: TableId) -> bool {
        self.tables.iter().any(|it| it.id == table)
    }

    fn change(&mut self, table: TableId, change: Change) -> Option<()> {
        let (known, changes) = (self.known.get(&table)?, &mut self.open.as_mut()?.changes);
        let (was, is) = change.rows(&known.identity)?;
        let mut views = known.views.iter();
        views.try_for_each(|(view, columns)| changes.tell(&self.tables[*view], columns, was.as_deref(), is.as_deref()))
    }

    fn know(&mut self, description: Description) -> Option<()> {
        let place = |name: &String| description.columns.iter().position(|column| column == name);
        let places = |names: &[String]| names.iter().map(place).collect::<Option<Vec<_>>>();
        let columns = |(view, table): (&View, &Table)| {
            let identity = places(table.identity.as_deref().unwrap_or_default())?;
            // Else it has another identity than when the edge asked for it.
            let is_told = |column: usize| table.identity.is_none() || identity.contains(&column);
            let is_as_asked = description.is_told_whole == table.identity.is_none()
                && (0..).zip(&description.identity).all(|(column, is)| *is == is_told(column));
            is_as_asked.then_some(Columns { key: places(&view.key)?, row: places(&view.columns)?, identity })
        };
        let views = self.shared.configuration.views.iter().zip(self.tables.iter()).enumerate();
        let of_table = views.filter(|(_, (_, table))| table.id == description.table);
        let views: Option<Vec<_>> = of_table.map(|(number, it)| Some((number, columns(it)?))).collect();
        let is_changed = |before: &Known| before.description != description.bytes;
        if views.is_none() || self.known.get(&description.table).is_some_and(is_changed) {
            self.lacks = "a table was changed";
            return None;
        }
        let known = Known { description: description.bytes.to_vec(), identity: description.identity, views: views? };
        self.known.insert(description.table, known);
        Some(())
    }

    /// That PostgreSQL need not keep what came, since the edge has it, and wants to be heard.
    fn confirmation(&self) -> Vec<u8> {
        let place = self.reached.0;
        [b"r", [place, place, place, 0].map(u64::to_be_bytes).as_flattened(), &[1]].concat()
    }
}
