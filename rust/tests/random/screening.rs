//! Tables and lists for the search of a list on the wire (C-16): about the borders of its ways, and as
//! one would send them who knows it.

use super::attempts::StartCall;
use super::choices::ServerCall;
use super::slots::{factor_taken, sharing, slot, version_in, FACTORS};
use super::versions::is_plain;
use super::{in_fours, information, long_packet, Random};
use crate::model::{Event, MAX_DATAGRAM, MAX_LIST, MAX_TABLE};

/// How a table is drawn.
#[derive(Debug, Clone, Copy, PartialEq, Eq, PartialOrd, Ord)]
pub enum Tables {
    /// Any versions.
    Any,
    /// Small numbers, most of them.
    Small,
    /// Numbers in a row.
    Regular,
    /// They differ in one byte.
    OneByte,
    /// Versions, and the same with their bytes turned round.
    Turned,
    /// One of `MARKS` among them.
    Marked,
    /// All in one slot under one factor.
    OneSlot,
    /// They clash under every factor, or under as many as there can be.
    Clashing,
}

pub const TABLES: [Tables; 8] = [
    Tables::Any,
    Tables::Small,
    Tables::Regular,
    Tables::OneByte,
    Tables::Turned,
    Tables::Marked,
    Tables::OneSlot,
    Tables::Clashing,
];

/// How a list is drawn. Half of the lists of all kinds but the last two get one member more, at any
/// place.
#[derive(Debug, Clone, Copy, PartialEq, Eq, PartialOrd, Ord)]
pub enum Lists {
    /// Any versions that the table lacks.
    Others,
    /// Members with a bit or a byte changed, or their bytes in another order.
    Near,
    /// A member at every place but those of entries: its bytes, moved by one to three.
    Moved,
    /// In a slot with a member, all of them or half of them.
    InSlots,
    /// `MARKS`.
    Marks,
    /// Members by a coin.
    Coin,
    /// Members alone.
    Members,
    /// One member over and over.
    Repeated,
    /// Members and `MARKS`: what a slot may hold that was emptied.
    Emptied,
    /// Several members, the worst first.
    WorstFirst,
    /// Two or three members, once each, in any order: often of those that the table begins with.
    Few,
}

pub const LISTS: [Lists; 11] = [
    Lists::Others,
    Lists::Near,
    Lists::Moved,
    Lists::InSlots,
    Lists::Marks,
    Lists::Coin,
    Lists::Members,
    Lists::Repeated,
    Lists::Emptied,
    Lists::WorstFirst,
    Lists::Few,
];

/// The versions that are 0 and 1 where the lowest byte comes first, and 1.
pub const MARKS: [u32; 3] = [0, 0x0100_0000, 1];

/// With so many comparisons or fewer, the library searches the list for one entry of the table after
/// the other. This number and the next are the library's, and go with it.
pub const CHEAP: usize = 2_048;
/// And so it does with a table of so many entries.
pub const FEW: usize = 6;

/// A table and a list on the wire.
#[derive(Debug, Clone)]
pub struct SearchCall {
    pub tables: Tables,
    pub lists: Lists,
    pub table: Vec<u32>,
    pub list: Vec<u32>,
    /// The bytes left over after the list.
    pub left_over: usize,
    /// What is left of the list's address when it is divided by four.
    pub address: usize,
}

impl SearchCall {
    /// Whether the library looks the list up in slots.
    pub fn is_by_slots(&self) -> bool {
        self.table.len() > FEW && self.list.len() > CHEAP / self.table.len()
    }
}

impl Random {
    /// A table that keeps its rule, and a list of at most 16,382. `clashing` are tables that clash.
    pub fn search_call(&mut self, clashing: &[Vec<u32>]) -> SearchCall {
        let (tables, lists) = (*self.pick(&TABLES), *self.pick(&LISTS));
        let table = self.searched_table(tables, clashing);
        let length = self.searched_length(table.len());
        SearchCall {
            tables,
            lists,
            list: self.searched_list(lists, length, &table),
            table,
            left_over: self.below(4),
            address: self.below(4),
        }
    }

    /// A start with the call's table, and a Version Negotiation packet for it with the call's list,
    /// but for the Original Version: one in four lists has it. The call's list has an entry.
    pub fn search_event(&mut self, call: &SearchCall) -> (StartCall, Vec<u8>) {
        let original = *self.pick(&call.table);
        let other = self.outside(&call.table);
        let mut list = call.list.clone();
        for entry in list.iter_mut().filter(|entry| **entry == original) {
            *entry = other;
        }
        if self.one_in(4) {
            let place = self.list_place(list.len());
            list[place] = original;
        }
        // The list follows 7 bytes and the IDs; the longest leaves no room for them.
        let room = MAX_DATAGRAM - 7 - 4 * list.len();
        let ids = ((call.address + 1) % 4 + 4 * self.below(5)).min(room);
        let length = self.below(ids + 1);
        let (destination, source) = (self.bytes(length), self.bytes(ids - length));
        let packet = long_packet(0, 0, &source, &destination, &in_fours(&list));
        let start = StartCall {
            table: call.table.clone(),
            pairs: Vec::new(),
            barred: Vec::new(),
            original,
            destination,
            source,
        };
        (start, packet)
    }
}

// The other calls that search a list on the wire. It is Available Versions for them.

impl Random {
    /// A start with the call's table, a packet on which it acts, and an outcome with the call's list.
    /// Often the attempted version is the choice from it. The table has two entries or more.
    pub fn search_outcome(&mut self, call: &SearchCall) -> (StartCall, Vec<Event>) {
        let mut table = call.table.clone();
        let best = table.iter().position(|v| call.list.contains(v));
        let attempted = match best {
            Some(best) if self.one_in(2) => table[best],
            _ => *self.pick(&table),
        };
        table.retain(|v| *v != attempted);
        let start = StartCall {
            original: *self.pick(&table),
            table: call.table.clone(),
            pairs: Vec::new(),
            barred: Vec::new(),
            destination: Vec::new(),
            source: Vec::new(),
        };
        let available = self.often_without_zero(&call.list);
        let events = vec![
            Event::Datagram(long_packet(0, 0, &[], &[], &in_fours(&[attempted]))),
            Event::Outcome {
                in_use: attempted,
                information: Some(information(attempted, &available)),
            },
        ];
        (start, events)
    }

    /// The server's choice from the call's list, with the call's table as accepted versions. Chosen,
    /// an entry of the list, is paired to all of them.
    pub fn search_server_call(&mut self, call: &SearchCall) -> ServerCall {
        let available = self.often_without_zero(&call.list);
        let chosen = *self.pick(&available);
        let others = call.table.iter().filter(|v| **v != chosen);
        ServerCall {
            readable: vec![chosen],
            accepted: call.table.clone(),
            pairs: others.map(|v| (chosen, *v)).collect(),
            barred: Vec::new(),
            version: chosen,
            information: Some(information(chosen, &available)),
        }
    }

    /// The list; where it has a 0, mostly another mark in its place.
    fn often_without_zero(&mut self, list: &[u32]) -> Vec<u32> {
        let instead = *self.pick(&MARKS);
        let other = |v: &u32| if *v == 0 { instead } else { *v };
        list.iter().map(other).collect()
    }
}

// Tables.

impl Random {
    fn searched_table(&mut self, tables: Tables, clashing: &[Vec<u32>]) -> Vec<u32> {
        let entries = match self.below(8) {
            0 => FEW,
            1 => FEW + 1,
            2 | 3 => MAX_TABLE,
            4 => MAX_TABLE - self.below(MAX_TABLE / 2),
            _ => 1 + self.below(MAX_TABLE),
        };
        let (any, shift) = (self.any_plain_version(), 8 * self.below(4));
        let factor = *self.pick(&FACTORS);
        match tables {
            Tables::Any => self.distinct_of(entries, |random| random.next_u32()),
            Tables::Small => self.distinct(entries),
            Tables::Regular => self.regular(entries),
            Tables::OneByte => self.distinct_of(entries, |random| {
                any & !(0xff << shift) | (random.next_u32() & 0xff) << shift
            }),
            Tables::Turned => self.turned(entries),
            Tables::Marked => self.marked(entries),
            Tables::OneSlot => {
                let slot = slot(*self.pick(&[any, MARKS[0], MARKS[1], MARKS[2]]), factor);
                self.distinct_of(entries, |random| {
                    version_in(slot, factor, random.next_u32())
                })
            }
            Tables::Clashing => self.clashing(entries, clashing),
        }
    }

    /// So many versions of those drawn that a table may hold, none twice.
    fn distinct_of(&mut self, entries: usize, draw: impl Fn(&mut Random) -> u32) -> Vec<u32> {
        let mut table = Vec::new();
        while table.len() < entries {
            let version = draw(self);
            if is_plain(version) && !table.contains(&version) {
                table.push(version);
            }
        }
        table
    }

    /// The last entries of one of these tables, in half of them in any order. In a quarter two that
    /// share a slot are among those that the table begins with.
    fn clashing(&mut self, entries: usize, clashing: &[Vec<u32>]) -> Vec<u32> {
        let mut table = self.pick(clashing)[MAX_TABLE - entries..].to_vec();
        if self.one_in(2) {
            return table;
        }
        self.shuffle(&mut table);
        if self.one_in(2) {
            if let Some((one, other)) = sharing(&table) {
                for version in [table.remove(other), table.remove(one)] {
                    let place = self.below(table.len().min(FEW) + 1);
                    table.insert(place, version);
                }
            }
        }
        table
    }

    fn regular(&mut self, entries: usize) -> Vec<u32> {
        let (first, step) = (self.any_plain_version(), 1 + self.below(3));
        let all = (0..).map(|k| first.wrapping_add(k)).step_by(step);
        all.filter(|v| is_plain(*v)).take(entries).collect()
    }

    fn turned(&mut self, entries: usize) -> Vec<u32> {
        let mut table = self.distinct_of(entries, |random| random.next_u32());
        for place in (1..entries).step_by(2) {
            let turned = table[place - 1].swap_bytes();
            if is_plain(turned) && !table.contains(&turned) {
                table[place] = turned;
            }
        }
        self.shuffle(&mut table);
        table
    }

    fn marked(&mut self, entries: usize) -> Vec<u32> {
        let mut table = self.distinct_of(entries, |random| random.next_u32());
        let marks = *self.pick(&[&MARKS[1..], &MARKS[1..2], &MARKS[2..]]);
        for mark in marks {
            let place = self.below(entries);
            if !table.contains(mark) {
                table[place] = *mark;
            }
        }
        table
    }
}

// Lists.

impl Random {
    /// Mostly about a border: the end of a block or a group, or where the search goes another way.
    fn searched_length(&mut self, table: usize) -> usize {
        let about = match self.below(2_048) {
            0 => return MAX_LIST,
            1 => return self.below(MAX_LIST + 1),
            2..=17 => *self.pick(&[512, 1_024, 2_048, 4_096]),
            18..=399 if table > FEW => CHEAP / table,
            400..=1_199 => *self.pick(&[1, 16, 32, 48, 64, 80, 128, 192, 256]),
            1_200..=1_399 => return self.below(100),
            _ => return self.below(300),
        };
        about - 1 + self.below(3)
    }

    /// A place in a list that has one: often the first or the last, of the list or of a block.
    fn list_place(&mut self, entries: usize) -> usize {
        let (any, block) = (self.below(entries), *self.pick(&[16, 64]));
        let place = match self.below(8) {
            0 => 0,
            1 => entries - 1,
            2 | 3 => any - any % block,
            4 | 5 => any - any % block + block - 1,
            _ => any,
        };
        place.min(entries - 1)
    }

    fn searched_list(&mut self, lists: Lists, length: usize, table: &[u32]) -> Vec<u32> {
        let from = self.below(table.len());
        let members = &table[from..];
        let (all, moved) = (self.one_in(2), 8 * (1 + self.below(3)) as u32);
        let factor = match lists {
            Lists::InSlots => factor_taken(table),
            _ => FACTORS[0],
        };
        let mut draw = || match lists {
            Lists::Others | Lists::WorstFirst | Lists::Few => self.outside(table),
            Lists::Near => self.near(table),
            Lists::Moved => table[from].rotate_left(moved),
            Lists::InSlots if all || self.one_in(2) => self.version_beside(table, factor),
            Lists::Marks => *self.pick(&MARKS),
            Lists::Coin if self.one_in(2) => *self.pick(members),
            Lists::Members => *self.pick(members),
            Lists::Repeated => table[from],
            Lists::Emptied if self.one_in(2) => *self.pick(&MARKS),
            Lists::Emptied if self.one_in(2) => *self.pick(members),
            Lists::InSlots | Lists::Coin | Lists::Emptied => self.outside(table),
        };
        let mut list: Vec<u32> = (0..length).map(|_| draw()).collect();
        match lists {
            Lists::WorstFirst => self.put_worst_first(&mut list, table),
            Lists::Few => self.put_few(&mut list, table),
            _ if self.one_in(2) => self.put(&mut list, table),
            _ => {}
        }
        list
    }

    /// One of the members at a place of the list, if it has one.
    fn put(&mut self, list: &mut [u32], members: &[u32]) {
        if !list.is_empty() {
            let place = self.list_place(list.len());
            list[place] = *self.pick(members);
        }
    }

    fn put_few(&mut self, list: &mut [u32], table: &[u32]) {
        let members = match self.below(4) {
            0 => table,
            _ => &table[..table.len().min(FEW + 2)],
        };
        for _ in 0..2 + self.below(2) {
            self.put(list, members);
        }
    }

    /// Any number that the table lacks.
    fn outside(&mut self, table: &[u32]) -> u32 {
        loop {
            let version = self.next_u32();
            if !table.contains(&version) {
                return version;
            }
        }
    }

    /// A member with a bit or a byte changed, or its bytes turned round.
    fn near(&mut self, table: &[u32]) -> u32 {
        let (member, shift) = (*self.pick(table), 8 * self.below(4));
        match self.below(3) {
            0 => member ^ 1 << self.below(32),
            1 => member & !(0xff << shift) | (self.next_u32() & 0xff) << shift,
            _ => member.swap_bytes(),
        }
    }

    /// Some of the table in reverse order, at the end of the list, at its beginning, or anywhere.
    fn put_worst_first(&mut self, list: &mut [u32], table: &[u32]) {
        let most = table.len().min(list.len());
        let count = most - self.below(most.max(1));
        let mut members: Vec<usize> = (0..table.len()).collect();
        let mut places: Vec<usize> = (0..list.len()).collect();
        self.shuffle(&mut members);
        match self.below(3) {
            0 => {}
            1 => places.reverse(),
            _ => self.shuffle(&mut places),
        }
        members.truncate(count);
        places.truncate(count);
        members.sort_unstable();
        places.sort_unstable();
        for (place, member) in places.into_iter().zip(members.into_iter().rev()) {
            list[place] = table[member];
        }
    }
}
