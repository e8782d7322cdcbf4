//! One round: a table, and calls under it.

use std::fmt::Debug;

use plain::list::read_list;
use plain::table::Table;

use crate::account::{Account, BESIDE_TEXT};
use crate::damage::{altered, damaged, noise};
use crate::lent::Lent;
use crate::library::Given;
use crate::lists::{hostile_list, list, List};
use crate::random::Random;
use crate::tables::{hostile_table, table, Sample};

pub struct Round {
    pub random: Random,
    pub sample: Sample,
    /// The rows as a list, in a round whose calls get one in place of the sample's text.
    pub list: Option<List>,
    /// What the rules make of the text or the list: a table, or its first bad line or entry.
    pub table: Result<Table, usize>,
    hostile: bool,
}

impl Round {
    pub fn new(seed: u64, number: u64, hostile: bool) -> Round {
        let mut random = Random::new(seed, number);
        let mut sample = if hostile {
            hostile_table(&mut random)
        } else {
            table(&mut random)
        };
        sample.text.shrink_to_fit();
        let table = Table::read(&sample.text);
        let mut round = Round {
            random,
            sample,
            list: None,
            table,
            hostile,
        };
        if round.random.one_in(3) {
            round.hand_over_list();
        }
        round
    }

    /// From here on the calls get the rows as a list, made anew.
    pub fn hand_over_list(&mut self) {
        let make = if self.hostile { hostile_list } else { list };
        let list = make(&mut self.random, &self.sample);
        self.table = read_list(&list.text, &list.entries());
        self.list = Some(list);
    }

    /// The table as the calls of this round get it.
    pub fn given(&self) -> Given<'_> {
        match &self.list {
            Some(list) => Given::List(&list.text, &list.rows),
            None => Given::Text(&self.sample.text),
        }
    }

    /// The text of the same rows, if they are handed over as a list that a text can spell.
    pub fn spelt(&self) -> Option<Given<'_>> {
        let list = self.list.as_ref()?;
        list.spelt.as_deref().map(Given::Text)
    }

    /// The name of the function that gets the table as this round hands it over.
    pub fn name(&self, with_text: &'static str, with_list: &'static str) -> &'static str {
        match &self.list {
            Some(_) => with_list,
            None => with_text,
        }
    }

    /// The table, as a message shows it.
    pub fn shown(&self) -> String {
        match &self.list {
            Some(list) => list.shown(),
            None => format!("table {}", hex(&self.sample.text)),
        }
    }

    /// A list answers as a text of the same rows does: the call once more, with that text.
    pub fn beside_text<T: PartialEq + Debug>(
        &self,
        account: &mut Account,
        function: &'static str,
        found: T,
        lent: &Lent,
        call: impl FnOnce(Given, &mut [u8]) -> T,
    ) -> Compared {
        let Some(text) = self.spelt() else {
            return Ok(());
        };
        let mut other = lent.afresh();
        let again = call(text, other.room());
        account.calls += 1;
        account.count(BESIDE_TEXT, function);
        if self.table.is_err() {
            account.count(BESIDE_TEXT, "malformed");
        }
        if again == found && other.is_as(lent) {
            return Ok(());
        }
        Err(format!(
            "{function}: found {found:?}, but {again:?} with a text of the same rows; differs: {}\n{}",
            if other.is_as(lent) { "the answer" } else { "the buffer" },
            self.shown()
        ))
    }

    /// The text as a call gets it: damaged now and then, and always if the round is hostile. It has no room to spare, so that valgrind
    /// sees what is read past its end.
    pub fn spoiled(&mut self, text: Vec<u8>) -> Vec<u8> {
        let mut text = match self.random.below(8) {
            0 => damaged(&mut self.random, &text),
            1 if self.hostile => noise(&mut self.random, 3000),
            2..=4 if self.hostile => altered(&mut self.random, &text),
            _ if self.hostile => damaged(&mut self.random, &text),
            _ => text,
        };
        text.shrink_to_fit();
        text
    }
}

/// What a comparison found: nothing, or what differs.
pub type Compared = Result<(), String>;

pub fn hex(text: &[u8]) -> String {
    text.iter().map(|b| format!("{b:02x}")).collect()
}
