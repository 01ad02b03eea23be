//! Bills: what a run of receipts comes to, station by station.

use std::fmt::Write;

use super::receipt::first_receipt;
use super::Refusal::{self, *};

/// The longest run of receipts, in bytes.
pub const RUN_LIMIT: usize = 67_108_864;

/// The last station; the first is 1.
const LAST_STATION: usize = 99;

/// What the receipts of one station say.
#[derive(Clone, Copy, Default)]
struct Account {
    /// The job of its last receipt. No job is 0.
    last_job: u32,
    accepted: u32,
    refused: u32,
}

/// The accounts by station; the entry of 0 is not used.
type Accounts = [Account; LAST_STATION + 1];

/// Writes the bill of a run of receipts to the buffer's start. Gives how many
/// bytes it has.
pub fn bill(receipts: &[u8], buffer: &mut [u8]) -> Result<usize, Refusal> {
    if receipts.len() > RUN_LIMIT {
        return Err(FileTooLarge);
    }
    let text = text(&accounts(receipts)?);
    let lent = buffer.get_mut(..text.len()).ok_or(BufferTooSmall)?;
    lent.copy_from_slice(text.as_bytes());
    Ok(text.len())
}

/// Takes the receipts one after another; the first that is at fault decides.
fn accounts(receipts: &[u8]) -> Result<Accounts, Refusal> {
    let mut accounts = [Account::default(); LAST_STATION + 1];
    let mut rest = receipts;
    while !rest.is_empty() {
        let ([station, job, verdict, ..], after) = first_receipt(rest)?;
        accounts[station as usize].enter(job, verdict)?;
        rest = after;
    }
    Ok(accounts)
}

impl Account {
    fn enter(&mut self, job: u32, verdict: u32) -> Result<(), Refusal> {
        if job <= self.last_job {
            return Err(JobNotRising);
        }
        self.last_job = job;
        match verdict {
            0 => self.accepted += 1,
            _ => self.refused += 1,
        }
        Ok(())
    }
}

/// The lines of the stations that have a receipt, and the total.
fn text(accounts: &Accounts) -> String {
    let mut text = String::new();
    let mut total = 0;
    for (station, account) in accounts.iter().enumerate() {
        let &Account {
            last_job,
            accepted,
            refused,
        } = account;
        if last_job > 0 {
            line(&mut text, "station", station as u32);
            line(&mut text, "accepted", accepted);
            line(&mut text, "refused", refused);
            total += accepted;
        }
    }
    line(&mut text, "total", total);
    text
}

fn line(text: &mut String, name: &str, number: u32) {
    writeln!(text, "{name}={number}").expect("a string takes every line");
}
