//! A cabinet: a capacity and the tables for it.

use crate::answers::{Refusal, Standing, Taken, TotalsByConsole, Turned};
use crate::calls::{self, ANSWERS, PACKAGE_BYTES, TOTALS};
use crate::instruction::Version;
use crate::tables::{Tables, MAX_CAPACITY, SETTINGS};

/// The value that each setting starts at, as a new switch comes up: 1 for the untagged VLAN of each
/// port (field 2), and 0 for every other setting.
pub fn start_values() -> [i32; SETTINGS] {
    let mut settings = [0; SETTINGS];
    let filled = calls::start_values(&mut settings);
    filled.expect("it is refused another length alone");
    settings
}

/// The change history of one cabinet.
///
/// Changes are taken in and withdrawn in any order; after a [`drain`](Self::drain) the settings are
/// those that all held changes give, run in the order of their timestamps, each by its own version,
/// withdrawn ones passed over. A [`cutoff`](Self::cutoff) drops old changes and keeps what they leave.
///
/// The error of a method is the refusal, and a refused call alters nothing. The tables of a cabinet
/// made by [`new`](Self::new) are in form at all times, so that its calls are never refused for
/// [`Refusal::Length`] or [`Refusal::Form`].
#[derive(Clone, Debug, PartialEq, Eq)]
pub struct Cabinet {
    capacity: usize,
    tables: Tables,
}

impl Cabinet {
    /// A cabinet for so many changes, 1 to 4,096, just set up.
    pub fn new(capacity: usize) -> Result<Self, Refusal> {
        if capacity > MAX_CAPACITY {
            return Err(Refusal::Length);
        }
        let mut cabinet = Self::with_tables(capacity, Tables::new(capacity));
        cabinet.set_up()?;
        Ok(cabinet)
    }

    /// A cabinet with these tables, whatever their lengths and contents. Its calls refuse a capacity
    /// or tables that they cannot use.
    pub fn with_tables(capacity: usize, tables: Tables) -> Self {
        Self { capacity, tables }
    }

    /// The capacity.
    pub fn capacity(&self) -> usize {
        self.capacity
    }

    /// The tables.
    pub fn tables(&self) -> &Tables {
        &self.tables
    }

    /// Gives the tables back.
    pub fn into_tables(self) -> Tables {
        self.tables
    }

    /// Forgets all changes and the cutoff: every table at 0, every setting and kept value at its start
    /// value.
    pub fn set_up(&mut self) -> Result<(), Refusal> {
        calls::set_up(self.capacity, &mut self.tables)
    }

    /// Takes in the change with this timestamp and program, which runs by the rules of this version.
    pub fn take_in(
        &mut self,
        timestamp: u64,
        version: Version,
        program: &[u8],
    ) -> Result<Taken, Refusal> {
        let (n, tables) = (self.capacity, &mut self.tables);
        calls::take_in(n, tables, timestamp, version.number(), program)
    }

    /// Withdraws a change: after a drain it is as if it had never been made.
    pub fn withdraw(&mut self, timestamp: u64) -> Result<(), Refusal> {
        calls::withdraw(self.capacity, &mut self.tables, timestamp)
    }

    /// Carries out the entries of a package in order, and returns the answer of each. A refused
    /// entry stops nothing.
    pub fn take_in_package(
        &mut self,
        package: &[u8],
    ) -> Result<Vec<Result<Taken, Refusal>>, Refusal> {
        let mut answers = [0; ANSWERS];
        calls::take_in_package(self.capacity, &mut self.tables, package, &mut answers)?;
        let entries = answers.iter().take(calls::entry_count(package));
        Ok(entries.map(|&byte| calls::entry_answer(byte)).collect())
    }

    /// Gives a turn to the change of the lowest timestamp that is New or Invalid.
    pub fn turn(&mut self) -> Result<Turned, Refusal> {
        calls::turn(self.capacity, &mut self.tables)
    }

    /// Makes turns until one is idle, and returns how many there were of each kind, for each console.
    pub fn drain(&mut self) -> Result<TotalsByConsole, Refusal> {
        let mut totals = [0; TOTALS];
        calls::drain(self.capacity, &mut self.tables, &mut totals)?;
        Ok(totals.into())
    }

    /// Drops every change stamped below a timestamp, the new cutoff, and keeps each setting's value as
    /// of it, from which all that comes after begins. It is for a cabinet that fills up, once all sites
    /// agree that nothing older will be issued: freed places take new changes.
    ///
    /// Changes below the cutoff must have had their turns ([`Refusal::Unsettled`]). From then on no call
    /// takes a timestamp below it ([`Refusal::Cutoff`]), and the cutoff does not go back.
    ///
    /// ```
    /// use tolbezun::{program, setting, Cabinet, Instruction, Refusal, Version};
    ///
    /// /// A change that sets the untagged VLAN of port 2.
    /// fn set(vlan: i32) -> Vec<u8> {
    ///     let setting = setting(2, 2) as i32;
    ///     program(&[
    ///         Instruction::Constant { a: 0, n: vlan },
    ///         Instruction::Write { a: 0, setting },
    ///     ])
    /// }
    ///
    /// fn main() -> Result<(), Refusal> {
    ///     let mut cabinet = Cabinet::new(2)?;
    ///     cabinet.take_in(10, Version::Zero, &set(7))?;
    ///     cabinet.take_in(20, Version::Zero, &set(30))?;
    ///     assert_eq!(cabinet.take_in(30, Version::Zero, &set(8)), Err(Refusal::Full));
    ///
    ///     assert_eq!(cabinet.cutoff(20), Err(Refusal::Unsettled));
    ///     cabinet.drain()?;
    ///     cabinet.cutoff(20)?;
    ///     assert_eq!(cabinet.standing(10), Err(Refusal::Cutoff));
    ///     assert_eq!(cabinet.value_as_of(20, setting(2, 2)), Ok(7));
    ///
    ///     cabinet.take_in(30, Version::Zero, &set(8))?;
    ///     cabinet.withdraw(20)?;
    ///     cabinet.withdraw(30)?;
    ///     cabinet.drain()?;
    ///     assert_eq!(cabinet.current_value(setting(2, 2)), Ok(7));
    ///     Ok(())
    /// }
    /// ```
    pub fn cutoff(&mut self, timestamp: u64) -> Result<(), Refusal> {
        calls::cutoff(self.capacity, &mut self.tables, timestamp)
    }

    /// The current value of a setting.
    pub fn current_value(&self, setting: usize) -> Result<i32, Refusal> {
        calls::current_value(self.capacity, &self.tables, setting)
    }

    /// The value of a setting as of a timestamp: that of the highest write stamped below it, else
    /// the kept value, which is the start value until there is a cutoff.
    pub fn value_as_of(&self, timestamp: u64, setting: usize) -> Result<i32, Refusal> {
        calls::value_as_of(self.capacity, &self.tables, timestamp, setting)
    }

    /// The standing of a timestamp.
    pub fn standing(&self, timestamp: u64) -> Result<Standing, Refusal> {
        calls::standing(self.capacity, &self.tables, timestamp)
    }

    /// What all held changes leave, run in timestamp order on settings of their own, which begin at
    /// the kept values, withdrawn ones passed over. After a drain these are the current values.
    pub fn plain_run(&self) -> Result<Vec<i32>, Refusal> {
        let mut settings = vec![0; SETTINGS];
        calls::plain_run(self.capacity, &self.tables, &mut settings)?;
        Ok(settings)
    }

    /// All held changes by rising timestamp, then the withdrawals by rising timestamp, as one
    /// package, from which a replacement cabinet is filled. It must have room for the held changes,
    /// withdrawn ones too; drained, it has what this cabinet has once that is drained, if neither has
    /// had a [`cutoff`](Self::cutoff): a package has no kept values.
    ///
    /// More than one package can have, 512 entries and 65,535 bytes, is refused
    /// ([`Refusal::Room`]). A withdrawn change is two entries.
    ///
    /// ```
    /// use tolbezun::{program, setting, Cabinet, Instruction, Refusal, Taken, Version};
    ///
    /// /// A change that sets the untagged VLAN of port 2.
    /// fn set(vlan: i32) -> Vec<u8> {
    ///     let setting = setting(2, 2) as i32;
    ///     program(&[
    ///         Instruction::Constant { a: 0, n: vlan },
    ///         Instruction::Write { a: 0, setting },
    ///     ])
    /// }
    ///
    /// fn main() -> Result<(), Refusal> {
    ///     let mut neighbour = Cabinet::new(128)?;
    ///     neighbour.take_in(20, Version::Zero, &set(30))?;
    ///     neighbour.take_in(10, Version::One, &set(7))?;
    ///     neighbour.withdraw(20)?;
    ///     neighbour.drain()?;
    ///
    ///     let mut replacement = Cabinet::new(64)?;
    ///     let answers = replacement.take_in_package(&neighbour.package_out()?)?;
    ///     assert_eq!(answers, [Ok(Taken::Done); 3]);
    ///     replacement.drain()?;
    ///     assert_eq!(replacement.current_value(setting(2, 2)), Ok(7));
    ///     assert_eq!(replacement.standing(20), neighbour.standing(20));
    ///     assert_eq!(replacement.package_out(), neighbour.package_out());
    ///     Ok(())
    /// }
    /// ```
    pub fn package_out(&self) -> Result<Vec<u8>, Refusal> {
        let mut package = vec![0; PACKAGE_BYTES];
        let length = calls::package_out(self.capacity, &self.tables, &mut package)?;
        package.truncate(length);
        package.shrink_to_fit();
        Ok(package)
    }
}
