//! The scripted bus: shows the driver the next snapshot whenever it has nothing
//! more to learn from the last.

use core::cell::{Cell, RefCell};

use crate::{
    api::{
        clear::{ClearRun, Tape},
        lists::List,
        outcomes::Snapshot,
        transactions::{Handed, Setup, Timeout, Turn},
    },
    feed::{self, Feed},
    i2c::master::Error,
    machine::Machine,
    time,
};

type Run = (Vec<Handed>, Option<Result<(), Error>>, Option<ClearRun>);

/// Runs a part of the driver that hands out lists.
pub(crate) fn run(
    machine: &Machine,
    setup: &Setup,
    mut turns: impl FnMut(usize, &List) -> Turn,
    part: impl FnOnce(&Machine) -> Result<(), Error>,
) -> Run {
    time::set_now(setup.now);
    machine
        .registers
        .sr()
        .modify(|_, w| w.bus_busy().bit(setup.bus_busy));
    let bus = Bus::new(machine, setup, &mut turns);
    let result = feed::fed(&bus, || part(machine));
    let clearing_ran_out = result.is_none() && bus.lists.borrow().is_empty();
    let clear = bus.tape.was_read().then(|| bus.tape.run(clearing_ran_out));
    (bus.lists.into_inner(), result, clear)
}

/// Where the wait for the list at hand stands. The driver looks at the status
/// twice in a poll, once in a command check and once more when that succeeds.
#[derive(Clone, Copy)]
enum Wait {
    Begun,
    Polling { looks: u8 },
    Checking { looks: u8 },
    RanOut,
}

type Turns<'a> = dyn FnMut(usize, &List) -> Turn + 'a;

struct Bus<'a> {
    machine: &'a Machine,
    timeout: Timeout,
    bus_busy: bool,
    tape: Tape<'a>,
    turns: RefCell<&'a mut Turns<'a>>,
    turn: RefCell<Turn>,
    lists: RefCell<Vec<Handed>>,
    wait: Cell<Wait>,
    seen: Cell<Snapshot>,
}

impl<'a> Bus<'a> {
    fn new(machine: &'a Machine, setup: &'a Setup, turns: &'a mut Turns<'a>) -> Self {
        Self {
            machine,
            timeout: setup.timeout,
            bus_busy: setup.bus_busy,
            tape: Tape::new(setup.now, setup.clear_limit, &setup.clear),
            turns: RefCell::new(turns),
            turn: RefCell::default(),
            lists: RefCell::default(),
            wait: Cell::new(Wait::Begun),
            seen: Cell::default(),
        }
    }

    /// Takes the list that the driver has started since the last look, if any.
    fn take_list(&self) -> bool {
        let control = self.machine.registers.ctr();
        if control.read().trans_start().bit_is_clear() {
            return false;
        }
        control.modify(|_, w| w.trans_start().clear_bit());
        let list = self.machine.list();
        let mut lists = self.lists.borrow_mut();
        let turn = feed::unfed(|| (self.turns.borrow_mut())(lists.len(), &list));
        self.machine.registers.show_received(&turn.received);
        time::set_now(turn.now);
        self.turn.replace(turn);
        self.wait.set(Wait::Begun);
        lists.push(Handed {
            list,
            due: None,
            snapshots: 0,
        });
        true
    }

    /// Goes on to the next snapshot if the driver is about to look for one.
    fn turn_over(&self) {
        match self.wait.get() {
            Wait::Begun => {
                if let Some(handed) = self.lists.borrow_mut().last_mut() {
                    handed.due = (self.timeout != Timeout::None).then(time::latest_sum);
                }
                self.next_snapshot(Wait::Polling { looks: 0 });
            }
            Wait::Polling { looks: 2 } if self.transfer_ended() => {
                self.wait.set(Wait::Checking { looks: 0 });
            }
            Wait::Polling { looks: 2 } => self.next_snapshot(Wait::Polling { looks: 0 }),
            Wait::Checking { looks: 1 } if !self.commands_done() => {
                self.next_snapshot(Wait::Checking { looks: 0 });
            }
            _ => {}
        }
    }

    fn transfer_ended(&self) -> bool {
        let seen = self.seen.get();
        seen.trans_complete || seen.end_detect
    }

    /// What the driver itself has just answered on this snapshot.
    fn commands_done(&self) -> bool {
        feed::unfed(|| self.machine.all_commands_done(None)) == Ok(true)
    }

    fn next_snapshot(&self, wait: Wait) {
        let mut lists = self.lists.borrow_mut();
        let handed = lists.last_mut().expect("a wait follows a list");
        let Some(snapshot) = self.turn.borrow().snapshots.get(handed.snapshots).copied() else {
            // The wait is dropped now and polls once more: let it find its end.
            self.machine.show(&Snapshot::completed(&handed.list, 0));
            self.wait.set(Wait::RanOut);
            feed::run_out();
        };
        handed.snapshots += 1;
        self.machine.show(&snapshot);
        self.seen.set(snapshot);
        self.wait.set(wait);
    }
}

impl Feed for Bus<'_> {
    fn before_clock(&self) {
        // A due time per byte is taken from the clock right after the start.
        if self.take_list() && matches!(self.timeout, Timeout::PerByte(_)) {
            return;
        }
        if !self.lists.borrow().is_empty() {
            self.turn_over();
        } else if self.bus_busy {
            self.tape.before_clock();
        }
    }

    fn before_status(&self) {
        self.take_list();
        self.turn_over();
        self.wait.set(match self.wait.get() {
            Wait::Polling { looks } => Wait::Polling { looks: looks + 1 },
            Wait::Checking { looks } => Wait::Checking { looks: looks + 1 },
            other => other,
        });
    }

    fn limit_tested(&self, exceeded: bool) {
        self.tape.limit_tested(exceeded);
    }
}
