//! The hardware under a bank: what it answers, and what it is ordered. All goes well here.

use std::cell::Cell;

/// An answer of 0 is no, any other number yes.
pub trait Hardware: Default {
    /// Whether a lane's transfer is complete, and whether it failed.
    fn complete(&self, motor: usize) -> u16;
    fn failed(&self, motor: usize) -> u16;
    /// Whether a lane is free to take its next buffer.
    fn free(&self, motor: usize) -> u16;
    /// Whether every lane turned to receive, and whether every lane turned back.
    fn turned(&self) -> u16;
    fn turned_back(&self) -> u16;
    /// An order's number, a first duty, or the number of an unusual event.
    fn obey(&self, number: u32);
    /// The sum of all these, if it is kept.
    fn sum(&self) -> u32;
}

/// The compiler sees what is answered. Orders are added up. If nobody looked at an order, the
/// compiler would leave it out.
#[derive(Default)]
pub struct Ideal {
    sum: Cell<u32>,
}

impl Hardware for Ideal {
    fn complete(&self, _motor: usize) -> u16 {
        1
    }

    fn failed(&self, _motor: usize) -> u16 {
        0
    }

    fn free(&self, _motor: usize) -> u16 {
        1
    }

    fn turned(&self) -> u16 {
        1
    }

    fn turned_back(&self) -> u16 {
        1
    }

    fn obey(&self, number: u32) {
        self.sum.set(self.sum.get().wrapping_add(number));
    }

    fn sum(&self) -> u32 {
        self.sum.get()
    }
}

/// Answers are read from registers, and orders are written to one. So the compiler neither knows an
/// answer beforehand nor leaves out an order.
pub struct Registers {
    complete: [Register; 4],
    failed: [Register; 4],
    free: [Register; 4],
    turned: [Register; 2],
    order: Cell<u32>,
}

struct Register(Cell<u16>);

impl Register {
    fn of(value: u16) -> Self {
        Register(Cell::new(value))
    }

    fn read(&self) -> u16 {
        unsafe { self.0.as_ptr().read_volatile() }
    }
}

impl Default for Registers {
    fn default() -> Self {
        let all = |value| [(); 4].map(|()| Register::of(value));
        Registers {
            complete: all(1),
            failed: all(0),
            free: all(1),
            turned: [1, 1].map(Register::of),
            order: Cell::new(0),
        }
    }
}

impl Hardware for Registers {
    fn complete(&self, motor: usize) -> u16 {
        self.complete[motor].read()
    }

    fn failed(&self, motor: usize) -> u16 {
        self.failed[motor].read()
    }

    fn free(&self, motor: usize) -> u16 {
        self.free[motor].read()
    }

    fn turned(&self) -> u16 {
        self.turned[0].read()
    }

    fn turned_back(&self) -> u16 {
        self.turned[1].read()
    }

    fn obey(&self, number: u32) {
        unsafe { self.order.as_ptr().write_volatile(number) };
    }

    fn sum(&self) -> u32 {
        0
    }
}
