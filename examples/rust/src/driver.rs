//! A handle of the library that is open, and freed when it is dropped.
use crate::deeds::{Deed, Units};
use crate::events::{Event, Item, Reply};
use crate::sys::{self, DeedNumbers, Handle, ItemNumbers, ReplyNumbers, UnitNumbers};
use crate::{Config, Error, Verdict};
use std::fmt;
use std::ptr::null_mut;

/// A machine or a world.
#[derive(Debug)]
pub struct Driver {
    handle: Handle,
    text: Vec<u8>,
}

// SAFETY: the library lets another thread go on with a handle, and `&mut self` gives it to one call at a time.
unsafe impl Send for Driver {}

impl fmt::Debug for Handle {
    fn fmt(&self, f: &mut fmt::Formatter<'_>) -> fmt::Result {
        f.write_str("Handle")
    }
}

pub fn checked(status: i32) -> Result<(), Error> {
    match status {
        sys::DONE | sys::BLANK => Ok(()),
        sys::WRONG => Err(Error::Wrong),
        sys::FULL => Err(Error::Full),
        sys::NO_MEMORY => Err(Error::NoMemory),
        sys::BAD_CONFIG => Err(Error::BadConfig),
        sys::NO_TEXT => Err(Error::NoText),
        sys::NO_REPLY => Err(Error::NoReply),
        sys::NO_DEEDS => Err(Error::NoDeeds),
        sys::IS_WORLD => Err(Error::IsWorld),
        _ => unreachable!("an open machine has no status {status}"),
    }
}

/// The text that a call writes into a buffer, which grows if it is too short. The status of the call, and the length.
fn written(
    text: &mut Vec<u8>,
    mut call: impl FnMut(*mut u8, usize, &mut usize) -> i32,
) -> (i32, usize) {
    let mut length = 0;
    let status = call(text.as_mut_ptr(), text.len(), &mut length);
    if status != sys::SHORT {
        return (status, length);
    }
    text.resize(length, 0);
    let status = call(text.as_mut_ptr(), text.len(), &mut length);
    (status, length)
}

/// Why a line is no event. `None` if it is one, or blank.
pub fn reason(line: &str) -> Result<Option<String>, Error> {
    let mut text = vec![0; 80];
    let (status, length) = written(&mut text, |out, room, length| {
        // SAFETY: slices are whole and never null, and the buffer is no part of the line.
        unsafe { sys::metroheap_reason_nonnull(line.as_ptr(), line.len(), out, room, length) }
    });
    match status {
        sys::BLANK | sys::NO_ITEM => Ok(None),
        _ => {
            checked(status)?;
            text.truncate(length);
            Ok(Some(String::from_utf8(text).expect("reasons are ASCII")))
        }
    }
}

impl Driver {
    /// Opens a handle by a call.
    fn opened(call: impl FnOnce(&mut Handle) -> i32) -> Result<Driver, Error> {
        // SAFETY: the call asks no handle.
        if unsafe { sys::metroheap_version() } != sys::VERSION_NUMBER {
            return Err(Error::OtherVersion);
        }
        let mut handle = Handle {
            machine: null_mut(),
        };
        checked(call(&mut handle))?;
        Ok(Driver {
            handle,
            text: vec![0; 64],
        })
    }

    pub fn open(config: Config) -> Result<Driver, Error> {
        let Config {
            pages,
            quantum,
            trigger,
            every,
        } = config;
        Driver::opened(|handle| {
            // SAFETY: a null pointer is a closed handle. A `Driver` owns what is opened, and never copies it.
            unsafe { sys::metroheap_open(handle, pages, quantum, trigger, every, 2) }
        })
    }

    pub fn open_world() -> Result<Driver, Error> {
        // SAFETY: as in `open`.
        Driver::opened(|handle| unsafe { sys::metroheap_open_world(handle, 2) })
    }

    pub fn line(&mut self, line: &str) -> Result<&str, Error> {
        let mut length = 0;
        // SAFETY: slices are whole and never null, and `&mut self` rules out that they overlap.
        let status = unsafe {
            sys::metroheap_line_nonnull(
                &mut self.handle,
                line.as_ptr(),
                line.len(),
                self.text.as_mut_ptr(),
                self.text.len(),
                &mut length,
            )
        };
        if status == sys::SHORT {
            // The event was done, so its text is asked for again, and not the line.
            return self.last_text();
        }
        checked(status)?;
        Ok(self.text(length))
    }

    pub fn last_text(&mut self) -> Result<&str, Error> {
        let Driver { handle, text } = self;
        let (status, length) = written(text, |out, room, length| {
            // SAFETY: as in `line`.
            unsafe { sys::metroheap_last_text_nonnull(handle, out, room, length) }
        });
        checked(status)?;
        Ok(self.text(length))
    }

    fn text(&self, length: usize) -> &str {
        std::str::from_utf8(&self.text[..length]).expect("replies are ASCII")
    }

    pub fn step(&mut self, event: Event) -> Result<Reply, Error> {
        let mut reply = ReplyNumbers::default();
        // SAFETY: the handle is open, and the structs are those of the header.
        checked(unsafe { sys::metroheap_step(&mut self.handle, &event.numbers(), &mut reply) })?;
        Ok(self.shown(&reply))
    }

    pub fn judge(&mut self, event: Event, given: &Reply) -> Result<Verdict, Error> {
        let mut right = ReplyNumbers::default();
        let (event, given) = (event.numbers(), given.numbers());
        // SAFETY: as in `step`.
        let status = unsafe { sys::metroheap_judge(&mut self.handle, &event, &given, &mut right) };
        if status == sys::DIFFERS {
            return Ok(Verdict::Differs(self.shown(&right)));
        }
        checked(status)?;
        Ok(Verdict::Right)
    }

    pub fn last_reply(&mut self) -> Result<Reply, Error> {
        let mut reply = ReplyNumbers::default();
        // SAFETY: as in `step`.
        checked(unsafe { sys::metroheap_last_reply(&mut self.handle, &mut reply) })?;
        Ok(self.shown(&reply))
    }

    /// The last reply, whose items are asked for if it is a dump.
    fn shown(&mut self, reply: &ReplyNumbers) -> Reply {
        Reply::from_numbers(reply, |index| self.item(index))
    }

    fn item(&mut self, index: usize) -> Item {
        let mut item = ItemNumbers::default();
        // SAFETY: as in `step`.
        let status = unsafe { sys::metroheap_dump_item(&mut self.handle, index, &mut item) };
        assert_eq!(status, sys::DONE, "a dump has as many items as it says");
        Item::from_numbers(&item)
    }

    pub fn last_units(&mut self) -> Result<Units, Error> {
        let mut units = UnitNumbers::default();
        // SAFETY: as in `step`.
        checked(unsafe { sys::metroheap_last_units(&mut self.handle, &mut units) })?;
        Ok(Units::from_numbers(&units))
    }

    pub fn tell(&mut self, tells: bool) -> i32 {
        // SAFETY: as in `step`.
        unsafe { sys::metroheap_tell(&mut self.handle, u32::from(tells)) }
    }

    pub fn deeds(&mut self) -> Result<Vec<Deed>, Error> {
        let mut deeds = Vec::new();
        let mut deed = DeedNumbers::default();
        loop {
            // SAFETY: as in `step`.
            let status =
                unsafe { sys::metroheap_deed_item(&mut self.handle, deeds.len(), &mut deed) };
            if status == sys::NO_ITEM {
                return Ok(deeds);
            }
            checked(status)?;
            deeds.push(Deed::from_numbers(&deed));
        }
    }

    /// What a call shows without an event.
    fn seen(&mut self, call: impl FnOnce(&mut Handle, &mut ReplyNumbers) -> i32) -> Reply {
        let mut reply = ReplyNumbers::default();
        checked(call(&mut self.handle, &mut reply)).expect("a machine is seen");
        self.shown(&reply)
    }

    pub fn see_stat(&mut self) -> Reply {
        // SAFETY: as in `step`.
        self.seen(|handle, reply| unsafe { sys::metroheap_see_stat(handle, reply) })
    }

    pub fn see_left(&mut self) -> Reply {
        // SAFETY: as in `step`.
        self.seen(|handle, reply| unsafe { sys::metroheap_see_left(handle, reply) })
    }

    pub fn see_report(&mut self, window: u64) -> Reply {
        // SAFETY: as in `step`.
        self.seen(|handle, reply| unsafe { sys::metroheap_see_report(handle, window, reply) })
    }

    pub fn reserve(&mut self, events: usize) -> Result<(), Error> {
        // SAFETY: as in `step`.
        checked(unsafe { sys::metroheap_reserve(&mut self.handle, events) })
    }

    pub fn forget(&mut self) -> i32 {
        // SAFETY: as in `step`.
        unsafe { sys::metroheap_forget(&mut self.handle) }
    }
}

impl Drop for Driver {
    fn drop(&mut self) {
        // SAFETY: the handle is as the library left it.
        unsafe { sys::metroheap_close_nonnull(&mut self.handle) };
    }
}
