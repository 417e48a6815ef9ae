//! Seats: threads of tasks, and those that only look, beside the thread that owns the line.

use crate::answers::{LineState, State, Taken, View};
use crate::faults::Fault;
use crate::ffi;
use crate::line::{done, Line};

/// A task's seat at a line, for a thread of its own. Its calls wait for nobody and take no memory. It is closed when it is dropped,
/// before the line or after it.
///
/// ```
/// # fn main() -> Result<(), Box<dyn std::error::Error>> {
/// # let mut line = zangjulf::Line::open(include_bytes!("../../../examples/tool_changer.toml"))?;
/// let mut seat = line.seat(1)?;
/// let task = std::thread::spawn(move || -> Result<zangjulf::Seat, zangjulf::Fault> {
///     let (mut image, mut outputs) = ([0; 2], [0; 1]);
///     let view = seat.view(&mut image)?;
///     seat.outputs(&mut outputs)?[0] |= 0b0100;
///     seat.post(view.epoch, &outputs)?;
///     Ok(seat)
/// });
/// let seat = task.join().expect("the task ends")?;
/// assert!(line.take_posts().is_accepted(1));
/// drop(line);
/// drop(seat);
/// # Ok(())
/// # }
/// ```
#[derive(Debug)]
pub struct Seat {
    end: End,
}

/// A seat that only looks at a task, for a thread of its own, as a monitor. It never makes the owner of the line wait. It is closed
/// when it is dropped, before the line or after it.
///
/// ```
/// # fn main() -> Result<(), Box<dyn std::error::Error>> {
/// let text = include_bytes!("../../../examples/tool_changer.toml");
/// let mut line = zangjulf::Line::open_with_lookers(text, 2)?;
/// let mut monitors = [line.look(0, 1)?, line.look(1, 1)?];
/// line.post(1, 0, &[0b0101])?;
/// line.show();
/// for look in &mut monitors {
///     assert_eq!(look.view(&mut [0; 2])?.outputs, 1);
///     assert_eq!(look.outputs(&mut [0; 1])?, &[0b0101]);
/// }
/// # Ok(())
/// # }
/// ```
#[derive(Debug)]
pub struct Look {
    end: End,
}

/// A seat's own end of what it shares with the line.
#[derive(Debug)]
struct End {
    handle: ffi::SeatHandle,
}

// What a seat holds is its own end of what it shares with the line, and no thread's identity counts, which is proved of the library's
// seat (`Send`).
unsafe impl Send for End {}

impl Drop for End {
    fn drop(&mut self) {
        unsafe { ffi::zangjulf_seat_close(&mut self.handle) };
    }
}

/// A view of an image with these bytes and serials.
fn view_of<'a>(it: &ffi::View, bytes: &'a [u8], serials: [u64; 16]) -> View<'a> {
    View {
        showing: it.showing,
        first_serial: it.first_serial,
        state: State::of(it.state),
        taken: it.taken,
        is_refused: it.is_refused != 0,
        line: match it.line {
            2 => LineState::Closed,
            3 => LineState::Replaced,
            _ => LineState::Open,
        },
        epoch: it.epoch,
        task_epoch: it.task_epoch,
        bytes,
        outputs: it.outputs as usize,
        datagrams: it.datagrams,
        has: it.has,
        serials,
    }
}

impl End {
    fn closed() -> End {
        End { handle: ffi::SeatHandle { mark: 0, at: std::ptr::null_mut() } }
    }

    fn view<'a>(&mut self, out: &'a mut [u8]) -> Result<View<'a>, Fault> {
        let mut serials = [0; 16];
        let mut it = ffi::View::default();
        let (bytes, length) = (out.as_mut_ptr(), out.len());
        let number = unsafe {
            ffi::zangjulf_seat_view(&mut self.handle, bytes, length, serials.as_mut_ptr(), serials.len(), &mut it)
        };
        done(number, 0)?;
        Ok(view_of(&it, &out[..it.size as usize], serials))
    }

    fn view_in_place(&mut self) -> Result<View<'_>, Fault> {
        let mut serials = [0; 16];
        let mut it = ffi::View::default();
        let mut image = std::ptr::null();
        let number = unsafe {
            ffi::zangjulf_seat_view_in_place(&mut self.handle, &mut image, serials.as_mut_ptr(), serials.len(), &mut it)
        };
        done(number, 0)?;
        // the seat has the bytes until its next view or its close, and neither comes while it is borrowed
        let bytes = unsafe { std::slice::from_raw_parts(image, it.size as usize) };
        Ok(view_of(&it, bytes, serials))
    }

    fn outputs<'a>(&self, out: &'a mut [u8]) -> Result<&'a mut [u8], Fault> {
        let number = unsafe { ffi::zangjulf_seat_outputs(&self.handle, out.as_mut_ptr(), out.len()) };
        done(number, 0)?;
        Ok(out)
    }
}

impl Seat {
    /// Views the newest image that was shown, or the same one again if none is newer ([`View::showing`] tells): its bytes are at the
    /// front of `out`, for which [`crate::IMAGE`] bytes are enough. `Room` of a shorter one: the seat has the image, and outputs and
    /// posts are of it.
    ///
    /// ```
    /// # fn main() -> Result<(), Box<dyn std::error::Error>> {
    /// # let mut line = zangjulf::Line::open(include_bytes!("../../../examples/tool_changer.toml"))?;
    /// use zangjulf::{LineState, State};
    /// let mut seat = line.seat(0)?;
    /// let mut out = vec![0; zangjulf::IMAGE];
    /// let view = seat.view(&mut out)?;
    /// // the image of the opening, of which nothing has arrived yet
    /// assert_eq!((view.showing, view.outputs, view.bytes), (1, 14, &[0; 26][..]));
    /// assert_eq!((view.state, view.serial(0), view.line), (State::NoData, None, LineState::Open));
    /// assert_eq!(seat.view(&mut [0; 25]), Err(zangjulf::Fault::Room(0)));
    /// drop(line);
    /// let view = seat.view(&mut out)?;
    /// assert_eq!((view.showing, view.line), (2, LineState::Closed));
    /// # Ok(())
    /// # }
    /// ```
    pub fn view<'a>(&mut self, out: &'a mut [u8]) -> Result<View<'a>, Fault> {
        self.end.view(out)
    }

    /// Views the newest image as [`Seat::view`] does, and copies none of its data: the seat lends them for as long as it is borrowed.
    ///
    /// ```
    /// # fn main() -> Result<(), Box<dyn std::error::Error>> {
    /// # let mut line = zangjulf::Line::open(include_bytes!("../../../examples/tool_changer.toml"))?;
    /// let mut seat = line.seat(0)?;
    /// let view = seat.view_in_place()?;
    /// line.show();
    /// // what was shown since is another image
    /// assert_eq!((view.showing, view.outputs, view.bytes), (1, 14, &[0; 26][..]));
    /// let showing = seat.view_in_place()?.showing;
    /// let mut out = vec![0; zangjulf::IMAGE];
    /// assert_eq!((showing, seat.view(&mut out)?.showing), (2, 2));
    /// # Ok(())
    /// # }
    /// ```
    ///
    /// ```compile_fail
    /// # fn main() -> Result<(), Box<dyn std::error::Error>> {
    /// # let mut line = zangjulf::Line::open(include_bytes!("../../../examples/tool_changer.toml"))?;
    /// let mut seat = line.seat(0)?;
    /// let view = seat.view_in_place()?;
    /// seat.view(&mut [0; 26])?;
    /// assert_eq!(view.bytes, &[0; 26]); // the image may be another one by now
    /// # Ok(())
    /// # }
    /// ```
    pub fn view_in_place(&mut self) -> Result<View<'_>, Fault> {
        self.end.view_in_place()
    }

    /// The outputs to begin a post with, [`View::outputs`] bytes at the front of `out`: those of the seat's own last post if they fit
    /// the viewed image, else those of the image. A task changes some of them and posts all. `Room` if `out` is shorter.
    ///
    /// ```
    /// # fn main() -> Result<(), Box<dyn std::error::Error>> {
    /// # let mut line = zangjulf::Line::open(include_bytes!("../../../examples/tool_changer.toml"))?;
    /// let mut seat = line.seat(1)?;
    /// line.post(1, 0, &[0b0001])?;
    /// line.show();
    /// let epoch = seat.view(&mut [0; 2])?.epoch;
    /// let mut out = [0; 1];
    /// seat.outputs(&mut out)?[0] |= 0b0010;
    /// seat.post(epoch, &out)?;
    /// // the owner has not taken it yet, and it isn't lost all the same
    /// assert_eq!(seat.outputs(&mut out)?, &[0b0011]);
    /// # Ok(())
    /// # }
    /// ```
    pub fn outputs<'a>(&self, out: &'a mut [u8]) -> Result<&'a mut [u8], Fault> {
        self.end.outputs(out)
    }

    /// Posts all outputs of the task, made for an epoch of the viewed image, from [`View::task_epoch`] to [`View::epoch`]. It takes the
    /// place of a post of the seat that still waits. Its number, from 1: later images say whether it was taken ([`View::taken`]).
    /// `Closed` if the viewed image says that the line is closed or the seat replaced, `StalePost` for another epoch, `PostLength`; then
    /// nothing is posted.
    ///
    /// ```
    /// # fn main() -> Result<(), Box<dyn std::error::Error>> {
    /// # let mut line = zangjulf::Line::open(include_bytes!("../../../examples/tool_changer.toml"))?;
    /// use zangjulf::Fault;
    /// let mut seat = line.seat(1)?;
    /// let epoch = seat.view(&mut [0; 2])?.epoch;
    /// assert_eq!(seat.post(epoch + 1, &[0]), Err(Fault::StalePost));
    /// assert_eq!(seat.post(epoch, &[0, 0]), Err(Fault::PostLength));
    /// for number in 1..10 {
    ///     assert_eq!(seat.post(epoch, &[number])?, u64::from(number));
    /// }
    /// // the newest one is taken
    /// line.take_posts();
    /// line.show();
    /// assert_eq!(seat.view(&mut [0; 2])?.taken, 9);
    /// drop(line);
    /// seat.view(&mut [0; 2])?;
    /// assert_eq!(seat.post(epoch, &[5]), Err(Fault::Closed));
    /// # Ok(())
    /// # }
    /// ```
    pub fn post(&mut self, epoch: u32, outputs: &[u8]) -> Result<u64, Fault> {
        let mut number = 0;
        let (handle, bytes, length) = (&mut self.end.handle, outputs.as_ptr(), outputs.len());
        done(unsafe { ffi::zangjulf_seat_post(handle, epoch, bytes, length, &mut number) }, 0)?;
        Ok(number)
    }
}

impl Look {
    /// Views the newest image that was shown, as [`Seat::view`] does. `Room`.
    pub fn view<'a>(&mut self, out: &'a mut [u8]) -> Result<View<'a>, Fault> {
        self.end.view(out)
    }

    /// Views the newest image in place, as [`Seat::view_in_place`] does.
    pub fn view_in_place(&mut self) -> Result<View<'_>, Fault> {
        self.end.view_in_place()
    }

    /// The outputs of the viewed image, as they were to be sent when it was shown: [`View::outputs`] bytes at the front of `out`. `Room`
    /// if `out` is shorter.
    pub fn outputs<'a>(&self, out: &'a mut [u8]) -> Result<&'a mut [u8], Fault> {
        self.end.outputs(out)
    }
}

impl Line {
    /// Opens the seat of a task, 0 to 7, and shows it a first image. A seat that the task had before is shown a last one
    /// ([`LineState::Replaced`]). It takes all the memory that the seat ever needs. `NoSuchTask`, `Memory`; nothing changed then.
    ///
    /// ```
    /// # fn main() -> Result<(), Box<dyn std::error::Error>> {
    /// # let mut line = zangjulf::Line::open(include_bytes!("../../../examples/tool_changer.toml"))?;
    /// let seats: Vec<zangjulf::Seat> = (0..8).map(|task| line.seat(task)).collect::<Result<_, _>>()?;
    /// assert_eq!(seats.len(), 8);
    /// assert_eq!(line.seat(8).unwrap_err(), zangjulf::Fault::NoSuchTask);
    /// # Ok(())
    /// # }
    /// ```
    pub fn seat(&mut self, task: u8) -> Result<Seat, Fault> {
        let mut end = End::closed();
        done(unsafe { ffi::zangjulf_seat_open(&mut self.handle, task, &mut end.handle) }, 0)?;
        Ok(Seat { end })
    }

    /// Opens a seat that only looks at a task, 0 to 7, with a number below the lookers of [`Line::open_with_lookers`], and shows it a first
    /// image. A seat that had the number before is shown a last one ([`LineState::Replaced`]). `Misused` of another number,
    /// `NoSuchTask`, `Memory`; nothing changed then.
    ///
    /// ```
    /// # fn main() -> Result<(), Box<dyn std::error::Error>> {
    /// let text = include_bytes!("../../../examples/tool_changer.toml");
    /// let mut line = zangjulf::Line::open_with_lookers(text, 1)?;
    /// let mut look = line.look(0, 1)?;
    /// let mut next = line.look(0, 0)?;
    /// assert_eq!(look.view(&mut [0; 2])?.line, zangjulf::LineState::Replaced);
    /// assert_eq!(next.view(&mut [0; 26])?.line, zangjulf::LineState::Open);
    /// assert_eq!(line.look(1, 0).unwrap_err(), zangjulf::Fault::Misused);
    /// # Ok(())
    /// # }
    /// ```
    pub fn look(&mut self, number: u32, task: u8) -> Result<Look, Fault> {
        let mut end = End::closed();
        done(unsafe { ffi::zangjulf_look_open(&mut self.handle, number, task, &mut end.handle) }, 0)?;
        Ok(Look { end })
    }

    /// Shows each seat what its task reads now, and the outputs that would be sent now.
    ///
    /// ```
    /// # fn main() -> Result<(), Box<dyn std::error::Error>> {
    /// # let mut line = zangjulf::Line::open(include_bytes!("../../../examples/tool_changer.toml"))?;
    /// let mut seat = line.seat(1)?;
    /// line.edit(&zangjulf::Edit::Connect(200))?;
    /// line.show();
    /// assert_eq!(seat.view(&mut vec![0; zangjulf::IMAGE])?.epoch, 1);
    /// # Ok(())
    /// # }
    /// ```
    pub fn show(&mut self) {
        unsafe { ffi::zangjulf_show(&mut self.handle) };
    }

    /// Takes the post of each task's seat that waits, the newest one, task 0's first, and does each as [`Line::post`] does. One that was
    /// made before the last edit that changed its task is refused, and leaves nothing.
    ///
    /// ```
    /// # fn main() -> Result<(), Box<dyn std::error::Error>> {
    /// # let mut line = zangjulf::Line::open(include_bytes!("../../../examples/tool_changer.toml"))?;
    /// let mut seat = line.seat(1)?;
    /// let epoch = seat.view(&mut [0; 2])?.epoch;
    /// seat.post(epoch, &[1])?;
    /// line.edit(&zangjulf::Edit::Connect(200))?;
    /// let taken = line.take_posts();
    /// assert!(taken.is_refused(1) && !taken.is_accepted(1));
    /// # Ok(())
    /// # }
    /// ```
    pub fn take_posts(&mut self) -> Taken {
        let mut taken = Taken::default();
        unsafe { ffi::zangjulf_take_posts(&mut self.handle, &mut taken) };
        taken
    }
}
