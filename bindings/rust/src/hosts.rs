//! Hosts and their sessions.

use crate::sys::{self, Answer, Handle};
use crate::{asked, refusal, text, Error};

/// The number of an open session of a host. A host gives 0, 1, 2 and so on, and none twice.
#[derive(Clone, Copy, Debug, PartialEq, Eq, PartialOrd, Ord, Hash)]
pub struct Session(u64);

impl Session {
    /// The number.
    pub fn id(self) -> u64 {
        self.0
    }
}

/// What was sent: the number of the channel, and what was sent on it.
#[repr(C)]
#[derive(Clone, Copy, Debug, Default, PartialEq, Eq)]
pub struct Pair {
    pub channel: u32,
    pub number: i32,
}

/// How a run stands.
#[derive(Clone, Copy, Debug, PartialEq, Eq)]
pub enum Run {
    /// A further turn goes on.
    Running,
    /// It has ended.
    Finished,
    /// It has ended by the exception of this number: 0 Arith, 1 Bounds, 2 End, and from 3 on those of the module.
    Threw(u32),
    /// It has ended at a call where 512 frames were in use.
    Deep,
    /// There was no memory for its next step, and a further turn takes that step.
    OutOfMemory,
}

/// What a turn came to: how many steps it took, and how the run then stands.
#[derive(Clone, Copy, Debug, PartialEq, Eq)]
pub struct Turn {
    pub taken: u64,
    pub run: Run,
}

/// A host of at most 64 open sessions, each a run of a module on a world of its own.
///
/// A call that is refused has changed no session. A host may go to another thread, and is used by one at a time:
///
/// ```
/// fn goes<T: Send>(_: T) {}
/// goes(flowc::Host::new().unwrap());
/// ```
///
/// ```compile_fail
/// fn is_shared<T: Sync>(_: T) {}
/// is_shared(flowc::Host::new().unwrap());
/// ```
pub struct Host {
    // It holds a host from `new` on, until it is dropped.
    handle: Handle,
}

// The library ties a host to no thread, and has no state beside it.
unsafe impl Send for Host {}

impl Host {
    /// A host without sessions.
    pub fn new() -> Result<Host, Error> {
        let mut host = Host { handle: Handle { at: std::ptr::null_mut(), full: false } };
        // Safe here and below: the handle is zeros at first, only the library writes it, and `&mut` lets one call of it happen at a time.
        match unsafe { sys::flowc_host_new(&mut host.handle) } {
            sys::DONE => Ok(host),
            _ => Err(Error::NoMemory),
        }
    }

    /// Opens a session of a module on the world that a text writes.
    pub fn open(&mut self, module: &[u8], world: &[u8]) -> Result<Session, Error> {
        let (m, w) = (module, world);
        let (answer, words) = asked(64, |out, size| unsafe {
            sys::flowc_host_open(&mut self.handle, m.as_ptr(), m.len(), w.as_ptr(), w.len(), out, size)
        });
        done(answer, || text(words)).map(|answer| Session(answer.id))
    }

    /// Opens a session as [`Host::open`] does, under a hierarchy that contains the module's. Its principals view the session, and are
    /// numbered as [`principal`] says of a module that is compiled under it.
    pub fn open_under(&mut self, module: &[u8], world: &[u8], hierarchy: &[u8]) -> Result<Session, Error> {
        let (m, w, h) = (module, world, hierarchy);
        let (answer, words) = asked(64, |out, size| unsafe {
            sys::flowc_host_open_under(&mut self.handle, m.as_ptr(), m.len(), w.as_ptr(), w.len(), h.as_ptr(), h.len(), out, size)
        });
        done(answer, || text(words)).map(|answer| Session(answer.id))
    }

    /// Lets a session take at most so many steps.
    pub fn turn(&mut self, session: Session, steps: u64) -> Result<Turn, Error> {
        turned(unsafe { sys::flowc_host_turn(&mut self.handle, session.0, steps) })
    }

    /// How the run of a session stands, as a turn of 0 steps says it.
    pub fn status(&mut self, session: Session) -> Result<Run, Error> {
        turned(unsafe { sys::flowc_host_status(&mut self.handle, session.0) }).map(|turn| turn.run)
    }

    /// What the principal of a number ([`principal`]) sees of what a session has sent so far, in order.
    pub fn view(&mut self, session: Session, principal: u32) -> Result<Vec<Pair>, Error> {
        let (answer, pairs) = asked(64, |out, size| unsafe { sys::flowc_host_view(&mut self.handle, session.0, principal, out, size) });
        event(answer).map(|_| pairs)
    }

    /// All that a session has sent so far, for the operator: no label is looked at.
    pub fn sent(&mut self, session: Session) -> Result<Vec<Pair>, Error> {
        let (answer, pairs) = asked(64, |out, size| unsafe { sys::flowc_host_sent(&mut self.handle, session.0, out, size) });
        event(answer).map(|_| pairs)
    }

    /// Closes a session. Its id is not given again.
    pub fn close(&mut self, session: Session) -> Result<(), Error> {
        event(unsafe { sys::flowc_host_close(&mut self.handle, session.0) }).map(|_| ())
    }
}

impl Drop for Host {
    fn drop(&mut self) {
        unsafe { sys::flowc_host_free(&mut self.handle) }
    }
}

/// The number by which a module knows the principal of this name. `None`: the bytes spell no module, or one without such a principal.
pub fn principal(module: &[u8], name: &str) -> Result<Option<u32>, Error> {
    match unsafe { sys::flowc_principal(module.as_ptr(), module.len(), name.as_ptr(), name.len()) } {
        sys::NO_PRINCIPAL => Ok(None),
        sys::PRINCIPAL_NO_MEMORY => Err(Error::NoMemory),
        number => Ok(Some(number)),
    }
}

// The answer of a call that is done, or why it is not.
fn done(answer: Answer, words: impl FnOnce() -> String) -> Result<Answer, Error> {
    match answer.end.status {
        sys::DONE => Ok(answer),
        sys::NO_HOST => unreachable!("a Host holds a host until it is dropped"),
        _ => Err(refusal(&answer.end, words())),
    }
}

// The same of a call to which the library gives no words.
fn event(answer: Answer) -> Result<Answer, Error> {
    let words = match answer.end.number {
        153 => "unknown principal",
        902 => "unknown id",
        _ => "refused",
    };
    done(answer, || words.to_string())
}

fn turned(answer: Answer) -> Result<Turn, Error> {
    let answer = event(answer)?;
    let run = match answer.run {
        0 => Run::Running,
        1 => Run::Finished,
        2 => Run::Threw(answer.thrown),
        3 => Run::Deep,
        _ => Run::OutOfMemory,
    };
    Ok(Turn { taken: answer.taken, run })
}

#[cfg(test)]
mod tests {
    use super::*;
    use crate::{compile, Place};

    const SOURCE: &[u8] =
        b"input{Alice:} s; output{Alice:} a; output{} n; void main() throws (End{Alice:}) { send n, 1; int x = receive s; send a, x; }";

    fn module() -> Vec<u8> {
        compile(b"principal Alice, Bob;", SOURCE).unwrap()
    }

    fn pair(channel: u32, number: i32) -> Pair {
        Pair { channel, number }
    }

    #[test]
    fn shows_to_each_what_it_may_read() {
        let (mut host, module) = (Host::new().unwrap(), module());
        let session = host.open(&module, b"s = -7").unwrap();
        assert_eq!(host.turn(session, 1).unwrap(), Turn { taken: 1, run: Run::Running });
        assert_eq!(host.turn(session, 1000).unwrap().run, Run::Finished);
        assert_eq!(host.status(session), Ok(Run::Finished));
        let (alice, bob) = (principal(&module, "Alice").unwrap().unwrap(), principal(&module, "Bob").unwrap().unwrap());
        assert_eq!(host.view(session, alice).unwrap(), [pair(2, 1), pair(1, -7)]);
        assert_eq!(host.view(session, bob).unwrap(), [pair(2, 1)]);
        assert_eq!(host.sent(session).unwrap(), [pair(2, 1), pair(1, -7)]);
        assert_eq!(principal(&module, "Carol"), Ok(None));
    }

    #[test]
    fn says_why_an_event_is_refused() {
        let (mut host, module) = (Host::new().unwrap(), module());
        let fault = host.open(&module, b"s = 1\nt = 2").unwrap_err();
        assert_eq!((fault.number(), fault.place()), (Some(852), Some(Place::World { line: 2 })));
        let fault = host.open(&module[..9], b"").unwrap_err();
        assert_eq!(fault.to_string(), "9: 803 short");
        let session = host.open(&module, b"").unwrap();
        assert_eq!(host.view(session, 2).unwrap_err().to_string(), "153 unknown principal");
        host.close(session).unwrap();
        assert_eq!(host.turn(session, 1).unwrap_err().to_string(), "902 unknown id");
        assert_eq!(host.open(&module, b"").unwrap().id(), 1);
    }

    #[test]
    fn shows_to_the_principals_of_a_larger_hierarchy() {
        let (mut host, module) = (Host::new().unwrap(), module());
        let hierarchy = b"principal Dave, Bob, Alice; Dave actsfor Alice;";
        let session = host.open_under(&module, b"s = 3", hierarchy).unwrap();
        host.turn(session, 1000).unwrap();
        let named = compile(hierarchy, b"void main() { }").unwrap();
        let view = |host: &mut Host, name| host.view(session, principal(&named, name).unwrap().unwrap()).unwrap().len();
        assert_eq!((view(&mut host, "Dave"), view(&mut host, "Alice"), view(&mut host, "Bob")), (2, 2, 1));
        let fault = host.open_under(&module, b"", b"principal Alice;").unwrap_err();
        assert_eq!(fault.number(), Some(903));
        let fault = host.open_under(&module, b"", b"principal Alice").unwrap_err();
        assert_eq!((fault.number(), fault.place()), (Some(151), Some(Place::Hierarchy { line: 1, column: 16 })));
    }

    #[test]
    fn a_run_without_numbers_throws() {
        let mut host = Host::new().unwrap();
        let session = host.open(&module(), b"").unwrap();
        assert_eq!(host.turn(session, 1000).unwrap().run, Run::Threw(2));
    }

    #[test]
    fn shows_more_than_the_first_place_holds() {
        let mut host = Host::new().unwrap();
        let module = compile(b"principal Alice;", b"output{} n; void main() { int i = 0; while (i < 200) { send n, i; i = i + 1; } }").unwrap();
        let session = host.open(&module, b"").unwrap();
        host.turn(session, 100_000).unwrap();
        let pairs = host.view(session, 0).unwrap();
        assert_eq!((pairs.len(), pairs[199]), (200, pair(0, 199)));
    }

    #[test]
    fn a_host_goes_to_another_thread() {
        let (mut host, module) = (Host::new().unwrap(), module());
        let session = host.open(&module, b"s = 3").unwrap();
        let mut host = std::thread::spawn(move || {
            host.turn(session, 1000).unwrap();
            host
        })
        .join()
        .unwrap();
        assert_eq!(host.view(session, 0).unwrap().len(), 2);
    }
}
