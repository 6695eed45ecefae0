//! Decisions of Kubernetes' RBAC, by Kapi's library.
//!
//! ```
//! # let objects = include_bytes!(concat!(env!("CARGO_MANIFEST_DIR"), "/tests/objects.jsonl"));
//! let mut policy = kapi::Policy::load(objects)?;
//! let logs = kapi::Question { user: "ann", verb: "get", resource: "pods/log", namespace: "web", ..Default::default() };
//! assert!(policy.may(&logs)?);
//! assert!(!policy.may(&kapi::Question { user: "bob", ..logs })?);
//! # Ok::<(), kapi::Error>(())
//! ```

mod header;

use std::fmt;
use std::ptr::{null_mut, NonNull};

/// Why there is no answer.
#[derive(Clone, Copy, Debug, PartialEq, Eq)]
pub enum Error {
    Memory,
    /// This line of the objects, counted from 1, is not loaded.
    Line(usize),
    /// A text is no UTF-8.
    Text,
    /// What is asked is no question, as of a resource with two slashes.
    Question,
    /// The library has another interface.
    Interface(u32),
    Other(u32),
}

impl fmt::Display for Error {
    fn fmt(&self, out: &mut fmt::Formatter<'_>) -> fmt::Result {
        match self {
            Error::Memory => write!(out, "memory ran out"),
            Error::Line(line) => write!(out, "line {line} holds no object that can be created"),
            Error::Text => write!(out, "a text is no UTF-8"),
            Error::Question => write!(out, "there is no such question"),
            Error::Interface(number) => write!(out, "the library has interface {number}"),
            Error::Other(status) => write!(out, "status {status}"),
        }
    }
}

impl std::error::Error for Error {}

/// What a policy says.
#[derive(Clone, Copy, Debug, Default, PartialEq, Eq)]
pub enum Decision {
    #[default]
    Denied,
    Allowed,
    /// A member of `system:masters` may do everything.
    Masters,
}

/// Whether a user may do something. No group is added: name `system:authenticated` too. With a path, it is asked about that.
#[derive(Clone, Copy, Debug, Default)]
pub struct Question<'a> {
    pub user: &'a str,
    pub groups: &'a [&'a str],
    pub namespace: &'a str,
    pub verb: &'a str,
    pub group: &'a str,
    pub resource: &'a str,
    pub subresource: &'a str,
    pub name: &'a str,
    pub path: &'a str,
}

/// A policy that was loaded. It answers one call at a time, so a call takes it by `&mut`. It may go to another thread, and
/// `share` gives each its own.
#[derive(Debug)]
pub struct Policy {
    handle: NonNull<header::Policy>,
}

// SAFETY: it is proved of the library that what a handle points to may go to another thread.
unsafe impl Send for Policy {}

impl Policy {
    /// Loads objects, a JSON object a line.
    pub fn load(objects: &[u8]) -> Result<Policy, Error> {
        // SAFETY: the call takes nothing.
        let interface = unsafe { header::kapi_abi() };
        if interface != header::ABI {
            return Err(Error::Interface(interface));
        }
        let (mut line, mut handle) = (0, null_mut());
        // SAFETY: the slice and both places outlive the call, and lie apart.
        let status = unsafe { header::kapi_load(objects.as_ptr().cast(), objects.len(), &mut line, &mut handle) };
        check(status, line)?;
        NonNull::new(handle).map(|handle| Policy { handle }).ok_or(Error::Memory)
    }

    /// The same policy for another thread. Nothing is copied.
    pub fn share(&mut self) -> Result<Policy, Error> {
        let mut handle = null_mut();
        // SAFETY: the handle is this policy's, `&mut self` keeps other calls away, and the place outlives the call.
        check(unsafe { header::kapi_share(self.handle.as_ptr(), &mut handle) }, 0)?;
        NonNull::new(handle).map(|handle| Policy { handle }).ok_or(Error::Memory)
    }

    /// Whether the policy allows it.
    pub fn may(&mut self, question: &Question<'_>) -> Result<bool, Error> {
        Ok(self.decide(question)? != Decision::Denied)
    }

    /// The decision.
    pub fn decide(&mut self, question: &Question<'_>) -> Result<Decision, Error> {
        Ok(decision(self.ask(header::WANTS_DECISION, question, b"", &[])?.0))
    }

    /// The decision, and the line that `kapi audit` writes of it.
    pub fn why(&mut self, question: &Question<'_>) -> Result<(Decision, String), Error> {
        let (number, line) = self.ask(header::WANTS_LINE, question, b"", &[])?;
        Ok((decision(number), line.trim_end_matches('\n').to_string()))
    }

    /// Who may do what is asked, whoever its user is, in its namespace or anywhere: as `kapi who --json`, an object a line.
    pub fn who(&mut self, question: &Question<'_>, anywhere: bool) -> Result<String, Error> {
        let wants = if anywhere { header::WANTS_WHO_ANYWHERE } else { header::WANTS_WHO };
        Ok(self.ask(wants, question, b"", &[])?.1)
    }

    /// What a user with groups has in a namespace, or everywhere if that is empty: as `kapi what --json`.
    pub fn what(&mut self, user: &str, groups: &[&str], namespace: &str) -> Result<String, Error> {
        let question = Question { user, groups, namespace, ..Question::default() };
        Ok(self.ask(header::WANTS_WHAT, &question, b"", &[])?.1)
    }

    /// Who may gain more than the policy gives: as `kapi risks --json`.
    pub fn risks(&mut self) -> Result<String, Error> {
        Ok(self.ask(header::WANTS_RISKS, &Question::default(), b"", &[])?.1)
    }

    /// Who can become whom, or only one, if `to` is not empty, without the rights of some kinds: as `kapi paths --json`.
    pub fn paths(&mut self, to: &str, without: &[&str]) -> Result<String, Error> {
        Ok(self.ask(header::WANTS_PATHS, &Question::default(), to.as_bytes(), without)?.1)
    }

    /// What the question's user lacks, in its namespace, of the role that its name names, a JSON list a line. Its resource is
    /// the kind, `Role` or `ClusterRole`. A role that is not there is `Error::Question`.
    pub fn missing(&mut self, question: &Question<'_>) -> Result<String, Error> {
        Ok(self.ask(header::WANTS_MISSING, question, b"", &[])?.1)
    }

    /// Whether other objects give nobody more, if both policies are settled; and who gains what, as `kapi compare --json`.
    pub fn gains(&mut self, objects: &[u8]) -> Result<(bool, String), Error> {
        let (number, lines) = self.ask(header::WANTS_GAINS, &Question::default(), objects, &[])?;
        Ok((number == 1, lines))
    }

    /// Whether each aggregated cluster role has all that it takes from others.
    pub fn is_settled(&mut self) -> Result<bool, Error> {
        Ok(self.ask(header::WANTS_SETTLED, &Question::default(), b"", &[])?.0 == 1)
    }

    fn ask(&mut self, wants: u32, question: &Question<'_>, other: &[u8], without: &[&str]) -> Result<(u32, String), Error> {
        let groups: Vec<header::Text> = question.groups.iter().map(|it| text(it.as_bytes())).collect();
        let without: Vec<header::Text> = without.iter().map(|it| text(it.as_bytes())).collect();
        let question = passed(question, &groups);
        let call = header::Call { wants, form: header::FORM_JSON, question, other: text(other), without: texts(&without) };
        let mut answer = header::Answer::default();
        let mut room = vec![0; if wants >= header::WANTS_LINE { 1024 } else { 0 }];
        loop {
            // SAFETY: the handle is this policy's, `&mut self` keeps other calls away, and all that is passed outlives the call.
            let status = unsafe {
                header::kapi_ask(self.handle.as_ptr(), &call, &mut answer, room.as_mut_ptr().cast(), room.len())
            };
            if status != 5 {
                check(status, answer.length)?;
                break;
            }
            room.resize(answer.length, 0);
        }
        room.truncate(answer.length);
        Ok((answer.decision, String::from_utf8(room).map_err(|_| Error::Text)?))
    }
}

impl Drop for Policy {
    fn drop(&mut self) {
        // SAFETY: the handle is this policy's, and is used no more.
        unsafe { header::kapi_drop(self.handle.as_ptr()) }
    }
}

fn decision(number: u32) -> Decision {
    match number {
        1 => Decision::Allowed,
        2 => Decision::Masters,
        _ => Decision::Denied,
    }
}

fn text(bytes: &[u8]) -> header::Text {
    header::Text { bytes: bytes.as_ptr(), length: bytes.len() }
}

fn texts(texts: &[header::Text]) -> header::Texts {
    header::Texts { texts: texts.as_ptr(), length: texts.len() }
}

fn passed(question: &Question<'_>, groups: &[header::Text]) -> header::Question {
    let of = |it: &str| text(it.as_bytes());
    header::Question {
        user: of(question.user),
        groups: texts(groups),
        name_space: of(question.namespace),
        verb: of(question.verb),
        group: of(question.group),
        resource: of(question.resource),
        subresource: of(question.subresource),
        name: of(question.name),
        path: of(question.path),
    }
}

fn check(status: u32, line: usize) -> Result<(), Error> {
    match status {
        0 => Ok(()),
        1 => Err(Error::Memory),
        2 => Err(Error::Line(line)),
        3 => Err(Error::Text),
        4 => Err(Error::Question),
        other => Err(Error::Other(other)),
    }
}
