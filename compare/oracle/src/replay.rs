// SPDX-License-Identifier: Apache-2.0 AND BSD-3-Clause
//! A script as it runs: the image, the crate's queue, and the current pass and chain.

use std::fmt::Write as _;

use virtio_queue::desc::split::Descriptor;
use virtio_queue::{DescriptorChain, Error, Queue, QueueOwnedT, QueueT};
use vm_memory::ByteValued;

use crate::command::{parse, Area, Command, Wanted};
use crate::crc::Crc;
use crate::domain::{ChainPlace, KeptPass};
use crate::image::{Image, Memory, NoRegion, LARGEST_IMAGE};

/// The current chain, and where it stands.
pub struct Chain {
    pub(crate) chain: DescriptorChain<Memory>,
    pub(crate) place: ChainPlace,
}

/// A script as it runs.
pub struct Replay {
    lines: u64,
    pub(crate) image: Image,
    pub(crate) queue: Option<Queue>,
    pub(crate) pass: Option<KeptPass>,
    pub(crate) chain: Option<Chain>,
}

/// What a command came to: an answer, or an error that is answered with the line's number.
type Answer = Result<String, &'static str>;

impl Default for Replay {
    fn default() -> Self {
        Self::new()
    }
}

impl Replay {
    /// Before the first line.
    pub fn new() -> Self {
        Replay { lines: 0, image: Image::new(0), queue: None, pass: None, chain: None }
    }

    /// How many lines were read.
    pub fn lines(&self) -> u64 {
        self.lines
    }

    /// The image.
    pub fn image(&self) -> &Image {
        &self.image
    }

    /// The queue, if there is one.
    pub fn queue(&self) -> Option<&Queue> {
        self.queue.as_ref()
    }

    /// Runs a line and appends its answer, if it has one.
    pub fn line(&mut self, line: &[u8], out: &mut Vec<u8>) {
        self.lines += 1;
        let (name, answer) = match parse(line) {
            Ok(None) => return,
            Ok(Some((name, command))) => (name, self.run(command)),
            Err(bad) => ("", Err(bad.text())),
        };
        let text = match answer {
            Ok(answer) => format!("{name}: {answer}\n"),
            Err(error) => format!("error: line {}: {error}\n", self.lines),
        };
        out.extend_from_slice(text.as_bytes());
    }

    fn run(&mut self, command: Command) -> Answer {
        if command.is_image() {
            return self.run_image(command);
        }
        if let Command::Queue { largest } = command {
            return Ok(self.make_queue(largest));
        }
        if self.queue.is_none() {
            return Err("no queue");
        }
        self.note_interruption(&command);
        self.run_queue(command)
    }

    fn run_image(&mut self, command: Command) -> Answer {
        match command {
            Command::Memory { len } => Ok(self.make_image(len)),
            Command::Region { base, len, offset } => {
                let added = self.image.add_region(base, len, offset);
                Ok(added.map_or_else(NoRegion::text, |()| "ok").into())
            }
            Command::Store { offset, bytes, counted } => {
                self.inside(offset, bytes.len() as u64)?;
                self.image.store(offset, &bytes);
                Ok(if counted { bytes.len().to_string() } else { "ok".into() })
            }
            Command::Fill { offset, count, byte } => {
                self.inside(offset, count)?;
                self.image.fill(offset, count, byte);
                Ok(count.to_string())
            }
            Command::Dump { offset, count } => {
                self.inside(offset, count)?;
                let bytes = self.image.bytes(offset, count);
                Ok(bytes.iter().map(|byte| format!("{byte:02x}")).collect::<Vec<_>>().join(" "))
            }
            Command::Sum => Ok(format!("{:08x}", self.image.sum())),
            _ => unreachable!("not of the image"),
        }
    }

    fn inside(&self, offset: u64, count: u64) -> Result<(), &'static str> {
        if self.image.holds(offset, count) {
            Ok(())
        } else {
            Err("outside the image")
        }
    }

    fn make_image(&mut self, len: u64) -> String {
        if len > LARGEST_IMAGE {
            return "refused".into();
        }
        self.image = Image::new(len);
        (self.queue, self.pass, self.chain) = (None, None, None);
        len.to_string()
    }

    fn make_queue(&mut self, largest: u16) -> String {
        match Queue::new(largest) {
            Ok(queue) => {
                (self.queue, self.pass, self.chain) = (Some(queue), None, None);
                "ok".into()
            }
            Err(_) => {
                self.interrupt_pass();
                "refused largest size".into()
            }
        }
    }

    fn run_queue(&mut self, command: Command) -> Answer {
        let memory = self.image.memory();
        let queue = self.queue.as_mut().expect("tested by the caller");
        Ok(match command {
            Command::Size(size) => ok_or(worked(|| queue.set_size(size)), "refused size"),
            Command::Address { area, low, high } => {
                ok_or(worked(|| set_address(queue, area, low, high)), "refused alignment")
            }
            Command::Ready(ready) => ok_or(worked(|| queue.set_ready(ready)), "refused"),
            Command::Event(enabled) => ok_or(worked(|| queue.set_event_idx(enabled)), "refused"),
            Command::NextAvail(position) => ok_or(worked(|| queue.set_next_avail(position)), "refused"),
            Command::NextUsed(position) => ok_or(worked(|| queue.set_next_used(position)), "refused"),
            Command::Reset => {
                queue.reset();
                (self.pass, self.chain) = (None, None);
                "ok".into()
            }
            Command::Valid => yes_or_no(queue.is_valid(&*memory)),
            Command::Put { head, len } => answer(queue.add_used(&*memory, head, len).map(|()| "ok".into())),
            Command::Stop => answer(queue.disable_notification(&*memory).map(|()| "ok".into())),
            Command::Ask => answer(queue.enable_notification(&*memory).map(yes_or_no)),
            Command::Question => answer(queue.needs_notification(&*memory).map(yes_or_no)),
            Command::State => state(queue),
            Command::Begin => self.begin(),
            Command::Head => return self.head(),
            Command::Pop => self.pop(),
            Command::Back => self.back(),
            Command::Chain { head } => self.start_chain(head),
            Command::Descriptor(wanted) => return self.descriptor(wanted),
            Command::Walk => return self.walk(),
            _ => unreachable!("not of the queue"),
        })
    }

    fn begin(&mut self) -> String {
        let memory = self.image.memory();
        let begun = self.queue_mut().begin_pass(memory);
        self.pass = None;
        answer(begun.map(|pass| {
            self.pass = Some(KeptPass::new(pass));
            "ok".into()
        }))
    }

    fn head(&mut self) -> Answer {
        let memory = self.image.memory();
        let pass = self.pass.as_ref().ok_or("no pass")?.pass;
        let (table, _, size, _) = pass;
        let head = self.queue_mut().next_of_pass(pass, memory);
        Ok(self.taken(head, table, size))
    }

    fn pop(&mut self) -> String {
        self.pass = None;
        let memory = self.image.memory();
        let queue = self.queue_mut();
        let (table, size) = (queue.desc_table(), queue.size());
        let head = queue.pop_descriptor_chain(memory);
        self.taken(head, table, size)
    }

    fn taken(&mut self, head: Option<DescriptorChain<Memory>>, table: u64, size: u16) -> String {
        let Some(chain) = head else {
            return "none".into();
        };
        let head = chain.head_index();
        self.chain = Some(Chain { chain, place: ChainPlace::new(table, size, head) });
        head.to_string()
    }

    fn back(&mut self) -> String {
        let memory = self.image.memory();
        match self.pass.as_ref().map(|kept| kept.pass) {
            Some(pass) => self.queue_mut().back_in_pass(pass, memory),
            None => self.queue_mut().go_to_previous_position(),
        }
        "ok".into()
    }

    fn start_chain(&mut self, head: u16) -> String {
        let memory = self.image.memory();
        let queue = self.queue_mut();
        let place = ChainPlace::new(queue.desc_table(), queue.size(), head);
        let chain = queue.chain_at(memory, head);
        self.chain = Some(Chain { chain, place });
        head.to_string()
    }

    fn descriptor(&mut self, wanted: Wanted) -> Answer {
        let chain = self.chain.as_mut().ok_or("no chain")?;
        Ok(match chain.wanted(wanted) {
            Some(desc) => format!("{} {} {} {}", desc.addr().0, desc.len(), desc.flags(), desc.next()),
            None => "none".into(),
        })
    }

    fn walk(&mut self) -> Answer {
        let chain = self.chain.as_mut().ok_or("no chain")?;
        let (mut count, mut crc) = (0u32, Crc::new());
        while let Some(desc) = chain.next() {
            count += 1;
            crc.add(desc.as_slice());
        }
        Ok(format!("{count} {:08x}", crc.sum()))
    }

    fn queue_mut(&mut self) -> &mut Queue {
        self.queue.as_mut().expect("queue commands are run only with a queue")
    }
}

impl Chain {
    pub(crate) fn next(&mut self) -> Option<Descriptor> {
        let desc = self.chain.next();
        self.place.after(desc.as_ref());
        desc
    }

    /// The filtered walks of the crate take the chain away. So a copy of the chain goes the crate's filtered way and
    /// gives the answer, and the chain itself is brought to the same place.
    fn wanted(&mut self, wanted: Wanted) -> Option<Descriptor> {
        let found = match wanted {
            Wanted::Next => return self.next(),
            Wanted::Readable => self.chain.clone().readable().next(),
            Wanted::Writable => self.chain.clone().writable().next(),
        };
        loop {
            let desc = self.next();
            let is_it = desc.is_none_or(|desc| desc.is_write_only() == (wanted == Wanted::Writable));
            if is_it {
                let bytes = |desc: &Option<Descriptor>| desc.as_ref().map(|desc| desc.as_slice().to_vec());
                assert_eq!(bytes(&desc), bytes(&found), "the filtered walk and the plain one part");
                return found;
            }
        }
    }
}

fn set_address(queue: &mut Queue, area: Area, low: Option<u32>, high: Option<u32>) {
    match area {
        Area::Table => queue.set_desc_table_address(low, high),
        Area::Avail => queue.set_avail_ring_address(low, high),
        Area::Used => queue.set_used_ring_address(low, high),
    }
}

/// Whether a setter of the crate worked: one that refuses says so in the log and nowhere else.
fn worked(setter: impl FnOnce()) -> bool {
    let before = log::errors();
    setter();
    log::errors() == before
}

fn ok_or(worked: bool, refusal: &str) -> String {
    if worked {
        "ok".into()
    } else {
        refusal.into()
    }
}

fn yes_or_no(yes: bool) -> String {
    if yes {
        "yes".into()
    } else {
        "no".into()
    }
}

/// The crate's errors in the language's words.
fn answer(result: Result<String, Error>) -> String {
    match result {
        Ok(answer) => answer,
        Err(Error::QueueNotReady) => "refused not ready".into(),
        Err(Error::InvalidAvailRingIndex) => "refused available index".into(),
        Err(Error::InvalidDescriptorIndex) => "refused descriptor index".into(),
        Err(Error::GuestMemory(_) | Error::AddressOverflow) => "refused memory".into(),
        Err(other) => panic!("the queue answered an error that it has no reason for: {other}"),
    }
}

fn state(queue: &Queue) -> String {
    let state = queue.state();
    let mut text = String::new();
    let _ = write!(text, "{} {} {} ", state.max_size, state.next_avail, state.next_used);
    let _ = write!(text, "{} {} {} ", u8::from(state.event_idx_enabled), state.size, u8::from(state.ready));
    let _ = write!(text, "{} {} {}", state.desc_table, state.avail_ring, state.used_ring);
    text
}
