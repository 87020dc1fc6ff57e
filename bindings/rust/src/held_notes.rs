use crate::raw;
use crate::{Class, Delivery, Refusal, StreamEvent, UmpData};

lend! {
    fn sirmjold_held_start(group: u8) -> raw::Given;
    fn sirmjold_held_delivered(
        held: raw::Held, refusal: u8, class: u8, lost_count: u16, body: &[u8]) -> raw::Given;
    fn sirmjold_held_told(held: raw::Held, kind: u8) -> raw::Given;
    fn sirmjold_held_restarted(held: raw::Held) -> raw::Given;
}

/// The held notes of one group: which notes a chamber sounds, so that a loss or a restart silences them
/// and no pipe sounds on. It is told what the stream answers.
///
/// ```
/// use sirmjold::{HeldNotes, Read, Reader, Stream, StreamConfig};
///
/// let cfg = StreamConfig::default();
/// let mut chamber = Stream::new(&cfg, 64, 4, [0; 256])?;
/// let mut held = HeldNotes::start(0)?;
/// let mut reader = Reader::new();
/// let mut commands = reader.read(b"MIDI\xFF\x01\0\0\x20\x90\x3C\x40");
/// while let Some(command) = commands.next_command()? {
///     let Read::UmpData(data) = command else { continue };
///     let delivery = chamber.on_ump_data(&cfg, 0, data.seq)?;
///     held.delivered(&delivery, &data);
/// }
/// assert!(held.notes().eq([(0, 0x3C)]));
/// # Ok::<(), sirmjold::Refusal>(())
/// ```
#[derive(Debug, Clone, Copy, PartialEq, Eq)]
pub struct HeldNotes {
    state: raw::Held,
}

/// Notes that were held until a loss or a restart, by channel, then note, each once: about 4 KB.
///
/// ```
/// let mut held = sirmjold::HeldNotes::start(0)?;
/// for (channel, note) in held.restarted().notes() {
///     println!("silence note {note} of channel {channel}");
/// }
/// # Ok::<(), sirmjold::Refusal>(())
/// ```
#[derive(Debug, Clone, Copy, PartialEq, Eq)]
pub struct GivenNotes {
    notes: raw::Notes,
}

impl GivenNotes {
    /// Each as its channel and its note.
    ///
    /// ```
    /// let mut held = sirmjold::HeldNotes::start(0)?;
    /// assert_eq!(held.restarted().notes().count(), 0); // none was held
    /// # Ok::<(), sirmjold::Refusal>(())
    /// ```
    pub fn notes(&self) -> impl Iterator<Item = (u8, u8)> + '_ {
        self.notes
            .items
            .iter()
            .take(self.notes.count)
            .map(|&n| ((n / 128) as u8, (n % 128) as u8))
    }
}

impl HeldNotes {
    /// No note of the group is held; refused when it is above 15.
    ///
    /// ```
    /// use sirmjold::{HeldNotes, Refusal};
    ///
    /// assert!(HeldNotes::start(15).is_ok());
    /// assert_eq!(HeldNotes::start(16), Err(Refusal::SizeNotAllowed));
    /// ```
    pub fn start(group: u8) -> Result<HeldNotes, Refusal> {
        let given = sirmjold_held_start(group);
        Refusal::check(given.refusal)?;
        Ok(HeldNotes { state: given.state })
    }

    // A group that was started is never refused.
    fn after(&mut self, given: raw::Given) -> GivenNotes {
        self.state = given.state;
        GivenNotes { notes: given.notes }
    }

    /// Whether a note is held, by its channel and its note; none is above 15 or 127.
    ///
    /// ```
    /// let held = sirmjold::HeldNotes::start(0)?;
    /// assert!(!held.holds(0, 0x3C));
    /// # Ok::<(), sirmjold::Refusal>(())
    /// ```
    pub fn holds(&self, channel: u8, note: u8) -> bool {
        let k = usize::from(channel % 16) * 128 + usize::from(note % 128);
        channel < 16 && note < 128 && self.state.held[k / 64] >> (k % 64) & 1 == 1
    }

    /// The notes that are held, by channel, then note.
    ///
    /// ```
    /// let held = sirmjold::HeldNotes::start(0)?;
    /// assert_eq!(held.notes().next(), None);
    /// # Ok::<(), sirmjold::Refusal>(())
    /// ```
    pub fn notes(&self) -> impl Iterator<Item = (u8, u8)> + '_ {
        (0..16)
            .flat_map(|channel| (0..128).map(move |note| (channel, note)))
            .filter(|&(channel, note)| self.holds(channel, note))
    }

    /// A data command was answered so: a loss first, then all of its messages. The notes that the loss silences.
    ///
    /// ```
    /// use sirmjold::{Class, Delivery, HeldNotes, Read, Reader, SeqRange};
    ///
    /// let mut held = HeldNotes::start(0)?;
    /// let mut reader = Reader::new();
    /// let mut commands = reader.read(b"MIDI\xFF\x01\0\0\x20\x90\x3C\x40");
    /// let Some(Read::UmpData(data)) = commands.next_command()? else { panic!() };
    /// let late = Delivery { class: Class::Late, gap: None, lost: None };
    /// held.delivered(&late, &data);
    /// assert!(!held.holds(0, 0x3C)); // its release may already have come
    /// let new = Delivery { class: Class::New(0), ..late };
    /// assert_eq!(held.delivered(&new, &data).notes().count(), 0);
    /// let lost = Delivery { lost: Some(SeqRange { first: 1, count: 1 }), ..new };
    /// assert!(held.delivered(&lost, &data).notes().eq([(0, 0x3C)]));
    /// assert!(held.holds(0, 0x3C)); // the command came after the loss
    /// # Ok::<(), sirmjold::Refusal>(())
    /// ```
    pub fn delivered(&mut self, delivery: &Delivery, data: &UmpData<'_>) -> GivenNotes {
        let class = match delivery.class {
            Class::New(_) => 0,
            Class::Late => 1,
            Class::Duplicate => 2,
        };
        let lost = delivery.lost.map_or(0, |range| range.count);
        self.after(sirmjold_held_delivered(
            self.state, 0, class, lost, data.bytes,
        ))
    }

    /// A poll, a Retransmit Error or a NAK was answered so. The notes that a loss silences.
    ///
    /// ```
    /// use sirmjold::{HeldNotes, Stream, StreamConfig};
    ///
    /// let cfg = StreamConfig::default();
    /// let mut chamber = Stream::new(&cfg, 64, 4, [0; 256])?;
    /// let mut held = HeldNotes::start(0)?;
    /// let event = chamber.poll(&cfg, 10)?;
    /// assert_eq!(held.told(&event).notes().count(), 0); // nothing was lost
    /// # Ok::<(), sirmjold::Refusal>(())
    /// ```
    pub fn told(&mut self, event: &StreamEvent) -> GivenNotes {
        let kind = match event {
            StreamEvent::Nothing => 0,
            StreamEvent::DataLoss(_) => 1,
            StreamEvent::ErrorLoss(_, _) => 2,
            StreamEvent::RetransmitError(_) => 3,
        };
        self.after(sirmjold_held_told(self.state, kind))
    }

    /// The stream was started again. The notes that this silences.
    ///
    /// ```
    /// use sirmjold::{HeldNotes, Stream, StreamConfig};
    ///
    /// let cfg = StreamConfig::default();
    /// let mut chamber = Stream::new(&cfg, 64, 4, [0; 256])?;
    /// let mut held = HeldNotes::start(0)?;
    /// chamber.reset()?;
    /// held.restarted();
    /// assert_eq!(held, HeldNotes::start(0)?);
    /// # Ok::<(), sirmjold::Refusal>(())
    /// ```
    pub fn restarted(&mut self) -> GivenNotes {
        self.after(sirmjold_held_restarted(self.state))
    }
}
