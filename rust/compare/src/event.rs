//! What can happen in a simulation.

use std::fmt;

#[derive(Clone, Copy, Debug, PartialEq, Eq, PartialOrd, Ord)]
pub enum Event {
    Planned,
    Next,
    Repeated,
    Early,
    NoNextEdition,
    Lost,
    Flipped,
    Cut,
    Lengthened,
    RandomBytes,
    Spoilt,
    Damaged,
    Forged,
    Restarted,
    SetBack,
    CutInStart,
    CutInDelivery,
    CutIdle,
    MarkWavered,
}

impl Event {
    pub const ALL: [Event; 19] = [
        Event::Planned,
        Event::Next,
        Event::Repeated,
        Event::Early,
        Event::NoNextEdition,
        Event::Lost,
        Event::Flipped,
        Event::Cut,
        Event::Lengthened,
        Event::RandomBytes,
        Event::Spoilt,
        Event::Damaged,
        Event::Forged,
        Event::Restarted,
        Event::SetBack,
        Event::CutInStart,
        Event::CutInDelivery,
        Event::CutIdle,
        Event::MarkWavered,
    ];
}

impl fmt::Display for Event {
    fn fmt(&self, f: &mut fmt::Formatter) -> fmt::Result {
        f.pad(match self {
            Event::Planned => "the planner makes a plan",
            Event::Next => "the next plan",
            Event::Repeated => "an earlier plan again",
            Event::Early => "a later plan too early",
            Event::NoNextEdition => "a plan at the last edition",
            Event::Lost => "the next plan lost on its way",
            Event::Flipped => "a bit of the base flipped",
            Event::Cut => "the end cut off",
            Event::Lengthened => "bytes after the end",
            Event::RandomBytes => "random bytes",
            Event::Spoilt => "the last request spoilt",
            Event::Damaged => "a plan damaged in some places",
            Event::Forged => "a damaged plan that is still one for the base, kept away",
            Event::Restarted => "a restart at the same edition",
            Event::SetBack => "a restart at an edition held before",
            Event::CutInStart => "in storage, the power cut in a start",
            Event::CutInDelivery => "in storage, the power cut in a delivery",
            Event::CutIdle => "in storage, the power cut between deliveries",
            Event::MarkWavered => "in storage, a mark that reads otherwise after a cut",
        })
    }
}
