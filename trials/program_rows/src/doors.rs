//! The gate of a command: each part of a search goes through it at once, or two parts wait for each
//! other.

use crate::attendance::Attendance;
use bias_store::Kept;
use language::Language;
use network::Network;
use par_screen::Gate;
use query_gen::{Place, Screen};

/// How often a question is looked for, and in how many of these something is learned.
#[derive(Clone, Copy)]
pub(crate) struct Looks {
    pub(crate) questions: u32,
    pub(crate) later: u32,
}

/// What stands before the searches of a run.
#[derive(Drop)]
pub(crate) enum Door {
    Open,
    /// A gate at which parts meet, and how often they have to.
    Watched(Attendance, Looks),
}

impl Door {
    pub(crate) fn of(looks: Option<Looks>) -> Door {
        match looks {
            Some(looks) => Door::Watched(Attendance::new(), looks),
            None => Door::Open,
        }
    }

    /// Whether the parts have met as they have to.
    pub(crate) fn is_well(&self) -> bool {
        match self {
            Door::Open => true,
            Door::Watched(attendance, looks) => attendance.was_whole(looks.questions, looks.later),
        }
    }
}

impl Gate for Door {
    fn search(
        &self,
        job: u32,
        place: &mut Place,
        screen: &Screen,
        lang: &Language,
        kept: &Kept,
        net: &Network,
        budget: u32,
        first: u32,
        end: u32,
    ) {
        if let Door::Watched(attendance, _) = self {
            attendance.come(job, first, end, lang.candidates(), net.len());
        }
        place.search(screen, lang, kept, net, budget, first, end);
    }
}
