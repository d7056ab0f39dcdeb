// Rules, section 2: what the sensor holds, the range of each part, and the fresh state.

use crate::mask::Mask;
use crate::measure_checks;
use crate::plan::{self, Plan, Sector};

#[derive(Clone, Copy, PartialEq, Eq, Debug)]
pub enum Mode {
    Idle,
    Rotate,
    Measure,
}

/// A profile job (rule 2.7), of a plain or of a mixed profile.
#[derive(Clone, Copy, PartialEq, Eq, Debug)]
pub enum Job {
    Absent,
    Counted { left: u16, mask: Mask, sent: u16 },
    Endless { mask: Mask, sent: u16 },
}

/// What tells reflectors from other things (rule 2.10): the threshold in percent, the radius in millimetres.
#[derive(Clone, Copy, PartialEq, Eq, Debug)]
pub struct ReflectorConfig {
    pub threshold: u16,
    pub radius: u16,
}

/// The settings of the NAV300 (rule 2.10).
#[derive(Clone, Copy, PartialEq, Eq, Debug)]
pub struct Settings {
    pub rotate_direction: u16,
    pub working: ReflectorConfig,
    pub stored: ReflectorConfig,
}

#[derive(Clone, Copy, PartialEq, Eq, Debug)]
pub struct State {
    pub id: u16,
    pub configured_speed: u16,
    pub step: u16,
    pub working_plan: Plan,
    pub stored_plan: Plan,
    pub mode: Mode,
    pub running_speed: u16,
    pub port: u8,
    pub counter: u16,
    pub job: Job,
    pub settings: Settings,
}

/// What request and revolution hand back: the refusal (0 for none), the count of words written, the next state.
#[derive(Clone, Copy, PartialEq, Eq, Debug)]
pub struct Outcome {
    pub refusal: u16,
    pub count: usize,
    pub state: State,
}

impl Outcome {
    /// The state as it came, and no word (rule 6.2).
    pub fn refused(refusal: u16, state: &State) -> Outcome {
        Outcome { refusal, count: 0, state: *state }
    }
}

/// Rule 2.1, and so the speeds below.
pub fn id_in_range(id: u16) -> bool {
    (1..=254).contains(&id)
}

pub fn speed_in_range(speed: u16) -> bool {
    (5..=20).contains(&speed)
}

/// Every entry, the unused ones too (rule 2.2).
fn plan_in_range(plan: &Plan) -> bool {
    plan.iter().all(|sector| [0, 1, 3, 4].contains(&sector.function) && sector.stop < plan::CIRCLE)
}

/// Rule 2.10, and so thresholds and radii below.
pub fn rotate_direction_in_range(direction: u16) -> bool {
    direction <= 1
}

pub fn threshold_in_range(threshold: u16) -> bool {
    (1..=100).contains(&threshold)
}

pub fn radius_in_range(radius: u16) -> bool {
    radius <= 127
}

impl ReflectorConfig {
    /// Rule 2.10.
    fn in_ranges(&self) -> bool {
        threshold_in_range(self.threshold) && radius_in_range(self.radius)
    }
}

impl Settings {
    /// Rule 2.10.
    fn in_ranges(&self) -> bool {
        rotate_direction_in_range(self.rotate_direction) && self.working.in_ranges() && self.stored.in_ranges()
    }
}

impl Job {
    pub fn mask(self) -> Option<Mask> {
        match self {
            Job::Absent => None,
            Job::Counted { mask, .. } | Job::Endless { mask, .. } => Some(mask),
        }
    }
}

impl State {
    /// A sensor that was just switched on (rule 2.9).
    pub fn fresh() -> State {
        let mut plan = plan::PLAN_OF_ZEROS;
        plan[0] = Sector { function: 3, stop: 5752 };
        let reflectors = ReflectorConfig { threshold: 50, radius: 0 };
        State {
            id: 1,
            configured_speed: 10,
            step: 8,
            working_plan: plan,
            stored_plan: plan,
            mode: Mode::Idle,
            running_speed: 0,
            port: 0,
            counter: 0,
            job: Job::Absent,
            settings: Settings { rotate_direction: 1, working: reflectors, stored: reflectors },
        }
    }

    /// Whether refusal 1 is not due (rule 2.8).
    pub fn in_ranges(&self) -> bool {
        id_in_range(self.id)
            && speed_in_range(self.configured_speed)
            && plan::is_angle_step(self.step)
            && plan_in_range(&self.working_plan)
            && plan_in_range(&self.stored_plan)
            && self.running_speed_in_range()
            && self.measures_only_what_passes()
            && self.job_in_range()
            && self.settings.in_ranges()
    }

    /// Rule 2.4.
    fn running_speed_in_range(&self) -> bool {
        match self.mode {
            Mode::Idle => self.running_speed == 0,
            Mode::Rotate | Mode::Measure => speed_in_range(self.running_speed),
        }
    }

    /// Rule 2.5.
    fn measures_only_what_passes(&self) -> bool {
        self.mode != Mode::Measure
            || measure_checks::measure_error(&self.working_plan, self.step, self.running_speed) == 0
    }

    /// Rules 2.7 and 2.11.
    fn job_in_range(&self) -> bool {
        match self.job {
            Job::Absent => true,
            Job::Counted { left, mask, sent } => {
                self.mode == Mode::Measure
                    && mask.in_range()
                    && left >= 1
                    && u32::from(left) + u32::from(sent) <= 65535
            }
            Job::Endless { mask, .. } => self.mode == Mode::Measure && mask.in_range(),
        }
    }

    /// Rules 2.3 and 4.2.
    pub fn senstat(&self) -> [u16; 2] {
        match self.mode {
            Mode::Idle => [0, 1],
            Mode::Rotate => [0, 2],
            Mode::Measure => [0, 3],
        }
    }
}
