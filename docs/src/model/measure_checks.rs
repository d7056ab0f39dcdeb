// The four checks of TRANS_MEASURE, in their order (rule 4.18). Rule 2.5 asks for the same four of every state in MEASURE.

use crate::plan::{self, Plan};

/// The error of TRANS_MEASURE, 0 for none, of a plan and a step that are in their ranges.
pub fn measure_error(plan: &Plan, step: u16, running_speed: u16) -> u16 {
    let active = plan::active_sectors(plan);
    if active.is_empty() || !plan::stops_increase(active) {
        return 3;
    }
    if !plan::stops_are_multiples(active, step) {
        return 4;
    }
    if usize::from(running_speed) * plan::shots_per_revolution(step) > 14400 {
        return 1;
    }
    // the lit shots, counted one by one
    let mut laser_shots = 0;
    for shot in plan::walk_of_shots(plan, step) {
        let function = active[shot.sector].function;
        if function == 3 || function == 4 {
            laser_shots += 1;
        }
    }
    if usize::from(running_speed) * laser_shots > 10800 {
        return 2;
    }
    0
}
