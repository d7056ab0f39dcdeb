// Rules, section 3: angle steps, active sectors, the walk over the shots of a revolution, and the normal
// plan with its refusals 9 to 11. Angles are sixteenths of a degree.

/// A full circle.
pub const CIRCLE: u16 = 5760;

#[derive(Clone, Copy, PartialEq, Eq, Debug)]
pub struct Sector {
    pub function: u16,
    pub stop: u16,
}

pub type Plan = [Sector; 8];

pub const UNUSED: Sector = Sector { function: 0, stop: 0 };
pub const PLAN_OF_ZEROS: Plan = [UNUSED; 8];

/// One of the 23 steps (rule 2.1).
pub fn is_angle_step(step: u16) -> bool {
    (1..=64).contains(&step) && CIRCLE % step == 0
}

/// N (rule 3.4).
pub fn shots_per_revolution(step: u16) -> usize {
    usize::from(CIRCLE / step)
}

/// Rule 3.1.
pub fn active_sectors(plan: &Plan) -> &[Sector] {
    let mut count = 0;
    while count < plan.len() && plan[count].function != 0 {
        count += 1;
    }
    &plan[..count]
}

/// Rule 3.3.
pub fn stops_increase(active: &[Sector]) -> bool {
    active.windows(2).all(|pair| pair[0].stop < pair[1].stop)
}

/// Rule 3.3.
pub fn stops_are_multiples(active: &[Sector], step: u16) -> bool {
    active.iter().all(|sector| sector.stop % step == 0)
}

/// One numbered shot: its number is its place in the list.
#[derive(Clone, Copy, PartialEq, Eq, Debug)]
pub struct Shot {
    pub sector: usize,
    pub direction: u16,
}

/// The shots of one revolution of a valid plan, in the order in which they are fired.
///
/// It goes step by step from one step behind the stop before to the sector's own (rules 3.5 and 3.6).
pub fn walk_of_shots(plan: &Plan, step: u16) -> Vec<Shot> {
    let active = active_sectors(plan);
    let mut shots = Vec::new();
    let mut stop_before = active[active.len() - 1].stop;
    for (number, sector) in active.iter().enumerate() {
        let mut direction = (stop_before + step) % CIRCLE;
        shots.push(Shot { sector: number, direction });
        while direction != sector.stop {
            direction = (direction + step) % CIRCLE;
            shots.push(Shot { sector: number, direction });
        }
        stop_before = sector.stop;
    }
    shots
}

/// The refusal of the normal plan call, 0 for none: 9, 10, 11 by size (rule 6.1).
pub fn normal_plan_refusal(step: u16, plan: &Plan) -> u16 {
    if !is_angle_step(step) {
        return 9;
    }
    let active = active_sectors(plan);
    let functions_fit = active.iter().all(|sector| [1, 3, 4].contains(&sector.function));
    let stops_fit = active.iter().all(|sector| sector.stop < CIRCLE);
    if active.is_empty() || !functions_fit || !stops_fit || !stops_increase(active) {
        return 10;
    }
    if !stops_are_multiples(active, step) {
        return 11;
    }
    0
}

/// The normal plan call: its refusal and the plan handed back, of zeros where it refuses.
///
/// Neighbours of one function become one sector with the later stop (rules 3.10 and 3.11).
pub fn normal_plan(step: u16, plan: &Plan) -> (u16, Plan) {
    let refusal = normal_plan_refusal(step, plan);
    if refusal != 0 {
        return (refusal, PLAN_OF_ZEROS);
    }
    let mut joined: Vec<Sector> = Vec::new();
    for sector in active_sectors(plan) {
        match joined.last_mut() {
            Some(neighbour) if neighbour.function == sector.function => neighbour.stop = sector.stop,
            _ => joined.push(*sector),
        }
    }
    let mut normal = PLAN_OF_ZEROS;
    normal[..joined.len()].copy_from_slice(&joined);
    (0, normal)
}
