// The verified planner: the exported functions of the crate `trial`, which give whole answers, of this commit and of another.
use crate::sailing::{Answer, Query};

type Check = unsafe extern "C" fn(*const u8, usize, *mut u32, usize);
type Plan = unsafe extern "C" fn(*const u8, usize, u32, u32, u32, u32, *mut u32, usize, *mut u32, usize, *mut u32, usize);
type PlanMargin = unsafe extern "C" fn(*const u8, usize, u32, u32, u32, u32, u32, *mut u32, usize, *mut u32, usize, *mut u32, usize);
type PlanGate = unsafe extern "C" fn(*const u8, usize, u32, u32, u32, u32, u32, u32, *mut u32, usize, *mut u32, usize, *mut u32, usize);
type EarliestGate = unsafe extern "C" fn(*const u8, usize, u32, u32, u32, u32, *mut u32, usize, *mut u32, usize);
type Earliest = unsafe extern "C" fn(*const u8, usize, u32, u32, u32, *mut u32, usize, *mut u32, usize);

// The planner of one commit.
pub struct Planner {
    check: Check,
    plan: Plan,
    // none in commits before the margin
    plan_margin: Option<PlanMargin>,
    earliest: Earliest,
    // none in commits before the gate time
    gated: Option<Gated>,
}

// The calls that take a gate time.
struct Gated {
    plan: PlanGate,
    earliest: EarliestGate,
}

// A function of `trial`: the file, the query's numbers, and what it works in and writes.
macro_rules! exported {
    ($name:ident: $($number:ident),*; $($slice:ident),*) => {
        extern "C" {
            fn $name(file: *const u8, file_len: usize, $($number: u32,)* $($slice: *mut u32, _: usize),*);
        }
    };
}

macro_rules! planner {
    ($name:ident, $check:ident, $plan:ident, $plan_margin:expr, $earliest:ident, $gated:expr) => {
        exported!($check: ; answer);
        exported!($plan: source, target, minute, code; work, rides, answer);
        exported!($earliest: source, target, minute; work, answer);
        pub static $name: Planner = Planner { check: $check, plan: $plan, plan_margin: $plan_margin, earliest: $earliest, gated: $gated };
    };
}

// The call with a margin, of a commit that has it.
macro_rules! with_margin {
    ($plan_margin:ident) => {{
        exported!($plan_margin: source, target, minute, code, margin; work, rides, answer);
        Some($plan_margin)
    }};
}

// The calls with a gate time, of a commit that has them.
macro_rules! with_gate {
    ($plan_gate:ident, $earliest_gate:ident) => {{
        exported!($plan_gate: source, target, minute, code, margin, gate; work, rides, answer);
        exported!($earliest_gate: source, target, minute, gate; work, answer);
        Some(Gated { plan: $plan_gate, earliest: $earliest_gate })
    }};
}

planner!(NOW, trial_check, trial_plan, with_margin!(trial_plan_margin), trial_earliest, with_gate!(trial_plan_gate, trial_earliest_gate));

#[cfg(all(against, not(against_margin)))]
planner!(BEFORE, before_check, before_plan, None, before_earliest, None);

#[cfg(all(against_margin, not(against_gate)))]
planner!(BEFORE, before_check, before_plan, with_margin!(before_plan_margin), before_earliest, None);

#[cfg(against_gate)]
planner!(
    BEFORE,
    before_check,
    before_plan,
    with_margin!(before_plan_margin),
    before_earliest,
    with_gate!(before_plan_gate, before_earliest_gate)
);

// The planner of the other commit, if one was given.
pub fn before() -> Option<&'static Planner> {
    #[cfg(against)]
    return Some(&BEFORE);
    #[cfg(not(against))]
    return None;
}

impl Planner {
    // The refusal's number, 0 for a sound file.
    pub fn check(&self, file: &[u8]) -> usize {
        let mut answer = [0u32; 6];
        unsafe { (self.check)(file.as_ptr(), file.len(), answer.as_mut_ptr(), 6) };
        answer[0] as usize
    }

    pub fn takes(&self, q: &Query) -> bool {
        (q.margin.is_none() || self.plan_margin.is_some()) && (q.gate.is_none() || self.gated.is_some())
    }

    // Number and place of the refusal, rides, expected ticks, latest minute and bound.
    pub fn plan(&self, file: &[u8], q: Query, work: &mut [u32], rides: &mut [u32]) -> [u32; 6] {
        let mut answer = [0u32; 6];
        let Query { source, target, minute, code, margin, gate } = q;
        let (f, f_len, a) = (file.as_ptr(), file.len(), answer.as_mut_ptr());
        let (w, w_len, r, r_len) = (work.as_mut_ptr(), work.len(), rides.as_mut_ptr(), rides.len());
        if let Some(gate) = gate {
            let plan = self.gated.as_ref().expect("that commit has no gate time").plan;
            let margin = q.ticks_to_gain();
            unsafe { plan(f, f_len, source, target, minute, code, margin, gate, w, w_len, r, r_len, a, 6) };
            return answer;
        }
        match (margin, self.plan_margin) {
            (None, _) => unsafe { (self.plan)(f, f_len, source, target, minute, code, w, w_len, r, r_len, a, 6) },
            (Some(margin), Some(plan)) => unsafe { plan(f, f_len, source, target, minute, code, margin, w, w_len, r, r_len, a, 6) },
            (Some(_), None) => panic!("that commit has no margin"),
        }
        answer
    }

    // Number and place of the refusal, and E.
    pub fn earliest(&self, file: &[u8], q: Query, work: &mut [u32]) -> [u32; 3] {
        let mut answer = [0u32; 6];
        let Query { source, target, minute, gate, .. } = q;
        let (f, f_len, w, w_len, a) = (file.as_ptr(), file.len(), work.as_mut_ptr(), work.len(), answer.as_mut_ptr());
        match gate {
            None => unsafe { (self.earliest)(f, f_len, source, target, minute, w, w_len, a, 6) },
            Some(gate) => {
                let earliest = self.gated.as_ref().expect("that commit has no gate time").earliest;
                unsafe { earliest(f, f_len, source, target, minute, gate, w, w_len, a, 6) }
            }
        }
        [answer[0], answer[1], answer[2]]
    }

    pub fn answer(&self, file: &[u8], q: Query, work: &mut [u32], rides: &mut [u32]) -> Answer {
        let a = self.plan(file, q, work, rides);
        if a[0] != 0 {
            return Answer::Refused { number: a[0], place: a[1] };
        }
        let rides = rides[..3 * a[2] as usize].chunks_exact(3).map(|r| [r[0], r[1], r[2]]).collect();
        Answer::Plan { expected: a[3], latest: a[4], bound: a[5], rides }
    }
}
