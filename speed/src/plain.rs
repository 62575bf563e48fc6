//! The search for the overfull span in plain Rust, by the same algorithm: what the proved one is held against.

/// The numbers of an order that say when its blocks are read.
#[derive(Clone, Copy, Debug)]
#[repr(C)]
pub struct Timing {
    pub count: u32,
    pub start: u32,
    pub period: u32,
    pub depth: u32,
    pub spare: u32,
}

/// What is left of a lane.
#[derive(Clone, Copy, Debug)]
#[repr(C)]
pub struct Work {
    pub timing: Timing,
    pub admitted: u32,
    pub next: u32,
    pub failed: u32,
}

#[derive(Clone, Copy, Debug, PartialEq, Eq)]
pub struct Span {
    pub l: u32,
    pub h: u32,
}

/// A number is outside its limits.
#[derive(Clone, Copy, Debug, PartialEq, Eq)]
pub struct Bounds;

const LAST: u32 = 1_000_000;
const NEVER: u32 = 2_000_000;

/// The overfull span of smallest h and then largest l, or none.
pub fn overfull(slot: u32, work: &[Work]) -> Result<Option<Span>, Bounds> {
    if slot > LAST || work.len() > 8 {
        return Err(Bounds);
    }
    let mut lanes = [Rest::DONE; 8];
    for (lane, work) in lanes.iter_mut().zip(work) {
        if !work.is_proper() {
            return Err(Bounds);
        }
        *lane = Rest::of(work);
    }
    Ok(first_end(slot, &lanes).map(|h| Span { l: last_start(slot, h, lanes), h }))
}

impl Work {
    fn is_proper(&self) -> bool {
        let t = &self.timing;
        (1..=4096).contains(&t.count)
            && t.start <= LAST
            && (1..=10_000).contains(&t.period)
            && (2..=8).contains(&t.depth)
            && t.spare <= 15
            && t.start + t.count * t.period <= LAST
            && self.admitted <= t.start
            && self.next <= t.count
            && self.failed <= t.spare
    }
}

/// Blocks `next` to `blocks` - 1 of a lane, with `left` attempts owed to the first of them and `each` to the others.
#[derive(Clone, Copy)]
struct Rest {
    start: u32,
    period: u32,
    early: u32,
    admitted: u32,
    lead: u32,
    next: u32,
    blocks: u32,
    left: u32,
    each: u32,
}

impl Rest {
    const DONE: Rest = Rest { start: 0, period: 1, early: 0, admitted: 0, lead: 0, next: 0, blocks: 0, left: 1, each: 1 };

    fn of(w: &Work) -> Rest {
        let t = &w.timing;
        Rest {
            start: t.start,
            period: t.period,
            early: t.depth,
            admitted: w.admitted,
            lead: (t.depth - 1) * t.period,
            next: w.next,
            blocks: t.count,
            left: 1 + t.spare - w.failed,
            each: 1 + t.spare,
        }
    }

    fn deadline(&self, block: u32) -> u32 {
        self.start + block * self.period
    }

    fn release(&self, block: u32, deadline: u32) -> u32 {
        if block < self.early { self.admitted } else { deadline - self.lead }
    }
}

/// The least end of an overfull span: the deadline-driven rule, replayed until a deadline would be passed. `order` has
/// the lanes by deadline and then head, each as deadline·8 + head.
fn first_end(slot: u32, work: &[Rest; 8]) -> Option<u32> {
    let mut lanes = *work;
    let mut release = [NEVER; 8];
    let mut order = [0; 8];
    for (k, lane) in lanes.iter().enumerate() {
        let mut due = NEVER;
        if lane.next < lane.blocks {
            due = lane.deadline(lane.next);
            release[k] = lane.release(lane.next, due);
        }
        order[k] = due * 8 + k as u32;
    }
    order.sort_unstable();
    let longest = work.iter().map(|lane| lane.lead).fold(1, u32::max);
    let mut grown = false;
    let mut t = slot;
    loop {
        let head = (order[0] % 8) as usize;
        if release[head] <= t {
            let due = order[0] / 8;
            let m = lanes[head].left;
            if t + m > due {
                return Some(due);
            }
            t += m;
            go_on(&mut lanes, &mut release, &mut order, 0);
            continue;
        }
        // Past the early blocks no lane is released more than the longest lead before its deadline.
        if grown && order[0] / 8 > t + longest {
            t = order[0] / 8 - longest;
            continue;
        }
        grown = grown || lanes.iter().all(|lane| lane.early <= lane.next || lane.blocks <= lane.next);
        let busy = busy_from(t, &release);
        if busy == NEVER {
            return None;
        }
        if busy > t {
            t = busy;
            continue;
        }
        let mut coming = NEVER;
        let mut place = 0;
        loop {
            let release = release[(order[place] % 8) as usize];
            if release <= t {
                break;
            }
            coming = coming.min(release);
            place += 1;
        }
        let head = (order[place] % 8) as usize;
        let due = order[place] / 8;
        let m = lanes[head].left.min(coming - t);
        if t + m > due {
            return Some(due);
        }
        t += m;
        if m < lanes[head].left {
            lanes[head].left -= m;
        } else {
            go_on(&mut lanes, &mut release, &mut order, place);
        }
    }
}

#[inline(always)]
fn go_on(lanes: &mut [Rest; 8], release: &mut [u32; 8], order: &mut [u32; 8], place: usize) {
    let ticket = order[place];
    let head = (ticket % 8) as usize;
    let lane = &mut lanes[head];
    lane.next += 1;
    lane.left = lane.each;
    if lane.next < lane.blocks {
        let due = ticket / 8 + lane.period;
        release[head] = lane.release(lane.next, due);
        requeue(order, place, ticket + lane.period * 8);
    } else {
        release[head] = NEVER;
        requeue(order, place, NEVER * 8 + ticket % 8);
    }
}

#[inline(always)]
fn requeue(order: &mut [u32; 8], place: usize, ticket: u32) {
    let mut at = place;
    while at < 7 && order[at + 1] < ticket {
        order[at] = order[at + 1];
        at += 1;
    }
    order[at] = ticket;
}

/// The first slot from `t` on at which a lane is released.
#[inline(always)]
fn busy_from(t: u32, release: &[u32; 8]) -> u32 {
    let mut soon = NEVER;
    for &release in release {
        if release <= t {
            return t;
        }
        soon = soon.min(release);
    }
    soon
}

/// The largest start of an overfull span that ends at `h`: attempts are counted from the latest start down.
fn last_start(slot: u32, h: u32, mut lanes: [Rest; 8]) -> u32 {
    for lane in &mut lanes {
        lane.blocks = if h < lane.start { 0 } else { lane.blocks.min((h - lane.start) / lane.period + 1) };
    }
    let mut counted = 0;
    loop {
        let mut best = 8;
        let mut low = 0;
        for (k, lane) in lanes.iter().enumerate() {
            if lane.next < lane.blocks {
                let last = lane.blocks - 1;
                let start = h.min(slot.max(lane.release(last, lane.deadline(last))));
                if best == 8 || start > low {
                    best = k;
                    low = start;
                }
            }
        }
        let lane = &mut lanes[best];
        counted += if lane.blocks - 1 == lane.next { lane.left } else { lane.each };
        if counted > h - low {
            return low;
        }
        lane.blocks -= 1;
    }
}
