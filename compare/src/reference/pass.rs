//! The exact pass: a primal active-set method from the states that the
//! multipliers show.

use super::float::{larger, EXACT_RESIDUAL};
use super::least_norm;
use super::problem::{Problem, MOST_ROWS};
use super::ray::{ray, RowList};
use super::rule::Rule;
use super::state::{state_of, State};

/// How a pass ends.
pub enum PassEnd {
    Found,
    Infeasible(RowList),
    Failed,
}

/// One pass: the multipliers on trial, and the states it works on.
pub struct Pass<'a> {
    p: &'a Problem<'a>,
    rule: Rule,
    pub trial: [f64; MOST_ROWS],
    states: &'a mut [State],
}

/// The direction of one move and whether it leads to the target.
struct Direction {
    y: [f64; MOST_ROWS],
    to_target: bool,
}

impl<'a> Pass<'a> {
    /// The rows that `guess` shows on a bound are put on it.
    pub fn start(p: &'a Problem<'a>, guess: &[f64], states: &'a mut [State], rule: Rule) -> Self {
        let mut trial = [0.0; MOST_ROWS];
        trial[..p.n()].copy_from_slice(guess);
        for i in 0..p.n() {
            if states[i] == State::Idle {
                continue;
            }
            states[i] = state_of(p, i, guess[i], rule);
            if rule.is(Rule::PassStartsFree) {
                states[i] = State::Inside;
            }
            match states[i] {
                State::AtLo if !rule.is(Rule::StartNotSnapped) => trial[i] = p.lo[i],
                State::AtHi if !rule.is(Rule::StartNotSnapped) => trial[i] = p.hi[i],
                _ => {}
            }
        }
        Pass {
            p,
            rule,
            trial,
            states,
        }
    }

    /// At most 8 acting + 8 moves.
    pub fn run(&mut self) -> PassEnd {
        let acting = self.states.iter().filter(|&&s| s != State::Idle).count();
        let moves = match self.rule {
            Rule::OneMoveFewer => 8 * acting + 7,
            Rule::OneMoveMore => 8 * acting + 9,
            Rule::MovesOfAllRows => 8 * self.p.n() + 8,
            Rule::MovesWithoutEight => 8 * acting,
            _ => 8 * acting + 8,
        };
        for _ in 0..moves {
            if let Some(end) = self.one_move() {
                return end;
            }
        }
        PassEnd::Failed
    }

    /// One move toward the target or along the residual, or one release.
    fn one_move(&mut self) -> Option<PassEnd> {
        let mut free = RowList::empty();
        for i in 0..self.p.n() {
            if self.states[i] == State::Inside {
                free.push(i);
            }
        }
        if !free.as_slice().is_empty() {
            let mut way = self.direction(free.as_slice());
            let (alpha, blocking) = self.room(free.as_slice(), &way);
            if !alpha.is_finite() {
                return Some(match ray(self.p, self.states, &mut way.y, self.rule) {
                    Some(rows) => PassEnd::Infeasible(rows),
                    None => PassEnd::Failed,
                });
            }
            for &a in free.as_slice() {
                self.trial[a] += alpha * way.y[a];
            }
            if let Some((a, state)) = blocking {
                self.hold(a, state);
                return None;
            }
        }
        match self.release() {
            Some(i) => self.states[i] = State::Inside,
            None => return Some(PassEnd::Found),
        }
        None
    }

    /// Puts a row on the bound that it met.
    fn hold(&mut self, a: usize, state: State) {
        self.states[a] = state;
        if !self.rule.is(Rule::BlockedNotSnapped) {
            self.trial[a] = if state == State::AtHi {
                self.p.hi[a]
            } else {
                self.p.lo[a]
            };
        }
    }

    /// The system of the free rows: W_ss diag(s), and minus what the held rows
    /// and the free motion leave.
    fn system(&self, free: &[usize]) -> (Vec<f64>, Vec<f64>) {
        let p = self.p;
        let mut m = Vec::with_capacity(free.len() * free.len());
        let mut rhs = Vec::with_capacity(free.len());
        for &a in free {
            let mut r = -p.u_free[a];
            for j in 0..p.n() {
                let left_out =
                    self.rule.is(Rule::TargetWithoutIdle) && self.states[j] == State::Idle;
                if self.states[j] != State::Inside && !left_out {
                    r -= p.w(a, j) * self.trial[j];
                }
            }
            rhs.push(r);
            for &b in free {
                let scale = if self.rule.is(Rule::TargetUnscaled) {
                    1.0
                } else {
                    p.scale[b]
                };
                m.push(p.w(a, b) * scale);
            }
        }
        (m, rhs)
    }

    /// Toward the target where the free rows can all be still, else along
    /// their least-squares residual.
    fn direction(&self, free: &[usize]) -> Direction {
        let p = self.p;
        let k = free.len();
        let (mut m, mut rhs) = self.system(free);
        let kept = rhs.clone();
        let mut z = vec![0.0; k];
        least_norm::solve(&mut m, k, k, &mut rhs, &mut z, self.rule);
        let mut y = [0.0; MOST_ROWS];
        let mut to_target = true;
        let scale = |b: usize| {
            if self.rule.is(Rule::TargetUnscaled) {
                1.0
            } else {
                p.scale[b]
            }
        };
        for (idx, &a) in free.iter().enumerate() {
            let mut r = -kept[idx];
            for (jdx, &b) in free.iter().enumerate() {
                r += p.w(a, b) * scale(b) * z[jdx];
            }
            y[a] = if self.rule.is(Rule::ResidualDirectionSign) {
                r
            } else {
                -r
            };
            if self.inconsistent(a, r) {
                to_target = false;
            }
        }
        if to_target {
            for (idx, &a) in free.iter().enumerate() {
                y[a] = scale(a) * z[idx] - self.trial[a];
            }
        }
        Direction { y, to_target }
    }

    /// Whether what is left of a free row is above 1e-9.
    fn inconsistent(&self, a: usize, r: f64) -> bool {
        let p = self.p;
        let left = if self.rule.is(Rule::InconsistentWithoutDiagonal) {
            r.abs() / p.scale[a]
        } else {
            (r / p.w(a, a)).abs() / p.scale[a]
        };
        match self.rule {
            Rule::InconsistentAtLimit => left >= EXACT_RESIDUAL,
            Rule::InconsistentAtNan => left.is_nan() || left > EXACT_RESIDUAL,
            _ => left > EXACT_RESIDUAL,
        }
    }

    /// How far the boxes let the move go, and the first row that ends it.
    fn room(&self, free: &[usize], way: &Direction) -> (f64, Option<(usize, State)>) {
        let p = self.p;
        let mut alpha = if way.to_target { 1.0 } else { f64::INFINITY };
        let mut blocking = None;
        for &a in free {
            let y = way.y[a];
            let (bound, state) = if y > 0.0 {
                (p.hi[a], State::AtHi)
            } else if y < 0.0 {
                (p.lo[a], State::AtLo)
            } else {
                continue;
            };
            let room = (bound - self.trial[a]) / y;
            let first = if self.rule.is(Rule::BlockedLastOfEquals) {
                room <= alpha
            } else {
                room < alpha
            };
            if first {
                alpha = if self.rule.is(Rule::RoomNotFloored) {
                    room
                } else {
                    larger(room, 0.0)
                };
                blocking = Some((a, state));
            }
        }
        (alpha, blocking)
    }

    /// The held row pushed inside the hardest, the first of equals, if its
    /// residual is above 1e-9.
    fn release(&self) -> Option<usize> {
        let p = self.p;
        let n = p.n();
        let mut worst = EXACT_RESIDUAL;
        let mut release = None;
        for i in 0..n {
            let u = p.row_sum(i, &self.trial[..n], self.rule);
            let wrong = match self.states[i] {
                State::AtLo => u < 0.0,
                State::AtHi => u > 0.0,
                _ => false,
            };
            if !wrong {
                continue;
            }
            let r = match self.rule {
                Rule::ReleaseByRowSum => u.abs(),
                Rule::ReleaseWithoutScale => p.natural(i, self.trial[i], u, self.rule) * p.scale[i],
                _ => p.natural(i, self.trial[i], u, self.rule),
            };
            let harder = match self.rule {
                Rule::ReleaseLastOfEquals if release.is_some() => r >= worst,
                Rule::ReleaseAtLimit if release.is_none() => r >= worst,
                Rule::ReleaseFirst => release.is_none() && r > worst,
                _ => r > worst,
            };
            if harder {
                worst = r;
                release = Some(i);
            }
        }
        release
    }
}
