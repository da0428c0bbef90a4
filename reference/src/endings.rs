//! The turns of a close and of a shutdown, which a corruption runs too.

use crate::answer::{Answer, Bell, Operation};
use crate::header::Header;
use crate::party::{Cause, CloseTurn, Failure, Party, ShutTurn, Side, Step};
use crate::rules::Rules;
use crate::turn::{Taken, Wake};

impl Cause {
    /// The first failed wake is the one a shutdown answers with, so a later one is dropped.
    fn after(self, bell: Bell, failure: Option<u16>) -> Self {
        match (self, failure) {
            (Cause::Asked { first: None }, Some(error)) => Cause::Asked {
                first: Some(Failure {
                    operation: Operation::wake(bell),
                    error,
                }),
            },
            _ => self,
        }
    }

    fn answer(self) -> Answer {
        match self {
            Cause::Asked { first: None } => Answer::Done,
            Cause::Asked {
                first: Some(Failure { operation, error }),
            } => Answer::Syscall { operation, error },
            Cause::Corruption => Answer::CorruptIndices,
        }
    }
}

/// A wake of all that sleep on a bell, if it does not fail.
fn wake_all(bell: Bell, failure: Option<u16>) -> Option<Wake> {
    match failure {
        None => Some(Wake {
            bell,
            count: Wake::ALL,
        }),
        Some(_) => None,
    }
}

impl Party {
    pub(crate) fn close_turn<R: Rules>(
        &mut self,
        header: &mut Header,
        turn: CloseTurn,
        failure: Option<u16>,
    ) -> Taken {
        // The other side's bell: the one the party that must hear of the close sleeps on.
        let bell = self.side.other().sleeps_on();
        match turn {
            CloseTurn::SetBit => {
                header.set_flag(self.side.closed_flag());
                self.closed = true;
                if self.side == Side::Recorder && !self.not_full {
                    self.ends(Answer::Done)
                } else {
                    self.goes_on(Step::Close(R::after_close_bit()))
                }
            }
            CloseTurn::Raise => {
                header.raise(bell);
                self.goes_on(Step::Close(CloseTurn::WakeAll))
            }
            CloseTurn::WakeAll => self.last_wake(bell, Wake::ALL, failure, Answer::Done),
        }
    }

    pub(crate) fn shut_turn(
        &mut self,
        header: &mut Header,
        turn: ShutTurn,
        cause: Cause,
        failure: Option<u16>,
    ) -> Taken {
        let on = |turn, cause| Step::Shut { turn, cause };
        match turn {
            ShutTurn::SetBit => {
                header.set_flag(Header::SHUTDOWN);
                self.goes_on(on(ShutTurn::RaiseNe, cause))
            }
            ShutTurn::RaiseNe => {
                header.raise(Bell::Ne);
                self.goes_on(on(ShutTurn::WakeNe, cause))
            }
            ShutTurn::WakeNe => Taken {
                wake: wake_all(Bell::Ne, failure),
                ..self.goes_on(on(ShutTurn::RaiseNf, cause.after(Bell::Ne, failure)))
            },
            ShutTurn::RaiseNf => {
                header.raise(Bell::Nf);
                self.goes_on(on(ShutTurn::WakeNf, cause))
            }
            ShutTurn::WakeNf => Taken {
                wake: wake_all(Bell::Nf, failure),
                ..self.ends(cause.after(Bell::Nf, failure).answer())
            },
        }
    }
}
