//! What must not be dropped by mistake: the compiler warns of each statement here. This file expects
//! the warnings, and does not compile where one is missing.

#![deny(unfulfilled_lint_expectations)]

use racejudge::{judge, max_pairs, pairs, raw, Card, Event, Kind, Plan, Refusal, Trace};
use std::error::Error;

/// A statement that is warned of.
macro_rules! dropped {
    ($dropped:expr) => {
        #[expect(unused_must_use)]
        $dropped;
    };
}

type Tried = Result<(), Box<dyn Error>>;

fn race() -> Result<Trace, Refusal> {
    Trace::from_text("T0|fork(T1)|10\nT1|w(V5)|20\nT0|r(V5)|30\n")
}

/// A refusal is handed on by `?`. What was found is not.
#[test]
fn answers() -> Tried {
    let mut trace = race()?;
    dropped!(judge(&trace)?);
    dropped!(judge(&trace)?.links());
    dropped!(pairs(&trace)?);
    dropped!(trace.convert()?);
    Ok(())
}

#[test]
fn answers_of_the_c_interface() {
    dropped!(raw::judge(&[], &[], &[], &mut [], &mut [], &mut []));
    dropped!(raw::judge_cards(&[], &[], &[], &mut [], &mut [], &mut [], &mut []));
    dropped!(raw::pairs(&[], &[], &[], &mut [], &mut [], &mut []));
    dropped!(raw::ordering(&[], &[], &[], &mut [], 0, 0));
    dropped!(raw::convert(&[], &[], &mut [], &mut []));
    dropped!(raw::translate(&[], &mut [], &mut [], &mut []));
    dropped!(raw::plan(&[], &mut [], &mut [], &mut []));
    dropped!(raw::version());
    // Safe: it takes nothing.
    dropped!(unsafe { raw::racejudge_version_6() });
}

/// What is made is not judged yet.
#[test]
fn traces_and_plans() -> Tried {
    let (trace, plan) = (race()?, Plan::parse("S(w3,P(r3,r3))")?);
    let bytes = trace.to_binary().ok_or("slices of one length")?;
    dropped!(race()?);
    dropped!(Trace::from_slices(&[], &[], &[]));
    dropped!(Trace::from_binary(&bytes)?);
    dropped!(Event::fork(0, 1));
    dropped!(Event::halt(1, 0));
    dropped!("r3".parse::<Plan>()?);
    dropped!(Plan::series(&plan, &plan)?);
    dropped!(Plan::parallel(&plan, &plan)?);
    Ok(())
}

/// Calls that do nothing but tell.
#[test]
fn what_is_asked() -> Tried {
    let (trace, plan) = (race()?, Plan::parse("S(w3,P(r3,r3))")?);
    let leaf = plan.leaf_of(0).ok_or("the first event is a leaf's")?;
    dropped!(trace.len());
    dropped!(trace.is_empty());
    dropped!(trace.event(0));
    dropped!(trace.events());
    dropped!(trace.place(0));
    dropped!(trace.kinds());
    dropped!(trace.tasks());
    dropped!(trace.operands());
    dropped!(trace.to_binary());
    dropped!(Event::fork(0, 1).kind());
    dropped!(Kind::Fork.number());
    dropped!(Kind::Fork.is_access());
    dropped!(Card::UNTOUCHED.accesses());
    dropped!(Card::UNTOUCHED.span());
    dropped!(max_pairs(5));
    dropped!(Refusal { row: 1, position: 0 }.meaning());
    dropped!(plan.trace());
    dropped!(plan.tree());
    dropped!(plan.tree().events());
    dropped!(plan.tree().position());
    dropped!(plan.leaves());
    dropped!(plan.leaf_of(0));
    dropped!(plan.meet(leaf, leaf));
    dropped!(leaf.range());
    Ok(())
}
