//! A plan in series and parallel. The proved reader says what is one and writes its trace; what is
//! here puts the tree beside that.

use crate::raw;
use crate::{Event, Kind, Refusal, Trace, MAX_EVENTS, TASKS};
use std::error::Error;
use std::fmt;
use std::ops::Range;
use std::str::FromStr;

/// A schedule of accesses, one after the other and side by side, written before any program runs.
///
/// A leaf is `r`, `w` or `s` (a sum) with a location. `S(G1,G2)` is plan G1 and then plan G2,
/// `P(G1,G2)` is G1 beside G2: it forks a task for G1, goes on with G2, and joins that task. At most
/// [`MAX_DEPTH`](crate::MAX_DEPTH) of S and P may stand within each other.
///
/// Of two leaves the first reaches the second exactly if the operator where they
/// [`meet`](Plan::meet) is S and the first is in its left operand.
///
/// ```
/// use racejudge::{judge, Operator, Plan, Verdict};
///
/// let plan: Plan = "S(w3,P(r3,r3))".parse()?;
/// assert_eq!(plan.to_string(), "S(w3,P(r3,r3))");
/// assert_eq!(judge(plan.trace()), Ok(Verdict::Clean { links: 1 }));
///
/// // With a write in the place of the second read the two race. Where they stand in the plan:
/// let plan: Plan = "S(w3,P(r3,w3))".parse()?;
/// let Ok(Verdict::Race { s, t, .. }) = judge(plan.trace()) else { panic!("a race") };
/// let [s, t] = [s, t].map(|event| plan.leaf_of(event).expect("a race is of leaves"));
/// assert_eq!((s.to_string(), s.position), ("r3".to_string(), 7));
/// assert_eq!((t.to_string(), t.position), ("w3".to_string(), 10));
///
/// // They meet at the P, so neither reaches the other.
/// let meet = plan.meet(s, t).expect("two leaves meet");
/// assert_eq!((meet.operator, meet.position), (Operator::Parallel, 5));
/// # Ok::<(), racejudge::PlanError>(())
/// ```
#[derive(Clone, Debug, PartialEq, Eq)]
#[must_use = "a plan says nothing until its trace is judged"]
pub struct Plan {
    tree: Tree,
    trace: Trace,
}

/// A plan as a tree. It is never deeper than [`MAX_DEPTH`](crate::MAX_DEPTH).
#[derive(Clone, Debug, PartialEq, Eq)]
pub enum Tree {
    /// An access.
    Leaf(Leaf),
    /// Two plans and the operator that joins them.
    Node(Box<Node>),
}

/// An access of a plan. It is printed as it stands there.
#[derive(Clone, Copy, Debug, PartialEq, Eq, Hash)]
#[non_exhaustive]
pub struct Leaf {
    /// A read, a write or a sum.
    pub kind: Kind,
    /// What it touches.
    pub location: u16,
    /// Its first byte in the plan's text, counted from 0.
    pub position: usize,
    /// Its event in the plan's trace, counted from 0.
    pub event: usize,
}

/// An S or P with its operands.
#[derive(Clone, Debug, PartialEq, Eq)]
#[non_exhaustive]
pub struct Node {
    /// Which of the two it is.
    pub operator: Operator,
    /// The byte of its letter in the plan's text, counted from 0.
    pub position: usize,
    /// G1 of `S(G1,G2)` and of `P(G1,G2)`.
    pub left: Tree,
    /// G2 of these.
    pub right: Tree,
}

/// How two plans are put together. It is printed as its letter.
#[derive(Clone, Copy, Debug, PartialEq, Eq, Hash)]
pub enum Operator {
    /// S: the left, then the right.
    Series,
    /// P: the left beside the right.
    Parallel,
}

impl Plan {
    /// Reads a plan.
    ///
    /// ```
    /// use racejudge::{Event, Plan, Refusal};
    ///
    /// let plan = Plan::parse("P(s9,r3)")?;
    /// let events = [Event::fork(0, 1), Event::sum(1, 9), Event::halt(1, 0), Event::read(0, 3)];
    /// assert!(plan.trace().events().eq(events.into_iter().chain([Event::join(0, 1)])));
    ///
    /// // No line feed may stand behind it.
    /// let error = Plan::parse(b"P(s9,r3)\n").unwrap_err();
    /// assert_eq!(error.refusal, Refusal { row: 17, position: 8 });
    /// # Ok::<(), racejudge::PlanError>(())
    /// ```
    ///
    /// # Errors
    ///
    /// What the proved reader refuses: by row 17 the first byte that cannot continue a plan, or its
    /// length where it breaks off; by row 18 an S or P that opens level 65; by row 19 a plan of more
    /// than [`TASKS`] tasks or more than [`MAX_EVENTS`] events.
    pub fn parse(text: impl AsRef<[u8]>) -> Result<Self, PlanError> {
        let text = text.as_ref();
        // Each event takes a byte at least, of its leaf or of its P.
        let cells = text.len().min(MAX_EVENTS);
        let trace =
            Trace::written(cells, |kinds, tasks, operands| raw::plan(text, kinds, tasks, operands));
        let trace = trace.map_err(|refusal| PlanError::new(text, refusal))?;
        let tree = tree(text, &trace).expect("an accepted plan has an event for each leaf");
        Ok(Plan { tree, trace })
    }

    /// `S(left,right)`: the one plan, then the other.
    ///
    /// ```
    /// use racejudge::Plan;
    ///
    /// let [write, read]: [Plan; 2] = ["w3".parse()?, "r3".parse()?];
    /// let plan = Plan::series(&write, &Plan::parallel(&read, &read)?)?;
    /// assert_eq!(plan.to_string(), "S(w3,P(r3,r3))");
    /// # Ok::<(), racejudge::PlanError>(())
    /// ```
    ///
    /// # Errors
    ///
    /// Row 18 or 19, where what comes of it is too deep or too large.
    pub fn series(left: &Plan, right: &Plan) -> Result<Self, PlanError> {
        Plan::joined(Operator::Series, left, right)
    }

    /// `P(left,right)`: the one plan beside the other. [`series`](Plan::series) has an example.
    ///
    /// # Errors
    ///
    /// As [`series`](Plan::series) has.
    pub fn parallel(left: &Plan, right: &Plan) -> Result<Self, PlanError> {
        Plan::joined(Operator::Parallel, left, right)
    }

    fn joined(operator: Operator, left: &Plan, right: &Plan) -> Result<Self, PlanError> {
        Plan::parse(format!("{operator}({left},{right})"))
    }

    /// The trace that the proved reader wrote. It keeps the rules, so the judge says clean or race.
    #[must_use = "a trace says nothing until it is judged"]
    pub fn trace(&self) -> &Trace {
        &self.trace
    }

    /// The plan as a tree.
    ///
    /// ```
    /// use racejudge::{Operator, Plan, Tree};
    ///
    /// fn depth(tree: &Tree) -> usize {
    ///     match tree {
    ///         Tree::Leaf(_) => 0,
    ///         Tree::Node(node) => 1 + depth(&node.left).max(depth(&node.right)),
    ///     }
    /// }
    /// assert_eq!(depth(Plan::parse("S(w3,P(r3,r3))")?.tree()), 2);
    /// # Ok::<(), racejudge::PlanError>(())
    /// ```
    #[must_use]
    pub fn tree(&self) -> &Tree {
        &self.tree
    }

    /// All leaves, from left to right. That is the order of their events too.
    ///
    /// ```
    /// use racejudge::Plan;
    ///
    /// let plan = Plan::parse("S(w3,P(r3,r1023))")?;
    /// let places: Vec<_> = plan.leaves().map(|leaf| (leaf.range(), leaf.event)).collect();
    /// assert_eq!(places, [(2..4, 0), (7..9, 2), (10..15, 4)]);
    /// # Ok::<(), racejudge::PlanError>(())
    /// ```
    pub fn leaves(&self) -> impl Iterator<Item = &Leaf> {
        let mut rest = vec![&self.tree];
        std::iter::from_fn(move || loop {
            match rest.pop()? {
                Tree::Leaf(leaf) => return Some(leaf),
                Tree::Node(node) => rest.extend([&node.right, &node.left]),
            }
        })
    }

    /// The leaf that made an event; none where a P made it, or where there is no such event.
    ///
    /// ```
    /// use racejudge::Plan;
    ///
    /// let plan = Plan::parse("P(w3,r3)")?;
    /// assert_eq!(plan.leaf_of(1).map(|leaf| leaf.position), Some(2));
    /// assert_eq!(plan.leaf_of(0), None);
    /// # Ok::<(), racejudge::PlanError>(())
    /// ```
    #[must_use]
    pub fn leaf_of(&self, event: usize) -> Option<&Leaf> {
        self.leaves().find(|leaf| leaf.event == event)
    }

    /// The operator where two leaves of the plan meet: the innermost that has both. None where they
    /// are one leaf.
    ///
    /// ```
    /// use racejudge::{Operator, Plan};
    ///
    /// let plan = Plan::parse("S(P(w1,w2),r1)")?;
    /// let leaves: Vec<_> = plan.leaves().collect();
    /// let meet = |a: usize, b: usize| plan.meet(leaves[a], leaves[b]).map(|node| node.position);
    /// assert_eq!([meet(0, 1), meet(2, 1), meet(2, 2)], [Some(2), Some(0), None]);
    /// # Ok::<(), racejudge::PlanError>(())
    /// ```
    #[must_use]
    pub fn meet(&self, one: &Leaf, other: &Leaf) -> Option<&Node> {
        let mut tree = &self.tree;
        while let Tree::Node(node) = tree {
            let is_right = |leaf: &Leaf| leaf.position >= node.right.position();
            tree = match (is_right(one), is_right(other)) {
                (false, false) => &node.left,
                (true, true) => &node.right,
                _ => return Some(node),
            };
        }
        None
    }
}

impl FromStr for Plan {
    type Err = PlanError;

    fn from_str(text: &str) -> Result<Self, PlanError> {
        Plan::parse(text)
    }
}

impl Tree {
    /// Its events in the plan's trace: those of a P go from its fork to its join.
    ///
    /// ```
    /// use racejudge::{Plan, Tree};
    ///
    /// let plan = Plan::parse("S(w3,P(r3,r3))")?;
    /// let Tree::Node(series) = plan.tree() else { panic!("an S") };
    /// assert_eq!((series.left.events(), series.right.events()), (0..1, 1..6));
    /// # Ok::<(), racejudge::PlanError>(())
    /// ```
    #[must_use]
    pub fn events(&self) -> Range<usize> {
        self.first_event()..self.last_event() + 1
    }

    fn first_event(&self) -> usize {
        match self {
            Tree::Leaf(leaf) => leaf.event,
            Tree::Node(node) => node.left.first_event() - node.operator.events_at_end(),
        }
    }

    fn last_event(&self) -> usize {
        match self {
            Tree::Leaf(leaf) => leaf.event,
            Tree::Node(node) => node.right.last_event() + node.operator.events_at_end(),
        }
    }

    /// Its first byte in the plan's text, counted from 0.
    #[must_use]
    pub fn position(&self) -> usize {
        match self {
            Tree::Leaf(leaf) => leaf.position,
            Tree::Node(node) => node.position,
        }
    }
}

impl Operator {
    /// How many events it makes before its left operand, and as many behind its right one.
    fn events_at_end(self) -> usize {
        match self {
            Operator::Series => 0,
            Operator::Parallel => 1,
        }
    }
}

impl Leaf {
    /// Its bytes in the plan's text.
    #[must_use]
    pub fn range(&self) -> Range<usize> {
        self.position..self.position + self.to_string().len()
    }
}

/// The tree of an accepted plan: each leaf takes the next access of the trace, and each closing
/// parenthesis the two trees before it.
fn tree(text: &[u8], trace: &Trace) -> Option<Tree> {
    let is_access = |event: &Event| event.kind().is_some_and(Kind::is_access);
    let mut accesses = trace.events().enumerate().filter(|(_, event)| is_access(event));
    let (mut open, mut trees) = (Vec::new(), Vec::new());
    for (position, byte) in text.iter().enumerate() {
        match byte {
            b'S' => open.push((Operator::Series, position)),
            b'P' => open.push((Operator::Parallel, position)),
            b')' => {
                let (right, left) = (trees.pop()?, trees.pop()?);
                let (operator, position) = open.pop()?;
                trees.push(Tree::Node(Box::new(Node { operator, position, left, right })));
            }
            b'r' | b'w' | b's' => {
                let (event, access) = accesses.next()?;
                let (kind, location) = (access.kind()?, access.operand);
                trees.push(Tree::Leaf(Leaf { kind, location, position, event }));
            }
            _ => {}
        }
    }
    trees.pop()
}

/// Its text: what is printed is read as the same plan.
impl fmt::Display for Plan {
    fn fmt(&self, f: &mut fmt::Formatter<'_>) -> fmt::Result {
        self.tree.fmt(f)
    }
}

impl fmt::Display for Tree {
    fn fmt(&self, f: &mut fmt::Formatter<'_>) -> fmt::Result {
        match self {
            Tree::Leaf(leaf) => leaf.fmt(f),
            Tree::Node(node) => node.fmt(f),
        }
    }
}

impl fmt::Display for Node {
    fn fmt(&self, f: &mut fmt::Formatter<'_>) -> fmt::Result {
        write!(f, "{}({},{})", self.operator, self.left, self.right)
    }
}

impl fmt::Display for Leaf {
    fn fmt(&self, f: &mut fmt::Formatter<'_>) -> fmt::Result {
        let letter = match self.kind {
            Kind::Write => 'w',
            Kind::Sum => 's',
            _ => 'r',
        };
        write!(f, "{letter}{}", self.location)
    }
}

impl fmt::Display for Operator {
    fn fmt(&self, f: &mut fmt::Formatter<'_>) -> fmt::Result {
        f.pad(match self {
            Operator::Series => "S",
            Operator::Parallel => "P",
        })
    }
}

/// Why a text is no plan, or one that is too large.
///
/// ```
/// use racejudge::Plan;
///
/// let refused = |text: &str| Plan::parse(text).unwrap_err();
/// assert_eq!(
///     refused("r1024").to_string(),
///     "byte 4, counted from 0, is refused by row 17: no plan goes on with `4` there"
/// );
/// assert_eq!(
///     refused("S(r1,").to_string(),
///     "byte 5, counted from 0, is refused by row 17: the plan breaks off there"
/// );
///
/// // Each time there are three times as many leaves.
/// let large = (0..7).fold("r1".to_string(), |plan, _| format!("S({plan},P({plan},{plan}))"));
/// let needs = refused(&large).needs.expect("row 19");
/// assert_eq!((needs.tasks, needs.events), (1_094, 5_466));
/// assert!(refused(&large).to_string().ends_with("the plan needs 1094 tasks, more than 1024"));
/// ```
#[derive(Clone, Copy, Debug, PartialEq, Eq, Hash)]
#[non_exhaustive]
pub struct PlanError {
    /// The row, 17 to 19, and the byte's position.
    pub refusal: Refusal,
    /// The byte there, for rows 17 and 18; none where the plan breaks off.
    pub byte: Option<u8>,
    /// What the plan needs, for row 19.
    pub needs: Option<Needs>,
}

/// How much a whole plan takes.
#[derive(Clone, Copy, Debug, PartialEq, Eq, Hash)]
pub struct Needs {
    /// How many tasks, task 0 among them; there are [`TASKS`].
    pub tasks: usize,
    /// How many events; a trace has at most [`MAX_EVENTS`].
    pub events: usize,
}

impl PlanError {
    fn new(text: &[u8], refusal: Refusal) -> Self {
        let byte = text.get(refusal.position).copied();
        match refusal.row {
            19 => PlanError { refusal, byte: None, needs: Some(Needs::of(text)) },
            _ => PlanError { refusal, byte, needs: None },
        }
    }
}

impl Needs {
    /// Of a text that is a plan: an event for each leaf, and for each P a task and three events.
    fn of(text: &[u8]) -> Self {
        let count = |letters: &[u8]| text.iter().filter(|byte| letters.contains(byte)).count();
        let (leaves, forks) = (count(b"rws"), count(b"P"));
        Needs { tasks: 1 + forks, events: leaves + 3 * forks }
    }
}

/// One sentence, with no full stop, as that of [`Refusal`].
impl fmt::Display for PlanError {
    fn fmt(&self, f: &mut fmt::Formatter<'_>) -> fmt::Result {
        let meaning = match (self.refusal.row, self.byte, self.needs) {
            (17, Some(byte), _) => format!("no plan goes on with `{}` there", byte.escape_ascii()),
            (17, None, _) => "the plan breaks off there".to_string(),
            (_, _, Some(needs)) => format!("the plan needs {needs}"),
            _ => self.refusal.meaning().to_string(),
        };
        write!(f, "{}: {meaning}", self.refusal.head())
    }
}

/// What is more than there may be.
impl fmt::Display for Needs {
    fn fmt(&self, f: &mut fmt::Formatter<'_>) -> fmt::Result {
        let counts = [(self.tasks, "tasks", TASKS), (self.events, "events", MAX_EVENTS)];
        let over = counts.into_iter().filter(|(number, _, most)| number > most);
        let over = over.map(|(number, what, most)| format!("{number} {what}, more than {most}"));
        f.pad(&over.collect::<Vec<_>>().join(", and "))
    }
}

impl Error for PlanError {}
