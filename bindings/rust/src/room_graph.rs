use crate::{accepted, board, judged, lend, sys, Edge, Refusal, State};
use std::fmt;

/// A room graph: vertices, edges that are undecided, Connected or a Wall, and how many parts the Connected ones are to leave.
///
/// ```
/// use sendai::{Edge, RoomGraph};
///
/// let edges = [Edge { u: 0, v: 1 }, Edge { u: 1, v: 2 }];
/// let mut room = RoomGraph::of_edges(3, &edges, 3)?;
/// let mut list = vec![0; room.edges()];
/// assert_eq!(room.ask(&mut list)?, None);
/// room.decide(0, false)?;
/// room.decide(1, false)?;
/// assert_eq!(room.ask(&mut list)?, Some(&[0, 2][..]));     // too few parts: the Connected edges
/// # Ok::<(), sendai::Refusal>(())
/// ```
#[derive(Clone, PartialEq, Eq)]
pub struct RoomGraph(pub(crate) sys::Room);

impl RoomGraph {
    /// A fresh graph whose edge i joins `us[i]` and `vs[i]`; loops and repeats are allowed. Refused: `Sizes` (1,024 vertices, 1,984
    /// edges, slices equally long), `Missing`.
    pub fn make(vertices: usize, us: &[u16], vs: &[u16], count: u32) -> Result<RoomGraph, Refusal> {
        // SAFETY: both slices live through the call.
        let made = unsafe { sys::sendai_room_make(vertices, us.as_ptr(), us.len(), vs.as_ptr(), vs.len(), count) };
        accepted(made.code).map(|()| RoomGraph(made.room))
    }

    /// The same from a list of edges. Refused: `Sizes`, `Missing`.
    pub fn of_edges(vertices: usize, edges: &[Edge], count: u32) -> Result<RoomGraph, Refusal> {
        // SAFETY: the slice lives through the call.
        let made = unsafe { sys::sendai_room_make_of_edges(vertices, edges.as_ptr(), edges.len(), count) };
        accepted(made.code).map(|()| RoomGraph(made.room))
    }

    /// A call's record in the place of the one that went in: after a refusal it is the same.
    fn put(&mut self, answer: sys::RoomAnswer) -> Result<(), Refusal> {
        self.0 = answer.room;
        accepted(answer.code)
    }

    /// Decides an edge as Wall or Connected: a stroke of one. Refused: `Missing`, `Decided`; the graph is then as it was.
    pub fn decide(&mut self, edge: usize, wall: bool) -> Result<(), Refusal> {
        self.put(sys::sendai_room_decide(self.0, edge, wall))
    }

    /// Decides several edges, each as Wall (`true`) or Connected, in one stroke: all or none. An empty stroke is accepted and not kept.
    /// Refused: `Missing`, `Twice`, `Decided`; the graph is then as it was.
    pub fn stroke(&mut self, stroke: &[(usize, bool)]) -> Result<(), Refusal> {
        // SAFETY: the entries live through the call.
        self.put(lend(stroke, |entries, length| unsafe { sys::sendai_room_stroke(self.0, entries, length) }))
    }

    /// Takes the last stroke back, all of it. Refused: `EmptyLedger`; the graph is then as it was.
    pub fn undo(&mut self) -> Result<(), Refusal> {
        self.put(sys::sendai_room_undo(self.0))
    }

    /// The room count: `None` where it is clear, else edges that can't all hold, as entries. An empty list says that no states of the edges
    /// meet the count, as whenever it is above the vertices. Refused: `ShortBuffer` ([`edges`](RoomGraph::edges)).
    pub fn ask<'b>(&self, buffer: &'b mut [u16]) -> Result<Option<&'b [u16]>, Refusal> {
        // SAFETY: the buffer lives through the call.
        let told = unsafe { sys::sendai_room_ask(self.0, buffer.as_mut_ptr(), buffer.len()) };
        judged(told, buffer)
    }

    /// Whether the record holds together; it does.
    pub fn check(&self) -> Result<(), Refusal> {
        accepted(sys::sendai_room_check(self.0))
    }

    pub fn vertices(&self) -> usize {
        self.0.vertices
    }

    /// How many edges there are: the length of a buffer for an ask.
    pub fn edges(&self) -> usize {
        self.0.edges
    }

    pub fn count(&self) -> u32 {
        self.0.count
    }

    /// An edge's ends. `None` where it does not exist.
    pub fn edge(&self, edge: usize) -> Option<Edge> {
        (edge < self.0.edges).then(|| Edge { u: self.0.us[edge], v: self.0.vs[edge] })
    }

    /// An edge's state. `None` where it does not exist.
    pub fn state(&self, edge: usize) -> Option<State> {
        self.states().nth(edge)
    }

    /// The states, by edge.
    pub fn states(&self) -> impl Iterator<Item = State> + '_ {
        self.0.book.states[..self.0.edges].iter().map(|&state| State::of(state))
    }

    /// The decided edges in order, each with whether it is a Wall.
    pub fn ledger(&self) -> impl Iterator<Item = (usize, bool)> + '_ {
        board::decisions(&self.0.book.ledger[..self.0.book.len], &self.0.book.states)
    }

    /// How many strokes stand: so many undos empty the ledger.
    pub fn strokes(&self) -> usize {
        board::strokes(&self.0.book.ledger[..self.0.book.len])
    }
}

impl fmt::Debug for RoomGraph {
    fn fmt(&self, f: &mut fmt::Formatter) -> fmt::Result {
        let (edges, decided) = (&self.0.us[..self.0.edges], self.ledger().collect::<Vec<_>>());
        write!(f, "RoomGraph of {} vertices, edges {edges:?}", self.0.vertices)?;
        write!(f, " to {:?}, count {}, decided {decided:?}", &self.0.vs[..self.0.edges], self.0.count)
    }
}
