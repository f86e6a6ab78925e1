// Calls of the Rust in the terms of docs/SPEC.md: cells and borders by number, states and entries as numbers, a panic as the
// refusal that stands for it. Included into the module of sendai.rs.

/// A state's number (SPEC 1.3).
fn state_of(border: Border) -> u8 {
    match border {
        Border::Undecided => 0,
        Border::Connected => 1,
        Border::Wall => 2,
    }
}

fn entries(list: Vec<(usize, bool)>) -> Vec<u16> {
    list.into_iter().map(|(border, wall)| (2 * border + wall as usize) as u16).collect()
}

/// The Rust's arithmetic on border numbers for one size.
pub struct Numbering(BoardManager);

pub fn numbering(height: usize, width: usize) -> Numbering {
    Numbering(BoardManager::new(height, width))
}

impl Numbering {
    pub fn right_of(&self, y: usize, x: usize) -> usize {
        self.0.horizontal_idx(y, x)
    }

    pub fn under(&self, y: usize, x: usize) -> usize {
        self.0.vertical_idx(y, x)
    }

    /// Whether the border lies under its cell (and not right of it), and that cell.
    pub fn place(&self, border: usize) -> (bool, usize, usize) {
        self.0.idx_to_border(border)
    }
}

/// A board with the shape check over it.
pub struct Board(SendaiShapeConstraint);

/// Both groupings of a board.
pub struct Info(BoardInfo);

impl Board {
    pub fn new(height: usize, width: usize) -> Board {
        Board(SendaiShapeConstraint {
            board: BoardManager::new(height, width),
        })
    }

    /// A board on which these states stand, decided in rising order.
    pub fn standing(height: usize, width: usize, states: &[u8]) -> Board {
        let mut board = Board::new(height, width);
        for (border, &state) in states.iter().enumerate() {
            if state != 0 {
                board.0.board.decide(border, state == 2);
            }
        }
        board
    }

    pub fn decide(&mut self, border: usize, wall: bool) -> Result<(), u8> {
        quietly(|| self.0.board.decide(border, wall))
    }

    pub fn undo(&mut self) -> Result<(), u8> {
        quietly(|| self.0.board.undo())
    }

    /// Without the net under a panic, for the benchmark.
    pub fn decide_and_undo(&mut self, border: usize, wall: bool) {
        self.0.board.decide(border, wall);
        self.0.board.undo();
    }

    pub fn states(&self) -> Vec<u8> {
        let board = &self.0.board;
        let (right, under) = (&board.horizontal_borders, &board.vertical_borders);
        [right, under]
            .iter()
            .flat_map(|g| (0..g.height()).flat_map(move |y| (0..g.width()).map(move |x| state_of(g[(y, x)]))))
            .collect()
    }

    pub fn ledger(&self) -> Vec<u16> {
        self.0.board.decision_stack.iter().map(|&border| border as u16).collect()
    }

    pub fn info(&self) -> Info {
        Info(self.0.board.compute_board_info())
    }

    /// One kind of groups, for the benchmark.
    pub fn group_kind(&self, potential: bool) {
        std::hint::black_box(self.0.board.compute_connected_components(potential));
    }

    pub fn path(&self, from: usize, to: usize) -> Result<Vec<u16>, u8> {
        let width = self.0.board.width;
        quietly(|| {
            let (y1, x1, y2, x2) = (from / width, from % width, to / width, to % width);
            entries(self.0.board.reason_for_path(y1, x1, y2, x2))
        })
    }

    pub fn unit_boundary(&self, info: &Info, unit: usize) -> Result<Vec<u16>, u8> {
        quietly(|| entries(self.0.board.reason_for_unit_and_its_boundary(&info.0, unit)))
    }

    pub fn potential_unit_boundary(&self, info: &Info, unit: usize) -> Result<Vec<u16>, u8> {
        quietly(|| entries(self.0.board.reason_for_potential_unit_boundary(&info.0, unit)))
    }

    /// The shape check: none where the board is clear, else the fault's list.
    pub fn ask(&mut self) -> Option<Vec<u16>> {
        self.0.find_inconsistency().map(entries)
    }
}

impl Info {
    fn kind(&self, potential: bool) -> &GroupInfo {
        if potential {
            &self.0.potential_units
        } else {
            &self.0.units
        }
    }

    pub fn count(&self, potential: bool) -> usize {
        self.kind(potential).num_groups()
    }

    pub fn groups(&self, potential: bool) -> Groups {
        let info = self.kind(potential);
        let ids = &info.group_id;
        let (height, width) = (ids.height(), ids.width());
        let cells = (0..height * width).map(|cell| (cell / width, cell % width));
        Groups {
            of: cells.map(|place| ids[place] as u16).collect(),
            cells: info.groups_flat.iter().map(|&(y, x)| (y * width + x) as u16).collect(),
            starts: info.groups_offset[..info.num_groups()].iter().map(|&at| at as u16).collect(),
        }
    }

    /// The cells of one group, by the Rust's own index.
    pub fn group(&self, potential: bool, group: usize) -> Result<Vec<u16>, u8> {
        let info = self.kind(potential);
        let width = info.group_id.width();
        quietly(|| info[group].iter().map(|&(y, x)| (y * width + x) as u16).collect())
    }
}

pub struct Union(UnionFind);

impl Clone for Union {
    fn clone(&self) -> Union {
        Union(UnionFind { parent: self.0.parent.clone() })
    }
}

impl Union {
    pub fn new(vertices: usize) -> Union {
        Union(UnionFind::new(vertices))
    }

    pub fn find(&mut self, x: usize) -> Result<usize, u8> {
        quietly(|| self.0.find(x))
    }

    /// Where y does not exist the Rust has shortened x's chain before it panics; a refusal changes nothing.
    pub fn unite(&mut self, x: usize, y: usize) -> Result<bool, u8> {
        let before = self.0.parent.clone();
        let answer = quietly(|| self.0.unite(x, y));
        if answer.is_err() {
            self.0.parent = before;
        }
        answer
    }

    /// The parents that the Rust leaves when it panics at a vertex that does not exist.
    pub fn after_panic(mut self, x: usize, y: usize) -> Vec<u16> {
        let _ = quietly(|| self.0.unite(x, y));
        self.parents()
    }

    pub fn parents(&self) -> Vec<u16> {
        self.0.parent.iter().map(|&p| p as u16).collect()
    }
}

/// A room graph.
pub struct City(CityCountConstraint);

impl City {
    pub fn new(vertices: usize, edges: &[(usize, usize)], count: u32) -> Result<City, u8> {
        quietly(|| City(CityCountConstraint::new(vertices, edges.to_vec(), count as usize)))
    }

    pub fn decide(&mut self, edge: usize, wall: bool) -> Result<(), u8> {
        quietly(|| self.0.notify(edge, wall))
    }

    pub fn undo(&mut self) -> Result<(), u8> {
        quietly(|| self.0.undo())
    }

    pub fn states(&self) -> Vec<u8> {
        self.0.borders.iter().map(|&border| state_of(border)).collect()
    }

    pub fn ledger(&self) -> Vec<u16> {
        self.0.decision_stack.iter().map(|&edge| edge as u16).collect()
    }

    pub fn ask(&mut self) -> Option<Vec<u16>> {
        self.0.find_inconsistency().map(entries)
    }
}

/// A puzzle as `solve_sendai` builds it: its shape check and its clued rooms' checks, in order.
pub struct Puzzle {
    shape: Box<dyn SimpleCustomConstraint>,
    rooms: Vec<Room>,
    /// For each border, the rooms and their edges that are this border.
    uses: Vec<Vec<(usize, usize)>>,
    /// The borders decided since the puzzle was made.
    ledger: Vec<usize>,
    /// The same calls on a board of its own, whose states can be read.
    board: Board,
}

struct Room {
    number: usize,
    check: Box<dyn SimpleCustomConstraint>,
    borders: Vec<usize>,
}

/// No clue (SPEC 1.7).
pub const NO_CLUE: u16 = 65535;

/// Given walls as `solve_sendai` takes them.
fn wall_grid(height: usize, width: usize, given: &[usize]) -> graph::InnerGridEdges<Vec<Vec<bool>>> {
    let at = Numbering(BoardManager::new(height, width));
    let mut wall = vec![false; height * (width - 1) + (height - 1) * width];
    given.iter().for_each(|&border| wall[border] = true);
    let rows = |n: usize, m: usize, border: &dyn Fn(usize, usize) -> usize| -> Vec<Vec<bool>> {
        (0..n).map(|y| (0..m).map(|x| wall[border(y, x)]).collect()).collect()
    };
    graph::InnerGridEdges {
        horizontal: rows(height - 1, width, &|y, x| at.under(y, x)),
        vertical: rows(height, width - 1, &|y, x| at.right_of(y, x)),
    }
}

/// The cells of each room.
pub fn rooms(height: usize, width: usize, given: &[usize]) -> Vec<Vec<usize>> {
    let rooms = graph::borders_to_room_partition(&wall_grid(height, width, given)).rooms;
    rooms.iter().map(|room| room.iter().map(|&(y, x)| y * width + x).collect()).collect()
}

impl Puzzle {
    /// `solve_sendai` itself lays out the checks; the stub of the solver keeps them. A room without a clue is `Some(-1)`
    /// or, by `absent`, `None`.
    pub fn new(height: usize, width: usize, given: &[usize], clues: &[u16], absent: bool) -> Result<Puzzle, u8> {
        let borders = wall_grid(height, width, given);
        let none = if absent { None } else { Some(-1) };
        let counts: Vec<Option<i32>> =
            clues.iter().map(|&c| if c == NO_CLUE { none } else { Some(c as i32) }).collect();
        // it panics where a room has no clue, and takes no notice of clues that have no room
        quietly(|| solve_sendai(&borders, &counts).is_some()).map_err(|_| 8)?;
        let record = cspuz_rs::solver::take_record();
        if !record.solved {
            return Err(9);
        }
        let rooms = graph::borders_to_room_partition(&borders).rooms.len();
        let clued = (0..rooms).filter(|&room| clues[room] != NO_CLUE);
        Ok(Puzzle::laid_out(record, clued.collect(), given, Board::new(height, width)))
    }

    /// The first constraint is the shape check, and its inputs are the borders in order.
    fn laid_out(record: cspuz_rs::solver::Record, clued: Vec<usize>, given: &[usize], mut board: Board) -> Puzzle {
        let mut constraints = record.constraints.into_iter();
        let (mut shape, inputs) = constraints.next().expect("the shape check");
        let mut number_of = vec![0; inputs.len()];
        for (border, var) in inputs.iter().enumerate() {
            number_of[var.0] = border;
        }
        let mut walls: Vec<usize> = record.given.iter().map(|var| number_of[var.0]).collect();
        walls.sort();
        assert_eq!(walls, given, "the given walls of solve_sendai");
        let mut uses = vec![vec![]; inputs.len()];
        let mut rooms = vec![];
        for (i, (check, vars)) in constraints.enumerate() {
            let borders: Vec<usize> = vars.iter().map(|var| number_of[var.0]).collect();
            for (edge, &border) in borders.iter().enumerate() {
                uses[border].push((i, edge));
            }
            let number = clued[i];
            rooms.push(Room { number, check, borders });
        }
        assert_eq!(rooms.len(), clued.len(), "a check for each clued room");
        for &border in given {
            shape.notify(border, true);
            board.0.board.decide(border, true);
        }
        Puzzle { shape, rooms, uses, ledger: vec![], board }
    }

    pub fn decide(&mut self, border: usize, wall: bool) -> Result<(), u8> {
        quietly(|| self.shape.notify(border, wall))?;
        self.board.0.board.decide(border, wall);
        for &(room, edge) in &self.uses[border] {
            self.rooms[room].check.notify(edge, wall);
        }
        self.ledger.push(border);
        Ok(())
    }

    /// Whether a decide would panic, for the benchmark.
    pub fn is_decided(&self, border: usize) -> bool {
        let board = &self.board.0.board;
        let (under, y, x) = board.idx_to_border(border);
        let borders = if under { &board.vertical_borders } else { &board.horizontal_borders };
        borders[(y, x)] != Border::Undecided
    }

    /// The solver never undoes a given wall: an empty ledger is refused here.
    pub fn undo(&mut self) -> Result<(), u8> {
        let border = self.ledger.pop().ok_or(5)?;
        self.shape.undo();
        self.board.0.board.undo();
        for &(room, _) in &self.uses[border] {
            self.rooms[room].check.undo();
        }
        Ok(())
    }

    /// A fresh puzzle with the shape check itself in the place of `ReasonVerifier` over it, for the benchmark.
    pub fn unverified(mut self) -> Puzzle {
        let board = &self.board.0.board;
        self.shape = Box::new(Board::standing(board.height, board.width, &self.board.states()).0);
        self
    }

    /// Without the net under a panic and the board that is read, for the benchmark.
    pub fn decide_and_undo(&mut self, border: usize, wall: bool) {
        self.shape.notify(border, wall);
        for &(room, edge) in &self.uses[border] {
            self.rooms[room].check.notify(edge, wall);
            self.rooms[room].check.undo();
        }
        self.shape.undo();
    }

    /// A decide and an undo, without the net and that board, for the benchmark: such a puzzle has no other calls but these and asks.
    pub fn notify(&mut self, border: usize, wall: bool) {
        self.shape.notify(border, wall);
        for &(room, edge) in &self.uses[border] {
            self.rooms[room].check.notify(edge, wall);
        }
        self.ledger.push(border);
    }

    pub fn take_back(&mut self) {
        let border = self.ledger.pop().expect("decided");
        self.shape.undo();
        for &(room, _) in &self.uses[border] {
            self.rooms[room].check.undo();
        }
    }

    pub fn states(&self) -> Vec<u8> {
        self.board.states()
    }

    /// The borders decided since the puzzle was made: the board's own stack has the given walls in front.
    pub fn ledger(&self) -> Vec<u16> {
        let all = self.board.ledger();
        all[all.len() - self.ledger.len()..].to_vec()
    }

    pub fn ask(&mut self) -> Answer {
        if let Some(list) = self.shape.find_inconsistency() {
            return Answer::Shape(entries(list));
        }
        self.ask_rooms()
    }

    /// The rooms' checks alone.
    pub fn ask_rooms(&mut self) -> Answer {
        for room in &mut self.rooms {
            if let Some(list) = room.check.find_inconsistency() {
                let on_board = list.into_iter().map(|(edge, wall)| (room.borders[edge], wall));
                return Answer::Room(room.number, entries(on_board.collect()));
            }
        }
        Answer::Clear
    }
}
