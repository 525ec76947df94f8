// The caption panel: 32 bytes of registers.

use crate::{Face, LonLat, Place, Refusal};

/// How many registers a panel has, each a byte.
pub const BLOCK: usize = 32;

const COMMAND: usize = 0;
const STATUS: usize = 1;
const MASK: usize = 2;
const INTERRUPT: usize = 3;
const ORIGIN: usize = 4;
const REFUSAL: usize = 5;
const INPUTS: usize = 8;
const RESULTS: usize = 16;

/// What the next [`step`](crate::Set::step) carries out.
#[derive(Clone, Copy, Debug, PartialEq, Eq)]
pub enum Command {
    /// 0: only the interrupt byte is worked out anew.
    Nothing,
    /// 1: the inputs are a longitude and a latitude.
    Place,
    /// 2: the inputs are a point on the face of the origin byte.
    Unplace,
    /// Any other value, which a step refuses with 12.
    Other(u8),
}

impl Command {
    /// The value of the command byte.
    pub fn number(self) -> u8 {
        match self {
            Command::Nothing => 0,
            Command::Place => 1,
            Command::Unplace => 2,
            Command::Other(n) => n,
        }
    }

    /// What a value of the command byte asks for.
    pub fn from_number(n: u8) -> Command {
        match n {
            0 => Command::Nothing,
            1 => Command::Place,
            2 => Command::Unplace,
            n => Command::Other(n),
        }
    }
}

/// A status that is to raise the interrupt line, as a bit of the mask: done is 1, refused is 2.
pub const DONE: u8 = 1;
/// The same of a refusal.
pub const REFUSED: u8 = 2;

/// Thirty-two registers: a host writes a command with its inputs, [`Set::step`](crate::Set::step) carries it out, and the host reads what
/// it came to. The bytes are those of the panel on the desk, so that they can be handed over as they are.
///
/// No step alters the mask or the inputs. After a command the status is exactly [`DONE`] or [`REFUSED`] and the command byte 0; a
/// refusal leaves origin and results.
#[derive(Clone, Copy, Debug, Default, PartialEq, Eq)]
pub struct Panel {
    bytes: [u8; BLOCK],
}

impl Panel {
    /// All registers 0.
    pub fn new() -> Panel {
        Panel::default()
    }

    /// The registers as a host has them, whatever they hold.
    pub fn of(bytes: [u8; BLOCK]) -> Panel {
        Panel { bytes }
    }

    /// All registers, to read.
    pub fn bytes(&self) -> &[u8; BLOCK] {
        &self.bytes
    }

    /// The same to write: any bytes anywhere.
    pub fn bytes_mut(&mut self) -> &mut [u8; BLOCK] {
        &mut self.bytes
    }

    /// The command that the next step carries out; after a step it is [`Command::Nothing`].
    pub fn command(&self) -> Command {
        Command::from_number(self.bytes[COMMAND])
    }

    /// Sets the command alone.
    pub fn set_command(&mut self, command: Command) {
        self.bytes[COMMAND] = command.number();
    }

    /// Asks for place of a longitude and a latitude, in 1e-7 degree.
    pub fn ask_place(&mut self, longitude: i32, latitude: i32) {
        self.set_inputs([longitude, latitude]);
        self.set_command(Command::Place);
    }

    /// Asks for unplace of a point of a face, in 1e-9, on the face of an origin.
    pub fn ask_unplace(&mut self, x: i32, y: i32, origin: u8) {
        self.set_inputs([x, y]);
        self.bytes[ORIGIN] = origin;
        self.set_command(Command::Unplace);
    }

    fn four(&self, at: usize) -> [u8; 4] {
        std::array::from_fn(|i| self.bytes[at + i])
    }

    fn eight(&self, at: usize) -> [u8; 8] {
        std::array::from_fn(|i| self.bytes[at + i])
    }

    /// The two inputs.
    pub fn inputs(&self) -> [i32; 2] {
        [INPUTS, INPUTS + 4].map(|at| i32::from_be_bytes(self.four(at)))
    }

    /// Sets the two inputs.
    pub fn set_inputs(&mut self, inputs: [i32; 2]) {
        self.bytes[INPUTS..INPUTS + 4].copy_from_slice(&inputs[0].to_be_bytes());
        self.bytes[INPUTS + 4..RESULTS].copy_from_slice(&inputs[1].to_be_bytes());
    }

    /// Which statuses raise the interrupt line: [`DONE`], [`REFUSED`], both or none. The other bits are not looked at.
    pub fn mask(&self) -> u8 {
        self.bytes[MASK]
    }

    /// Sets the mask; the interrupt byte is worked out at the next step.
    pub fn set_mask(&mut self, mask: u8) {
        self.bytes[MASK] = mask;
    }

    /// The status byte: after a command exactly [`DONE`] or [`REFUSED`].
    pub fn status(&self) -> u8 {
        self.bytes[STATUS]
    }

    /// Whether the interrupt byte is 1.
    pub fn interrupt(&self) -> bool {
        self.bytes[INTERRUPT] == 1
    }

    /// The origin byte.
    pub fn origin(&self) -> u8 {
        self.bytes[ORIGIN]
    }

    /// What the last command was refused with, by byte 5; `None` after one that is done.
    pub fn refusal(&self) -> Option<Refusal> {
        Refusal::from_number(self.bytes[REFUSAL])
    }

    /// Both results, as they stand.
    pub fn results(&self) -> [f64; 2] {
        [RESULTS, RESULTS + 8].map(|at| f64::from_be_bytes(self.eight(at)))
    }

    /// What place came to, after its step. `None` where the status says neither done nor refused.
    pub fn place(&self) -> Option<Result<Place, Refusal>> {
        let origin = self.origin();
        let place = |[x, y]: [f64; 2]| Place {
            origin,
            face: Face { x, y },
        };
        self.ended().map(|given| given.map(place))
    }

    /// What unplace came to, in degrees, after its step. `None` where the status says neither done nor refused.
    pub fn lon_lat(&self) -> Option<Result<LonLat, Refusal>> {
        let position = |[longitude, latitude]: [f64; 2]| LonLat {
            longitude,
            latitude,
        };
        self.ended().map(|given| given.map(position))
    }

    fn ended(&self) -> Option<Result<[f64; 2], Refusal>> {
        match self.status() {
            DONE => Some(Ok(self.results())),
            REFUSED => self.refusal().map(Err),
            _ => None,
        }
    }
}
