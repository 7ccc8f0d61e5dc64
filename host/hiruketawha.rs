//! The box's static library from Rust: include/hiruketawha.h says what each record and function is.
use std::mem::MaybeUninit;

#[repr(C)]
#[derive(Clone, Copy)]
pub struct Line {
    pub blocks: u8,
    pub block: [u8; 8],
    pub innera: u8,
    pub innerb: u8,
    pub entrancea: u8,
    pub entranceb: u8,
    pub points: u8,
    pub point: [u8; 8],
    pub position: [u8; 8],
}

#[repr(C)]
#[derive(Clone, Copy)]
pub struct Route {
    pub entry: u8,
    pub kind: u8,
    pub line: u8,
    pub end: u8,
    pub diverging: u8,
    pub paths: u8,
    pub path: [u8; 8],
    pub overlaps: u8,
    pub overlap: [u8; 8],
    pub points: u8,
    pub point: [u8; 8],
    pub position: [u8; 8],
}

#[repr(C)]
#[derive(Clone, Copy)]
pub struct Layout {
    pub version: u8,
    pub sections: u8,
    pub points: u8,
    pub pointsection: [u8; 32],
    pub signals: u8,
    pub lines: u8,
    pub line: [Line; 8],
    pub distants: u8,
    pub carrier: [u8; 32],
    pub announced: [u8; 32],
    pub routes: u8,
    pub route: [Route; 48],
    pub conflict: [u8; 2304],
    pub fitted: [u8; 64],
    pub lacking: u8,
}

#[repr(C)]
#[derive(Clone, Copy)]
pub struct Head {
    pub inward: u16,
    pub outward: u16,
    pub hasin: u8,
    pub hasout: u8,
}

#[repr(C)]
#[derive(Clone, Copy)]
pub struct Axles {
    pub head0: Head,
    pub head1: Head,
    pub sum: u16,
    pub proof: u16,
}

#[repr(C)]
#[derive(Clone, Copy)]
pub struct State {
    pub section: [u8; 64],
    pub point: [u8; 32],
    pub order: [u8; 32],
    pub phase: [u8; 48],
    pub steps: [u8; 48],
    pub seconds: [u8; 48],
    pub direction: [u8; 8],
    pub stage: [u8; 64],
    pub bar: [u8; 64],
    pub axles: [Axles; 64],
    pub lamp: [u8; 144],
}

#[repr(C)]
#[derive(Clone, Copy, Debug, PartialEq)]
pub struct Reply {
    pub number: u8,
    pub detail: u32,
}

#[repr(C)]
#[derive(Clone, Copy, Debug, PartialEq)]
pub struct LoadReply {
    pub number: u8,
    pub detail: usize,
}

#[repr(C)]
#[derive(Clone, Copy, Debug, PartialEq)]
pub struct Drawn {
    pub number: u8,
    pub length: usize,
}

extern "C" {
    fn hiruketawha_power_on(state: *mut State, layout: *mut Layout);
    fn hiruketawha_load(state: *mut State, layout: *mut Layout, bytes: *const u8, length: usize) -> LoadReply;
    fn hiruketawha_fit(state: *mut State, layout: *mut Layout, bytes: *const u8, length: usize) -> LoadReply;
    fn hiruketawha_event(state: *mut State, layout: *const Layout, kind: u32, first: u32, second: u32) -> Reply;
    fn hiruketawha_panel(state: *const State, layout: *const Layout, image: *mut u8, length: usize) -> Drawn;
}

/// The two records that are kept from power-on.
pub struct Cabinet {
    state: State,
    layout: Layout,
}

impl Cabinet {
    /// The cold start, with no layout.
    pub fn power_on() -> Cabinet {
        let (mut state, mut layout) = (MaybeUninit::uninit(), MaybeUninit::uninit());
        // SAFETY: the library writes both records whole and reads nothing of them.
        unsafe {
            hiruketawha_power_on(state.as_mut_ptr(), layout.as_mut_ptr());
            Cabinet { state: state.assume_init(), layout: layout.assume_init() }
        }
    }

    /// A layout file: where it is accepted the state starts anew; where it is refused both records stay what they were.
    pub fn load(&mut self, bytes: &[u8]) -> LoadReply {
        // SAFETY: the library reads these bytes, reads and writes both records, and keeps nothing.
        unsafe { hiruketawha_load(&mut self.state, &mut self.layout, bytes.as_ptr(), bytes.len()) }
    }

    /// The sections that have heads: where the file is accepted they are these and the state starts anew; where it is refused both records stay
    /// what they were.
    pub fn fit(&mut self, bytes: &[u8]) -> LoadReply {
        // SAFETY: the library reads these bytes, reads and writes both records, and keeps nothing.
        unsafe { hiruketawha_fit(&mut self.state, &mut self.layout, bytes.as_ptr(), bytes.len()) }
    }

    /// One event on the state.
    pub fn event(&mut self, kind: u32, first: u32, second: u32) -> Reply {
        // SAFETY: the library reads both records, writes the state, and keeps nothing.
        unsafe { hiruketawha_event(&mut self.state, &self.layout, kind, first, second) }
    }

    /// The panel image, into the buffer's first bytes.
    pub fn panel(&self, image: &mut [u8]) -> Drawn {
        // SAFETY: the library reads both records, writes within the buffer, and keeps nothing.
        unsafe { hiruketawha_panel(&self.state, &self.layout, image.as_mut_ptr(), image.len()) }
    }
}
