//! The C functions and their structs, as in `include/zevombu.h`.

#[repr(C)]
pub struct Core {
    pub at: *mut u8,
}

#[repr(C)]
#[derive(Clone, Copy, Default)]
pub struct Address {
    pub version: u16,
    pub port: u16,
    pub high: u64,
    pub low: u64,
}

#[repr(C)]
#[derive(Clone, Copy, Default)]
pub struct TurnHead {
    pub kind: u32,
    pub choice: u32,
    pub outcome: u32,
    pub priority: i32,
    pub id: u64,
    pub session: u64,
    pub number: u64,
    pub uni: u64,
    pub bi: u64,
    pub limit: u64,
    pub fields: u64,
    pub found: Address,
    pub remote: Address,
}

#[repr(C)]
#[derive(Clone, Copy, Default)]
pub struct ReplyHead {
    pub kind: u32,
    pub choice: u32,
    pub cause: u32,
    pub has_code: u32,
    pub priority: i32,
    pub number: u64,
    pub address: Address,
    pub length: u64,
    pub fields: u64,
    pub actions: u64,
}

#[repr(C)]
#[derive(Clone, Copy, Default)]
pub struct ActionHead {
    pub kind: u32,
    pub id: u64,
    pub code: u64,
    pub address: Address,
    pub length: u64,
}

#[repr(C)]
#[derive(Clone, Copy, Default)]
pub struct FieldHead {
    pub name: u64,
    pub value: u64,
}

extern "C" {
    pub fn zevombu_version() -> u32;
    pub fn zevombu_new(side: u32, core: *mut Core) -> u32;
    pub fn zevombu_free(core: Core);
    pub fn zevombu_turn(core: *mut Core, turn: *const TurnHead, bytes: *const u8, length: usize, reply: *mut ReplyHead) -> u32;
    pub fn zevombu_reply(core: *mut Core, room: *mut u8, length: usize) -> usize;
    pub fn zevombu_action(core: *mut Core, index: usize, action: *mut ActionHead, room: *mut u8, length: usize) -> bool;
    pub fn zevombu_field(core: *mut Core, index: usize, field: *mut FieldHead, room: *mut u8, length: usize) -> bool;
}
