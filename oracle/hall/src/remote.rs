//! The library in another process, which runs under an emulator (player.c). A call's arguments and slices go into
//! memory that both processes map; a byte on a pipe says that it is the other's turn.

use std::borrow::Cow;
use std::fs::OpenOptions;
use std::io::{Read, Write};
use std::os::fd::AsRawFd;
use std::process::{Child, Command, Stdio};
use std::{cell::RefCell, ptr, slice};

/// Where player.c finds things.
const ARGUMENTS: usize = 64;
const ANSWER: usize = 8_192;
const FLOATS: usize = 16_384;
const ALL: usize = 16 << 20;

/// Floats before, between and behind the slices, which nobody may write to.
const MARGIN: [f32; 8] = [f32::from_bits(0xffc5_a5a5); 8];

/// The other process and the memory that is shared with it. It ends when its pipe is closed.
struct Player {
    process: Child,
    memory: *mut u8,
}

thread_local! {
    static PLAYER: RefCell<Player> = RefCell::new(Player::start());
}

impl Player {
    fn start() -> Self {
        let path = std::env::temp_dir().join(format!("hall-{}", std::process::id()));
        let file = OpenOptions::new().read(true).write(true).create_new(true).open(&path);
        let file = file.unwrap_or_else(|e| panic!("{}: {e}", path.display()));
        file.set_len(ALL as u64).unwrap();
        let process = Command::new(concat!(env!("CARGO_MANIFEST_DIR"), "/../../tests/play"))
            .args([env!("HALL_PLAYER").as_ref(), path.as_os_str()])
            .stdin(Stdio::piped())
            .stdout(Stdio::piped())
            .spawn()
            .expect("tests/play can't be run");
        let memory = mapped(file.as_raw_fd());
        Player { process, memory }.first_call(&path)
    }

    /// Waits until the other process has mapped the file, which then needs no name any more.
    fn first_call(mut self, path: &std::path::Path) -> Self {
        self.write_name("hall_delay_min");
        self.play();
        std::fs::remove_file(path).unwrap();
        self
    }

    fn write_name(&mut self, name: &str) {
        // A name is shorter than the room before the arguments.
        unsafe {
            ptr::copy_nonoverlapping(name.as_ptr(), self.memory, name.len());
            self.memory.add(name.len()).write(0);
        }
    }

    /// The other process's turn.
    fn play(&mut self) {
        let (Some(turn), Some(done)) = (&mut self.process.stdin, &mut self.process.stdout) else {
            unreachable!("the player was started with pipes");
        };
        let played = turn.write_all(&[1]).and_then(|()| done.read_exact(&mut [0]));
        played.expect("the player ended");
    }

    /// Floats of the shared memory, from a place on.
    fn floats(&mut self, at: usize, count: usize) -> &mut [f32] {
        assert!(
            FLOATS + 4 * (at + count) <= ALL,
            "the slices don't fit into the shared memory"
        );
        // The range lies inside the mapping and is aligned.
        unsafe { slice::from_raw_parts_mut(self.memory.add(FLOATS).cast::<f32>().add(at), count) }
    }
}

/// Maps a file of the size that player.c maps.
fn mapped(file: i32) -> *mut u8 {
    unsafe extern "C" {
        fn mmap(at: *mut u8, length: usize, protection: i32, flags: i32, file: i32, offset: i64) -> *mut u8;
    }
    const READ_AND_WRITE: i32 = 3;
    const SHARED: i32 = 1;
    // A new mapping, at no place in particular.
    let memory = unsafe { mmap(ptr::null_mut(), ALL, READ_AND_WRITE, SHARED, file, 0) };
    assert!(memory as isize != -1, "the shared memory can't be mapped");
    memory
}

/// A call whose arguments are being passed.
pub struct Call<'a> {
    name: &'static str,
    arguments: Vec<u8>,
    floats: usize,
    shared: Vec<(Cow<'a, [f32]>, usize)>,
    lent: Vec<(&'a mut [f32], usize)>,
}

impl<'a> Call<'a> {
    pub fn to(name: &'static str) -> Self {
        Call {
            name,
            arguments: Vec::new(),
            floats: MARGIN.len(),
            shared: Vec::new(),
            lent: Vec::new(),
        }
    }

    /// Passes a number or a struct.
    pub fn value<T: Copy>(&mut self, value: T) {
        let at = self.arguments.len();
        self.arguments.resize(at + size_of::<T>().next_multiple_of(8), 0);
        // There is room for it, aligned or not.
        unsafe { self.arguments.as_mut_ptr().add(at).cast::<T>().write_unaligned(value) }
    }

    /// Passes a slice that is read.
    pub fn shared(&mut self, floats: &'a [f32]) {
        let at = self.place(floats.len(), floats.len());
        self.shared.push((floats.into(), at));
    }

    /// Passes a slice of bytes that is read. They lie there as floats, the last of which is filled up by a margin.
    pub fn bytes(&mut self, bytes: &[u8]) {
        let floats: Vec<f32> = bytes.chunks(4).map(filled_up).collect();
        let at = self.place(floats.len(), bytes.len());
        self.shared.push((floats.into(), at));
    }

    /// Passes a slice that may be written.
    pub fn lent(&mut self, floats: &'a mut [f32]) {
        let at = self.place(floats.len(), floats.len());
        self.lent.push((floats, at));
    }

    /// Passes a slice's place and its count, and keeps room for so many floats and a margin.
    fn place(&mut self, room: usize, count: usize) -> usize {
        let at = self.floats;
        self.value(at);
        self.value(count);
        self.floats += room + MARGIN.len();
        at
    }

    /// Makes the call.
    pub fn made<T: Copy>(mut self) -> T {
        PLAYER.with_borrow_mut(|player| {
            self.copy_in(player);
            player.play();
            self.copy_out(player);
            // The answer of the function that was named, at a place that is aligned for it.
            unsafe { player.memory.add(ANSWER).cast::<T>().read() }
        })
    }

    fn copy_in(&self, player: &mut Player) {
        player.write_name(self.name);
        assert!(ARGUMENTS + self.arguments.len() <= ANSWER);
        // There is room for them, as was just asked.
        unsafe {
            let target = player.memory.add(ARGUMENTS);
            ptr::copy_nonoverlapping(self.arguments.as_ptr(), target, self.arguments.len());
        }
        player.floats(0, MARGIN.len()).copy_from_slice(&MARGIN);
        for (floats, at) in self.all() {
            player.floats(at, floats.len()).copy_from_slice(floats);
            player.floats(at + floats.len(), MARGIN.len()).copy_from_slice(&MARGIN);
        }
    }

    fn all(&self) -> impl Iterator<Item = (&[f32], usize)> {
        let shared = self.shared.iter().map(|(floats, at)| (&**floats, *at));
        shared.chain(self.lent.iter().map(|(floats, at)| (&**floats, *at)))
    }

    /// Takes the slices back. Margins and slices that were only to be read must be as they were.
    fn copy_out(&mut self, player: &mut Player) {
        let name = self.name;
        assert!(
            same(player.floats(0, MARGIN.len()), &MARGIN),
            "{name} wrote before its slices"
        );
        for (floats, at) in self.all() {
            let margin = player.floats(at + floats.len(), MARGIN.len());
            assert!(same(margin, &MARGIN), "{name} wrote behind a slice");
        }
        for (floats, at) in &self.shared {
            assert!(
                same(player.floats(*at, floats.len()), floats),
                "{name} wrote to a slice that it may only read"
            );
        }
        for (floats, at) in &mut self.lent {
            floats.copy_from_slice(player.floats(*at, floats.len()));
        }
    }
}

/// A float of four bytes or of fewer.
fn filled_up(bytes: &[u8]) -> f32 {
    let mut four = [0xa5; 4];
    four[..bytes.len()].copy_from_slice(bytes);
    f32::from_ne_bytes(four)
}

fn same(a: &[f32], b: &[f32]) -> bool {
    a.iter().zip(b).all(|(a, b)| a.to_bits() == b.to_bits())
}
