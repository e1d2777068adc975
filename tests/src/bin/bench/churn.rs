//! Allocate and free churn against other allocators. Each of these is measured in a process of its own, which the loader gives that allocator's malloc
//! (LD_PRELOAD): not all of them can be loaded later. Poheldu takes turns with it in the same process.

use crate::heap::{allocate, figure, free, Heap};
use crate::measure::{head, row, time};
use poheldu_tests::random::Random;
use std::ffi::{c_char, c_int, c_void, CStr};
use std::hint::black_box;
use std::path::Path;
use std::process::Command;

/// The first word of the command of such a process; an allocator's name and a region length follow.
pub const CHILD: &str = "churn";

const TURNS: usize = 2000;

struct Library {
    file: &'static str,
    package: &'static str,
}

const GLIBC: Library = Library {
    file: "libc.so.6",
    package: "libc6",
};

const SCUDO: Library = Library {
    file: "/usr/lib/llvm-14/lib/clang/14.0.6/lib/linux/libclang_rt.scudo_standalone-x86_64.so",
    package: "libclang-rt-14-dev",
};

/// A variable of the environment, which the allocator reads when its process starts, and what it says.
type Setting = (&'static str, &'static str);

struct Allocator {
    name: &'static str,
    library: Library,
    /// Set where the allocator is to fill what it frees or allocates, which it does not by itself.
    filling: Option<Setting>,
}

/// The C library's own, and three that Debian 12 has; two of them also filling as Poheldu does. The C library fills what
/// it frees and what it allocates, but not what goes through its cache of a thread (up to 1,032 bytes), unless it has
/// none; Scudo fills what it allocates.
const ALLOCATORS: [Allocator; 7] = [
    Allocator {
        name: "malloc of the C library",
        library: GLIBC,
        filling: None,
    },
    Allocator {
        name: "malloc of the C library, filling",
        library: GLIBC,
        filling: Some(("GLIBC_TUNABLES", "glibc.malloc.perturb=165")),
    },
    Allocator {
        name: "malloc of the C library, filling, no cache",
        library: GLIBC,
        filling: Some((
            "GLIBC_TUNABLES",
            "glibc.malloc.perturb=165:glibc.malloc.tcache_count=0",
        )),
    },
    Allocator {
        name: "mimalloc",
        library: Library {
            file: "/usr/lib/x86_64-linux-gnu/libmimalloc.so.2",
            package: "libmimalloc2.0",
        },
        filling: None,
    },
    Allocator {
        name: "jemalloc",
        library: Library {
            file: "/usr/lib/x86_64-linux-gnu/libjemalloc.so.2",
            package: "libjemalloc2",
        },
        filling: None,
    },
    Allocator {
        name: "Scudo",
        library: SCUDO,
        filling: None,
    },
    Allocator {
        name: "Scudo, filling",
        library: SCUDO,
        filling: Some(("SCUDO_OPTIONS", "pattern_fill_contents=true")),
    },
];

type Malloc = unsafe extern "C" fn(usize) -> *mut c_void;
type Free = unsafe extern "C" fn(*mut c_void);

#[repr(C)]
struct Place {
    file: *const c_char,
    base: *mut c_void,
    name: *const c_char,
    address: *mut c_void,
}

extern "C" {
    fn malloc(size: usize) -> *mut c_void;
    #[link_name = "free"]
    fn release(block: *mut c_void);
    fn dladdr(address: *const c_void, place: *mut Place) -> c_int;
}

/// The file of the library that this process has its malloc from.
fn library_of_malloc() -> String {
    let mut place = Place {
        file: std::ptr::null(),
        base: std::ptr::null_mut(),
        name: std::ptr::null(),
        address: std::ptr::null_mut(),
    };
    // SAFETY: the address is a function's, and the loader's names are strings that stay.
    let file = unsafe {
        assert_ne!(dladdr(malloc as Malloc as *const c_void, &mut place), 0);
        CStr::from_ptr(place.file)
    };
    file.to_string_lossy().into_owned()
}

/// Sizes that bring each class to half full, and then turns: the object at a place is freed, and one of the same class allocated.
struct Script {
    sizes: Vec<usize>,
    turns: Vec<(usize, usize)>,
}

/// A size from 1 to 16,384, log-uniform.
fn size(random: &mut Random) -> usize {
    let share = random.word() as f64 / (1u64 << 32) as f64;
    16384f64.powf(share).round() as usize
}

fn class_of(size: usize) -> usize {
    (0..12).find(|c| size <= 8 << c).expect("at most 16,384")
}

fn script(region: usize, random: &mut Random) -> Script {
    let mut places: Vec<Vec<usize>> = vec![Vec::new(); 12];
    let mut sizes = Vec::new();
    let halves: Vec<usize> = (0..12).map(|class| (region >> class) / 16).collect();
    while sizes.len() < halves.iter().sum() {
        let size = size(random);
        let class = class_of(size);
        if places[class].len() < halves[class] {
            places[class].push(sizes.len());
            sizes.push(size);
        }
    }
    let mut turn = |_| {
        let size = size(random);
        (random.pick(&places[class_of(size)]), size)
    };
    let turns = (0..TURNS).map(&mut turn).collect();
    Script { sizes, turns }
}

/// A turn of all turns by Poheldu.
fn ours(heap: &mut Heap, objects: &mut [u32], script: &Script) -> f64 {
    let mut refusals = 0;
    let taken = time(script.turns.len(), || {
        for &(place, size) in &script.turns {
            refusals |= heap.serve(&free(objects[place])).number;
            let answer = heap.serve(&allocate(size));
            refusals |= answer.number;
            objects[place] = answer.value;
        }
    });
    assert_eq!(refusals, 0);
    taken
}

/// A turn of all turns by malloc and free.
fn theirs(take: Malloc, give: Free, objects: &mut [*mut c_void], script: &Script) -> f64 {
    let mut missing = false;
    let taken = time(script.turns.len(), || {
        for &(place, size) in &script.turns {
            // SAFETY: each object is freed once, after it was allocated.
            unsafe {
                give(objects[place]);
                objects[place] = take(size);
            }
            missing |= objects[place].is_null();
        }
    });
    assert!(!missing);
    taken
}

/// Whether bytes that were written to an object are gone when its place is allocated again: blocks of 4,096 bytes, one
/// after another, until one lies where one lay before.
fn fills(take: Malloc, give: Free) -> bool {
    const SIZE: usize = 4096;
    const BYTE: u8 = 0x11;
    let mut seen = Vec::with_capacity(1024);
    for _ in 0..seen.capacity() {
        // SAFETY: the block has as many bytes, and they are set before they are read.
        unsafe {
            let block = take(SIZE).cast::<u8>();
            assert!(!block.is_null());
            if seen.contains(&block) {
                let bytes = std::slice::from_raw_parts(block, SIZE);
                return bytes.iter().all(|&byte| byte != BYTE);
            }
            seen.push(block);
            block.write_bytes(BYTE, SIZE);
            give(block.cast());
        }
    }
    panic!("no block of {SIZE} bytes is allocated again");
}

/// Measures the malloc that this process has, and prints a row.
pub fn child(name: &str, region: usize) {
    let allocator = ALLOCATORS.iter().find(|a| a.name == name);
    let allocator = allocator.expect("a known allocator");
    let found = library_of_malloc();
    assert_eq!(
        Path::new(&found).file_name(),
        Path::new(allocator.library.file).file_name()
    );
    let script = script(region, &mut Random::new(1));
    let mut heap = Heap::new(region);
    let (take, give) = black_box((malloc as Malloc, release as Free));
    assert_eq!(fills(take, give), allocator.filling.is_some());
    let (mut offsets, mut objects) = (Vec::new(), Vec::new());
    for &size in &script.sizes {
        offsets.push(heap.fill(size, 1)[0]);
        // SAFETY: malloc takes any size.
        objects.push(unsafe { take(size) });
    }
    row(
        name,
        [&mut || ours(&mut heap, &mut offsets, &script), &mut || {
            theirs(take, give, &mut objects, &script)
        }],
    );
}

fn run(allocator: &Allocator, region: usize) {
    let Library { file, package } = allocator.library;
    let preloaded = file.starts_with('/');
    if preloaded && !Path::new(file).exists() {
        let name = allocator.name;
        return println!("| {name} | | not installed: Debian package {package} | |");
    }
    let mut command = Command::new(std::env::current_exe().expect("this program's path"));
    command.args([CHILD, allocator.name, &region.to_string()]);
    if preloaded {
        command.env("LD_PRELOAD", file);
    } else {
        command.env_remove("LD_PRELOAD");
    }
    for (variable, _) in ALLOCATORS.iter().filter_map(|other| other.filling) {
        command.env_remove(variable);
    }
    if let Some((variable, value)) = allocator.filling {
        command.env(variable, value);
    }
    let status = command.status().expect("this program can be run");
    assert!(status.success(), "{}: {status}", allocator.name);
}

pub fn table(region: usize) {
    let title = format!(
        "A free and an allocation, all classes half full, regions of {} bytes",
        figure(region)
    );
    head(&title, "other allocator", &["other"]);
    for allocator in &ALLOCATORS {
        run(allocator, region);
    }
}
