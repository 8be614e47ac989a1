//! Times two archives against each other in one process, call by call in turn, so that a machine whose speed wanders shows what
//! changed. Jobs on which the two answer different refusals are passed over. `compare_pair BEFORE.so AFTER.so [JOBS]`; a shared
//! object is made of an archive by
//!
//!     cc -shared -Wl,-Bsymbolic -Wl,--whole-archive libpanel.a -Wl,--no-whole-archive -o AFTER.so

use proved::{call, Reduction, Totals, NODE_WORDS, ROW_BYTES, TABLE_BYTES, WIDTHS};
use second::fast::Compiler;
use second::generate::{job, Family};
use second::job::{Job, Lent, Node};
use std::ffi::{c_char, c_int, c_void, CString};
use std::process::ExitCode;
use std::time::Instant;

extern "C" {
    fn dlopen(name: *const c_char, flags: c_int) -> *mut c_void;
    fn dlsym(object: *mut c_void, name: *const c_char) -> *mut c_void;
}

const RTLD_NOW: c_int = 2;

/// A function of a job and what else it is lent.
macro_rules! of_job {
    ($($lent:ty),* => $answer:ty) => {
        unsafe extern "C" fn(
            usize, usize, usize, usize, *const u8, usize, *const u8, usize, $($lent),*
        ) -> $answer
    };
}

type Sheet = of_job!(*mut [u8; TABLE_BYTES] => u8);
type Reduce = of_job!(*mut [u16; WIDTHS], *mut [u16; NODE_WORDS] => Reduction);
type Compile = of_job!(
    *mut u16, usize, *mut u8, usize, *mut u8, usize, *mut [u16; WIDTHS] => Totals
);

struct Archive {
    sheet: Sheet,
    reduce: Reduce,
    compile: Compile,
}

impl Archive {
    fn open(path: &str) -> Option<Archive> {
        let path = CString::new(path).ok()?;
        // SAFETY: the object is one made of the archive, whose functions have these types; it is never closed.
        unsafe {
            let object = dlopen(path.as_ptr(), RTLD_NOW);
            if object.is_null() {
                return None;
            }
            let sheet = dlsym(object, c"cascade_sheet_table".as_ptr());
            let reduce = dlsym(object, c"cascade_reduce".as_ptr());
            let compile = dlsym(object, c"cascade_compile".as_ptr());
            if [sheet, reduce, compile].iter().any(|found| found.is_null()) {
                return None;
            }
            Some(Archive {
                sheet: std::mem::transmute::<*mut c_void, Sheet>(sheet),
                reduce: std::mem::transmute::<*mut c_void, Reduce>(reduce),
                compile: std::mem::transmute::<*mut c_void, Compile>(compile),
            })
        }
    }
}

struct Memories {
    table: Box<[u8; TABLE_BYTES]>,
    nodes: Box<[u16; NODE_WORDS]>,
    records: [u8; 80],
    rows: Vec<u8>,
    widths: [u16; WIDTHS],
}

impl Memories {
    fn sheet(&mut self, archive: &Archive, job: &Job) {
        // SAFETY: the table is an array of its own.
        std::hint::black_box(unsafe { call!(archive.sheet, job, &mut *self.table) });
    }

    fn reduce(&mut self, archive: &Archive, job: &Job) {
        // SAFETY: widths and nodes are arrays of their own.
        std::hint::black_box(unsafe {
            call!(archive.reduce, job, &mut self.widths, &mut *self.nodes)
        });
    }

    fn compile(&mut self, archive: &Archive, job: &Job) {
        std::hint::black_box(self.compiled(archive, job));
    }

    fn compiled(&mut self, archive: &Archive, job: &Job) -> Totals {
        // SAFETY: pointers and lengths are of slices and an array of their own.
        unsafe {
            call!(
                archive.compile,
                job,
                self.nodes.as_mut_ptr(),
                self.nodes.len(),
                self.records.as_mut_ptr(),
                self.records.len(),
                self.rows.as_mut_ptr(),
                self.rows.len(),
                &mut self.widths
            )
        }
    }
}

/// Microseconds of one run.
fn time(run: impl FnOnce()) -> f64 {
    let began = Instant::now();
    run();
    began.elapsed().as_secs_f64() * 1e6
}

/// Microseconds of a job, each the least of sixteen: sheet layer, reduction and compile, each before and after, and `fast`. Each
/// archive goes first in every other round.
fn least(
    job: &Job,
    archives: &[Archive; 2],
    lent: &mut Memories,
    fast: &mut dyn FnMut(),
) -> [f64; 7] {
    const LAYERS: [fn(&mut Memories, &Archive, &Job); 3] =
        [Memories::sheet, Memories::reduce, Memories::compile];
    let mut least = [f64::MAX; 7];
    for round in 0..16 {
        for (layer, run) in LAYERS.iter().enumerate() {
            for turn in 0..2 {
                let which = (round + turn) % 2;
                let place = 2 * layer + which;
                let taken = time(|| run(lent, &archives[which], job));
                least[place] = least[place].min(taken);
            }
        }
        least[6] = least[6].min(time(&mut *fast));
    }
    least
}

fn family(family: Family, jobs: u64, archives: &[Archive; 2]) {
    let mut lent = Memories {
        table: Box::new([0; TABLE_BYTES]),
        nodes: Box::new([0; NODE_WORDS]),
        records: [0; 80],
        rows: vec![0; ROW_BYTES],
        widths: [0; WIDTHS],
    };
    let mut compiler = Compiler::new();
    let mut rival = Lent {
        nodes: vec![Node::default(); NODE_WORDS / 3],
        records: vec![0; 80],
        rows: vec![0; ROW_BYTES],
    };
    let (mut sums, mut timed) = ([0.0; 7], 0);
    for index in 0..jobs {
        let job = job(family, 1, index);
        let [one, other] = archives.each_ref().map(|a| lent.compiled(a, &job).refusal);
        if one != other {
            continue;
        }
        timed += 1;
        let mut fast = || {
            let _ = compiler.compile(&job, &mut rival);
        };
        let times = least(&job, archives, &mut lent, &mut fast);
        for (sum, time) in sums.iter_mut().zip(times) {
            *sum += time;
        }
    }
    let means = sums.map(|sum| sum / f64::from(timed.max(1)));
    print!("| {} | {timed} |", family.name());
    for layer in means[..6].chunks_exact(2) {
        let change = (layer[1] / layer[0] - 1.0) * 100.0;
        print!(" {:.1} | {:.1} | {change:+.1} % |", layer[0], layer[1]);
    }
    println!(" {:.1} | {:.2} |", means[6], means[5] / means[6]);
}

fn main() -> ExitCode {
    let arguments: Vec<String> = std::env::args().skip(1).collect();
    let jobs = match arguments.get(2) {
        None => Some(100),
        Some(text) => text.parse().ok().filter(|&jobs| jobs > 0),
    };
    let open = |place| {
        arguments
            .get(place)
            .and_then(|path: &String| Archive::open(path))
    };
    let (Some(jobs), Some(before), Some(after)) = (jobs, open(0), open(1)) else {
        eprintln!("compare_pair BEFORE.so AFTER.so [JOBS]");
        return ExitCode::from(2);
    };
    let archives = [before, after];
    println!("Microseconds a job, least of sixteen taken in turn; `fast` and the ratio to it for a compile.");
    println!("| family | jobs | sheet before | after | | reduce before | after | | compile before | after | | fast | ratio |");
    println!("|---|---|---|---|---|---|---|---|---|---|---|---|---|");
    for each in Family::ALL {
        family(each, jobs, &archives);
    }
    ExitCode::SUCCESS
}
