//! Times guards of sections on threads, as crates/benches does on Rattle's, on a stand-in for `seize`: its scheme, written from what its documents tell of
//! it, with sequentially consistent entering (a slot a thread, batches, entries on lists of slots, a count of each batch).

use std::cell::{Cell, UnsafeCell};
use std::io;
use std::mem::MaybeUninit;
use std::ptr;
use std::sync::atomic::Ordering::{AcqRel, Acquire, Relaxed, Release, SeqCst};
use std::sync::atomic::{fence, AtomicBool, AtomicPtr, AtomicUsize};
use std::sync::Mutex;
use std::thread;
use std::time::Instant;

const BUCKETS: usize = 59;
const FIRST: usize = 32;

/// The place of a thread's number in a row that grows by buckets.
#[derive(Clone, Copy)]
struct Thread {
    bucket: usize,
    entry: usize,
}

/// Numbers that were given back, and the next new one.
static IDS: Mutex<(Vec<usize>, usize)> = Mutex::new((Vec::new(), 0));

/// Gives a thread's number back as the thread ends.
struct Leaver {
    id: Cell<usize>,
}

impl Drop for Leaver {
    fn drop(&mut self) {
        let _ = THREAD.try_with(|it| it.set(None));
        IDS.lock().unwrap().0.push(self.id.get());
    }
}

thread_local! {
    static THREAD: Cell<Option<Thread>> = const { Cell::new(None) };
    static LEAVER: Leaver = const { Leaver { id: Cell::new(0) } };
}

impl Thread {
    fn capacity(bucket: usize) -> usize {
        FIRST << bucket
    }

    fn new(id: usize) -> Thread {
        let index = id + FIRST;
        let bucket = (usize::BITS - 1 - index.leading_zeros()) as usize - 5;
        Thread { bucket, entry: index - Thread::capacity(bucket) }
    }

    #[inline]
    fn current() -> Thread {
        THREAD.with(|it| match it.get() {
            Some(thread) => thread,
            None => Thread::begin(it),
        })
    }

    #[cold]
    #[inline(never)]
    fn begin(cell: &Cell<Option<Thread>>) -> Thread {
        let mut ids = IDS.lock().unwrap();
        let id = match ids.0.pop() {
            Some(id) => id,
            None => {
                ids.1 += 1;
                ids.1 - 1
            }
        };
        let thread = Thread::new(id);
        cell.set(Some(thread));
        LEAVER.with(|it| it.id.set(id));
        thread
    }
}

/// Something on cache lines of its own.
#[repr(align(128))]
struct Apart<T>(T);

/// What a thread has of its own.
struct Place<T> {
    present: AtomicBool,
    value: Apart<UnsafeCell<MaybeUninit<T>>>,
}

/// A row of what each thread has.
struct PerThread<T> {
    buckets: [AtomicPtr<Place<T>>; BUCKETS],
}

impl<T: Default> PerThread<T> {
    fn new() -> Self {
        let row = PerThread { buckets: std::array::from_fn(|_| AtomicPtr::new(ptr::null_mut())) };
        row.buckets[0].store(Self::bucket(FIRST), Relaxed);
        row
    }

    fn bucket(count: usize) -> *mut Place<T> {
        let empty = || Place { present: AtomicBool::new(false), value: Apart(UnsafeCell::new(MaybeUninit::uninit())) };
        let places: Box<[Place<T>]> = (0..count).map(|_| empty()).collect();
        Box::into_raw(places) as *mut Place<T>
    }

    #[inline]
    fn of(&self, thread: Thread) -> &T {
        let bucket = unsafe { self.buckets.get_unchecked(thread.bucket) }.load(Acquire);
        if !bucket.is_null() {
            let place = unsafe { &*bucket.add(thread.entry) };
            if place.present.load(Relaxed) {
                return unsafe { (*place.value.0.get()).assume_init_ref() };
            }
        }
        self.first(thread)
    }

    #[cold]
    #[inline(never)]
    fn first(&self, thread: Thread) -> &T {
        let bucket = self.buckets[thread.bucket].load(Acquire);
        assert!(!bucket.is_null(), "no more than {FIRST} threads");
        let place = unsafe { &*bucket.add(thread.entry) };
        unsafe { (*place.value.0.get()).write(T::default()) };
        place.present.store(true, Release);
        fence(SeqCst);
        unsafe { (*place.value.0.get()).assume_init_ref() }
    }

    fn all(&self) -> impl Iterator<Item = &T> + '_ {
        self.buckets.iter().enumerate().flat_map(|(at, bucket)| {
            let bucket = bucket.load(Acquire);
            let count = if bucket.is_null() { 0 } else { Thread::capacity(at) };
            (0..count).filter_map(move |entry| {
                let place = unsafe { &*bucket.add(entry) };
                place.present.load(Acquire).then(|| unsafe { (*place.value.0.get()).assume_init_ref() })
            })
        })
    }
}

impl<T> Drop for PerThread<T> {
    fn drop(&mut self) {
        for (at, bucket) in self.buckets.iter_mut().enumerate() {
            let bucket = *bucket.get_mut();
            if !bucket.is_null() {
                drop(unsafe { Box::from_raw(ptr::slice_from_raw_parts_mut(bucket, Thread::capacity(at))) });
            }
        }
    }
}

/// While a batch is handed on, the list of a slot; then what follows on that list.
union Linked {
    head: *const AtomicPtr<Entry>,
    next: *mut Entry,
}

struct Entry {
    value: *mut (),
    reclaim: unsafe fn(*mut ()),
    linked: Linked,
    batch: *mut Batch,
}

struct Batch {
    entries: Vec<Entry>,
    active: AtomicUsize,
}

const INACTIVE: *mut Entry = usize::MAX as *mut Entry;

struct Slot {
    head: AtomicPtr<Entry>,
    guards: Cell<u64>,
}

impl Default for Slot {
    fn default() -> Self {
        Slot { head: AtomicPtr::new(INACTIVE), guards: Cell::new(0) }
    }
}

struct Pending(Cell<*mut Batch>);

impl Default for Pending {
    fn default() -> Self {
        Pending(Cell::new(ptr::null_mut()))
    }
}

struct Collector {
    slots: PerThread<Slot>,
    pending: PerThread<Pending>,
    batch_size: usize,
}

unsafe impl Sync for Collector {}

impl Collector {
    fn new() -> Self {
        Collector { slots: PerThread::new(), pending: PerThread::new(), batch_size: 32 }
    }

    #[inline]
    fn enter(&self) -> Guard<'_> {
        let thread = Thread::current();
        let slot = self.slots.of(thread);
        let guards = slot.guards.get();
        slot.guards.set(guards + 1);
        if guards == 0 {
            slot.head.store(ptr::null_mut(), SeqCst);
        }
        Guard { collector: self, thread, slot }
    }

    #[inline]
    unsafe fn retire(&self, value: *mut (), reclaim: unsafe fn(*mut ()), thread: Thread) {
        let pending = self.pending.of(thread);
        if pending.0.get().is_null() {
            let entries = Vec::with_capacity(self.batch_size);
            pending.0.set(Box::into_raw(Box::new(Batch { entries, active: AtomicUsize::new(0) })));
        }
        let batch = pending.0.get();
        let entries = unsafe { &mut (*batch).entries };
        entries.push(Entry { value, reclaim, linked: Linked { head: ptr::null() }, batch });
        if entries.len() >= self.batch_size {
            unsafe { self.hand_on(pending) };
        }
    }

    #[cold]
    #[inline(never)]
    unsafe fn hand_on(&self, pending: &Pending) {
        let batch = pending.0.get();
        fence(SeqCst);
        let count = unsafe { (*batch).entries.len() };
        let entries = unsafe { (*batch).entries.as_mut_ptr() };
        let mut marked = 0;
        for slot in self.slots.all() {
            if slot.head.load(Relaxed) == INACTIVE {
                continue;
            }
            if marked >= count {
                return;
            }
            unsafe { (*entries.add(marked)).linked.head = &slot.head };
            marked += 1;
        }
        fence(Acquire);
        let mut active = 0;
        for at in 0..marked {
            let entry = unsafe { entries.add(at) };
            active += usize::from(unsafe { Self::push(entry) });
        }
        pending.0.set(ptr::null_mut());
        if unsafe { (*batch).active.fetch_add(active, Release) }.wrapping_add(active) == 0 {
            fence(Acquire);
            unsafe { Self::reclaim(batch) };
        }
    }

    /// Puts an entry on the list of its slot, if a section of that one is open.
    unsafe fn push(entry: *mut Entry) -> bool {
        let head = unsafe { &*(*entry).linked.head };
        let mut before = head.load(Relaxed);
        loop {
            if before == INACTIVE {
                fence(Acquire);
                return false;
            }
            unsafe { (*entry).linked.next = before };
            match head.compare_exchange_weak(before, entry, AcqRel, Relaxed) {
                Ok(_) => return true,
                Err(found) => before = found,
            }
        }
    }

    #[cold]
    #[inline(never)]
    unsafe fn count_down(mut list: *mut Entry) {
        while !list.is_null() {
            let entry = list;
            list = unsafe { (*entry).linked.next };
            let batch = unsafe { (*entry).batch };
            if unsafe { (*batch).active.fetch_sub(1, Release) } == 1 {
                fence(Acquire);
                unsafe { Self::reclaim(batch) };
            }
        }
    }

    unsafe fn reclaim(batch: *mut Batch) {
        let batch = unsafe { Box::from_raw(batch) };
        for entry in batch.entries.iter() {
            unsafe { (entry.reclaim)(entry.value) };
        }
    }
}

impl Drop for Collector {
    fn drop(&mut self) {
        for pending in self.pending.all() {
            let batch = pending.0.replace(ptr::null_mut());
            if !batch.is_null() {
                unsafe { Self::reclaim(batch) };
            }
        }
    }
}

struct Guard<'c> {
    collector: &'c Collector,
    thread: Thread,
    slot: *const Slot,
}

impl Guard<'_> {
    fn refresh(&mut self) {
        let slot = unsafe { &*self.slot };
        if slot.guards.get() == 1 {
            let head = slot.head.swap(ptr::null_mut(), SeqCst);
            if !head.is_null() && head != INACTIVE {
                unsafe { Collector::count_down(head) };
            }
        }
    }

    #[inline]
    fn protect<T>(&self, root: &AtomicPtr<T>) -> *mut T {
        root.load(SeqCst)
    }

    #[inline]
    unsafe fn retire<T>(&self, value: *mut T) {
        unsafe { self.collector.retire(value.cast(), boxed::<T>, self.thread) };
    }
}

unsafe fn boxed<T>(value: *mut ()) {
    drop(unsafe { Box::from_raw(value.cast::<T>()) });
}

impl Drop for Guard<'_> {
    #[inline]
    fn drop(&mut self) {
        let slot = unsafe { &*self.slot };
        let guards = slot.guards.get();
        slot.guards.set(guards - 1);
        if guards == 1 {
            let head = slot.head.swap(INACTIVE, Release);
            if !head.is_null() {
                fence(Acquire);
                unsafe { Collector::count_down(head) };
            }
        }
    }
}

type Root = Apart<AtomicPtr<u64>>;

const ROOTS: usize = 4;

fn put(guard: &mut Guard<'_>, root: &Root) {
    guard.refresh();
    let old = root.0.swap(Box::into_raw(Box::new(1)), SeqCst);
    if !old.is_null() {
        unsafe { guard.retire(old) };
    }
}

fn puts(guard: &mut Guard<'_>, root: &Root, turns: u64) -> u64 {
    let mut count = 0;
    for _ in 0..turns {
        put(guard, root);
        count += 1;
    }
    count
}

fn take_turns(collector: &Collector, roots: &[Root; ROOTS], kind: &str, thread: usize, turns: u64) -> u64 {
    if kind == "enter" {
        for _ in 0..turns {
            drop(collector.enter());
        }
        return turns;
    }
    let mut guard = collector.enter();
    match kind {
        "see" => {
            put(&mut guard, &roots[0]);
            let mut sum: u64 = 0;
            for _ in 0..turns {
                let value = guard.protect(&roots[0].0);
                if !value.is_null() {
                    sum = sum.wrapping_add(unsafe { *value });
                }
            }
            sum
        }
        "put" => puts(&mut guard, &roots[0], turns),
        "put_apart" => puts(&mut guard, &roots[thread % ROOTS], turns),
        _ => panic!("no kind {kind}"),
    }
}

fn timed(kind: &str, threads: usize, turns: u64) -> (u128, u64) {
    let collector = Collector::new();
    let roots: [Root; ROOTS] = std::array::from_fn(|_| Apart(AtomicPtr::new(ptr::null_mut())));
    let start = Instant::now();
    let sum = if threads == 1 {
        take_turns(&collector, &roots, kind, 0, turns)
    } else {
        thread::scope(|scope| {
            let (collector, roots) = (&collector, &roots);
            let begin = |thread| scope.spawn(move || take_turns(collector, roots, kind, thread, turns));
            let begun: Vec<_> = (0..threads).map(begin).collect();
            begun.into_iter().map(|it| it.join().unwrap()).sum()
        })
    };
    let took = start.elapsed().as_nanos();
    for root in &roots {
        let value = root.0.load(SeqCst);
        if !value.is_null() {
            drop(unsafe { Box::from_raw(value) });
        }
    }
    (took, sum)
}

fn main() {
    for line in io::stdin().lines() {
        let line = line.unwrap();
        let words: Vec<&str> = line.split_whitespace().collect();
        let (took, sum) = timed(words[0], words[1].parse().unwrap(), words[2].parse().unwrap());
        println!("{line}: {sum}");
        eprintln!("{took}");
    }
}
