//! The exported functions as they are. A slice is a pointer and a length; the
//! nineteen columns always come first, in the order of `Pools`. `known` says
//! that the state is known to be sound; else it is tested. Those that keep the
//! sums are for a state that is known to be sound.

/// Declares functions whose parameters begin with the columns.
macro_rules! exported {
    ($($name:ident ( $($arg:ident : $type:ty),* $(,)? ) -> $result:ty;)*) => {
        extern "C" {
            $(pub fn $name(
                parent: *mut usize, parents: usize,
                depth: *mut usize, depths: usize,
                len: *mut usize, lens: usize,
                run: *mut usize, runs: usize,
                words: *mut u64, word_count: usize,
                node: *mut usize, nodes: usize,
                start: *mut usize, starts: usize,
                end: *mut usize, ends: usize,
                id: *mut u64, ids: usize,
                stamp: *mut u64, stamps: usize,
                touched: *mut f64, times: usize,
                write: *mut u32, writes: usize,
                pin_node: *mut usize, pin_nodes: usize,
                pin_start: *mut usize, pin_starts: usize,
                pin_end: *mut usize, pin_ends: usize,
                pin_count: *mut u64, pin_counts: usize,
                marks: *mut usize, mark_count: usize,
                bytes: *mut u64, byte_count: usize,
                books: *mut u64, book_count: usize,
                $($arg: $type),*
            ) -> $result;)*
        }
    };
}

/// Calls one of them on a `Radix`: the columns, the answer lists named in
/// brackets, behind `;` the sums that the caller lends, the answer's values
/// where there are some, then the arguments. `shared` is for one that changes
/// no column.
macro_rules! call {
    ($radix:ident.$name:ident $([$($list:ident),* $(; $sums:ident)?] $answer:ident)? $(, $arg:expr)* $(,)?) => {
        crate::raw::call!(@ as_mut_ptr $radix $name [$($($list)*)?] [$($($sums)?)?] [$($answer)?] $($arg),*)
    };
    (shared $radix:ident.$name:ident $(, $arg:expr)* $(,)?) => {
        crate::raw::call!(@ as_ptr $radix $name [] [] [] $($arg),*)
    };
    (@ $pointer:ident $radix:ident $name:ident
        [$($list:ident)*] [$($sums:ident)?] [$($answer:ident)?] $($arg:expr),*) => {{
        #[allow(unused_variables)]
        let crate::radix::Radix { pools: p, lists, .. } = $radix;
        // SAFETY: the pools and lists are this `Radix`'s own, as long as their
        // arrays, as the sums are, and lent to this call alone, or shared with
        // a function that only reads them; the state in them was set up by the
        // library and changed by its functions only, so it is as their
        // contracts ask where it is said to be known.
        unsafe {
            crate::raw::$name(
                p.parent.$pointer() as *mut _, p.parent.len(),
                p.depth.$pointer() as *mut _, p.depth.len(),
                p.len.$pointer() as *mut _, p.len.len(),
                p.run.$pointer() as *mut _, p.run.len(),
                p.words.$pointer() as *mut _, p.words.len(),
                p.node.$pointer() as *mut _, p.node.len(),
                p.start.$pointer() as *mut _, p.start.len(),
                p.end.$pointer() as *mut _, p.end.len(),
                p.id.$pointer() as *mut _, p.id.len(),
                p.stamp.$pointer() as *mut _, p.stamp.len(),
                p.touched.$pointer() as *mut _, p.touched.len(),
                p.write.$pointer() as *mut _, p.write.len(),
                p.pin_node.$pointer() as *mut _, p.pin_node.len(),
                p.pin_start.$pointer() as *mut _, p.pin_start.len(),
                p.pin_end.$pointer() as *mut _, p.pin_end.len(),
                p.pin_count.$pointer() as *mut _, p.pin_count.len(),
                p.marks.$pointer() as *mut _, p.marks.len(),
                p.bytes.$pointer() as *mut _, p.bytes.len(),
                p.books.$pointer() as *mut _, p.books.len(),
                $(lists.$list.as_mut_ptr(), lists.$list.len(),)*
                $($sums.as_mut_ptr(), $sums.len(),)?
                $(lists.$answer.as_mut_ptr(),)?
                $($arg),*
            )
        }
    }};
}
pub(crate) use call;

exported! {
    scorebeetle_set_up(
        table: *const u64, tables: usize,
        capacity: *const u64, capacities: usize,
        refreshes: *const bool, policies: usize,
    ) -> u8;
    scorebeetle_resolve(
        path_node: *mut usize, path_nodes: usize,
        path_len: *mut usize, path_lens: usize,
        answer: *mut u64, known: bool,
        hashes: *const u64, count: usize,
    ) -> u8;
    scorebeetle_insert(
        path_node: *mut usize, path_nodes: usize,
        path_len: *mut usize, path_lens: usize,
        answer: *mut u64, known: bool,
        hashes: *const u64, count: usize,
    ) -> u8;
    scorebeetle_store_insert(
        out_node: *mut usize, out_nodes: usize,
        out_start: *mut usize, out_starts: usize,
        out_end: *mut usize, out_ends: usize,
        out_write: *mut u32, out_writes: usize,
        out_bytes: *mut u64, out_byte_count: usize,
        out_dead: *mut u64, out_dead_count: usize,
        answer: *mut u64, known: bool,
        s: usize, on: usize, from: usize, upto: usize, time: f64, w: u32,
    ) -> u8;
    scorebeetle_store_used(
        answer: *mut u64, known: bool,
        s: usize,
        on: *const usize, ons: usize,
        from: *const usize, froms: usize,
        upto: *const usize, uptos: usize,
        time: f64, counted: bool,
    ) -> u8;
    scorebeetle_store_remove(
        list: *mut u32, places: usize,
        answer: *mut u64, known: bool,
        s: usize, on: usize, from: usize, upto: usize,
    ) -> u8;
    scorebeetle_store_expire(
        out_node: *mut usize, out_nodes: usize,
        out_start: *mut usize, out_starts: usize,
        out_end: *mut usize, out_ends: usize,
        out_write: *mut u32, out_writes: usize,
        out_bytes: *mut u64, out_byte_count: usize,
        out_dead: *mut u64, out_dead_count: usize,
        answer: *mut u64, known: bool,
        s: usize, now: f64, seconds: f64,
    ) -> u8;
    scorebeetle_pin_source(
        known: bool, s: usize, on: usize, from: usize, upto: usize,
    ) -> u8;
    scorebeetle_unpin_source(
        known: bool, s: usize, on: usize, from: usize, upto: usize,
    ) -> u8;
    scorebeetle_lookup(
        path_node: *mut usize, path_nodes: usize,
        path_len: *mut usize, path_lens: usize,
        span_tier: *mut usize, span_tiers: usize,
        span_node: *mut usize, span_nodes: usize,
        span_start: *mut usize, span_starts: usize,
        span_end: *mut usize, span_ends: usize,
        answer: *mut u64, known: bool,
        tiers: *const usize, tier_count: usize,
        hashes: *const u64, count: usize,
    ) -> u8;
    scorebeetle_sound_state() -> bool;
    scorebeetle_counter(answer: *mut u64, known: bool, which: u8, s: usize) -> u8;
    scorebeetle_tally_insert(
        out_node: *mut usize, out_nodes: usize,
        out_start: *mut usize, out_starts: usize,
        out_end: *mut usize, out_ends: usize,
        out_write: *mut u32, out_writes: usize,
        out_bytes: *mut u64, out_byte_count: usize,
        out_dead: *mut u64, out_dead_count: usize,
        sums: *mut u64, sum_count: usize,
        answer: *mut u64,
        s: usize, on: usize, from: usize, upto: usize, time: f64, w: u32,
    ) -> u8;
    scorebeetle_tally_expire(
        out_node: *mut usize, out_nodes: usize,
        out_start: *mut usize, out_starts: usize,
        out_end: *mut usize, out_ends: usize,
        out_write: *mut u32, out_writes: usize,
        out_bytes: *mut u64, out_byte_count: usize,
        out_dead: *mut u64, out_dead_count: usize,
        sums: *mut u64, sum_count: usize,
        answer: *mut u64,
        s: usize, now: f64, seconds: f64,
    ) -> u8;
    scorebeetle_tally_remove(
        list: *mut u32, places: usize,
        sums: *mut u64, sum_count: usize,
        answer: *mut u64,
        s: usize, on: usize, from: usize, upto: usize,
    ) -> u8;
    scorebeetle_tally_lookup(
        path_node: *mut usize, path_nodes: usize,
        path_len: *mut usize, path_lens: usize,
        span_tier: *mut usize, span_tiers: usize,
        span_node: *mut usize, span_nodes: usize,
        span_start: *mut usize, span_starts: usize,
        span_end: *mut usize, span_ends: usize,
        sums: *mut u64, sum_count: usize,
        answer: *mut u64,
        tiers: *const usize, tier_count: usize,
        hashes: *const u64, count: usize,
    ) -> u8;
}
