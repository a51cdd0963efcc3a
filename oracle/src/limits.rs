//! Workloads that fill the pools and lists to their limits and stay there.

use crate::form::{Bytes, NodeSpan, Op, Policy};
use crate::maker::Maker;

type Script = fn(&mut Maker);

pub fn script(kind: &str) -> Option<Script> {
    Some(match kind {
        "limits-nodes" => nodes,
        "limits-words" => words,
        "limits-records" => records,
        "limits-pins" => pins,
        "limits-pinned" => pinned,
        "limits-lookup" => lookup,
        "limits-lists" => lists,
        _ => return None,
    })
}

fn span(node: u32, start: u32, end: u32) -> NodeSpan {
    NodeSpan { node, start, end }
}

fn setup(maker: &mut Maker, stores: &[(u64, Policy)]) {
    maker.next_hash = 10;
    maker.must(Op::Setup {
        bytes: Bytes::Each(3),
        stores: stores.to_vec(),
    });
}

fn insert_fresh(maker: &mut Maker, n: u32) -> Vec<u64> {
    let list = maker.fresh_hashes(n);
    maker.must(Op::Insert(list.clone()));
    list
}

/// Agrees with a list for `k` blocks and then goes on with `n` new ones.
fn branch(maker: &mut Maker, list: &[u64], k: usize, n: u32) -> Vec<u64> {
    let mut other = list[..k].to_vec();
    other.extend(maker.fresh_hashes(n));
    other
}

fn bring(maker: &mut Maker, store: usize, span: NodeSpan) {
    maker.clock += 1.0;
    let (time, write) = (maker.clock, maker.rng.below(3));
    maker.must(Op::Bring {
        store,
        span,
        time,
        write,
    });
}

fn touch(maker: &mut Maker, store: usize, counted: bool, spans: Vec<NodeSpan>) {
    maker.clock += 0.5;
    let time = maker.clock;
    maker.must(Op::Touch {
        store,
        time,
        counted,
        spans,
    });
}

fn expire_all(maker: &mut Maker, store: usize) {
    maker.must(Op::Expire {
        store,
        now: maker.clock,
        seconds: -1.0,
    });
}

/// 255 nodes: 1 and then 127 cuts with a leaf each, under ranges.
fn nodes(maker: &mut Maker) {
    setup(maker, &[(100, Policy::Refresh), (7, Policy::Fifo)]);
    let trunk = insert_fresh(maker, 300);
    bring(maker, 0, span(1, 0, 60));
    let mut at: Vec<usize> = (1..300).collect();
    for _ in 0..127 {
        let i = maker.rng.below(at.len() as u32) as usize;
        let k = at.swap_remove(i);
        let list = branch(maker, &trunk, k, 1 + k as u32 % 3);
        if !maker.push(Op::Insert(list)) {
            maker.must(Op::Resolve(trunk[..k].to_vec()));
        }
        let node = maker.oracle().nodes() - 1;
        bring(maker, k % 2, span(node, 0, 1));
    }
    fill_nodes(maker, &trunk);
    maker.must(Op::Insert(trunk.clone()));
    maker.must(Op::Resolve(trunk.clone()));
    bring(maker, 0, span(255, 0, 1));
    maker.must(Op::Lookup {
        tiers: vec![0, 1],
        hashes: trunk,
    });
}

/// Leaves until all 255 numbers are taken.
fn fill_nodes(maker: &mut Maker, trunk: &[u64]) {
    while maker.oracle().nodes() < 256 {
        let list = branch(maker, trunk, trunk.len(), 2);
        maker.must(Op::Insert(list));
    }
}

/// 4,096 words: four lists of 1,024, then lists that share and fill up.
fn words(maker: &mut Maker) {
    setup(maker, &[(1_000_000, Policy::Refresh), (5, Policy::Refresh)]);
    let lists: Vec<Vec<u64>> = (0..4).map(|_| insert_fresh(maker, 1024)).collect();
    for (i, list) in lists.iter().enumerate() {
        bring(maker, 0, span(i as u32 + 1, 0, 1024));
        for k in [1, 511, 512, 513, 1023] {
            let other = branch(maker, list, k, 2.min(1024 - k as u32));
            maker.must(Op::Resolve(other));
        }
        maker.must(Op::Insert(list[..700].to_vec()));
        touch(maker, 0, true, vec![span(i as u32 + 1, 3, 1000)]);
        bring(maker, 1, span(i as u32 + 1, 1000, 1024));
    }
    maker.must(Op::Lookup {
        tiers: vec![1, 0],
        hashes: lists[3].clone(),
    });
    shared_words(maker);
}

/// 1,024 + 512 + 1,023 + 1,023 + 514 words.
fn shared_words(maker: &mut Maker) {
    setup(maker, &[(2000, Policy::Refresh)]);
    let trunk = insert_fresh(maker, 1024);
    bring(maker, 0, span(1, 0, 1024));
    for (k, n) in [(512, 512), (1, 1023), (1, 1023), (510, 514)] {
        let list = branch(maker, &trunk, k, n);
        maker.must(Op::Insert(list.clone()));
        let node = maker.oracle().nodes() - 1;
        bring(maker, 0, span(node, n / 2, n));
        maker.must(Op::Resolve(list));
    }
    maker.must(Op::Insert(trunk.clone()));
    maker.must(Op::Lookup {
        tiers: vec![0, 0],
        hashes: trunk,
    });
}

/// Single blocks, every second one of a node.
fn every_second(maker: &mut Maker, store: usize, n: u32) {
    for i in 0..n {
        bring(maker, store, span(1, 2 * i, 2 * i + 1));
    }
}

/// 128 records of a store, reached by gaps, a touch, a removal and a cut.
fn records(maker: &mut Maker) {
    setup(maker, &[(127, Policy::Refresh), (1000, Policy::Refresh)]);
    let list = insert_fresh(maker, 600);
    every_second(maker, 0, 64);
    bring(maker, 0, span(1, 0, 127));
    bring(maker, 0, span(1, 300, 427));
    every_second(maker, 1, 126);
    bring(maker, 1, span(1, 400, 500));
    maker.must(Op::Remove(1, span(1, 420, 430)));
    expire_all(maker, 1);
    every_second(maker, 1, 125);
    bring(maker, 1, span(1, 400, 500));
    touch(maker, 1, true, vec![span(1, 410, 420)]);
    touch(maker, 1, false, vec![span(1, 400, 500)]);
    bring(maker, 1, span(1, 500, 501));
    let cut = branch(maker, &list, 450, 1);
    maker.must(Op::Insert(cut));
    maker.must(Op::Lookup {
        tiers: vec![1, 0],
        hashes: list,
    });
    expire_all(maker, 1);
    expire_all(maker, 0);
}

/// 32 pins of a store, reached by pins and by a cut that halves 16.
fn pins(maker: &mut Maker) {
    setup(maker, &[(10, Policy::Refresh), (3, Policy::Fifo)]);
    let list = insert_fresh(maker, 100);
    for i in 0..32 {
        maker.must(Op::Pin(0, span(1, i, i + 2)));
    }
    maker.must(Op::Pin(0, span(1, 31, 33)));
    bring(maker, 0, span(1, 0, 60));
    bring(maker, 0, span(1, 50, 70));
    for i in 0..32 {
        maker.must(Op::Unpin(0, span(1, i, i + 2)));
    }
    maker.must(Op::Unpin(0, span(1, 31, 33)));
    bring(maker, 0, span(1, 0, 1));
    bring(maker, 1, span(1, 0, 100));
    for i in 0..16 {
        maker.must(Op::Pin(1, span(1, i, 60 + i / 2)));
        maker.must(Op::Pin(1, span(1, i, 60 + i / 2)));
    }
    let cut = branch(maker, &list, 60, 1);
    maker.must(Op::Resolve(cut));
    let cut = branch(maker, &list, 30, 1);
    maker.must(Op::Insert(cut));
    bring(maker, 1, span(2, 0, 70));
    for i in 0..16 {
        maker.must(Op::Unpin(1, span(1, i, 30)));
    }
    bring(maker, 1, span(1, 0, 30));
}

/// 1,000,000 pinned blocks in a store of 1,000,000.
fn pinned(maker: &mut Maker) {
    setup(maker, &[(1_000_000, Policy::Refresh), (2, Policy::Fifo)]);
    insert_fresh(maker, 1024);
    bring(maker, 0, span(1, 0, 1024));
    for _ in 0..976 {
        maker.must(Op::Pin(0, span(1, 0, 1024)));
    }
    maker.must(Op::Pin(0, span(1, 448, 1024)));
    bring(maker, 1, span(1, 0, 1024));
    expire_all(maker, 0);
    maker.must(Op::Unpin(0, span(1, 448, 1024)));
    maker.must(Op::Pin(0, span(1, 0, 576)));
}

/// 1,024 tier spans: 8 stores hold every eighth block each.
fn lookup(maker: &mut Maker) {
    setup(maker, &[(128, Policy::Fifo); 8]);
    let list = insert_fresh(maker, 1024);
    for k in 0..1024 {
        bring(maker, k as usize % 8, span(1, k, k + 1));
    }
    for tiers in [vec![0, 1, 2, 3, 4, 5, 6, 7], vec![7, 6, 5, 4, 3, 2, 1, 0]] {
        let hashes = list.clone();
        maker.must(Op::Lookup { tiers, hashes });
    }
    maker.must(Op::Lookup {
        tiers: vec![0, 1, 2, 3, 4, 5, 6, 6],
        hashes: list.clone(),
    });
    let cut = branch(maker, &list, 500, 1);
    maker.must(Op::Insert(cut));
    for store in 0..8 {
        expire_all(maker, store);
    }
}

/// 64 spans in a touch, 8 tiers, and empty lists.
fn lists(maker: &mut Maker) {
    setup(maker, &[(100, Policy::Refresh), (100, Policy::Fifo)]);
    let list = insert_fresh(maker, 200);
    bring(maker, 0, span(1, 0, 100));
    bring(maker, 1, span(1, 50, 150));
    let at = |i: u32| span(1, 3 * i, 3 * i + 2);
    touch(maker, 0, true, (0..60).map(at).collect());
    touch(maker, 1, true, (0..64).map(at).collect());
    touch(maker, 0, false, vec![span(1, 0, 200)]);
    let mut spans = vec![span(1, 7, 8); 64];
    spans[0] = span(1, 0, 200);
    touch(maker, 0, true, spans);
    touch(maker, 0, true, Vec::new());
    for tiers in [Vec::new(), vec![0; 8], vec![1, 0, 1, 0, 1, 0, 1, 0]] {
        let hashes = list.clone();
        maker.must(Op::Lookup { tiers, hashes });
    }
    maker.must(Op::Lookup {
        tiers: vec![0],
        hashes: Vec::new(),
    });
    maker.must(Op::Insert(Vec::new()));
    maker.must(Op::Resolve(Vec::new()));
    bring(maker, 0, span(1, 150, 200));
}
