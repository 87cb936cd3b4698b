#!/usr/bin/env bash
# Times the searches of whole trees of 64 taxa and 256 columns: plain C of the same method, and crate `search`.
set -euo pipefail
here=$(cd "$(dirname "$0")" && pwd -P)
[ $# = 0 ] || { echo "usage: bench/run.sh" >&2; exit 2; }
cd "$(dirname "$here")"
. tests/env.sh
. bench/alone.sh

alone port "method search" <<'RT'
#![tactic(auto)]
ghost use Rattle.std.specs.Prelude.{◌≤◌, ◌<◌, length};
ghost use Rattle.method.specs.Flow.{arc_count};
ghost use Rattle.search.specs.Search.{cols_of, Given};

use search::Lists;

fn wide(x: u32) -> u64 {
    x as u64
}

fn put(out: &mut [u64], at: usize, x: u64)
    requires { at < length out.old }
{
    out[at] = x;
}

#[unsafe(no_mangle)]
pub extern "C" fn search_group(
    weights: &[u16],
    planes: &[u64; 72],
    ones: &[u64],
    zeros: &[u64],
    group: u64,
    n: usize,
    m: usize,
    ws: &mut [i32],
    tree: &mut [u32; 256],
    out: &mut [u64],
)
    requires { Given weights.now planes.now ones.now zeros.now group n m
        × (arc_count m (cols_of weights.now ones.now zeros.now) group ≤ length ws.old)
        × (3 ≤ length out.old) }
{
    let mut lists = Lists::new();
    lists.tree = *tree;
    let found = search::divide(weights, planes, ones, zeros, group, n, m, ws, &mut lists);
    *tree = lists.tree;
    put(out, 0, wide(found.cost));
    put(out, 1, found.side);
    put(out, 2, found.other as u64);
}
RT

apart "$room/libport.a" "$room/port.a"
"$cc" "${c_flags[@]}" "${apart_flags[@]}" -DRATTLE bench/bench.c "$room/port.a" -o "$room/bench"
"$room/bench"
