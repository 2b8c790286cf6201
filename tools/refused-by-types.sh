#!/usr/bin/env bash
# Shows two misuses that the type check refuses, before any proof: a watchdog that is kicked before it is armed, and a
# ticket that is let go. The same programs with the calls in their order are accepted.
set -u
top=$(cd "$(dirname "$0")/.." && pwd)
work=$(mktemp -d)
trap 'rm -rf "$work"' EXIT
mkdir -p "$work/crates/misuse/src"
for crate in station falls bench; do cp -r "$top/crates/$crate" "$work/crates/"; done
printf '%s\n' 'station:' 'falls: station' 'bench: station falls' 'misuse: station falls bench' > "$work/crates.txt"
cd "$work" || exit 2

# A program that does a thing to a bench, with an arming that has been begun.
program() {
    cat > crates/misuse/src/lib.rt <<PROGRAM
#![tactic(auto)]

use bench::Bench;
use bench::arming::Arming;
use std::marker::PhantomData;
use bench::ticket::Ticket;
use station::Station;

// A ticket that is left over is handed out.
pub fn misuse<S: Station>(bench: &mut Bench<S>) -> Option<Ticket> {
    let begun = Arming::begin(0);
    $1
    None
}
PROGRAM
}

failed=0
# The program is accepted, or is refused with these words.
expect() {
    program "$3"
    out=$(cd crates/misuse && rt check 2>&1)
    status=$?
    if [ "$1" = accepted ]; then
        [ $status -eq 0 ]
    else
        [ $status -ne 0 ] && grep -q "$1" <<< "$out"
    fi
    if [ $? -eq 0 ]; then
        echo "as it must be: $2"
    else
        echo "NOT as it must be: $2"
        echo "$out" | tail -n 20
        failed=1
    fi
}

expect accepted 'begun, preloaded, armed and kicked' \
    'if let Ok(preloaded) = bench.preload(begun, 100) { if let Ok(armed) = bench.arm(preloaded) { let _ = bench.kick(armed).is_ok(); } }'
expect 'mismatched-types' 'one that is only begun cannot be kicked' \
    'let _ = bench.kick(begun).is_ok();'
expect 'mismatched-types' 'one that is only preloaded cannot be kicked' \
    'if let Ok(preloaded) = bench.preload(begun, 100) { let _ = bench.kick(preloaded).is_ok(); }'
expect 'private' 'an armed one cannot be made up' \
    'let _ = bench.kick(Arming { place: begun.place(), stage: PhantomData }).is_ok();'

expect accepted 'a ticket is taken and acknowledged' \
    'if let Ok(ticket) = bench.take(0) { if let Err(back) = bench.acknowledge(ticket) { return Some(back.given); } }'
expect 'linear-value-let-go' 'a ticket cannot be let go' \
    'if let Ok(_ticket) = bench.take(0) {}'
expect 'linear-value-let-go' 'nor can one that a refused acknowledgement hands back' \
    'if let Ok(ticket) = bench.take(0) { let _ = bench.acknowledge(ticket).is_ok(); }'
exit $failed
