#!/usr/bin/env bash
# What no contract can say of the reads of a text, looked up in the sources: a count of reads begins, and a text is taken
# apart, in few places only, and no proof by hand stands beside those of the two counts and of the walk along a path.
#
# usage: scripts/gate/reads.sh
#
# It prints a line for each rule that fails, and 'N passed, M failed' last.
set -euo pipefail

cd "$(dirname "$(readlink -f "$0")")/../.."
# shellcheck source=scripts/gate/common.sh
. scripts/gate/common.sh

# The files below crates/ in which a text stands, in each library and program (not those of tests and wrong bodies), must be these.
stands_in() {
  local what=$1 found
  shift
  found=$(grep -rlF --include='*.rt' -- "$what" crates/*/src | grep -Ev '^crates/cbor_edn_([a-z_]*_)?(tests|memory|wrong_bodies)/' | sort)
  count "'$what' stands in ${found//$'\n'/ }" test "$found" = "$(printf '%s\n' "$@" | sort)"
}

# A parse alone begins a count, and makes the text that is read.
stands_in 'Looks::new(' crates/cbor_edn_core/src/text/parse.rt
stands_in 'Input::new(' crates/cbor_edn_core/src/text/parse.rt
# Pieces of a text are cut where scans and spaces have seen them byte by byte, for leaves.
stands_in '.slice(' crates/cbor_edn_parts/src/base/scan.rt crates/cbor_edn_parts/src/number/start.rt crates/cbor_edn_parts/src/space/read.rt crates/cbor_edn_parts/src/string/read.rt

by_hand=$(find crates -path '*/out' -prune -o -name Proof.antt -print | sort)
wanted='crates/cbor_edn_command/proofs/count/Count/after/Proof.antt
crates/cbor_edn_command/proofs/count/Count/new/Proof.antt
crates/cbor_edn_core/proofs/tree/InnerItemOf/+descend/Proof.antt
crates/cbor_edn_core/proofs/tree/ItemOf/at_mut/Proof.antt
crates/cbor_edn_parts/proofs/base/looks/Looks/new/Proof.antt
crates/cbor_edn_parts/proofs/base/looks/Looks/next/Proof.antt'
count "proofs by hand: ${by_hand//$'\n'/ }" test "$by_hand" = "$wanted"

end
