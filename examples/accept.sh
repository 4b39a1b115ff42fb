#!/usr/bin/env bash
# A chain of two blocks: one is offered and accepted, and then refused, since it is no longer the next.
source "$(dirname "$(readlink -f "${BASH_SOURCE[0]}")")/story.bash"

begin
vineyore apply ledger offers
vineyore apply ledger offers
echo "the ledger has $(wc -c <ledger) bytes"
