#!/usr/bin/env bash
# A ledger whose last frame was torn by a crash, cut back to its whole frames by hand and gone on with.
source "$(dirname "$(readlink -f "${BASH_SOURCE[0]}")")/story.bash"

begin

# What a crash in the append may leave: the old bytes, and a part of the new frame.
head -c 50 offers >>ledger
vineyore apply ledger offers

# The refusal says where the torn frame begins: at byte 104 of file 1.
truncate -s 104 ledger
vineyore apply ledger offers
