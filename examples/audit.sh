#!/bin/sh
# Audits six tokens for one order, and compares what each audit says with what it should.
#
# The program is $SDJWT_TOOLS, or crates/sdjwt_tools/out/sdjwt_tools of this repository, where it is built.
set -u
cd "$(dirname "$0")/audit" || exit 1
tools=${SDJWT_TOOLS:-../../crates/sdjwt_tools/out/sdjwt_tools}
wrong=0
while IFS='=' read -r token wanted; do
    said=$("$tools" audit order.json "$token.txt" 2>&1)
    printf '%s: %s\n' "$token" "$said"
    [ "$said" = "$wanted" ] || wrong=1
done <<'CASES'
honest=yes
left_plain=refused 82 writtenFormDiffers
hid_another=refused 83 payloadDiffers
forgot_decoy=refused 84 digestsDiffer
moved_decoy=refused 85 decoysDiffer
unsorted=refused 86 sdOrderDiffers
CASES
exit "$wrong"
