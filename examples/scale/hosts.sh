#!/bin/sh
# The same over several hosts, which have sdjwt_tools on the path and the policy under the same name:
#     sh examples/scale/hosts.sh POLICY HOST,HOST .. [BLOCK] <tokens >verdicts
# A host has as many feeds at a time as it has cores, if it has GNU parallel too, and else one. If a feed or a host
# fails, or the input is not read to its end, the status is not 0.
policy=${1:?the policy file}
hosts=${2:?the hosts, as ssh knows them, with commas between}
exec sh "$(dirname "$0")/blocks.sh" "$policy" "${3:-16M}" --sshlogin "$hosts"
