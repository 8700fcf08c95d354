#!/bin/sh
# Judges the tokens of standard input, one a line, with one feed for each block of lines, on several cores at a time:
#     sh examples/scale/cores.sh POLICY [JOBS [BLOCK]] <tokens >verdicts
# The verdicts come in the order of the tokens. If a feed fails, or the input is not read to its end, the status is not
# 0. It needs GNU parallel, and sdjwt_tools on the path or in SDJWT_TOOLS.
exec sh "$(dirname "$0")/blocks.sh" "${1:?the policy file}" "${3:-16M}" --jobs "${2:-$(nproc)}"
