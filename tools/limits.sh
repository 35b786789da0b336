# shellcheck shell=sh
# The limits and the numbers of the list for a script, by their names in C: $WH_MAX_K and so on. A
# script reads this file from the repository's root.

eval "$(sed -n 's/^#define \(WH_[A-Z_]*\) \([0-9]*\)$/\1=\2/p' include/windhawker_limits.h)"
