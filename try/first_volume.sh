#!/usr/bin/env bash
# Builds the program, formats an image, runs two scripts on it, which make a volume, set its attributes, write it and
# read it, and shows what the program printed and how the volume's metadata page begins then.
set -euo pipefail
. "$(dirname "$0")/on_image.sh"

program blobtool format "$image" --cluster 16384 </dev/null
program blobtool run "$image" <<'END'
0 create v 4 thin
0 put v owner t:bob
0 setx v use t:mail
0 write v 5 1 7
0 read v 4 2
0 df
END
echo "a second run: what was made, put and written is on the disk, what was only set is lost"
program blobtool run "$image" <<'END'
0 getx v owner
0 getx v use
0 read v 5 1
END
echo "the volume's metadata page: 29 bytes of flags, the attributes, then its map: cluster 5 in slot 1 of 4"
od -A d -t x1z -j $((4 * 4096 + 16)) -N 144 "$image"
