#!/usr/bin/env bash
# Builds the program, formats an image, runs a script on it, which makes a volume, writes it and reads it, until the
# power fails, and runs the program on what is left, which shows that nothing is lost that was flushed.
set -euo pipefail
. "$(dirname "$0")/on_image.sh"

program blobtool format "$image" --cluster 16384 </dev/null
# The last write has a cluster of zeros for its slot by then, and has written the volume's new map, which isn't flushed:
# the map is lost (with 1 in place of 0 it would be left).
program power_cut "$image" 28 0 <<'END'
0 create v 4 thin
0 write v 5 1 7
0 flush
0 read v 5 1
0 df
0 write v 9 1 8
END
echo "a second run: what was flushed is whole, the slot of the last write is empty, its cluster is clear again"
program blobtool run "$image" <<'END'
0 read v 5 1
0 read v 9 1
0 df
END
