#!/usr/bin/env bash
# Builds the program, makes a store on a block device, a loop device over an image, and a volume in it, and lists both.
# Then the device is mounted, and swap space, and is refused with status 6 each time. Only root can make a loop device.
# BLOBTOOL may name a program that is built already.
set -euo pipefail
. "$(dirname "$0")/on_image.sh"

device=$(losetup --find --show "$image")
folder=$(mktemp -d)
release() {
    swapoff "$device" 2>/dev/null || true
    umount "$folder" 2>/dev/null || true
    losetup --detach "$device"
    rm -rf "$image" "$folder" "$folder.errors"
}
trap release EXIT

program blobtool format "$device" --cluster 16384 </dev/null
program blobtool run "$device" <<'END'
0 create v 4 thin
0 write v 5 1 7
END
echo "a second run: what was written is on the device"
program blobtool run "$device" <<'END'
0 read v 5 1
END
program blobtool list "$device" </dev/null

# refused LINE WORDS..: the program ends with 6 and this line on standard error, and leaves the device as it is.
differs=0
refused() {
    local line="blobtool: $2 $device: $1" before status=0
    before=$(cksum <"$device")
    program blobtool "${@:2}" </dev/null 2>"$folder.errors" || status=$?
    head -n 1 "$folder.errors"
    [ "$status" = 6 ] || { echo "differs: wanted status 6, got $status" && differs=1; }
    [ "$(grep '^blobtool:' "$folder.errors")" = "$line" ] || { echo "differs: wanted $line" && differs=1; }
    [ "$before" = "$(cksum <"$device")" ] || { echo "differs: the device was written" && differs=1; }
}

echo "a store is there: --new refuses it"
refused "it has a store already, wanted none with --new" format "$device" --new --cluster 16384
echo "the device is mounted"
mkfs.ext2 -q "$device"
mount "$device" "$folder"
held="it is mounted, or a part of it, wanted a block device that nobody uses"
refused "$held" format "$device" --cluster 16384
refused "$held" run "$device"
umount "$folder"
echo "the device is swap space"
mkswap "$device" >/dev/null 2>&1
swapon "$device"
held="it is swap space, or a part of it, wanted a block device that nobody uses"
refused "$held" format "$device" --cluster 16384
swapoff "$device"
echo "nobody has it any more"
program blobtool format "$device" --new --cluster 16384 </dev/null || differs=1
[ "$differs" != 0 ] || echo "all ended as it is wanted"
exit "$differs"
