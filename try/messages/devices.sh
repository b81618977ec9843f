# Part of the table of try/messages.sh, which reads it: what is said of block devices, which root alone can make, and
# where the system tells too little.

row "it is mounted, it is swap space, another device is made of it, or a part of it, wanted a block device that nobody \
uses"
free="wanted a block device that nobody uses"
cp empty i
if [ "$(id -u)" = 0 ] && device=$(losetup --find --show i 2>losing); then
    says 0 "" run "$device"
    mkfs.ext2 -q "$device"
    mount "$device" folder
    says 6 "blobtool: format $device: it is mounted, or a part of it, $free" format "$device"
    umount folder
    mkswap "$device" >out 2>&1
    swapon "$device"
    says 6 "blobtool: run $device: it is swap space, or a part of it, $free" run "$device"
    swapoff "$device"
    holders=/sys/block/$(basename "$device")/holders
    by unshare --mount bash -c "mount -t tmpfs none $holders && mkdir $holders/dm-0 && exec \"\$0\" \"\$@\""
    says 6 "blobtool: exercise $device: another device is made of it, or a part of it, $free" exercise "$device" 1 1
else
    echo "left out, since there is no loop device for this user"
fi

row "asking /proc and /sys whether the block device is in use failed: ERROR"
if [ -n "$device" ]; then
    asking="asking /proc and /sys whether the block device is in use failed"
    by unshare --mount bash -c 'umount --lazy /proc && exec "$0" "$@"'
    says 6 "blobtool: format $device: $asking: No such file or directory (os error 2)" format "$device"
    by unshare --mount bash -c 'mount -t tmpfs none /dev && exec "$0" "$@" <&-'
    says 6 "blobtool: /dev/null: opening it failed: No such file or directory (os error 2)" list i
else
    echo "left out, since there is no loop device for this user"
fi
